// The same by robfig/cron, the library by which Kubernetes reads schedules: the words are a
// schedule, the name of its zone, and how many searches are made.
package main

import (
	"fmt"
	"os"
	"strconv"
	"syscall"
	"time"

	"github.com/robfig/cron"
)

func fail(err error) {
	if err != nil {
		fmt.Fprintln(os.Stderr, err)
		os.Exit(1)
	}
}

// The processor time of the process, with its collector's.
func seconds() float64 {
	var usage syscall.Rusage
	fail(syscall.Getrusage(syscall.RUSAGE_SELF, &usage))
	return float64(usage.Utime.Nano()+usage.Stime.Nano()) / 1e9
}

func main() {
	zone, err := time.LoadLocation(os.Args[2])
	fail(err)
	schedule, err := cron.ParseStandard(os.Args[1])
	fail(err)
	searches, err := strconv.Atoi(os.Args[3])
	fail(err)
	start := time.Unix(1704067200, 0).In(zone)
	at := start
	began := seconds()
	for made := 0; made < searches; made++ {
		if at = schedule.Next(at); at.IsZero() {
			at = start
		}
	}
	took := seconds() - began
	if took < 1e-9 {
		took = 1e-9
	}
	fmt.Printf("%.0f\n", float64(searches)/took)
}
