// The times at which robfig/cron, the library that Kubernetes uses, has schedules due: of each line
// of standard input, a JSON object with a schedule, a zone's name and two times, the times after
// the first and before the second.
package main

import (
	"bufio"
	"encoding/json"
	"fmt"
	"os"
	"time"

	"github.com/robfig/cron"
)

type asked struct {
	Name     string    `json:"name"`
	Schedule string    `json:"schedule"`
	Zone     string    `json:"zone"`
	From     time.Time `json:"from"`
	End      time.Time `json:"end"`
}

func tell(one asked, out *bufio.Writer) error {
	zone, err := time.LoadLocation(one.Zone)
	if err != nil {
		return err
	}
	schedule, err := cron.ParseStandard(one.Schedule)
	if err != nil {
		return err
	}
	// A time at the start itself is one of the window's.
	at := one.From.Add(-time.Second).In(zone)
	for {
		next, known := nextOf(schedule, at)
		if !known {
			fmt.Fprintln(out, "stuck", one.Name)
			return nil
		}
		if next.IsZero() || !next.Before(one.End) {
			return nil
		}
		fmt.Fprintln(out, next.UTC().Format("2006-01-02T15:04:05Z"), one.Name)
		at = next
	}
}

// The next time, if it is found within two seconds: where a day has no midnight some searches never
// end.
func nextOf(schedule cron.Schedule, at time.Time) (time.Time, bool) {
	found := make(chan time.Time, 1)
	go func() { found <- schedule.Next(at) }()
	select {
	case next := <-found:
		return next, next.IsZero() || next.After(at)
	case <-time.After(2 * time.Second):
		return at, false
	}
}

func main() {
	lines := bufio.NewScanner(os.Stdin)
	out := bufio.NewWriter(os.Stdout)
	for lines.Scan() {
		var one asked
		err := json.Unmarshal(lines.Bytes(), &one)
		if err == nil {
			err = tell(one, out)
		}
		if err != nil {
			fmt.Fprintln(os.Stderr, lines.Text(), err)
			os.Exit(1)
		}
	}
	out.Flush()
}
