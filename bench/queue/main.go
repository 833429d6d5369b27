// What the calls of client-go's work queue take, for the lines of main.rt.in that name the same
// keys: the best of five runs, by the clock or in processor time, whichever is less.
package main

import (
	"fmt"
	"runtime"
	"syscall"
	"time"

	"k8s.io/apimachinery/pkg/util/clock"
	"k8s.io/client-go/util/workqueue"
)

const runs = 5

// A moment by the clock, and the processor time so far.
type moment struct {
	clock     time.Time
	processor time.Duration
}

func now() moment {
	var usage syscall.Rusage
	if err := syscall.Getrusage(syscall.RUSAGE_SELF, &usage); err != nil {
		panic(err)
	}
	return moment{time.Now(), time.Duration(usage.Utime.Nano() + usage.Stime.Nano())}
}

func least(a, b time.Duration) time.Duration {
	if b < a {
		return b
	}
	return a
}

func since(start moment) time.Duration {
	end := now()
	return least(end.clock.Sub(start.clock), end.processor-start.processor)
}

// So many keys as controllers of Kubernetes write them, in the order of main.rt.in.
func keys(count int) []string {
	all := make([]string, count)
	for place := range all {
		all[place] = fmt.Sprintf("default/key-%08d", place*7919%count)
	}
	return all
}

func through(queue workqueue.Interface, all []string) time.Duration {
	runtime.GC()
	start := now()
	for _, key := range all {
		queue.Add(key)
	}
	for range all {
		key, _ := queue.Get()
		queue.Done(key)
	}
	return since(start)
}

func bestNew(all []string) time.Duration {
	best := time.Hour
	for run := 0; run < runs; run++ {
		queue := workqueue.New()
		best = least(best, through(queue, all))
		queue.ShutDown()
	}
	return best
}

func bestAgain(all []string) time.Duration {
	queue := workqueue.New()
	defer queue.ShutDown()
	through(queue, all)
	best := time.Hour
	for run := 0; run < runs; run++ {
		best = least(best, through(queue, all))
	}
	return best
}

// The time in which the keys are made to wait, and readied by a step of the clock. Between the two
// the queue's own goroutine gets time for what it was sent, which isn't counted by the clock.
func delayed(all []string) time.Duration {
	steps := clock.NewFakeClock(time.Unix(0, 0))
	queue := workqueue.NewDelayingQueueWithCustomClock(steps, "")
	defer queue.ShutDown()
	runtime.GC()
	start, at := now(), 0
	for _, key := range all {
		at = (at + 104729) % len(all)
		queue.AddAfter(key, time.Duration(at+1)*time.Millisecond)
	}
	taken := since(start)
	time.Sleep(200 * time.Millisecond)
	start = now()
	steps.Step(1000 * time.Hour)
	for queue.Len() < len(all) {
		time.Sleep(100 * time.Microsecond)
	}
	return taken + since(start)
}

func bestDelayed(all []string) time.Duration {
	best := time.Hour
	for run := 0; run < runs; run++ {
		best = least(best, delayed(all))
	}
	return best
}

func print(words string, taken time.Duration) {
	fmt.Printf("%s: %.3f ms\n", words, taken.Seconds()*1e3)
}

func main() {
	counts := []struct {
		count int
		words string
	}{{1000, "1,000"}, {10000, "10,000"}, {100000, "100,000"}, {1000000, "1,000,000"}}
	for _, each := range counts {
		all := keys(each.count)
		print(each.words+" keys added, taken and done", bestNew(all))
		print(each.words+" keys, a queue that had them", bestAgain(all))
	}
	for _, each := range counts[2:] {
		print(each.words+" keys added after a time and readied", bestDelayed(keys(each.count)))
	}
}
