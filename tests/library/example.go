// A small caller of libcronsim in Go, by cgo: the next three times of a schedule in a zone, a
// schedule in a sentence, and the fault of one that is wrong.
package main

/*
#include "cronsim.h"
*/
import "C"

import (
	"encoding/json"
	"fmt"
	"os"
	"time"
	"unsafe"
)

const (
	start = 1711800000 // 2024-03-30T12:00:00Z
	rule  = "CET-1CEST,M3.5.0,M10.5.0/3"
)

// A text as two words of a call: where it begins, which is never nil, and its length.
func text(s string) (*C.uint8_t, C.size_t) {
	return (*C.uint8_t)(unsafe.Pointer(&append([]byte(s), 0)[0])), C.size_t(len(s))
}

func fail(words string) {
	fmt.Fprintln(os.Stderr, words)
	os.Exit(1)
}

func next() {
	var cron C.cronsim_cron // its zero value is an empty handle
	var fault C.cronsim_fault
	schedule, size := text("30 2 * * *")
	zone, length := text(rule)
	if C.cronsim_open_rule(&cron, schedule, size, zone, length, &fault) != C.CRONSIM_DONE {
		fail("the schedule or the rule is refused")
	}
	defer C.cronsim_close(&cron)
	due := C.uint64_t(start)
	for i := 0; i < 3; i++ {
		if C.cronsim_next(&cron, due, &due) != C.CRONSIM_DONE {
			fail("no such time")
		}
		fmt.Println(time.Unix(int64(due), 0).UTC().Format("2006-01-02T15:04:05-07:00"))
	}
}

// The sentence of a schedule, or the cause for which it is refused. Where there is too little room
// for the JSON, the call says how much it wants.
func described(schedule string) string {
	at, size := text(schedule)
	zone, length := text(rule)
	room, want := C.size_t(256), C.size_t(0)
	for {
		answer := make([]byte, room)
		status := C.cronsim_describe(at, size, zone, length, start, 1,
			(*C.uint8_t)(unsafe.Pointer(&answer[0])), room, &want)
		switch status {
		case C.CRONSIM_ROOM:
			room = want
		case C.CRONSIM_DONE:
			var told struct{ Sentence string }
			if json.Unmarshal(answer[:want], &told) != nil {
				fail("no JSON")
			}
			return told.Sentence
		default:
			var faults []struct{ Cause string }
			if json.Unmarshal(answer[:want], &faults) != nil {
				fail("no JSON")
			}
			return faults[0].Cause
		}
	}
}

func main() {
	next()
	for _, schedule := range []string{"30 2 * * 1-5", "60 * * * *"} {
		fmt.Println(described(schedule))
	}
}
