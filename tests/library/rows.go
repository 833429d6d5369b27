// Runs the cases on standard input through libcronsim, by cgo.
package main

/*
#include "cronsim.h"
*/
import "C"

import (
	"bufio"
	"encoding/hex"
	"fmt"
	"os"
	"strconv"
	"strings"
	"unsafe"
)

// Where a text begins: never nil, also where it is empty.
func start(text []byte) *C.uint8_t {
	return (*C.uint8_t)(unsafe.Pointer(&append(text, 0)[0]))
}

func text(digits string) []byte {
	if digits == "." {
		return nil
	}
	bytes, err := hex.DecodeString(digits)
	if err != nil {
		panic(err)
	}
	return bytes
}

func number(word string) uint64 {
	value, err := strconv.ParseUint(word, 10, 64)
	if err != nil {
		panic(err)
	}
	return value
}

func open(cron *C.cronsim_cron, schedule []byte, rule string) (C.uint32_t, C.cronsim_fault) {
	var fault C.cronsim_fault
	length := C.size_t(len(schedule))
	var status C.uint32_t
	if rule == "-" {
		status = C.cronsim_open(cron, start(schedule), length, &fault)
	} else {
		zone := text(rule)
		size := C.size_t(len(zone))
		status = C.cronsim_open_rule(cron, start(schedule), length, start(zone), size, &fault)
	}
	return status, fault
}

// Whether these are the due times after one instant and up to another, by a call with room for one
// more.
func areAll(cron *C.cronsim_cron, after, until C.uint64_t, wanted []C.uint64_t) bool {
	many, found := make([]C.uint64_t, len(wanted)+1), C.size_t(0)
	status := C.cronsim_next_many(cron, after, until, &many[0], C.size_t(len(many)), &found)
	if status != C.CRONSIM_DONE || int(found) != len(wanted) {
		return false
	}
	for place, due := range wanted {
		if many[place] != due {
			return false
		}
	}
	return true
}

// Whether these times come, each by the call for the next one, and the same looked at from the
// other end, and all at once.
func times(cron *C.cronsim_cron, after uint64, wanted []string) bool {
	at, came := C.uint64_t(after), []C.uint64_t{}
	var due, back C.uint64_t
	var isMatch C.bool
	var missed C.cronsim_missed_times
	for _, word := range wanted {
		if word == "none" {
			if C.cronsim_next(cron, at, &due) != C.CRONSIM_NONE {
				return false
			}
			break
		}
		if C.cronsim_next(cron, at, &due) != C.CRONSIM_DONE || uint64(due) != number(word) {
			return false
		}
		if C.cronsim_matches(cron, due, &isMatch) != C.CRONSIM_DONE || !bool(isMatch) {
			return false
		}
		if C.cronsim_previous(cron, at, due, &back) != C.CRONSIM_DONE || back != due {
			return false
		}
		at = due
		came = append(came, due)
	}
	if !areAll(cron, C.uint64_t(after), at, came) {
		return false
	}
	count := len(came)
	latest, told := at, count
	if count == 0 {
		latest = 0
	}
	if count > 101 {
		told = 101
	}
	status := C.cronsim_missed(cron, C.uint64_t(after), at, &missed)
	return status == C.CRONSIM_DONE && int(missed.count) == told && missed.latest == latest
}

// What is said of a fault; nothing where there are no words.
func sentence(schedule []byte, fault C.cronsim_fault) string {
	answer, length := make([]byte, 1024), C.size_t(0)
	size, room, to := C.size_t(len(schedule)), C.size_t(len(answer)), start(answer[:0])
	status := C.cronsim_fault_text(start(schedule), size, &fault, to, room, &length)
	if status != C.CRONSIM_DONE {
		return ""
	}
	return string(answer[:length])
}

// Whether a handle answers that it is closed, and may be closed again.
func isEmpty(cron *C.cronsim_cron) bool {
	due, found, isMatch := C.uint64_t(7), C.size_t(7), C.bool(true)
	missed := C.cronsim_missed_times{7, 7}
	statuses := []C.uint32_t{
		C.cronsim_next(cron, 0, &due),
		C.cronsim_next_many(cron, 0, 60, &due, 1, &found),
		C.cronsim_previous(cron, 0, 60, &due),
		C.cronsim_missed(cron, 0, 60, &missed),
		C.cronsim_matches(cron, 0, &isMatch),
	}
	C.cronsim_close(cron)
	for _, status := range statuses {
		if status != C.CRONSIM_CLOSED {
			return false
		}
	}
	return due == 7 && found == 7 && missed.count == 7 && missed.latest == 7
}

func isRight(cron *C.cronsim_cron, line string) bool {
	words := strings.Split(line, "\t")
	status, fault := open(cron, text(words[0]), words[1])
	told := []string{fmt.Sprint(fault.field), fmt.Sprint(fault.byte), fmt.Sprint(fault.cause)}
	switch words[4] {
	case "times":
		return status == C.CRONSIM_DONE && times(cron, number(words[2]), words[5:])
	case "fault":
		if len(words) > 8 && sentence(text(words[0]), fault) != string(text(words[8])) {
			return false
		}
		return status == C.CRONSIM_REFUSED && strings.Join(told, " ") == strings.Join(words[5:8], " ")
	}
	return status == C.CRONSIM_REFUSED && strings.Join(told, " ") == "6 0 10"
}

func main() {
	var cron C.cronsim_cron
	if !isEmpty(&cron) {
		panic("a handle of zero bytes isn't empty")
	}
	count := 0
	lines := bufio.NewScanner(os.Stdin)
	lines.Buffer(nil, 1<<20)
	for lines.Scan() {
		count++
		if !isRight(&cron, lines.Text()) {
			fmt.Fprintf(os.Stderr, "library: Go: case %d: %s\n", count, lines.Text())
			os.Exit(1)
		}
	}
	C.cronsim_close(&cron)
	if !isEmpty(&cron) {
		panic("a closed handle isn't empty")
	}
	fmt.Printf("library: Go: %d rows\n", count)
	if count == 0 {
		os.Exit(1)
	}
}
