// Makes the calls on standard input through libcronsim, by cgo, and prints each answer on a line:
// the status and the JSON.
package main

/*
#include "cronsim.h"
*/
import "C"

import (
	"bufio"
	"encoding/hex"
	"fmt"
	"os"
	"strconv"
	"strings"
	"unsafe"
)

// Where a text begins: never nil, also where it is empty.
func start(text []byte) *C.uint8_t {
	return (*C.uint8_t)(unsafe.Pointer(&append(text, 0)[0]))
}

func text(digits string) []byte {
	if digits == "." {
		return nil
	}
	bytes, err := hex.DecodeString(digits)
	if err != nil {
		panic(err)
	}
	return bytes
}

// What a call answers: at most twice, since it tells how much room it wants.
func told(
	call func(answer *C.uint8_t, room C.size_t, length *C.size_t) C.uint32_t,
) (C.uint32_t, []byte) {
	room, length := C.size_t(400), C.size_t(0)
	for {
		answer := make([]byte, room)
		status := call(start(answer[:0]), room, &length)
		if status != C.CRONSIM_ROOM {
			return status, answer[:length]
		}
		room = length
	}
}

// The number at a place behind a call's texts; 0 where there is none.
func number(words []string, at int) uint64 {
	if len(words) <= 3+at {
		return 0
	}
	found, err := strconv.ParseUint(words[3+at], 10, 64)
	if err != nil {
		panic(err)
	}
	return found
}

func answer(words []string) (C.uint32_t, []byte) {
	zones, input := text(words[1]), text(words[2])
	many, size := C.size_t(len(zones)), C.size_t(len(input))
	first, second, third := number(words, 0), number(words, 1), number(words, 2)
	return told(func(answer *C.uint8_t, room C.size_t, length *C.size_t) C.uint32_t {
		switch words[0] {
		case "plan":
			return C.cronsim_plan(start(input), size, C.uint64_t(first), answer, room, length)
		case "check":
			return C.cronsim_check(start(input), size, start(zones), many, answer, room, length)
		case "why":
			return C.cronsim_why(start(input), size, start(zones), many, C.uint64_t(first),
				answer, room, length)
		case "upcoming":
			return C.cronsim_upcoming(start(input), size, start(zones), many, C.uint64_t(first),
				C.uint64_t(second), C.uint32_t(third), answer, room, length)
		case "describe":
			return C.cronsim_describe(start(input), size, start(zones), many, C.uint64_t(first),
				C.uint16_t(second), answer, room, length)
		}
		return C.cronsim_audit(start(input), size, start(zones), many, answer, room, length)
	})
}

func main() {
	lines := bufio.NewScanner(os.Stdin)
	lines.Buffer(nil, 1<<22)
	for lines.Scan() {
		status, bytes := answer(strings.Split(lines.Text(), "\t"))
		fmt.Printf("%d %s\n", status, bytes)
	}
}
