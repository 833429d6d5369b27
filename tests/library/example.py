"""A small caller of libcronsim in Python: the next three times of a schedule in a zone, a schedule
in a sentence, and the fault of one that is wrong.

usage: python3 example.py PATH/libcronsim.so
"""
import json
import sys
from ctypes import CDLL, byref, c_size_t, c_uint16, c_uint64, create_string_buffer
from datetime import datetime, timezone

DONE, REFUSED, ROOM = 0, 2, 6
START = 1711800000  # 2024-03-30T12:00:00Z
RULE = b"CET-1CEST,M3.5.0,M10.5.0/3"


def text(data):
    """A text as two words of a call: where it begins, and its length."""
    return data, c_size_t(len(data))


def json_of(call, *words):
    """The status and the JSON of a call that answers with a text. Where there is too little room
    for it, the call says how much it wants."""
    room, length = 256, c_size_t(0)
    while True:
        answer = create_string_buffer(room)
        status = call(*words, answer, c_size_t(room), byref(length))
        if status != ROOM:
            return status, json.loads(answer.raw[: length.value])
        room = length.value


def main():
    lib = CDLL(sys.argv[1])
    # (16 zero bytes are an empty handle)
    cron, fault, due = (c_uint64 * 2)(), (c_uint64 * 2)(), c_uint64(START)
    if lib.cronsim_open_rule(cron, *text(b"30 2 * * *"), *text(RULE), fault) != DONE:
        sys.exit("the schedule or the rule is refused")
    for _ in range(3):
        if lib.cronsim_next(cron, due, byref(due)) != DONE:
            sys.exit("no such time")
        print(datetime.fromtimestamp(due.value, timezone.utc).isoformat())
    lib.cronsim_close(cron)

    for schedule in (b"30 2 * * 1-5", b"60 * * * *"):
        words = *text(schedule), *text(RULE), c_uint64(START), c_uint16(1)
        status, told = json_of(lib.cronsim_describe, *words)
        print(told["sentence"] if status == DONE else told[0]["cause"])


main()
