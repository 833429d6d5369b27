"""Runs the cases on standard input through libcronsim.so, whose path is given; each of a rule a
second time with a zone file (RFC 8536) that has no transitions and this rule at its end, by which
all its times go then."""
import ctypes
import struct
import sys
from ctypes import (
    POINTER,
    Structure,
    byref,
    c_bool,
    c_char_p,
    c_size_t,
    c_uint32,
    c_uint64,
    c_void_p,
    create_string_buffer,
)

DONE, NONE, REFUSED, CLOSED = 0, 1, 2, 5
NO_ZONE = 10


class Cron(Structure):
    _fields_ = [("at", c_void_p), ("full", c_bool)]


class Fault(Structure):
    _fields_ = [("field", c_uint32), ("cause", c_uint32), ("byte", c_uint64)]


class Missed(Structure):
    _fields_ = [("count", c_uint64), ("latest", c_uint64)]


def loaded(path):
    """The library, with the types of its calls, so that a wrong one is an error."""
    library = ctypes.CDLL(path)
    cron, number = POINTER(Cron), POINTER(c_uint64)
    library.cronsim_open.argtypes = [cron, c_char_p, c_size_t, POINTER(Fault)]
    library.cronsim_open_rule.argtypes = [
        cron,
        c_char_p,
        c_size_t,
        c_char_p,
        c_size_t,
        POINTER(Fault),
    ]
    library.cronsim_open_file.argtypes = library.cronsim_open_rule.argtypes
    library.cronsim_close.argtypes, library.cronsim_close.restype = [cron], None
    library.cronsim_next.argtypes = [cron, c_uint64, number]
    size = POINTER(c_size_t)
    library.cronsim_next_many.argtypes = [cron, c_uint64, c_uint64, number, c_size_t, size]
    library.cronsim_previous.argtypes = [cron, c_uint64, c_uint64, number]
    library.cronsim_missed.argtypes = [cron, c_uint64, c_uint64, POINTER(Missed)]
    library.cronsim_matches.argtypes = [cron, c_uint64, POINTER(c_bool)]
    answer = [c_char_p, c_size_t, size]
    library.cronsim_fault_text.argtypes = [c_char_p, c_size_t, POINTER(Fault), *answer]
    return library


def text(digits):
    return b"" if digits == "." else bytes.fromhex(digits)


def zone_file(rule):
    """A zone file whose times all go by the rule: two headers with a block each, of one local time
    type, and the rule."""
    counts = struct.pack(">6l", 0, 0, 0, 0, 1, 4)
    block = b"TZif3" + bytes(15) + counts + struct.pack(">lbb", 0, 0, 0) + b"UTC\0"
    return block + block + b"\n" + rule + b"\n"


def opened(library, cron, schedule, rule, fault, by_file):
    if rule == "-":
        return library.cronsim_open(byref(cron), schedule, len(schedule), byref(fault))
    rule = text(rule)
    if by_file:
        file = zone_file(rule)
        return library.cronsim_open_file(
            byref(cron), schedule, len(schedule), file, len(file), byref(fault)
        )
    return library.cronsim_open_rule(
        byref(cron), schedule, len(schedule), rule, len(rule), byref(fault)
    )


def many(library, cron, after, until):
    """The due times after one instant and up to another, three by a call."""
    times, found, some = (c_uint64 * 3)(), c_size_t(3), []
    while found.value == len(times):
        status = library.cronsim_next_many(
            byref(cron), after, until, times, len(times), byref(found)
        )
        if status != DONE:
            return None
        some += times[: found.value]
        after = some[-1] if some else after
    return some


def times(library, cron, after, wanted):
    """Whether these times come, each by the call for the next one, and the same looked at from the
    other end, and three at a time."""
    at, due, back, is_match, missed = after, c_uint64(0), c_uint64(0), c_bool(False), Missed(7, 7)
    came = []
    for word in wanted:
        if word == "none":
            if library.cronsim_next(byref(cron), at, byref(due)) != NONE:
                return False
            break
        if library.cronsim_next(byref(cron), at, byref(due)) != DONE or due.value != int(word):
            return False
        if (
            library.cronsim_matches(byref(cron), due.value, byref(is_match)) != DONE
            or not is_match.value
        ):
            return False
        if (
            library.cronsim_previous(byref(cron), at, due.value, byref(back)) != DONE
            or back.value != due.value
        ):
            return False
        at = due.value
        came.append(at)
    if many(library, cron, after, at) != came:
        return False
    status = library.cronsim_missed(byref(cron), after, at, byref(missed))
    count, latest = min(len(came), 101), at if came else 0
    return (status, missed.count, missed.latest) == (DONE, count, latest)


def sentence(library, schedule, fault):
    """What is said of a fault, and with which status."""
    answer, length = create_string_buffer(1024), c_size_t(0)
    status = library.cronsim_fault_text(
        schedule, len(schedule), byref(fault), answer, len(answer), byref(length)
    )
    return status, answer.raw[: length.value]


def is_empty(library, cron):
    """Whether a handle answers that it is closed, and may be closed again."""
    due, missed, is_match, found = c_uint64(7), Missed(7, 7), c_bool(True), c_size_t(7)
    statuses = {
        library.cronsim_next(byref(cron), 0, byref(due)),
        library.cronsim_next_many(byref(cron), 0, 60, byref(due), 1, byref(found)),
        library.cronsim_previous(byref(cron), 0, 60, byref(due)),
        library.cronsim_missed(byref(cron), 0, 60, byref(missed)),
        library.cronsim_matches(byref(cron), 0, byref(is_match)),
    }
    library.cronsim_close(byref(cron))
    numbers = {due.value, missed.count, missed.latest, found.value}
    return statuses == {CLOSED} and numbers == {7}


def is_right(library, cron, line, by_file):
    schedule, rule, after, _, outcome, *rest = line.rstrip("\n").split("\t")
    fault = Fault(0, 0, 0)
    status = opened(library, cron, text(schedule), rule, fault, by_file)
    if outcome == "times":
        return status == DONE and times(library, cron, int(after), rest)
    wanted = [int(word) for word in rest[:3]] if outcome == "fault" else [6, 0, NO_ZONE]
    if len(rest) > 3 and sentence(library, text(schedule), fault) != (DONE, text(rest[3])):
        return False
    return status == REFUSED and [fault.field, fault.byte, fault.cause] == wanted


def main():
    library, cron, count, files = loaded(sys.argv[1]), Cron(), 0, 0
    if not is_empty(library, cron):
        sys.exit("library: Python: a handle of zero bytes isn't empty")
    for line in sys.stdin:
        count += 1
        # (a zone file may have no rule at its end)
        has_rule = line.split("\t")[1] not in ("-", ".")
        files += has_rule
        if not all(
            is_right(library, cron, line, by_file) for by_file in [False, True][: 1 + has_rule]
        ):
            sys.exit(f"library: Python: case {count}: {line}")
    library.cronsim_close(byref(cron))
    if not is_empty(library, cron):
        sys.exit("library: Python: a closed handle isn't empty")
    print(f"library: Python: {count} rows, {files} of them with a zone file too")
    sys.exit(0 if files else 1)


main()
