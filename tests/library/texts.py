"""Makes the calls on standard input through libcronsim.so, whose path is given, and prints each
answer on a line: the status and the JSON."""
import ctypes
import sys
from ctypes import POINTER, byref, c_char_p, c_size_t, c_uint16, c_uint32, c_uint64
from ctypes import create_string_buffer

ROOM = 6


def loaded(path):
    """The library, with the types of its calls, so that a wrong one is an error."""
    library = ctypes.CDLL(path)
    text, answer = [c_char_p, c_size_t], [c_char_p, c_size_t, POINTER(c_size_t)]
    library.cronsim_plan.argtypes = [*text, c_uint64, *answer]
    library.cronsim_check.argtypes = [*text, *text, *answer]
    library.cronsim_audit.argtypes = library.cronsim_check.argtypes
    library.cronsim_why.argtypes = [*text, *text, c_uint64, *answer]
    library.cronsim_upcoming.argtypes = [*text, *text, c_uint64, c_uint64, c_uint32, *answer]
    library.cronsim_describe.argtypes = [*text, *text, c_uint64, c_uint16, *answer]
    return library


def told(call, *words):
    """What a call answers: at most twice, since it tells how much room it wants."""
    room, length = 400, c_size_t(0)
    while True:
        answer = create_string_buffer(room)
        status = call(*words, answer, room, byref(length))
        if status != ROOM:
            return status, answer.raw[: length.value]
        room = length.value


def main():
    library = loaded(sys.argv[1])
    for line in sys.stdin:
        name, *digits = line.split()[:3]
        numbers = [int(word) for word in line.split()[3:]]
        zones, text = (b"" if it == "." else bytes.fromhex(it) for it in digits)
        words = [text, len(text)] + ([] if name == "plan" else [zones, len(zones)])
        status, answer = told(getattr(library, f"cronsim_{name}"), *words, *numbers)
        print(status, answer.decode())


main()
