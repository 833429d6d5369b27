"""What the parts of cronsim-control share: how people are told, and how times are written."""
import json
import logging
import os
import re
import sys
import threading
import time
from datetime import datetime, timezone


def seconds(name, usual):
    """A length of time, which only tests set otherwise."""
    return float(os.environ.get(f"CRONSIM_{name}", usual))


def stamp(at):
    """A time as RFC 3339 has it, in UTC and full seconds."""
    return datetime.fromtimestamp(int(at), timezone.utc).isoformat().replace("+00:00", "Z")


class Voice(logging.Handler):
    """Tells people in lines as the program does: in text, or in JSON. The client's log too."""

    is_json = False

    def say(self, level, message):
        text = f"cronsim-control: {message}"
        if self.is_json:
            line = {"level": level, "message": message, "time": stamp(time.time())}
            text = json.dumps(line, separators=(",", ":"))
        try:
            # (in one write, since the program writes there too)
            os.write(2, (text + "\n").encode(errors="replace"))
        except OSError:
            # (nobody listens)
            pass

    def emit(self, record):
        level = "error" if record.levelno >= logging.ERROR else "warning"
        self.say(level, one_line(record.getMessage()))

    def fail(self, message, status=1):
        self.say("error", message)
        sys.exit(status)


VOICE = Voice()


def one_line(said):
    """What a fault or a log says, without addresses in memory."""
    said = re.sub(r"<[^<>]* object at 0x\w+>(: |, )?", "", str(said))
    return " ".join(said.split())[:300]


def words_of(fault):
    return one_line(f"{type(fault).__name__}: {fault}")


# Taken by the thread that ends the process, and never given back: one line alone says why.
ENDING = threading.Lock()


def vital(name, do, *given):
    """Does the work of a thread. Where that fails, the process says so and ends: a process that
    goes on without one of its threads would look healthy and do nothing."""
    try:
        return do(*given)
    except BaseException as fault:
        ENDING.acquire()
        try:
            VOICE.say("error", f"the {name} thread failed: {words_of(fault)}")
        finally:
            os._exit(1)


def start(name, do, *given):
    """Does vital work in a thread of its own."""
    threading.Thread(target=vital, args=(name, do, *given), daemon=True).start()
