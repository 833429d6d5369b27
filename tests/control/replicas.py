"""Replicas of a controller that live in simulated time: a line goes in, and what it says to that
comes out before anything else happens.

The program has no clock and no sockets, so it is at rest when it has read all of its input and
sleeps. A replica of its own process is asked for that by what the kernel knows of its pipe and of
its threads; nothing is waited for by real time.
"""
import fcntl
import os
import subprocess
import termios
import time
from array import array

PIPE_SIZE = 1 << 20
# The seconds of real time that a replica may take over one line, or over its end.
PATIENCE = 60


class Crashed(Exception):
    """The program ended by itself, or doesn't come to rest."""


class Inside:
    """A machine in this process: an object with feed(line) and is_done()."""

    def __init__(self, machine):
        self.machine, self.found = machine, []

    def put(self, line):
        try:
            self.found += self.machine.feed(line)
        except Exception as fault:
            raise Crashed(f"{type(fault).__name__}: {fault}") from fault

    def said(self):
        found, self.found = self.found, []
        return found

    def stop(self):
        return [] if self.machine.is_done() else ["not done"]

    def kill(self):
        self.machine = None


class Piped:
    """A process, with its standard input and output."""

    def __init__(self, words, said):
        self.errors = open(said, "ab")
        pipe = subprocess.PIPE
        self.process = subprocess.Popen(
            words, stdin=pipe, stdout=pipe, stderr=self.errors, bufsize=0
        )
        self.into, self.out_of = self.process.stdin.fileno(), self.process.stdout.fileno()
        for pipe in (self.into, self.out_of):
            fcntl.fcntl(pipe, fcntl.F_SETPIPE_SZ, PIPE_SIZE)
            os.set_blocking(pipe, False)
        self.tasks = f"/proc/{self.process.pid}/task"
        self.found = []

    def put(self, line):
        """A line goes in; what it says is there when it is asked for."""
        data = line.encode() + b"\n"
        while data:
            try:
                data = data[os.write(self.into, data) :]
            except BlockingIOError:
                self.read()
            except BrokenPipeError:
                raise Crashed(f"status {self.process.wait()}") from None

    def said(self):
        """The lines that it has said when it comes to rest."""
        until, pause = time.monotonic() + PATIENCE, 0
        while not self.is_at_rest() or self.read():
            if time.monotonic() > until:
                raise Crashed("no rest")
            time.sleep(pause)
            pause = min(pause + 0.00005, 0.001)
        *lines, rest = b"".join(self.found).split(b"\n")
        self.found = [rest]
        return [it.decode() for it in lines]

    def read(self):
        """Reads what it has written; whether that was anything."""
        try:
            found = os.read(self.out_of, PIPE_SIZE)
        except BlockingIOError:
            return False
        if not found:
            raise Crashed(f"status {self.process.wait()}")
        self.found.append(found)
        return True

    def is_at_rest(self):
        """Whether it has read all of its input and sleeps."""
        unread = array("i", [0])
        fcntl.ioctl(self.into, termios.FIONREAD, unread)
        if unread[0]:
            return False
        try:
            for task in os.listdir(self.tasks):
                with open(f"{self.tasks}/{task}/stat", "rb") as file:
                    if file.read().rpartition(b")")[2].split()[0] not in b"SZ":
                        return False
        except (FileNotFoundError, ProcessLookupError):
            pass
        # (of one that has ended the next reading tells so)
        return True

    def stop(self):
        """What is wrong with its end, after it was told to stop."""
        try:
            status = self.process.wait(PATIENCE / 6)
        except subprocess.TimeoutExpired:
            self.kill()
            return ["doesn't end"]
        self.close()
        return [f"ended with status {status}"] if status else []

    def kill(self):
        self.process.kill()
        self.process.wait()
        self.close()

    def close(self):
        self.process.stdin.close()
        self.process.stdout.close()
        self.errors.close()
