"""The replicas: processes that are killed, stopped for a while, and started again."""
import os
import random
import select
import signal
import subprocess
import time
from collections import Counter
from pathlib import Path

# Seconds: between two misfortunes of a replica on average, and for an end that has to come.
PAUSE, PATIENCE = 10, 15
STALLS = (20, 100)
# How often a misfortune is a kill, and how often it comes right after a full minute.
KILLS, AIMED = 0.6, 0.5


class Process:
    """A process, by a descriptor, which no other process can have."""

    def __init__(self, pid):
        self.pid, self.file = pid, os.pidfd_open(pid)

    def send(self, number):
        try:
            signal.pidfd_send_signal(self.file, number)
        except ProcessLookupError:
            pass

    def has_ended(self, seconds=0):
        return bool(select.select([self.file], [], [], seconds)[0])


def child_of(process):
    """The process that a process has started in a session of its own, as the transport does with
    the program once it has tried its options; of none where it ends before."""
    path = Path(f"/proc/{process.pid}/task/{process.pid}/children")
    while not process.has_ended(0.05):
        try:
            for found in map(int, path.read_text().split()):
                if os.getsid(found) == found:
                    return Process(found)
        except OSError:
            pass
    return None


class Replica:
    """A place in which one process after the other runs, or two: a transport and a program.

    The run gives the command of a life, by the name of the replica and the number of the life.
    """

    def __init__(self, name, seed, run):
        self.name, self.words, self.has_program = name, run.words, run.is_ours
        self.folder, self.note, self.life, self.parts = run.folder, run.observer.note, 0, {}
        self.counts, self.wrong, self.dice = Counter(), [], random.Random(f"{name} {seed}")

    def start(self):
        self.life += 1
        said = open(self.folder / f"{self.name}.{self.life}.stderr", "wb")
        nothing = subprocess.DEVNULL
        self.child = subprocess.Popen(
            self.words(self.name, self.life),
            stdin=nothing,
            stdout=nothing,
            stderr=said,
            start_new_session=True,
        )
        said.close()
        self.parts = {"transport": Process(self.child.pid)}
        if self.has_program:
            program = child_of(self.parts["transport"])
            if program is not None:
                self.parts["program"] = program

    def chosen(self):
        """Which of its processes something happens to, and that in a word."""
        what = self.dice.choice(("all", "all", *self.parts)) if len(self.parts) > 1 else "all"
        return what, [it for name, it in self.parts.items() if what in ("all", name)]

    def end_parts(self):
        """Waits until both are gone, as the one has to be without the other."""
        for name, part in self.parts.items():
            if not part.has_ended(PATIENCE):
                self.wrong.append(f"{self.name}.{self.life}: the {name} goes on alone")
                part.send(signal.SIGKILL)
                part.has_ended(PATIENCE)
            os.close(part.file)
        self.parts = {}
        return self.child.wait()

    def kill(self, calm):
        what, parts = self.chosen()
        self.counts["killed: " + what] += 1
        self.note("kill", replica=self.name, life=self.life, what=what)
        for part in parts:
            part.send(signal.SIGKILL)
        self.end_parts()
        calm.wait(self.dice.uniform(0, 5))
        self.start()

    def stall(self, calm):
        what, parts = self.chosen()
        seconds = self.dice.uniform(*STALLS)
        self.counts["stopped: " + what] += 1
        self.note("stop", replica=self.name, life=self.life, what=what, seconds=seconds)
        for part in parts:
            part.send(signal.SIGSTOP)
        calm.wait(seconds)
        for part in parts:
            part.send(signal.SIGCONT)
        self.note("continue", replica=self.name, life=self.life)

    def look(self):
        """Starts it again where it has ended by itself, which it mustn't."""
        if any(it.has_ended() for it in self.parts.values()):
            status = self.end_parts()
            self.wrong.append(f"{self.name}.{self.life} ended by itself: status {status}")
            self.note("crash", replica=self.name, life=self.life, status=status)
            self.start()

    def pause(self):
        """Seconds to the next misfortune."""
        if self.dice.random() < AIMED:
            return 60 - time.time() % 60 + self.dice.uniform(0, 2)
        return self.dice.expovariate(1 / PAUSE)

    def live(self, calm, end):
        """Until the end; disturbed until it is calm."""
        while not end.is_set():
            at = time.time() + self.pause()
            while calm.is_set() or time.time() < at:
                if end.wait(0.2):
                    return
                self.look()
            if self.dice.random() < KILLS:
                self.kill(calm)
            else:
                self.stall(calm)

    def finish(self):
        """Ends it as a user does."""
        self.look()
        for part in list(self.parts.values())[:1]:
            part.send(signal.SIGTERM)
        for part in self.parts.values():
            part.has_ended(PATIENCE * 5)
        status = self.end_parts()
        if self.has_program and status:
            self.wrong.append(f"{self.name}.{self.life}: status {status} at the end")
