"""The API servers and the etcd of start-server, of which all but the first server are killed and
stopped for a while. start-server starts what was killed again.
"""
import os
import random
import signal
from collections import Counter
from pathlib import Path
from urllib.parse import urlsplit

from .lives import Process

# Seconds: between two misfortunes on average, and how long one is stopped; for etcd, which all
# wait for, less long.
PAUSE = 45
STALLS = {"etcd": (2, 15)}
STALL = (5, 40)
KILLS = 0.6
PROGRAMS = ("etcd", "kube-apiserver")


class Servers:
    """What stands in a folder of start-server; `first` is the URL of its first server."""

    def __init__(self, folder, first, seed, note):
        self.folder, self.note = Path(folder).resolve(), note
        self.dice, self.counts = random.Random(f"servers {seed}"), Counter()
        self.names = sorted(it.stem for it in self.folder.glob("server-*.pid"))
        port = urlsplit(first).port
        self.ports = [port + int(it.rpartition("-")[2]) + 1 for it in self.names]

    def process(self, name):
        """The process of this name, if it runs."""
        try:
            found = Process(int((self.folder / f"{name}.pid").read_text()))
            program = Path(f"/proc/{found.pid}/comm").read_text().strip()
        except (OSError, ValueError):
            return None
        return found if program in PROGRAMS else None

    def disturb(self, calm):
        """Until it is calm; then all go on."""
        while not calm.wait(self.dice.expovariate(1 / PAUSE)):
            name = self.dice.choice(("etcd", *self.names, *self.names))
            is_kill = self.dice.random() < KILLS
            seconds = self.dice.uniform(*STALLS.get(name, STALL))
            part = self.process(name)
            if part is None:
                continue
            what = "server" if name != "etcd" else name
            self.counts[f"{'killed' if is_kill else 'stopped'}: {what}"] += 1
            self.note("server", what=name, kill=is_kill, seconds=seconds)
            part.send(signal.SIGKILL if is_kill else signal.SIGSTOP)
            if not is_kill:
                calm.wait(seconds)
                part.send(signal.SIGCONT)
            os.close(part.file)
