"""What cronsim-control tells of the program and of itself: whether it is healthy and ready, and
metrics in the text format of Prometheus. The program's numbers are its own; it is asked for them.
"""
import math
import os
import re
import socket
import socketserver
import threading
import time
from collections import Counter
from datetime import datetime
from http.server import BaseHTTPRequestHandler, ThreadingHTTPServer

from cronsim_control.common import VOICE, seconds


# The program is asked each PERIOD; a scrape waits for its answer for WAIT. One that owes it for
# longer than OWED doesn't answer; at the start, for longer than GRACE. It is told the time each
# second, and starts nothing without; CLOCK is the longest that this may take.
PERIOD, WAIT, OWED, GRACE = seconds("PERIOD", 10), 2, seconds("OWED", 10), seconds("GRACE", 60)
CLOCK = seconds("CLOCK", 30)
FORMAT = "text/plain; version=0.0.4; charset=utf-8"
# (as client-go has them)
BOUNDS = (0.005, 0.025, 0.1, 0.25, 0.5, 1, 2, 4, 8, 15, 30, 60)
# A metric of the program: what the program calls it, its name with labels, its kind, what it is.
METRICS = (
    ("queued", 'workqueue_depth{name="cronjob"}', "gauge", "CronJobs that wait for a sync"),
    ("underWay", "cronsim_syncs_under_way", "gauge", "CronJobs that are in a sync"),
    ("syncs", "cronsim_syncs_total", "counter", "Syncs of CronJobs"),
    ("starts", "cronsim_starts_total", "counter", "Jobs that this replica started"),
    ("conflicts", "cronsim_claim_conflicts_total", "counter", "Claims that came too late"),
    ("refusedCreates", "cronsim_refused_creations_total", "counter", "Jobs that were refused"),
    ("missed", "cronsim_missed_times_total", "counter", "Due times that were missed"),
    ("cronJobs", "cronsim_cronjobs", "gauge", "CronJobs that are looked after"),
    ("jobs", "cronsim_jobs", "gauge", "Jobs that are known"),
    ("synced", "cronsim_synced", "gauge", "1 if CronJobs and Jobs have been listed"),
    ("ready", "cronsim_ready", "gauge", "1 if the program is ready"),
    ("healthy", "cronsim_healthy", "gauge", "1 if the program is healthy"),
    (
        "clockOffset",
        "cronsim_clock_offset_seconds",
        "gauge",
        "How far this machine's clock is ahead of the API server's",
    ),
)


class Requests:
    """How many requests were sent to the API server, and how long their answers took."""

    def __init__(self, host):
        self.host, self.lock = host, threading.Lock()
        self.counts, self.times, self.sums = Counter(), {}, Counter()

    def count(self, method, code):
        with self.lock:
            self.counts[str(method), str(code)] += 1

    def time(self, method, lasted):
        """Notes for how long an answer was waited for."""
        with self.lock:
            found = self.times.setdefault(str(method), [0] * (len(BOUNDS) + 1))
            for place, bound in enumerate((*BOUNDS, math.inf)):
                found[place] += lasted <= bound
            self.sums[str(method)] += lasted

    def lines(self):
        with self.lock:
            counts, times, sums = dict(self.counts), dict(self.times), dict(self.sums)
            times = {method: list(found) for method, found in times.items()}
        yield from metric(
            "rest_client_requests_total",
            "counter",
            "Requests to the API server, by status, method and host; <error> is no answer",
            *(
                ("", {"code": code, "method": method, "host": self.host}, count)
                for (method, code), count in sorted(counts.items())
            ),
        )
        yield from metric(
            "rest_client_request_duration_seconds",
            "histogram",
            "How long the API server took to answer, by method and host; without watches",
            *(
                it
                for method, found in sorted(times.items())
                for it in histogram(
                    zip(BOUNDS, found), sums[method], found[-1], verb=method, host=self.host
                )
            ),
        )


class Health:
    """What the program has said of itself, and for how long it has owed an answer."""

    def __init__(self, tell):
        self.tell, self.begun, self.said = tell, time.monotonic(), {}
        # When the program was asked for what it owes, and when it answered last.
        self.asked = self.heard = None
        # When it was told the time last.
        self.ticked = self.begun
        self.news, self.wanted = threading.Condition(), threading.Event()

    def ask(self):
        """Asks the program each PERIOD, and when somebody wants to know; again once it answered."""
        while True:
            self.wanted.wait(PERIOD)
            self.wanted.clear()
            if self.asked is None:
                self.asked = time.monotonic()
                self.tell({"metrics": True})

    def hear(self, said):
        with self.news:
            self.said, self.heard, self.asked = said, time.monotonic(), None
            self.news.notify_all()

    def refresh(self):
        """Has the program be asked, and waits a little for what it says."""
        begun = time.monotonic()
        self.wanted.set()
        with self.news:
            self.news.wait_for(lambda: self.heard is not None and self.heard >= begun, WAIT)

    def answers(self):
        """Whether the program answers, as far as it had to."""
        now, asked = time.monotonic(), self.asked
        if self.heard is None:
            return now - self.begun <= GRACE
        return asked is None or now - asked <= OWED

    def why_not(self, what):
        """Why the program isn't `healthy`, or `ready`; of none where it is."""
        if not self.answers():
            return "the program does not answer"
        late = time.monotonic() - self.ticked
        if late > CLOCK:
            return f"the program has not been told the time for {late:.0f} seconds"
        if self.heard is None:
            return None if what == "healthy" else "the program has said nothing yet"
        if self.said.get(what) is True:
            return None
        why = self.said.get(f"whyNot{what.capitalize()}")
        return " ".join(str(why).split()) if why else f"the program is not {what}"

    def lines(self):
        """The metrics that the program has told, unless they are too old."""
        is_heard = self.heard is not None and self.answers()
        about = "1 if the program has told the metrics below"
        yield from metric("cronsim_program_answers", "gauge", about, ("", {}, is_heard))
        said = self.said if is_heard else {}
        for member, name, kind, about in METRICS:
            yield from metric(name, kind, about, ("", {}, said.get(member)))
        ages = said.get("watchAges") or {}
        yield from metric(
            "cronsim_watch_age_seconds",
            "gauge",
            "For how long a watch has told nothing",
            *(("", {"resource": name}, age) for name, age in sorted(ages.items())),
        )
        yield from metric(
            "cronsim_last_start_timestamp_seconds",
            "gauge",
            "When this replica started a Job last",
            ("", {}, moment(said.get("lastStart"))),
        )
        delay = said.get("delay") or {}
        found = delay.get("buckets", []), delay.get("sum"), delay.get("count")
        yield from metric(
            "cronjob_controller_job_creation_skew_duration_seconds",
            "histogram",
            "From a Job's due time to its start, in the place of its creation",
            *(histogram(*found) if delay else ()),
        )


def moment(text):
    """The seconds of a time of RFC 3339; of none where it is none."""
    try:
        return datetime.fromisoformat(text.replace("Z", "+00:00")).timestamp()
    except (AttributeError, ValueError):
        return None


def histogram(buckets, total, count, **labels):
    """The samples of a histogram, of buckets that add up."""
    for bound, found in buckets:
        yield "_bucket", {**labels, "le": f"{bound:g}"}, found
    yield "_bucket", {**labels, "le": "+Inf"}, count
    yield "_sum", labels, total
    yield "_count", labels, count


def metric(name, kind, about, *samples):
    """The lines of a metric, of samples (what is behind its name, labels, value) with a number."""
    samples = [it for it in samples if isinstance(it[2], (bool, int, float))]
    if samples:
        plain = name.partition("{")[0]
        yield f"# HELP {plain} {about}."
        yield f"# TYPE {plain} {kind}"
    for behind, labels, value in samples:
        inside = ",".join(f'{key}="{escaped(text)}"' for key, text in labels.items())
        inside = inside and f"{{{inside}}}"
        yield f"{name}{behind}{inside} {int(value) if isinstance(value, bool) else value}"


def escaped(text):
    return re.sub(r'[\\"]', r"\\\g<0>", str(text)).replace("\n", r"\n")


def memory_of(process):
    """The bytes that a process has in memory; of none where nobody says."""
    try:
        with open(f"/proc/{process}/statm") as file:
            return int(file.read().split()[1]) * os.sysconf("SC_PAGE_SIZE")
    except (OSError, ValueError, IndexError):
        return None


class Face(BaseHTTPRequestHandler):
    """Answers a scrape or a probe."""

    # (of one that says nothing)
    timeout = 10
    server_version, sys_version = "cronsim-control", ""

    def do_GET(self):
        path = self.path.partition("?")[0]
        if path == "/metrics":
            self.server.health.refresh()
            self.say(200, "".join(f"{line}\n" for line in self.server.lines()), FORMAT)
        elif path in ("/healthz", "/readyz"):
            self.server.health.refresh()
            why = self.server.health.why_not("healthy" if path == "/healthz" else "ready")
            self.say(503 if why else 200, f"{why or 'ok'}\n")
        else:
            self.say(404, "/metrics, /healthz and /readyz are here\n")

    def say(self, status, text, kind="text/plain; charset=utf-8"):
        data = text.encode(errors="replace")
        self.send_response(status)
        self.send_header("Content-Type", kind)
        self.send_header("Content-Length", str(len(data)))
        self.end_headers()
        self.wfile.write(data)

    def log_message(self, *_):
        """Nobody wants to read of each probe."""


class Listener(ThreadingHTTPServer):
    """Serves the metrics and the probes."""

    daemon_threads = True

    @classmethod
    def of(cls, place):
        """One that has taken [ADDRESS:]PORT; all addresses where none is given."""
        address, _, port = place.rpartition(":")
        if not re.fullmatch("[0-9]{1,5}", port) or int(port) > 65535:
            VOICE.fail(f"--listen takes [ADDRESS:]PORT, not {place!r}", 2)
        try:
            return cls(address.strip("[]"), int(port))
        except OSError as fault:
            return VOICE.fail(f"--listen {place}: {fault}")

    def __init__(self, address, port):
        is_open = not address and socket.has_dualstack_ipv6()
        self.address_family = socket.AF_INET6 if is_open or ":" in address else socket.AF_INET
        super().__init__((address, port), Face)

    def server_bind(self):
        if self.address_family == socket.AF_INET6 and not self.server_address[0]:
            self.socket.setsockopt(socket.IPPROTO_IPV6, socket.IPV6_V6ONLY, 0)
        # (not HTTPServer's, which asks for the name of this machine)
        socketserver.TCPServer.server_bind(self)

    def handle_error(self, *_):
        """Nothing: who hangs up does so without a word."""

    def serve(self, health, requests, process):
        """Serves for good. `process` is the program's number."""
        self.health, self.requests, self.process = health, requests, process
        self.serve_forever()

    def lines(self):
        yield from self.requests.lines()
        yield from self.health.lines()
        for name, process, whose in (
            ("process_resident_memory_bytes", "self", "this process"),
            ("cronsim_program_resident_memory_bytes", self.process, "the program"),
        ):
            about = f"Resident memory of {whose} in bytes"
            yield from metric(name, "gauge", about, ("", {}, memory_of(process)))
