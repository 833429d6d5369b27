"""The network between the replicas and the API servers: plain HTTP on the loopback, with faults by
a seeded plan (faults.py). Requests are refused, slow, lost, carried out late and unheard of, or
answered by a proxy that knows of no API; watches lag and end; now and then all connections that
stand fall silent at once, with no end, as behind a load balancer whose server loses power.

Each connection goes to one of the API servers, by lot.
"""
import http.client
import json
import queue
import select
import ssl
import sys
import threading
import time
from collections import Counter
from http.server import BaseHTTPRequestHandler, ThreadingHTTPServer
from pathlib import Path

sys.path.insert(0, str(Path(__file__).resolve().parent.parent))
import faults  # noqa: E402

# How often a request is disturbed; the seconds for an answer of the server, for which a silent
# connection stands, and between two silences on average.
RATE, PATIENCE, SILENT, PAUSE = 0.1, 60, 300, 150
PAGE = b"<html><body>It works!</body></html>"
# What goes on to the server, and back.
SENT = ("Authorization", "Content-Type", "Accept", "User-Agent", "X-Request-Id")
TOLD = ("Date", "Content-Type", "Retry-After")


class Broken(Exception):
    """The connection ends here."""


class Face(BaseHTTPRequestHandler):
    """A connection of a replica."""

    protocol_version = "HTTP/1.1"

    def setup(self):
        super().setup()
        self.network, self.epoch, self.up = self.server.network, self.server.network.epoch, None

    def take(self):
        body = self.rfile.read(int(self.headers.get("Content-Length") or 0))
        request = self.command, self.path, body, {it: self.headers[it] for it in SENT}
        try:
            self.check()
            if "watch=1" in self.path or "watch=true" in self.path:
                self.watch(request)
            else:
                self.carry(request, self.network.fate())
        except (Broken, OSError, http.client.HTTPException):
            self.close_connection = True

    do_GET = do_POST = do_PUT = do_PATCH = do_DELETE = take

    def check(self):
        """Where the connection is silent, nothing comes on it any more."""
        if self.epoch != self.network.epoch:
            select.select([self.connection], [], [], SILENT)
            raise Broken

    def ask(self, request):
        """Sends a request on; the answer, of which the head has been read."""
        self.up = self.up or self.network.connect()
        method, path, body, headers = request
        given = {it: value for it, value in headers.items() if value is not None}
        self.up.request(method, path, body or None, given)
        return self.up.getresponse()

    def carry(self, request, fate):
        if fate.what == "late":
            self.network.later(fate.before, request)
        else:
            time.sleep(fate.before)
        if fate.what == "refused":
            text = json.dumps(self.network.plan.refusal(fate.code)).encode()
            self.say(fate.code, text, {"Retry-After": "1"} if fate.code == 429 else {})
        elif fate.what == "foreign":
            told = self.network.foreign()
            text = json.dumps(told["body"]).encode() if told["body"] else PAGE
            self.say(told["status"], text, {})
        elif fate.what in ("late", "dropped"):
            time.sleep(fate.after)
            raise Broken
        else:
            answer = self.ask(request)
            text = answer.read()
            time.sleep(fate.after)
            if fate.what == "lost":
                raise Broken
            self.say(answer.status, text, {it: answer.headers[it] for it in TOLD})

    def say(self, status, text, headers):
        self.check()
        self.send_response_only(status)
        for name, value in headers.items():
            if value is not None:
                self.send_header(name, value)
        self.send_header("Content-Length", str(len(text)))
        self.end_headers()
        self.wfile.write(text)

    # ---- watches

    def watch(self, request):
        answer, plan = self.ask(request), self.network.plan
        if answer.status != 200:
            self.say(answer.status, answer.read(), {it: answer.headers[it] for it in TOLD})
            return
        self.check()
        self.send_response_only(200)
        for name in TOLD[:2]:
            self.send_header(name, answer.headers[name])
        self.send_header("Transfer-Encoding", "chunked")
        self.end_headers()
        until, events = time.monotonic() + plan.watch_ends(), queue.Queue()
        threading.Thread(target=self.hear, args=(answer, events), daemon=True).start()
        while time.monotonic() < until:
            at, line = events.get()
            if line is None:
                break
            time.sleep(max(0, at - time.monotonic()))
            self.check()
            self.wfile.write(b"%x\r\n%s\r\n" % (len(line), line))
        self.wfile.write(b"0\r\n\r\n")
        self.drop()

    def hear(self, answer, events):
        """Takes the events of a watch, each with the moment at which it may be told."""
        try:
            for line in iter(answer.readline, b""):
                events.put((time.monotonic() + self.network.lag(), line))
        except (OSError, ValueError, AttributeError, http.client.HTTPException):
            pass
        events.put((0, None))

    def drop(self):
        if self.up is not None:
            # (not `close` alone, which waits for the thread that reads)
            self.up.sock and self.up.sock.close()
            self.up = None

    def finish(self):
        self.drop()
        super().finish()

    def log_message(self, *_):
        """Nobody wants to read of each request."""


class Listener(ThreadingHTTPServer):
    daemon_threads, request_queue_size = True, 200

    def handle_error(self, *_):
        """Nothing: who hangs up does so without a word."""


class Network:
    """The faults, and what became of the requests, in `counts`."""

    def __init__(self, ports, certificate, seed, note):
        self.ports, self.note = ports, note
        self.context = ssl.create_default_context(cafile=certificate)
        self.plan, self.lock = faults.Plan(f"network {seed}", RATE), threading.Lock()
        self.counts, self.epoch = Counter(), 0
        self.listener = Listener(("127.0.0.1", 0), Face)
        self.listener.network, self.url = self, f"http://127.0.0.1:{self.listener.server_port}"
        threading.Thread(target=self.listener.serve_forever, daemon=True).start()

    def fate(self):
        with self.lock:
            found = self.plan.fate()
            is_slow = found.what == "passes" and max(found.before, found.after) > 0.02
            self.counts["slow" if is_slow else found.what] += 1
        return found

    def lag(self):
        with self.lock:
            return self.plan.watch_lag()

    def foreign(self):
        with self.lock:
            return self.plan.foreign()

    def connect(self):
        """A connection to one of the servers that takes one."""
        with self.lock:
            ports = self.plan.dice.sample(self.ports, len(self.ports))
        for port in ports:
            found = http.client.HTTPSConnection(
                "127.0.0.1", port, timeout=PATIENCE, context=self.context
            )
            try:
                found.connect()
                # (a watch is silent for long)
                found.sock.settimeout(SILENT)
                return found
            except OSError:
                continue
        self.counts["no server"] += 1
        raise Broken

    def later(self, seconds, request):
        """Carries a request out, of whose answer nobody hears."""
        threading.Thread(target=self.carry_late, args=(seconds, request), daemon=True).start()

    def carry_late(self, seconds, request):
        time.sleep(seconds)
        method, path, body, headers = request
        try:
            up = self.connect()
            given = {it: value for it, value in headers.items() if value is not None}
            up.request(method, path, body or None, given)
            status = up.getresponse().status
            up.close()
        except (Broken, OSError, http.client.HTTPException):
            status = None
        self.note("late", method=method, path=path, seconds=seconds, status=status)

    def disturb(self, calm, dice):
        """Has all connections fall silent now and then, until it is calm."""
        while not calm.wait(dice.expovariate(1 / PAUSE)):
            self.epoch += 1
            self.counts["silences"] += 1
            self.note("silence")
        self.plan.rate = 0
