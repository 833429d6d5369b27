"""The small API server over HTTP, on the loopback, for the real transport and for kubectl.

One thread; requests of a connection are answered one after the other, watches as chunks. With
faults a request may be refused, delayed, carried out late, or lost with its connection.
"""
import asyncio
import json
import signal
import sys
import time
from email.utils import formatdate

import faults
import jobs
from rules import Refusal
from server import Server

STEP, BOOKMARK = 0.05, 30
WORDS = {200: "OK", 201: "Created", 404: "Not Found", 409: "Conflict", 410: "Gone", 429: "Too Many"}


class Face(asyncio.Protocol):
    """One connection."""

    def __init__(self, server, plan):
        self.server, self.plan = server, plan
        self.data, self.way, self.is_busy, self.watch, self.is_lost = b"", None, False, None, False

    def connection_made(self, transport):
        self.way = transport

    def connection_lost(self, exc):
        self.is_lost = True
        if self.watch is not None:
            self.server.unwatch(self.watch)

    def data_received(self, data):
        self.data += data
        if not self.is_busy:
            self.next_request()

    def next_request(self):
        """Takes a request out of what came in, if it is there as a whole."""
        head, ended, rest = self.data.partition(b"\r\n\r\n")
        if not ended:
            return
        first, *lines = head.decode("latin-1").split("\r\n")
        headers = {}
        for line in lines:
            name, _, value = line.partition(":")
            headers[name.strip().lower()] = value.strip()
        size = int(headers.get("content-length") or 0)
        if len(rest) < size:
            return
        self.data, self.is_busy = rest[size:], True
        method, target, *_ = first.split(" ")
        self.take(method, target, headers, rest[:size])

    def take(self, method, target, headers, text):
        try:
            body = json.loads(text) if text else None
        except ValueError:
            self.say(400, {"kind": "Status", "status": "Failure", "reason": "BadRequest"})
            return
        who = headers.get("x-sender") or headers.get("user-agent", "").split(" ")[0]
        kind = headers.get("content-type", "application/json").partition(";")[0]
        tag = headers.get("x-request-id")
        if method == "GET" and ("watch=1" in target or "watch=true" in target):
            self.begin_watch(target, who, tag)
            return
        fate = self.plan.fate() if self.plan.rate else faults.Fate("passes", 0, 0, None)
        given = (method, target, body, kind, who, tag)
        if fate.before or fate.after:
            asyncio.get_running_loop().call_later(fate.before, self.carry_out, fate, given)
            if fate.what == "late":
                asyncio.get_running_loop().call_later(fate.after, self.way.close)
        else:
            self.carry_out(fate, given)

    def carry_out(self, fate, given):
        if fate.what == "refused":
            self.say(fate.code, self.plan.refusal(fate.code))
            return
        if fate.what != "dropped":
            status, answer = self.server.call(*given)
        if fate.what != "passes":
            self.way.close()
        elif fate.after:
            asyncio.get_running_loop().call_later(fate.after, self.say, status, answer)
        else:
            self.say(status, answer)

    def say(self, status, answer):
        if self.is_lost:
            return
        text = json.dumps(answer).encode()
        head = f"HTTP/1.1 {status} {WORDS.get(status, 'Other')}\r\n"
        head += f"Date: {self.date()}\r\nContent-Type: application/json\r\n"
        head += f"Content-Length: {len(text)}\r\n"
        if status == 429:
            head += "Retry-After: 1\r\n"
        self.way.write(head.encode() + b"\r\n" + text)
        self.is_busy = False
        if self.data:
            asyncio.get_running_loop().call_soon(self.next_request)

    def date(self):
        return formatdate(self.server.clock(), usegmt=True)

    # ---- watches

    def begin_watch(self, target, who, tag):
        loop = asyncio.get_running_loop()
        head = f"HTTP/1.1 200 OK\r\nDate: {self.date()}\r\n"
        head += "Content-Type: application/json\r\n"
        self.way.write(f"{head}Transfer-Encoding: chunked\r\n\r\n".encode())
        try:
            watch = self.server.watch(target, self.tell, who, tag)
        except Refusal as refusal:
            self.tell({"type": "ERROR", "object": refusal.body})
            watch = None
        self.watch = watch
        if watch is None:
            self.end_watch()
            return
        lasts = min(float(watch.query.get("timeoutSeconds", 1800)), self.plan.watch_ends())
        loop.call_later(lasts, self.end_watch)
        loop.call_later(BOOKMARK, self.bookmark)

    def tell(self, event):
        if not self.is_lost:
            text = json.dumps(event).encode() + b"\n"
            self.way.write(b"%x\r\n%s\r\n" % (len(text), text))

    def bookmark(self):
        if self.watch is not None and not self.is_lost:
            self.server.bookmark(self.watch)
            asyncio.get_running_loop().call_later(BOOKMARK, self.bookmark)

    def end_watch(self):
        if self.watch is not None:
            self.server.unwatch(self.watch)
        if not self.is_lost:
            self.way.write(b"0\r\n\r\n")
        self.watch, self.is_busy = None, False
        if self.data:
            self.next_request()


async def serve(server, plan, port, is_alone):
    """Serves until it is cancelled, alone, or with a Job controller and a garbage collector."""
    loops = () if is_alone else (jobs.JobController(server), jobs.Collector(server))
    loop = asyncio.get_running_loop()
    found = await loop.create_server(lambda: Face(server, plan), "127.0.0.1", port)
    print(f"http://127.0.0.1:{found.sockets[0].getsockname()[1]}", flush=True)
    while True:
        for it in loops:
            it.step()
        await asyncio.sleep(STEP)


def write_log(server, name):
    with open(name, "w") as file:
        for entry in server.log:
            file.write(json.dumps(entry) + "\n")


def main(usage):
    words = sys.argv[1:]
    known = {"--port": "8001", "--minor": "", "--faults": "", "--log": ""}
    is_beta, is_alone = "--beta" in words, "--no-loops" in words
    words = [it for it in words if it not in ("--beta", "--no-loops")]
    if len(words) % 2 or any(it not in known for it in words[::2]):
        sys.exit(usage)
    known |= dict(zip(words[::2], words[1::2]))
    minor = int(known["--minor"]) if known["--minor"] else None
    server = Server(time.time, is_beta, minor)
    plan = faults.Plan(known["--faults"], 0.05 if known["--faults"] else 0)
    for number in (signal.SIGTERM, signal.SIGINT):
        signal.signal(number, signal.default_int_handler)
    try:
        asyncio.run(serve(server, plan, int(known["--port"]), is_alone))
    except KeyboardInterrupt:
        pass
    finally:
        if known["--log"]:
            write_log(server, known["--log"])
