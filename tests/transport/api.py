"""A small HTTP server that answers as the path says: well, slowly, too much, or not at all."""
import json
import ssl
import threading
import time
from http.server import BaseHTTPRequestHandler, ThreadingHTTPServer

DATE, MOST = "Sat, 28 Nov 2026 02:00:00 GMT", 8 << 20
EVENT = b'{"type":"BOOKMARK","object":{"n":1e400}}\n'


class Answers(BaseHTTPRequestHandler):
    protocol_version = "HTTP/1.1"

    def handle_one(self):
        size = int(self.headers.get("Content-Length") or 0)
        body = self.rfile.read(size) if size else b""
        name = self.path.strip("/").partition("?")[0].replace("-", "_")
        with self.server.lock:
            self.server.seen.append((self.path, self.command, self.headers, body))
        getattr(self, name)()

    do_GET = do_POST = do_PATCH = do_DELETE = handle_one

    def log_message(self, *_):
        pass

    def head(self, status=200, date=DATE, **more):
        self.send_response_only(status)
        if date:
            self.send_header("Date", date)
        for name, value in more.items():
            self.send_header(name.replace("_", "-"), value)
        self.end_headers()

    def say(self, body=b'{"kind":"List"}', status=200, date=DATE, **more):
        self.head(status, date, Content_Length=str(len(body)), **more)
        self.wfile.write(body)

    def chunk(self, data):
        self.wfile.write(b"%x\r\n%s\r\n" % (len(data), data))
        self.wfile.flush()

    # ---- answers

    def well(self):
        self.say()

    def long(self):
        """An answer of several lines, with numbers that no program may change."""
        self.say(b'{\n "a": 1.10,\n "b": 1e400\n}\n')

    def dateless(self):
        self.say(date=None)

    def badly_dated(self):
        self.say(date="soon")

    def elsewhere(self):
        self.say(date="Sat, 28 Nov 2026 03:00:00 +0100")

    def refused(self):
        self.say(json.dumps({"kind": "Status", "code": 409}).encode(), 409)

    def later(self):
        self.say(b"{}", 429, Retry_After="0")

    def moved(self):
        self.say(b"{}", 307, Location="/well")

    def no_json(self):
        self.say(b"<html>")

    def bare(self):
        self.say(b'{"n":NaN}')

    def short(self):
        self.head(Content_Length="100", Connection="close")
        self.wfile.write(b'{"a":1}')
        self.close_connection = True

    def gone(self):
        self.close_connection = True

    def slow(self):
        time.sleep(2.5)
        self.say()

    def full(self):
        self.say(b'"' + b"a" * (MOST - 2) + b'"')

    def large(self):
        self.head(Transfer_Encoding="chunked")
        try:
            for _ in range(64 << 4):
                self.chunk(b"a" * (1 << 16))
                self.server.sent += 1 << 16
        except OSError:
            self.close_connection = True

    def large_refusal(self):
        self.say(b'"' + b"a" * MOST + b'"', 500)

    # ---- watches

    def silent(self):
        self.head(Transfer_Encoding="chunked")
        self.chunk(EVENT[:9])
        self.chunk(EVENT[9:] + EVENT)
        self.server.ended.wait(20)

    def late(self):
        self.head(Transfer_Encoding="chunked")
        time.sleep(1.3)
        self.chunk(EVENT)
        self.chunk(b"")

    def lively(self):
        """Says something each second, for longer than a silent one may last."""
        self.head(Transfer_Encoding="chunked")
        for _ in range(4):
            time.sleep(1)
            self.chunk(EVENT)
        self.chunk(b"")

    def too_large(self):
        self.head(Transfer_Encoding="chunked")
        try:
            for _ in range(200):
                self.chunk(b"a" * (1 << 16))
        except OSError:
            self.close_connection = True

    def expired(self):
        self.say(json.dumps({"kind": "Status", "code": 410}).encode(), 410)


class Api(ThreadingHTTPServer):
    daemon_threads = True
    request_queue_size = 100

    def __init__(self, certificate=None):
        super().__init__(("127.0.0.1", 0), Answers)
        self.seen, self.lock, self.sent, self.ended = [], threading.Lock(), 0, threading.Event()
        self.url = f"http://127.0.0.1:{self.server_port}"
        if certificate:
            context = ssl.SSLContext(ssl.PROTOCOL_TLS_SERVER)
            context.load_cert_chain(certificate)
            self.socket = context.wrap_socket(self.socket, server_side=True)
            self.url = self.url.replace("http:", "https:")
        threading.Thread(target=self.serve_forever, daemon=True).start()

    def handle_error(self, *_):
        pass

    def times(self, path):
        with self.lock:
            return sum(it[0] == path for it in self.seen)
