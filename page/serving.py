"""The server of the page: on 127.0.0.1 alone, for the pages that it served itself, with bounds on what it takes."""
from __future__ import annotations

import http.server
import json
import socket
import sys
import threading
import urllib.parse
from pathlib import Path

from ladder.svg import style

import captures
import menu
import replays
from causes import Causes
from programs import Busy, Late

HERE = "127.0.0.1"
SHOWN = Path(__file__).resolve().parent / "shown"
KINDS = {".html": "text/html; charset=utf-8", ".css": "text/css; charset=utf-8", ".js": "text/javascript; charset=utf-8"}

# The longest body, above the longest script; the most connections at once, and the seconds that one may stand still.
MOST_BODY = 17 * 2**20
MOST_CONNECTIONS = 64
STILL_SECONDS = 20

HEADERS = {
    "Content-Security-Policy": "default-src 'none'; script-src 'self'; style-src 'self'; connect-src 'self'; img-src 'self' data:; "
    "base-uri 'none'; form-action 'none'; frame-ancestors 'none'",
    "Cross-Origin-Resource-Policy": "same-origin",
    "X-Content-Type-Options": "nosniff",
    "Referrer-Policy": "no-referrer",
    "Cache-Control": "no-store",
}


class Refused(Exception):
    """A request that isn't answered: its status, and why."""

    def __init__(self, status, why):
        super().__init__(why)
        self.status = status


class Server(http.server.ThreadingHTTPServer):
    """Serves the page over a program, with a script that stands there at first."""

    daemon_threads = True
    request_queue_size = 128

    def __init__(self, program, script=None, port=0):
        self._places = threading.BoundedSemaphore(MOST_CONNECTIONS)
        super().__init__((HERE, port), Handler)
        self.files = {"/" + ("" if file.name == "index.html" else file.name): (KINDS[file.suffix], file.read_bytes()) for file in SHOWN.iterdir()}
        self.files["/picture.css"] = (KINDS[".css"], style().encode())
        self.files["/examples"] = ("application/json", json.dumps(menu.examples()).encode())
        self.files["/script"] = ("text/plain; charset=utf-8", menu.first_script() if script is None else script)
        self.replays = replays.Replays(program, Causes())
        self.captures = captures.Captures(program)

    @property
    def address(self):
        """The origin of the page."""
        return f"http://{HERE}:{self.server_port}"

    def process_request(self, request, client_address):
        """Answers a connection in a thread, or waits until there is a place for it."""
        if not self._places.acquire(timeout=STILL_SECONDS):
            self.shutdown_request(request)
            return
        super().process_request(request, client_address)

    def process_request_thread(self, request, client_address):
        """Answers a connection, and then gives its place back."""
        try:
            super().process_request_thread(request, client_address)
        finally:
            self._places.release()

    def handle_error(self, request, client_address):
        """A connection that breaks off is no fault of the server."""
        if not isinstance(sys.exc_info()[1], (ConnectionError, socket.timeout)):
            super().handle_error(request, client_address)


class Handler(http.server.BaseHTTPRequestHandler):
    """Answers one request."""

    timeout = STILL_SECONDS
    server_version = "df1-page"
    sys_version = ""

    def do_GET(self):
        """One of the files, by its whole name."""
        self._answer(self._file)

    def do_POST(self):
        """What a script or a capture gives."""
        self._answer(self._told)

    def log_message(self, *_):
        """Nothing is logged."""

    def _answer(self, found):
        """Writes what is found, or why nothing is."""
        try:
            self._judge_origin()
            kind, body = found()
            status = 200
        except Refused as refused:
            status, kind, body = refused.status, "text/plain; charset=utf-8", f"{refused}\n".encode()
        self.send_response(status)
        for name, value in {"Content-Type": kind, "Content-Length": str(len(body)), **HEADERS}.items():
            self.send_header(name, value)
        self.end_headers()
        self.wfile.write(body)

    def _judge_origin(self):
        """Refuses what another page asks, and what reaches this machine by another name."""
        port = self.server.server_port
        hosts = [f"{HERE}:{port}", f"localhost:{port}"]
        origin = self.headers.get("Origin")
        is_own = origin is None or origin in [f"http://{host}" for host in hosts]
        if self.headers.get("Host") not in hosts or not is_own or self.headers.get("Sec-Fetch-Site") in ("cross-site", "same-site"):
            raise Refused(403, "this page is for itself alone")

    def _file(self):
        """The kind and the bytes of a file."""
        path = urllib.parse.urlsplit(self.path).path
        if path not in self.server.files:
            raise Refused(404, "there is no such page")
        return self.server.files[path]

    def _told(self):
        """What the program tells of the body, as JSON."""
        where = urllib.parse.urlsplit(self.path)
        if where.path not in ("/replay", "/dissect"):
            raise Refused(404, "there is no such page")
        body = self._body()
        words = dict(urllib.parse.parse_qsl(where.query))
        try:
            if where.path == "/replay":
                told = self.server.replays.told(body, words)
            else:
                told = self.server.captures.told(body, words)
        except ValueError as why:
            raise Refused(400, str(why)) from None
        except Busy:
            raise Refused(503, "too many programs run at once") from None
        except Late:
            raise Refused(503, "the program took too long, and was ended") from None
        except OSError as fault:
            raise Refused(500, f"df1 can't be run: {fault.strerror}") from None
        return "application/json", json.dumps(told).encode()

    def _body(self):
        """The body of the request."""
        length = self.headers.get("Content-Length", "")
        if not (length.isascii() and length.isdigit()):
            raise Refused(411, "how long the body is isn't said")
        if int(length) > MOST_BODY:
            raise Refused(413, f"the body is over {MOST_BODY} bytes")
        body = self.rfile.read(int(length))
        if len(body) < int(length):
            raise Refused(400, "the body is cut off")
        return body
