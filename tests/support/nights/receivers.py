"""Who is called, and fails: each kind of receiver listens on a free port, and notes what comes to it and when."""

import json
import socketserver
import threading
import time
from typing import NamedTuple

HANG = 60.0  # longer than any deadline


class Came(NamedTuple):
    """A call that came to a receiver, and when it came by the steady clock."""

    values: dict
    at: float


class Receiver:
    """A receiver of a kind of KINDS, whose first `fails` calls fail; later ones are answered with status 204."""

    def __init__(self, kind, fails=10 ** 9):
        self.kind, self.fails, self.came, self.is_over = KINDS[kind], fails, [], threading.Event()
        outer = self

        class Handler(socketserver.StreamRequestHandler):
            def handle(self):
                outer.handle(self.rfile, self.wfile)

        class Server(socketserver.ThreadingTCPServer):
            daemon_threads = True

            def handle_error(self, *_):  # the caller hung up
                pass

        self.server = Server(("127.0.0.1", 0), Handler)
        self.thread = threading.Thread(target=self.server.serve_forever, daemon=True)
        self.thread.start()

    @property
    def url(self):
        """Its address."""
        return f"http://127.0.0.1:{self.server.server_address[1]}/hook"

    def handle(self, rfile, wfile):
        """Takes a request, and answers it as its kind does."""
        size = 0
        while (line := rfile.readline().strip()):
            name, _, value = line.partition(b":")
            size = int(value) if name.lower() == b"content-length" else size
        self.came.append(Came(json.loads(rfile.read(size)), time.monotonic()))
        is_bad = len(self.came) <= self.fails
        (self.kind if is_bad else good)(self, wfile)

    def ids(self):
        """The ids of the calls that came, in their order."""
        return [one.values["id"] for one in self.came]

    def close(self):
        """Ends it."""
        self.is_over.set()
        self.server.shutdown()
        self.server.server_close()


def good(_, wfile):
    """Takes the call."""
    wfile.write(b"HTTP/1.1 204 No Content\r\nConnection: close\r\n\r\n")


def hangs(receiver, _):
    """Answers nothing."""
    receiver.is_over.wait(HANG)


def drips(receiver, wfile):
    """Begins an answer, and goes on with a byte every tenth of a second."""
    for byte in b"HTTP/1.1 204 No Content\r\n" + b"X: " + b"y" * 10_000:
        wfile.write(bytes([byte]))
        wfile.flush()
        if receiver.is_over.wait(0.1):
            return


def redirects(_, wfile):
    """Names another place, where nobody is."""
    wfile.write(b"HTTP/1.1 307 Temporary Redirect\r\nLocation: http://127.0.0.1:1/\r\nContent-Length: 0\r\n\r\n")


def fails(_, wfile):
    """Answers with status 500."""
    wfile.write(b"HTTP/1.1 500 Internal Server Error\r\nContent-Length: 0\r\n\r\n")


def loses(_, wfile):
    """Takes the call, and closes the connection without an answer."""


KINDS = {"hangs": hangs, "drips": drips, "redirects": redirects, "answers 500": fails, "loses its answer": loses}
