"""Webhooks for tests, each on a free port: one that may refuse its first requests and notes what comes, and raw ones
that hang, drip, hang up, or answer something else."""

import contextlib
import http.server
import itertools
import json
import socket
import threading


class Webhook:
    """A server in a thread of its own; `refuses` so many requests are answered with status 503, and `drops` so many
    behind them are noted and not answered."""

    def __init__(self, refuses=0, drops=0):
        self.refuses, self.drops = refuses, drops
        self.refused, self.taken = [], []  # each with its headers and body
        outer = self

        class Handler(http.server.BaseHTTPRequestHandler):
            def do_POST(self):
                body = self.rfile.read(int(self.headers["Content-Length"]))
                if len(outer.refused) < outer.refuses:
                    outer.refused.append((self.headers, body))
                    self.send_response(503)
                else:
                    outer.taken.append((self.headers, body))
                    if outer.drops:
                        outer.drops -= 1
                        self.close_connection = True
                        return
                    self.send_response(204)
                self.end_headers()

            def log_message(self, *_):
                pass

        self.server = http.server.ThreadingHTTPServer(("127.0.0.1", 0), Handler)
        self.thread = threading.Thread(target=self.server.serve_forever, daemon=True)
        self.thread.start()

    @property
    def url(self):
        return f"http://127.0.0.1:{self.server.server_address[1]}/hook?a=1"

    def taken_values(self):
        """What was taken, as JSON."""
        return [json.loads(body) for _, body in self.taken]

    def close(self):
        self.server.shutdown()
        self.server.server_close()
        self.thread.join()


class Receiver:
    """A raw receiver in a thread of its own, that does with each connection what `serve` does: it gets the socket."""

    def __init__(self, serve):
        self.listening = socket.create_server(("127.0.0.1", 0))
        self.serve, self.connections, self.is_over = serve, [], threading.Event()
        self.thread = threading.Thread(target=self.accept, daemon=True)
        self.thread.start()

    @property
    def port(self):
        return self.listening.getsockname()[1]

    def url(self, scheme="http"):
        return f"{scheme}://127.0.0.1:{self.port}/"

    def accept(self):
        while True:
            try:
                connection, _ = self.listening.accept()
            except OSError:
                return
            self.connections.append(connection)
            threading.Thread(target=self.served, args=(connection,), daemon=True).start()

    def served(self, connection):
        with contextlib.suppress(OSError):
            self.serve(self, connection)

    def close(self):
        self.is_over.set()
        with contextlib.suppress(OSError):
            self.listening.shutdown(socket.SHUT_RDWR)
        self.listening.close()
        for connection in self.connections:
            connection.close()
        self.thread.join()


def request_of(connection):
    """The request that a connection has, whole."""
    data = b""
    while b"\r\n\r\n" not in data:
        data += connection.recv(1 << 16)
    head, _, body = data.partition(b"\r\n\r\n")
    length = sum(int(line.split(b":")[1]) for line in head.split(b"\r\n") if line.lower().startswith(b"content-length"))
    while len(body) < length:
        body += connection.recv(1 << 16)
    return head, body


def hangs(receiver, connection):
    """It reads nothing and answers nothing."""
    receiver.is_over.wait()


def is_silent(receiver, connection):
    """It takes a request, and answers nothing."""
    request_of(connection)
    receiver.is_over.wait()


def drips(receiver, connection, begin=b"HTTP/1.1 200 OK\r\nX-Slow: "):
    """An answer that comes byte by byte, and never comes to the end of its headers."""
    request_of(connection)
    for place in itertools.count():
        connection.sendall(begin[place:place + 1] or b"x")
        if receiver.is_over.wait(0.02):
            return


def continues(receiver, connection):
    """An answer that announces another one again and again."""
    request_of(connection)
    while not receiver.is_over.wait(0.02):
        connection.sendall(b"HTTP/1.1 100 Continue\r\n\r\n")


def drips_body(receiver, connection):
    """A whole head of an answer, and a body that comes byte by byte."""
    request_of(connection)
    connection.sendall(b"HTTP/1.1 200 OK\r\nContent-Length: 1000000\r\n\r\n")
    while not receiver.is_over.wait(0.02):
        connection.sendall(b"x")


def loses(receiver, connection):
    """It takes a request, and hangs up."""
    request_of(connection)
    connection.close()


def talks(receiver, connection):
    """It answers with what is no HTTP."""
    request_of(connection)
    connection.sendall(b"220 mail.example ESMTP\r\n")
    connection.close()


def answers(status, more=b""):
    """It answers with a status, and no body."""
    def serve(receiver, connection):
        request_of(connection)
        connection.sendall(b"HTTP/1.1 %d Word\r\nContent-Length: 0\r\n%s\r\n" % (status, more))
        connection.close()
    return serve
