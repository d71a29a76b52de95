"""A client of a desk: an address or a socket, a token, and streams that are sent again under one key until they are
answered, so that nothing is done twice."""

import contextlib
import email.message
import http.client
import json
import os
import random
import re
import shutil
import socket
import time
import urllib.parse
from collections.abc import Iterator, Mapping
from typing import IO, NamedTuple

from opcplan.errors import Error, UsageError

# seconds to wait for an answer; and if there are several desks
PATIENCE, PATIENCE_OF_MANY = 300, 30
SHORTEST_REST, LONGEST_REST = 0.05, 2.0
BETWEEN = re.compile(r",(?=https?://|/)")
Heads = Mapping[str, str]
NO_HEADS: Heads = {}


class InvalidAddress(UsageError):
    """Why a text doesn't name a desk."""


class DeskUnreachable(Error):
    """Why no complete answer came. `may_be_done` says whether the stream may have been done all the same."""

    def __init__(self, text: str, may_be_done: bool) -> None:
        super().__init__(text)
        self.may_be_done = may_be_done


class RequestRefused(Error):
    """Why a desk refused a request, in its words, with HTTP's status. Nothing was done."""

    def __init__(self, status: int, text: str) -> None:
        super().__init__(text)
        self.status = status


class Place(NamedTuple):
    """Where a desk is reached: the path of a socket; or for http or https a host, and perhaps a port."""

    scheme: str
    name: str
    port: int | None = None

    def connection(self, patience: float) -> http.client.HTTPConnection:
        """A connection, not opened yet, with a timeout in seconds."""
        if self.scheme == "socket":
            return BySocket(self.name, patience)
        if self.scheme == "https":
            return http.client.HTTPSConnection(self.name, self.port, timeout=patience)
        return http.client.HTTPConnection(self.name, self.port, timeout=patience)


class BySocket(http.client.HTTPConnection):
    """A connection to a Unix socket."""

    def __init__(self, path: str, patience: float) -> None:
        super().__init__("localhost", timeout=patience)
        self.path = path

    def connect(self) -> None:
        """Opens it. Raises OSError."""
        self.sock = socket.socket(socket.AF_UNIX, socket.SOCK_STREAM)
        self.sock.settimeout(self.timeout)
        self.sock.connect(self.path)


def place_of(name: str) -> Place:
    """The Place of a desk's name. Raises InvalidAddress."""
    if "/" in name and "://" not in name:
        return Place("socket", name)
    found = urllib.parse.urlsplit(name if "://" in name else f"http://{name}")
    with contextlib.suppress(ValueError):
        is_plain = found.path in ("", "/") and not found.query and re.fullmatch("[!-~]+", name)
        if found.scheme in ("http", "https") and found.hostname and is_plain:
            return Place(found.scheme, found.hostname, found.port)
    raise InvalidAddress(f"{name!r} doesn't name a desk; write http://HOST:PORT, or the path of its socket")


class Client:
    """Sends requests to a desk: `http://HOST:PORT`, `https://NAME`, `HOST:PORT`, or the path of a socket. Of several
    desks of one log, with commas between them, it uses the next one when one fails. Raises InvalidAddress."""

    def __init__(self, name: str, token: str | None = None) -> None:
        self.name, self.token = name, token
        self.places, self.turn = [place_of(one) for one in BETWEEN.split(name)], 0

    def connection(self) -> http.client.HTTPConnection:
        """A connection to the current desk, not opened yet."""
        patience = PATIENCE if len(self.places) == 1 else PATIENCE_OF_MANY
        return self.places[self.turn % len(self.places)].connection(patience)

    def go_over(self) -> None:
        """Goes over to the next desk, if there are several."""
        self.turn += 1

    def request(
        self, method: str, path: str, body: bytes | None = None, heads: Heads = NO_HEADS
    ) -> tuple[email.message.Message, bytes]:
        """Headers and body of an answer. Of several desks the first that answers gives it, beginning with the one that
        did last. A request that changes something needs a key. Raises DeskUnreachable and RequestRefused."""
        for left in reversed(range(len(self.places))):
            try:
                return self.asked(method, path, body, heads)
            except (DeskUnreachable, RequestRefused) as why:
                if isinstance(why, RequestRefused) and why.status != 503:
                    raise
                self.go_over()
                if not left:
                    raise
        raise AssertionError("a client has a desk")

    def asked(
        self, method: str, path: str, body: bytes | None = None, heads: Heads = NO_HEADS
    ) -> tuple[email.message.Message, bytes]:
        """Headers and body of the answer of one desk. Raises DeskUnreachable and RequestRefused."""
        with self.answer(method, path, body, heads) as answer:
            return answer.headers, answer.read()

    def download(self, path: str, file: IO[bytes]) -> email.message.Message:
        """Writes the body of an answer into a file; its headers. Raises DeskUnreachable and RequestRefused."""
        with self.answer("GET", path) as answer:
            shutil.copyfileobj(answer, file)
            if answer.length:
                raise http.client.IncompleteRead(b"", answer.length)
            return answer.headers

    @contextlib.contextmanager
    def answer(
        self, method: str, path: str, body: bytes | None = None, heads: Heads = NO_HEADS
    ) -> Iterator[http.client.HTTPResponse]:
        """A context with an answer whose body isn't read yet. Raises DeskUnreachable and RequestRefused."""
        given = {"X-Opcplan": "desk", **heads}
        if self.token:
            given["Authorization"] = f"Bearer {self.token}"
        with contextlib.closing(self.connection()) as connection:
            try:
                connection.connect()
            except OSError as error:
                raise DeskUnreachable(f"{self.name}: no desk answers there: {error.strerror or error}", False) from None
            try:
                connection.request(method, path, body, given)
                answer = connection.getresponse()
                if answer.status >= 400:
                    raise RequestRefused(answer.status,
                                         answer.read().decode("utf-8", "replace").strip() or answer.reason)
                yield answer
            except (OSError, http.client.HTTPException) as error:
                raise DeskUnreachable(f"{self.name}: the answer broke off: {error}", True) from None

    def statements(self, text: bytes, key: str, until: float, heads: Heads = NO_HEADS) -> bytes:
        """The answer to a stream. While the desk is away, it is sent again, up to `until` on the monotonic clock.
        Raises DeskUnreachable and RequestRefused."""
        rest, may_be_done = SHORTEST_REST, False
        heads = {"Idempotency-Key": key, "Content-Type": "text/plain", **heads}
        while True:
            for _ in self.places:
                try:
                    found = self.asked("POST", "/statements", text, heads)[1]
                    if fault := fault_of(found):
                        raise DeskUnreachable(f"{self.name}: its answer ends with `{fault}`", True)
                    return found
                except DeskUnreachable as why:
                    may_be_done = may_be_done or why.may_be_done
                    last = DeskUnreachable(str(why), may_be_done)
                except RequestRefused as why:
                    if why.status != 503:
                        raise
                    may_be_done = True
                    last = DeskUnreachable(f"{self.name}: {why}", True)
                self.go_over()
            if time.monotonic() + rest > until:
                raise last
            time.sleep(random.uniform(rest / 2, rest))
            rest = min(2 * rest, LONGEST_REST)


def fault_of(answer: bytes) -> str:
    """The fault on the last line of an answer to a stream, in either form; empty if there is none. Each statement of an
    answer with a fault may be done, and has no reply that counts."""
    last = answer.rstrip(b"\n").rpartition(b"\n")[2].decode("utf-8", "replace")
    with contextlib.suppress(ValueError, AttributeError):
        last = str(json.loads(last).get("reply"))
    return last if last.startswith("fault") else ""


def usual() -> str | None:
    """The desk that OPCPLAN_DESK names, or None."""
    return os.environ.get("OPCPLAN_DESK") or None


def token() -> str | None:
    """The token in the file that OPCPLAN_TOKEN_FILE names, or in OPCPLAN_TOKEN, or None. Raises OSError."""
    if path := os.environ.get("OPCPLAN_TOKEN_FILE"):
        with open(path, encoding="utf-8") as file:
            return file.read().strip()
    return os.environ.get("OPCPLAN_TOKEN") or None
