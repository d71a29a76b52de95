"""The connections of a desk: how many there may be, and how long a caller may take to authenticate.

A connection is known once one of its requests came from a caller who may read the plan. An unknown one has ten seconds,
and if there are too many, the oldest are closed. So nobody keeps others out by opening connections and sending
nothing."""

import asyncio
import collections
import contextlib
import logging
import resource
import sys
import time
from collections.abc import Callable, Mapping
from typing import Any, IO

from aiohttp import http_exceptions, web
from aiohttp.abc import AbstractStreamWriter

# the most connections at once; and the most whose callers haven't authenticated
MOST, MOST_UNKNOWN = 4000, 200
# descriptors for the journal, the plan, opcplan, files of rows, and connections that are being closed
RESERVE = 300
# seconds for a caller to authenticate; seconds for a body, and the bytes for which it gets one second more
HEADER, BODY, BYTES_A_SECOND = 10.0, 30.0, 50_000
# seconds between two lines about the same trouble
QUIET = 60.0


def most_open() -> int:
    """How many connections the descriptors of this process allow; raises their limit as far as needed."""
    soft, hard = resource.getrlimit(resource.RLIMIT_NOFILE)
    wanted = MOST + RESERVE if hard == resource.RLIM_INFINITY else min(hard, MOST + RESERVE)
    if soft != resource.RLIM_INFINITY and soft < wanted:
        resource.setrlimit(resource.RLIMIT_NOFILE, (wanted, hard))
        soft = wanted
    return MOST if soft == resource.RLIM_INFINITY else max(16, min(MOST, soft - RESERVE))


class Connections:
    """All open connections, the unknown ones in the order in which they came."""

    def __init__(self) -> None:
        self.most = most_open()
        self.unknown: collections.OrderedDict[asyncio.Transport, float] = collections.OrderedDict()
        self.known: set[asyncio.Transport] = set()
        self.most_unknown = max(8, min(MOST_UNKNOWN, self.most // 2))
        self.task: asyncio.Task[None] | None = None
        self.said: dict[str, float] = {}

    def begin(self, transport: asyncio.Transport) -> None:
        """Notes a new connection; closes the oldest unknown ones if there are too many."""
        self.unknown[transport] = time.monotonic()
        while len(self.unknown) > self.most_unknown or self.unknown and len(self.unknown) + len(self.known) > self.most:
            oldest, _ = self.unknown.popitem(last=False)
            oldest.abort()
            self.say("connections", "too many connections have no authenticated caller; the desk closes the oldest")

    def know(self, transport: asyncio.Transport) -> None:
        """Notes that a connection's caller may read the plan."""
        if self.unknown.pop(transport, None) is not None:
            self.known.add(transport)

    def end(self, transport: asyncio.Transport | None) -> None:
        """Notes that a connection is closed."""
        if transport is not None:
            self.unknown.pop(transport, None)
            self.known.discard(transport)

    def start(self, server: web.Server, meet: Callable[[asyncio.BaseTransport], None]) -> None:
        """Follows all connections of a server from now on; calls `meet` for each new one."""
        begin, end = server.connection_made, server.connection_lost
        known_as: dict[object, asyncio.Transport] = {}

        def connection_made(handler: Any, transport: asyncio.Transport) -> None:
            """Notes a new connection, and has aiohttp serve it."""
            known_as[handler] = transport
            meet(transport)
            self.begin(transport)
            begin(handler, transport)

        def connection_lost(handler: Any, error: BaseException | None = None) -> None:
            """Notes that a connection is closed, and passes that on to aiohttp."""
            self.end(known_as.pop(handler, None))
            end(handler, error)

        for name, how in (("connection_made", connection_made), ("connection_lost", connection_lost)):
            setattr(server, name, how)  # aiohttp has no other way to see them
        asyncio.get_running_loop().set_exception_handler(self.on_fault)
        logging.getLogger("aiohttp.server").addFilter(is_defect)
        self.task = asyncio.create_task(self.watch())

    def close(self) -> None:
        """Stops closing connections."""
        if self.task is not None:
            self.task.cancel()

    async def watch(self) -> None:
        """Closes connections whose callers take too long to authenticate."""
        while True:
            await asyncio.sleep(HEADER / 10)
            late = time.monotonic() - HEADER
            for transport in [one for one, begun in self.unknown.items() if begun < late]:
                del self.unknown[transport]
                transport.abort()

    def on_fault(self, loop: asyncio.AbstractEventLoop, context: dict[str, Any]) -> None:
        """Handles an error outside all requests; a lack of descriptors is printed once a minute."""
        if "accept" in context.get("message", ""):
            self.say("descriptors", f"the desk can't accept connections for now: {context.get('exception')}")
        elif not isinstance(context.get("exception"), ConnectionError):
            loop.default_exception_handler(context)

    def say(self, about: str, text: str) -> None:
        """Prints a line on standard error, at most one a minute about one thing."""
        if time.monotonic() >= self.said.get(about, 0.0):
            self.said[about] = time.monotonic() + QUIET
            with contextlib.suppress(OSError):
                print(f"desk: {text}", file=sys.stderr, flush=True)


def is_defect(record: logging.LogRecord) -> bool:
    """Whether aiohttp reports a defect, and not a caller who hangs up, speaks no HTTP, or sends a body that isn't what
    its headers say."""
    error = record.exc_info[1] if record.exc_info else None
    return not isinstance(error, (http_exceptions.HttpProcessingError, ConnectionError, asyncio.TimeoutError,
                                  web.RequestPayloadError))


async def body_of(request: web.Request, most: int) -> bytes:
    """The body of a request, at most `most` bytes. Raises HTTPRequestEntityTooLarge, HTTPBadRequest if it can't be
    decoded, and HTTPRequestTimeout if it takes too long."""
    length = request.content_length
    if length is not None and length > most:
        raise web.HTTPRequestEntityTooLarge(max_size=most, actual_size=length)
    if request.content.is_eof():  # it has come whole
        return await request.read()
    patience = BODY + (most if length is None else length) / BYTES_A_SECOND
    try:
        async with asyncio.timeout(patience):  # no task of its own: what has come is read even if the caller hung up
            return await request.read()
    except TimeoutError:
        raise web.HTTPRequestTimeout(text="the body didn't arrive in time; nothing was done\n") from None
    except web.RequestPayloadError as why:
        if "exceeds" in str(why):  # what is compressed, and larger than any body may be
            raise web.HTTPRequestEntityTooLarge(max_size=most, actual_size=most + 1) from None
        raise web.HTTPBadRequest(text="the body isn't what `Content-Encoding` and `Transfer-Encoding` say; nothing was "
                                 "done\n") from None


class WholeResponse(web.Response):
    """An answer whose headers and body are sent together: each call of the system costs as much as a statement's
    parse."""

    async def prepare(self, request: web.BaseRequest) -> AbstractStreamWriter | None:
        """Sends all of it."""
        transport, pieces = request.transport, list[bytes]()
        if transport is None:
            return await super().prepare(request)
        setattr(transport, "write", pieces.append)  # aiohttp has no other way
        try:
            writer = await super().prepare(request)
            await self.write_eof()
        finally:
            delattr(transport, "write")
        transport.write(b"".join(pieces))
        return writer


async def sent_file(request: web.Request, heads: Mapping[str, str], file: IO[bytes], size: int) -> web.StreamResponse:
    """Sends `size` bytes of a file, which others may read too. The system copies them, so no other caller waits. A
    caller who reads too slowly is cut off."""
    response = web.StreamResponse(headers=heads)
    response.content_length = size
    await response.prepare(request)
    transport = request.transport
    if transport is None or transport.is_closing():
        raise ConnectionResetError("the caller hung up")
    try:
        async with asyncio.timeout(BODY + size / BYTES_A_SECOND):
            await asyncio.get_running_loop().sendfile(transport, file, 0, size)
    except (TimeoutError, RuntimeError):  # RuntimeError: the connection ended meanwhile
        transport.abort()
        return response
    await response.write_eof()
    return response
