"""Server-sent events: each entry once it is answered, and the state of the plan after it."""

import asyncio
import contextlib
import json
from typing import TYPE_CHECKING

from aiohttp import web

from opcplan.desk import shares, turns
from opcplan.plans.entry import Entry

if TYPE_CHECKING:
    from opcplan.desk.core import Desk

# entries that are sent together first
PAGE = 32
# seconds without an event until the reader gets a comment, which shows that the desk is there
QUIET = 15
# the tag of no state: this desk lacks entries that the reader doesn't have, so the reader has to load all again
ANEW = "anew-0"


class Events:
    """The readers of a desk's events. Each has the number of the last entry that it got, and gets those after it."""

    def __init__(self, desk: "Desk") -> None:
        self.desk, self.is_closed = desk, False
        self.listeners: set[asyncio.Event] = set()

    def wake(self) -> None:
        """Wakes all readers to look for new entries."""
        for listener in self.listeners:
            listener.set()

    def close(self) -> None:
        """Ends all readers, once they have all entries."""
        self.is_closed = True
        self.wake()

    async def handle(self, request: web.Request) -> web.StreamResponse:
        """GET /events."""
        since = since_of(request)
        listener = asyncio.Event()
        self.listeners.add(listener)
        response = web.StreamResponse(headers={
            "Content-Type": "text/event-stream; charset=utf-8", "Cache-Control": "no-store",
            "X-Content-Type-Options": "nosniff", "X-Accel-Buffering": "no"})
        try:
            await response.prepare(request)
            with self.desk.work(request["who"]) as work:
                await self.follow(response, listener, since, work)
        except (ConnectionResetError, asyncio.CancelledError):
            pass  # the reader is gone
        finally:
            self.listeners.discard(listener)
        return response

    async def follow(self, response: web.StreamResponse, listener: asyncio.Event, since: int | None,
                     work: turns.Work) -> None:
        """Sends the entries after a position, and those that follow; and the state after each entry after which none
        waits."""
        last = self.desk.position if since is None else since
        if last < self.desk.log.begins:
            await response.write(self.state_text(ANEW))
        is_reported, count = False, PAGE
        while True:
            listener.clear()
            found = self.desk.after(last, count)
            data = b"".join(map(entry_text, found))
            work.is_long = len(found) == count  # there may be more, so the next ones need a turn
            took = work.pause()
            if found:
                last, is_reported = found[-1].seq, False
                count = shares.next_count(count, took) if work.is_long else PAGE
                await response.write(data)
            elif not is_reported:
                is_reported = True
                await response.write(self.state_text())
            elif self.is_closed:
                return
            else:
                await self.wait(response, listener)
            await work.resume()

    async def wait(self, response: web.StreamResponse, listener: asyncio.Event) -> None:
        """Waits for the next entry; after QUIET seconds sends a comment."""
        with contextlib.suppress(asyncio.TimeoutError):
            await asyncio.wait_for(listener.wait(), QUIET)
            return
        await response.write(b": the desk is there\n\n")

    def state_text(self, tag: str | None = None) -> bytes:
        """The event with the tag of the plan's state, or with this tag."""
        values = {"tag": tag or self.desk.tag(), "position": self.desk.position}
        return f"event: state\ndata: {json.dumps(values)}\n\n".encode()


def entry_text(one: Entry) -> bytes:
    """The event of an answered entry."""
    return f"id: {one.seq}\nevent: entry\ndata: {json.dumps(one.values())}\n\n".encode()


def since_of(request: web.Request) -> int | None:
    """The position after which a reader goes on, or None. Raises HTTPBadRequest."""
    text = request.headers.get("Last-Event-ID") or request.query.get("since")
    if text is None:
        return None
    if not text.isascii() or not text.isdigit() or len(text) > 15:
        raise web.HTTPBadRequest(text="`Last-Event-ID` or `since` must be the number of an entry\n")
    return int(text)
