"""The live page: the page of the plan as it is now, which a browser then keeps up to date by the desk's events.

A process of its own makes it from a copy of the plan, so that other callers don't wait."""

import asyncio
import contextlib
import datetime
import os
import sys
import time
from collections.abc import Mapping
from typing import NamedTuple, TYPE_CHECKING

from aiohttp import web

from opcplan.desk import guard, live_parts, rows, snapshot
from opcplan.desk.held_files import FileReplaced
from opcplan.desk.turns import Turns
from opcplan.errors import Unreadable
from opcplan.plans import tempfiles
from opcplan.plans.program import PYTHON
from opcplan.rules import moments, statements
from opcplan.webpage import page_html

if TYPE_CHECKING:
    from opcplan.desk.core import Desk

PROCESS = [sys.executable, "-E", "-B", "-m", "opcplan.desk.page_process"]
# by statement on a status: the statuses that it accepts, whether it changes nothing else, whether it can't be undone,
# and what a page says of a row once it is done
ACTS = {act.word: {"from": act.before, "alone": not act.may_change_pairs, "final": act.is_final, "done": act.done}
        for act in statements.ACTS.values()}
REPLY = f"^{statements.CHANGED}$"
# seconds for which a page is sent again while the plan doesn't change: the days that it shows go by the clock
LONGEST = 600
LONGEST_MAKING = 120


class Page:
    """The page of a desk's plan."""

    def __init__(self, desk: "Desk", path: str, has_tokens: bool) -> None:
        self.desk, self.path, self.has_tokens = desk, path, has_tokens
        self.making = Turns(lambda: False)  # whoever waited for fewer pages goes first
        self.made: CachedPage | None = None

    async def sign_in(self, request: web.Request) -> web.StreamResponse:
        """GET / from a caller who may not read: without a token the answer is the page that asks for one."""
        if not self.has_tokens or request["who"] != guard.NOBODY:
            guard.needed(request, guard.READ, "read")
        return answer(live_parts.sign_in().encode(), "text/html",
                      live_parts.policy(live_parts.SIGN_STYLES, live_parts.SIGN_SCRIPTS))

    async def whole(self, request: web.Request) -> web.StreamResponse:
        """GET /: the page."""
        made = await self.page(request["who"], moment_asked(request), await self.least(request))
        parts = made.parts
        text = b"".join([parts.begin, parts.data, END_OF_DATA, self.own(request, made), parts.end])
        return answer(text, "text/html", live_parts.policy(live_parts.STYLES, live_parts.SCRIPTS), made.heads())

    async def data(self, request: web.Request) -> web.StreamResponse:
        """GET /page/data: the plan of the page alone, at or after the position that `since` names."""
        since = request.query.get("since", "0")
        if not since.isascii() or not since.isdigit() or len(since) > 15:
            raise web.HTTPBadRequest(text="`since` must be the number of an entry\n")
        made = await self.page(request["who"], moment_asked(request), max(int(since), await self.least(request)))
        text = b"".join([b'{"plan":', made.parts.data, b',"desk":', self.own(request, made), b"}"])
        return answer(text, "application/json", None, made.heads())

    async def least(self, request: web.Request) -> int:
        """The last entry of the log if the request has `fresh=1` or `fresh=2`, else 0. Raises HTTPBadRequest."""
        try:
            fresh = rows.freshness(request.query)
            return await self.desk.catch_up(fresh == 2) if fresh else 0
        except rows.InvalidSelection as why:
            raise web.HTTPBadRequest(text=f"{why}\n") from None

    def own(self, request: web.Request, made: "CachedPage") -> bytes:
        """The data of the page besides the plan, as JSON: the caller, the caller's role, and the state that is
        shown."""
        return page_html.data_text({
            "who": request["who"], "role": guard.role_name(request["role"]), "tag": made.tag,
            "position": made.position, "clock": minutes_now(), "zone": round(minutes_now() - time.time() / 60),
            "stands": made.parts.stands == b"1",
            "signs": self.has_tokens and guard.cookie_of(self.path) in request.cookies,
            "acts": ACTS, "reply": REPLY,
        }).encode()

    async def page(self, who: str, now: int | None, since: int = 0) -> "CachedPage":
        """The page of the plan as it is now, for a caller, perhaps made earlier if nothing has changed since."""
        begun = time.monotonic()
        async with self.making.turn(who):
            made = self.made
            if made is None or made.now != now or not self.is_fresh(made, begun, since):
                self.made = made = await self.make(who, now)
        return made

    def is_fresh(self, made: "CachedPage", begun: float, since: int) -> bool:
        """Whether a page is new enough for a request at the time `begun`, and has the entry `since`."""
        if made.begun >= begun:
            return True
        is_last = made.position >= since if since else made.tag == self.desk.tag()
        return is_last and made.begun > begun - LONGEST

    async def make(self, who: str, now: int | None) -> "CachedPage":
        """Makes the page for a caller from a copy of the plan. Raises HTTPServiceUnavailable."""
        with tempfiles.folder("desk-") as folder:
            copy, begun = os.path.join(folder, "plan.db"), time.monotonic()
            try:
                stands = await snapshot.copied(self.desk, self.path, copy, who)
            except (OSError, Unreadable, FileReplaced) as error:
                raise web.HTTPServiceUnavailable(text=f"the desk can't copy the plan: {error}\n") from None
            name = os.path.basename(os.path.realpath(self.path))
            parts = await parts_of(copy, name, "-" if now is None else str(now))
        return CachedPage(now, begun, stands.position, stands.tag, parts)


class PageParts(NamedTuple):
    """The output of the process: b"1" if the page keeps its moment, else b"0"; the page up to the plan's data; the
    data; the rest of the page."""

    stands: bytes
    begin: bytes
    data: bytes
    end: bytes


class CachedPage(NamedTuple):
    """A page: the moment that it shows (None: the clock's), when its making began by the monotonic clock, and the state
    of the plan."""

    now: int | None
    begun: float
    position: int
    tag: str
    parts: PageParts

    def heads(self) -> dict[str, str]:
        """The headers that name the state."""
        return {"ETag": f'"{self.tag}"', "X-Opcplan-Position": str(self.position)}


END_OF_DATA = b'</script>\n<script type="application/json" id="desk">'


async def parts_of(copy: str, name: str, now: str) -> PageParts:
    """The output of the process for a copy of the plan. Raises HTTPServiceUnavailable."""
    process = await asyncio.create_subprocess_exec(
        *PROCESS, copy, name, now, cwd=PYTHON, stdin=asyncio.subprocess.DEVNULL, stdout=asyncio.subprocess.PIPE,
        stderr=asyncio.subprocess.PIPE)
    try:
        out, said = await asyncio.wait_for(process.communicate(), LONGEST_MAKING)
    except asyncio.TimeoutError:
        raise web.HTTPServiceUnavailable(text="making the page took too long; try again\n") from None
    finally:
        with contextlib.suppress(ProcessLookupError):
            if process.returncode is None:
                process.kill()
    if process.returncode:
        message = said.decode("utf-8", "replace").strip().split("\n")[-1]
        raise web.HTTPServiceUnavailable(text=f"the desk can't make the page: {message}\n")
    return PageParts(*out.split(b"\0"))


def moment_asked(request: web.Request) -> int | None:
    """The moment that a request names with `now`, or None for the clock. Raises HTTPBadRequest."""
    text = request.query.get("now")
    if text is None:
        return None
    found = moments.typed_moment(text)
    if found is None:
        raise web.HTTPBadRequest(text="`now` must be a moment like 2026-11-25/06.00\n")
    return found


def minutes_now() -> float:
    """The local time in minutes since 1970, with fractions."""
    return (datetime.datetime.now() - moments.EPOCH).total_seconds() / 60


def answer(body: bytes, kind: str, allowed: str | None, heads: Mapping[str, str] | None = None) -> web.Response:
    """An answer for a browser, with a Content-Security-Policy if `allowed` has one."""
    found = {"Cache-Control": "no-store", "X-Content-Type-Options": "nosniff", "Referrer-Policy": "no-referrer",
             "Cross-Origin-Resource-Policy": "same-origin", **(heads or {})}
    if allowed:
        found |= {"Content-Security-Policy": allowed, "X-Frame-Options": "DENY",
                  "Cross-Origin-Opener-Policy": "same-origin"}
    return web.Response(body=body, content_type=kind, charset="utf-8", headers=found)
