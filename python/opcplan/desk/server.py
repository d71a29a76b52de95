"""The HTTP server of a desk."""

import asyncio
import contextlib
import json
import os
import re
import signal
import sys
import time
from collections.abc import Callable, Sequence
from operator import attrgetter
from typing import Any

from aiohttp import web

from opcplan.cli import signals, version
from opcplan.desk import acts, body, bootstrap, connections, core, edits, guard, job_tails, local_log, log_words
from opcplan.desk import openapi, page
from opcplan.desk import reports, requests, routes, rows, shares, snapshot, status, versions
from opcplan.desk.agents import Caller
from opcplan.desk.errors import StatementRejected
from opcplan.desk.guard import Handler
from opcplan.desk.held_files import HeldFiles
from opcplan.desk.listeners import DeskNotStarted, listeners_of
from opcplan.desk.log import Log
from opcplan.desk.planner import PlannerStopped
from opcplan.desk.requests import StreamItem
from opcplan.desk.settings import Settings
from opcplan.desk.turns import Work
from opcplan.errors import Error, LogUnwritable
from opcplan.plans import job_logs, journal, locks

MOST_BYTES = 32 << 20
# seconds in which streams in progress may end while the desk shuts down
LAST_SECONDS = 20
# the most bytes of a stream that need no turn
SHORT = 1 << 16
# entries of the first slice of a journal
PAGE = 32


class Server:
    """A desk, and its callers by HTTP."""

    def __init__(self, given: Settings, desk: core.Desk, the_guard: guard.Guard) -> None:
        self.given, self.desk, self.guard = given, desk, the_guard
        self.streams: set[asyncio.Task[None]] = set()
        self.connections = connections.Connections()
        self.acts = acts.Acts(desk, given.plan, given.journal, self.keep)
        self.edits = edits.Edits(self.acts)
        self.page = page.Page(desk, given.plan, the_guard.tokens is not None)
        self.status = status.Status(desk, given.plan, given.journal, given.by_usual)
        self.tails = job_tails.JobTails(desk, job_logs.beside(given.plan), given.job_logs << 20)

    def application(self) -> web.Application:
        """The application of aiohttp, by the table of routes."""
        app = web.Application(middlewares=[self.guard.middleware, self.met, errors_as_text], client_max_size=MOST_BYTES)
        app.add_routes([
            web.route(route.method, route.path, attrgetter(route.handler)(self)) if route.method != "GET" else
            web.get(route.path, attrgetter(route.handler)(self), allow_head=not route.in_pieces)
            for route in routes.ROUTES])
        self.guard.lesser = {route: attrgetter(route.lesser)(self) for route in routes.ROUTES if route.lesser}
        return app

    @web.middleware
    async def met(self, request: web.Request, handler: Handler) -> web.StreamResponse:
        """Notes the connections of callers who may read the plan."""
        if request["role"] >= guard.READ and request.transport is not None:
            self.connections.know(request.transport)
        return await handler(request)

    # Statements.

    async def statements(self, request: web.Request) -> web.StreamResponse:
        """POST /statements."""
        with self.desk.work(request["who"]) as work:
            return await self.answered(request, work)

    async def answered(self, request: web.Request, work: Work) -> web.StreamResponse:
        """The answer to a stream."""
        key = body.key_of(request.headers)
        stream = body.Body(self.desk, await self.asked_of(request, work), request["who"], key, None)
        self.desk.agents.sent(request["who"], key)
        stream.condition = condition_of(request, stream.asked)
        await stream.claim(work)
        if not stream.take_at_once():
            self.keep(asyncio.create_task(stream.take()))
        is_json = "application/x-ndjson" in request.headers.get("Accept", "")
        heads = {"Content-Type": "application/x-ndjson" if is_json else "text/plain; charset=us-ascii", **SAFE}
        held, response, place = body.HeldAnswer(time.monotonic()), None, 0
        try:
            for place in range(len(stream.asked)):
                work.pause()
                one = await stream.next()
                await work.resume()
                if work.is_over:
                    await work.rest()
                for data in (body.as_json if is_json else body.as_text)(one):
                    if response is None and held.hold(data, time.monotonic()):
                        continue
                    if response is None:
                        is_last = place == len(stream.asked) - 1
                        response = web.StreamResponse(headers=heads | (state_of(*one.state) if is_last else {}))
                        await response.prepare(request)
                        data = held.release()
                    work.pause()
                    await response.write(data)
                    work.is_long = True  # others have their turn even if the caller reads as fast as this writes
                    await work.resume()
        except (StatementRejected, PlannerStopped) as why:
            if place == 0 and response is None:
                raise
            if not isinstance(why, StatementRejected) or why.status != body.CHANGED:
                if response is None:
                    raise broken_off(place, why) from None
                if request.transport is not None:
                    request.transport.abort()  # the answer is cut off, so its caller sees that it isn't complete
                return response
        finally:
            stream.leave()
        if response is None:
            return connections.WholeResponse(body=held.release(), headers=heads | state_of(*stream.state))
        work.pause()
        await response.write_eof()
        return response

    async def asked_of(self, request: web.Request, work: Work) -> list[StreamItem]:
        """The statements in the body of a request, all of which its caller may send. Raises StatementRejected and
        HTTPForbidden."""
        work.pause()
        data = await connections.body_of(request, MOST_BYTES)
        work.is_long = len(data) > SHORT
        await work.resume()
        found = []
        try:
            for one in requests.steps(data):
                if one is not None:
                    found.append(one)
                if work.is_over:
                    await work.rest()
        except requests.BadStream as why:
            raise StatementRejected(400, f"{why}; nothing was done") from None
        for one in found:
            guard.needed(request, one.role, one.name)
            if work.is_over:
                await work.rest()
        return found

    def keep(self, taking: asyncio.Task[None]) -> None:
        """Keeps the task of a stream in progress until it ends."""
        self.streams.add(taking)
        taking.add_done_callback(self.streams.discard)

    # Lists and other answers.

    async def rows(self, request: web.Request) -> web.StreamResponse:
        """GET /rows."""
        try:
            selection, fresh = rows.of_query(request.query), rows.freshness(request.query)
        except rows.InvalidSelection as why:
            raise StatementRejected(400, str(why)) from None
        if fresh:
            await self.desk.catch_up(fresh == 2)
        if moved := self.desk.planner.has_moved():
            raise PlannerStopped(moved)
        state = state_of(self.desk.tag(), self.desk.position)
        if self.desk.planner.stopped or request.headers.get("If-None-Match") != state["ETag"]:
            shown = await self.desk.lists.shown(request["who"], selection)
            state = state_of(shown.tag, shown.position)
        if request.headers.get("If-None-Match") == state["ETag"]:
            return web.Response(status=304, headers=state)
        heads = {"Content-Type": "application/x-ndjson", **SAFE, **state}
        if shown.file is None:
            return web.Response(body=shown.data, headers=heads)
        return await connections.sent_file(request, heads, shown.file, shown.size)

    async def journal(self, request: web.Request) -> web.StreamResponse:
        """GET /journal."""
        begin = request.query.get("from", "1")
        if not re.fullmatch("[0-9]{1,15}", begin):
            raise StatementRejected(400, "`from` must be the number of an entry")
        response = web.StreamResponse(headers={"Content-Type": "application/x-ndjson", **SAFE})
        await response.prepare(request)
        since, count = int(begin) - 1, PAGE
        with self.desk.work(request["who"], True) as work:
            await work.resume()
            while found := self.desk.after(since, count):
                data = "".join(json.dumps(one.values()) + "\n" for one in found).encode()
                since, count = found[-1].seq, shares.next_count(count, work.pause())
                await response.write(data)
                await work.resume()
        await response.write_eof()
        return response

    async def snapshot(self, request: web.Request) -> web.StreamResponse:
        """GET /snapshot."""
        return await snapshot.handle(self.desk, self.given.plan, request)

    async def metrics(self, request: web.Request) -> web.StreamResponse:
        """GET /metrics."""
        found = await self.status.counted()
        return web.Response(body=self.desk.metrics.text(self.desk, found.facts if found else None).encode(),
                            headers={"Content-Type": "text/plain; version=0.0.4; charset=utf-8"})

    async def openapi(self, request: web.Request) -> web.StreamResponse:
        """GET /openapi.json."""
        return web.json_response(openapi.document(version.lines()[0].split(" ")[1]))

    async def health(self, request: web.Request) -> web.StreamResponse:
        """GET /health; a caller who may not read gets only the status."""
        desk, planner = self.desk, self.desk.planner
        wrong = [listed.wrong for listed in (self.guard.users, self.guard.tokens) if listed and listed.wrong]
        why = "; ".join(filter(None, [desk.trouble, *wrong]))
        values: dict[str, Any] = {"status": "stopped" if desk.trouble else "ok"}
        if request["role"] >= guard.READ:
            caller = Caller(request["who"], reports.name_of(request))
            desk.agents.looked(*caller)
            values |= {
                "why": why, "position": desk.position, "planner": planner.pid,
                "running since": planner.open_since, "starts": planner.lives,
                "waiting": len(desk.feed.queue) + len(desk.state.line) + len(desk.state.flight),
                "journal": self.given.journal,
                "report": desk.reports.digest(caller),
                **desk.log.standing(desk.position), "plan": os.path.realpath(self.given.plan), "tag": desk.tag(),
            }
        return web.json_response(values, status=503 if desk.trouble else 200)

    async def end(self) -> None:
        """Waits for the streams in progress, for a while, and closes the desk."""
        if self.streams:
            await asyncio.wait(self.streams, timeout=LAST_SECONDS)
        await self.desk.close()


SAFE = {"Cache-Control": "no-store", "X-Content-Type-Options": "nosniff"}


@web.middleware
async def errors_as_text(request: web.Request, handler: Handler) -> web.StreamResponse:
    """Answers errors with a sentence."""
    try:
        return await handler(request)
    except StatementRejected as why:
        return web.Response(status=why.status, text=f"{why}\n", headers=after(why.status))
    except (PlannerStopped, LogUnwritable) as why:
        return web.Response(status=503, text=f"the desk is stopped: {why}\n", headers=after(503))
    except ConnectionError:  # the caller hung up
        return web.Response()
    except web.HTTPRequestEntityTooLarge:
        return web.Response(status=413, text=f"the stream has more than {MOST_BYTES >> 20} MiB; nothing was done\n")


def after(status: int) -> dict[str, str]:
    """The headers that say when to send a request again."""
    return {"Retry-After": "1"} if status == 503 else {}


def broken_off(place: int, why: Error) -> StatementRejected:
    """Why a stream has no whole answer, once the statements before a place have one."""
    found = f"{why}".removesuffix("; nothing was done")
    return StatementRejected(503, f"there is no answer to statement {place + 1} of the stream, and those before it are "
                             f"answered: {found}; send the stream again under its key")


def state_of(tag: str | None, position: int) -> dict[str, str]:
    """The headers that name the state of an answer; none without a tag."""
    return {"ETag": f'"{tag}"', "X-Opcplan-Position": str(position)} if tag else {}


def condition_of(request: web.Request, found: Sequence[StreamItem]) -> str | None:
    """The tag in If-Match, or None. Raises StatementRejected."""
    text = request.headers.get("If-Match")
    if text is None:
        return None
    if not any(one.changes for one in found):
        raise StatementRejected(400, "`If-Match` needs a statement that changes something; nothing was done")
    return text.strip().strip('"')


# The start and the end of a desk.


def serve(given: Settings, program: str) -> None:
    """Runs a desk until a signal. Raises DeskNotStarted, Unreadable, InvalidAccessFile and CannotJoin."""
    the_guard = guard.Guard(given)
    with contextlib.closing(HeldFiles(given.plan, given.journal)) as files:
        try:
            with files.locked():
                asyncio.run(served(given, program, the_guard, files))
        except locks.FileLocked as held:
            path = given.plan if held.path == files.plan else given.journal
            raise DeskNotStarted(f"{path}: another desk uses this file; end that desk first") from None


async def served(given: Settings, program: str, the_guard: guard.Guard, files: HeldFiles) -> None:
    """Runs a desk over held files. Raises DeskNotStarted, Unreadable and CannotJoin."""
    the_log: Log
    why_not: Callable[[], str] = files.moved
    async with contextlib.AsyncExitStack() as left:
        if given.log is None:
            the_log = local_log.LocalLog(journal.for_desk(given.journal, given.plan))
        else:
            store = await left.enter_async_context(bootstrap.opened(given.log, log_words.access_of(given)))
            shared = the_log = await bootstrap.joined(store, given.plan, given.journal, program)
            why_not = versions.of_version(program, shared.version, why_not)
        await run(given, the_guard, core.Desk(program, files, the_log, why_not, given.limit, given.name))


async def run(given: Settings, the_guard: guard.Guard, desk: core.Desk) -> None:
    """Has a desk answer until a signal. Raises DeskNotStarted."""
    stop = asyncio.Event()
    for one in signals.SIGNALS:
        if one != signal.SIGHUP or signal.getsignal(one) is not signal.SIG_IGN:  # as under nohup
            asyncio.get_running_loop().add_signal_handler(one, stop.set)
    server = Server(given, desk, the_guard)
    listeners = listeners_of(given, the_guard)
    runner = web.AppRunner(server.application(), access_log=None)
    await runner.setup()
    assert runner.server is not None  # `setup` has made it
    server.connections.start(runner.server, the_guard.meet)
    desk.start()
    sites = [web.SockSite(runner, listener.bound, shutdown_timeout=5) for listener in listeners]
    for site, listener in zip(sites, listeners):
        await site.start()
        print(f"desk: listening on {listener.name}", file=sys.stderr, flush=True)
    over = asyncio.create_task(desk.planner.is_over.wait())
    await asyncio.wait([over, asyncio.create_task(stop.wait())], return_when=asyncio.FIRST_COMPLETED)
    for listener in listeners:
        asyncio.get_running_loop().remove_reader(listener.bound)  # no further connection is accepted
    await server.end()
    server.connections.close()
    await runner.cleanup()
    if given.socket:
        with contextlib.suppress(FileNotFoundError):
            os.remove(given.socket)
    if over.done():
        raise DeskNotStarted(desk.planner.halted)
    over.cancel()
