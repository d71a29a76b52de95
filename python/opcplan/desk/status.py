"""`GET /status`: what in a desk's plan needs a person, when the plans end, the agents, and the nodes of etcd.

A process of its own finds what needs a person, from a copy of the plan. The desk runs it again once the plan, a report
of a caller or the minute has changed, but for no more than a quarter of the time."""

import asyncio
import contextlib
import json
import os
import sys
import time
from typing import Any, NamedTuple, TYPE_CHECKING

from aiohttp import web

from opcplan.desk import live_facts, page, snapshot
from opcplan.desk.held_files import FileReplaced
from opcplan.errors import LogUnwritable, Unreadable
from opcplan.needs import live_values
from opcplan.needs.facts import Live
from opcplan.plans import tempfiles
from opcplan.plans.entry import moment_now
from opcplan.plans.program import PYTHON
from opcplan.rules import moments

if TYPE_CHECKING:
    from opcplan.desk.core import Desk

PROCESS = [sys.executable, "-E", "-B", "-m", "opcplan.desk.needs_process"]
LONGEST_MAKING = 120
# the pause before the next run, in times of what the last run took
PAUSES = 3
# seconds for which metrics wait for the facts
PATIENCE = 5


class Found(NamedTuple):
    """The facts of a plan: for which moment (None: the clock's), in which minute of the clock, with which version of
    the reports, when the run ended and how long it took by the monotonic clock, when by the clock, and the state of the
    plan."""

    now: int | None
    minute: int
    version: int
    ended: float
    took: float
    at: str
    position: int
    tag: str
    facts: dict[str, Any]


class Status:
    """The status of a desk's plan, with the paths of the plan and its journal. `by_usual`: whether usual deadlines
    count for what was added by hand."""

    def __init__(self, desk: "Desk", path: str, journal: str, by_usual: bool = True) -> None:
        self.desk, self.path, self.journal, self.by_usual = desk, path, journal, by_usual
        self.making = asyncio.Lock()
        self.last: Found | None = None  # the last one for the clock's moment
        self.named: Found | None = None  # the last one for a moment that a request named
        self.counting: asyncio.Task[Found] | None = None

    async def handle(self, request: web.Request) -> web.StreamResponse:
        """GET /status."""
        found = await self.latest(page.moment_asked(request))
        log = self.desk.log.standing(self.desk.position)
        members = log.get("etcd", {}).get("members", [])
        values = {"plan": self.desk.name, "at": found.at, "position": found.position, **found.facts,
                  "agents": self.desk.agents.values(), "etcd": members, "trouble": self.desk.trouble}
        heads = {"ETag": f'"{found.tag}"', "X-Opcplan-Position": str(found.position)}
        return web.json_response(values, headers=heads)

    async def latest(self, now: int | None = None) -> Found:
        """The facts for a moment, or for the clock's. Raises HTTPServiceUnavailable."""
        async with self.making:
            found = self.last if now is None else self.named
            if found is None or found.now != now or not self.is_fresh(found):
                found = await self.find(now)
                if now is None:
                    self.last = found
                else:
                    self.named = found
        return found

    def is_fresh(self, found: Found) -> bool:
        """Whether these facts are still new enough."""
        is_same = found.tag == self.desk.tag() and found.version == self.desk.reports.version
        if is_same and (found.now is not None or found.minute == moments.now()):
            return True
        return found.now is None and time.monotonic() < found.ended + PAUSES * found.took

    async def find(self, now: int | None) -> Found:
        """Finds the facts in a copy of the plan. Raises HTTPServiceUnavailable."""
        begun, minute, version = time.monotonic(), moments.now(), self.desk.reports.version
        with tempfiles.folder("desk-") as folder:
            copy = os.path.join(folder, "plan.db")
            try:
                stands = await snapshot.copied(self.desk, self.path, copy)
            except (OSError, Unreadable, FileReplaced) as error:
                raise web.HTTPServiceUnavailable(text=f"the desk can't copy the plan: {error}\n") from None
            live = live_facts.of_desk(self.desk, self.path, minute if now is None else now)
            with contextlib.suppress(LogUnwritable):  # then nothing is known of the last changes but the plan's rows
                await self.desk.keep_replies()
            words = [copy, str(minute if now is None else now), os.path.abspath(self.journal), str(stands.position),
                     str(int(self.by_usual))]
            facts = await facts_of(words, live)
        ended = time.monotonic()
        return Found(now, minute, version, ended, ended - begun, moment_now(), stands.position, stands.tag, facts)

    async def counted(self) -> Found | None:
        """The facts for metrics: those for the clock's moment, or after a while the last ones, or None."""
        if self.counting is None or self.counting.done():
            self.counting = asyncio.create_task(self.latest())
        with contextlib.suppress(asyncio.TimeoutError, web.HTTPServiceUnavailable):
            return await asyncio.wait_for(asyncio.shield(self.counting), PATIENCE)
        return self.last


async def facts_of(words: list[str], live: Live) -> dict[str, Any]:
    """The facts that the process finds by its arguments and live facts. Raises HTTPServiceUnavailable."""
    text = json.dumps(live_values.values(live)).encode()
    process = await asyncio.create_subprocess_exec(
        *PROCESS, *words, cwd=PYTHON, stdin=asyncio.subprocess.PIPE, stdout=asyncio.subprocess.PIPE,
        stderr=asyncio.subprocess.PIPE)
    try:
        out, said = await asyncio.wait_for(process.communicate(text), LONGEST_MAKING)
    except asyncio.TimeoutError:
        raise web.HTTPServiceUnavailable(text="finding what needs a person took too long; try again\n") from None
    finally:
        with contextlib.suppress(ProcessLookupError):
            if process.returncode is None:
                process.kill()
    if process.returncode:
        why = said.decode("utf-8", "replace").strip().split("\n")[-1]
        raise web.HTTPServiceUnavailable(text=f"the desk can't find what needs a person: {why}\n")
    found: dict[str, Any] = json.loads(out)
    return found
