"""What callers report to a desk, and no plan has: agents why they don't start what is ready, and which ends nobody
knows; `roll` how it ended; the watch which calls weren't delivered.

A report replaces the caller's earlier one. The desk keeps reports in memory: callers send them again when they
change, and an agent also when `GET /health` says that the desk lacks its report."""

import hashlib
import json
import math
import re
import time
from collections.abc import Callable, Mapping
from typing import Any, NamedTuple

from aiohttp import web

from opcplan.desk import connections, schemas
from opcplan.desk.agents import Agents, Caller
from opcplan.desk.errors import StatementRejected
from opcplan.errors import Error
from opcplan.needs.facts import (
    DONE, FAILED, PLACE, PROGRAM, REFUSED, ROOM, STOPPED, Agent, Idle, Roll, Undelivered)
from opcplan.plans import actual
from opcplan.rules import moments

MOST_BYTES, MOST_ROWS, MOST_TEXT = 1 << 20, 5000, 500
LAST_SERIAL = 999_999_999
# the header with the name that an agent gives itself
AGENT, NAME = "X-Opcplan-Agent", re.compile("[A-Za-z0-9._-]{1,64}")
# the most agents and watches whose reports are kept
MOST_AGENTS, MOST_WATCHES = 1000, 100
# seconds: the report of a watch that is silent for so long gives way to one of another watch of the same user
SILENT = 300.0


class InvalidReport(Error):
    """What is wrong with a report."""


class FromAgent(NamedTuple):
    """The last report of an agent: its digest, and since when it reports trouble, in seconds since 1970."""

    digest: str
    idle: Mapping[int, Idle]
    unknown: Mapping[int, str]
    trouble: str
    trouble_since: float | None


class FromWatch(NamedTuple):
    """The last report of a watch: when it came, in monotonic seconds, and the calls that aren't delivered."""

    at: float
    undelivered: tuple[Undelivered, ...]


class Reports:
    """The reports of a desk's callers. `version` differs once one of them has changed. `clock` returns seconds since
    1970, `steady` monotonic ones."""

    def __init__(self, agents: Agents, clock: Callable[[], float] = time.time,
                 steady: Callable[[], float] = time.monotonic) -> None:
        self.of_desk, self.clock, self.steady, self.version = agents, clock, steady, 0
        self.agents: dict[Caller, FromAgent] = {}
        self.roll: Roll | None = None
        self.watches: dict[Caller, FromWatch] = {}  # by who authenticates, and the name that a watch gives itself

    # Requests.

    async def put_agent(self, request: web.Request) -> web.StreamResponse:
        """PUT /reports/agent."""
        data = await data_of(request)
        self.take_agent(Caller(request["who"], name_of(request)), data)
        return web.Response(status=204)

    async def put_roll(self, request: web.Request) -> web.StreamResponse:
        """PUT /reports/roll."""
        self.take_roll(await data_of(request))
        return web.Response(status=204)

    async def put_calls(self, request: web.Request) -> web.StreamResponse:
        """PUT /reports/calls."""
        self.take_calls(request["who"], await data_of(request))
        return web.Response(status=204)

    # What they have.

    def take_agent(self, one: Caller, data: bytes) -> None:
        """Takes the report of an agent. Raises StatementRejected."""
        found = decoded(data)
        try:
            idle = {serial_of(serial): idle_of(value) for serial, value in rows_of(found, "idle")}
            unknown = {serial_of(serial): text_of(value) for serial, value in rows_of(found, "unknown")}
            trouble = text_of(found.get("trouble", ""))
        except (InvalidReport, AttributeError, TypeError, ValueError) as why:
            raise wrong(why) from None
        self.of_desk.names.add(one.who)
        self.of_desk.looked(*one)
        known = self.agents.pop(one, None)
        while len(self.agents) >= MOST_AGENTS:
            del self.agents[next(iter(self.agents))]
        since = known.trouble_since if known and known.trouble and known.trouble_since else self.clock()
        self.agents[one] = FromAgent(digest_of(data), idle, unknown, trouble, since if trouble else None)
        self.version += 1

    def take_roll(self, data: bytes) -> None:
        """Takes the report of a run of `roll`. Raises StatementRejected."""
        found, now = decoded(data), actual.moment(self.clock())
        try:
            outcome, end = found["outcome"], moments.moment_of(text_of(found["end"]))
            if outcome not in (DONE, STOPPED, FAILED) or end is None:
                raise InvalidReport("`outcome` or `end` is wrong")
            ahead, reserve, every = (number_of(found[name]) for name in ("ahead", "reserve", "every"))
            why = text_of(found["why"])
        except (InvalidReport, KeyError, TypeError) as error:
            raise wrong(error) from None
        old = self.roll
        since = old.since if old and (old.outcome, old.end) == (outcome, end) and outcome != DONE else now
        self.roll = Roll(now, outcome, since, why, end, ahead, reserve, every)
        self.version += 1

    def take_calls(self, who: str, data: bytes) -> None:
        """Takes the report of a watch. Raises StatementRejected."""
        found = decoded(data)
        try:
            listed = found["undelivered"]
            if not isinstance(listed, list) or len(listed) > MOST_ROWS:
                raise InvalidReport("`undelivered` must be a list")
            one = Caller(who, text_of(found.get("watch", "")))
            calls = tuple(Undelivered(text_of(call["id"]), text_of(call["target"]), actual.moment(float(call["since"])),
                                      number_of(call["tries"]), text_of(call["why"])) for call in listed)
        except (InvalidReport, KeyError, TypeError, ValueError, OverflowError, OSError) as error:
            raise wrong(error) from None
        before, now = self.undelivered(), self.steady()
        self.watches = {other: known for other, known in self.watches.items()
                        if other != one and (other.who != who or now - known.at < SILENT)}
        while len(self.watches) >= MOST_WATCHES:
            del self.watches[next(iter(self.watches))]
        self.watches[one] = FromWatch(now, calls)
        self.version += set(self.undelivered()) != set(before)

    # What is known.

    def digest(self, one: Caller) -> str:
        """The digest of an agent's last report, empty if the desk has none."""
        known = self.agents.get(one)
        return known.digest if known else ""

    def of_agents(self, now: int) -> tuple[Agent, ...]:
        """The agents of the desk, as facts at a moment. One that shares its user is named with both names."""
        contacts = self.of_desk.contacts()
        found = []
        for one, contact in contacts.items():
            shared = sum(other.who == one.who for other in contacts) > 1 and one.own
            report = self.agents.get(one, FromAgent("", {}, {}, "", None))
            since = None if report.trouble_since is None else actual.moment(report.trouble_since)
            found.append(Agent(
                f"{one.who}/{one.own}" if shared else one.who, now - int(contact.age // 60),
                now - int(contact.span // 60), one.own, report.idle, report.unknown, report.trouble, since))
        return tuple(found)

    def undelivered(self) -> tuple[Undelivered, ...]:
        """The calls that aren't delivered, of all watches."""
        return tuple(call for one in self.watches.values() for call in one.undelivered)

    def of_watches(self) -> dict[str, tuple[float, int]]:
        """By who authenticates as a watch, how many seconds ago one last reported, and how many calls aren't
        delivered."""
        found: dict[str, tuple[float, int]] = {}
        for one, report in self.watches.items():
            age, count = found.get(one.who, (math.inf, 0))
            found[one.who] = min(age, self.steady() - report.at), count + len(report.undelivered)
        return found


def name_of(request: web.Request) -> str:
    """The name that the sender of a request gives itself, empty if it gives none that an agent can have."""
    found = request.headers.get(AGENT, "")
    return found if NAME.fullmatch(found) else ""


async def data_of(request: web.Request) -> bytes:
    """The body of a request. Raises StatementRejected."""
    data: bytes = await connections.body_of(request, MOST_BYTES)
    if len(data) > MOST_BYTES:
        raise StatementRejected(413, f"a report may have at most {MOST_BYTES >> 20} MiB; nothing was stored")
    return data


def digest_of(data: bytes) -> str:
    """The digest by which a report is known."""
    return hashlib.sha256(data).hexdigest()[:16]


def decoded(data: bytes) -> dict[str, Any]:
    """The object of JSON that a report is. Raises StatementRejected."""
    try:
        found = json.loads(data)
    except (ValueError, RecursionError) as why:
        raise wrong(why) from None
    if not isinstance(found, dict):
        raise wrong("it must be an object of JSON")
    return found


def wrong(why: object) -> StatementRejected:
    """That a report is wrong."""
    return StatementRejected(400, f"this isn't a report that docs/use/DESK.md describes: {why}; nothing was stored")


def rows_of(found: Mapping[str, Any], name: str) -> list[tuple[str, Any]]:
    """The values by serial of a report. Raises InvalidReport and AttributeError."""
    rows = list(found.get(name, {}).items())
    if len(rows) > MOST_ROWS:
        raise InvalidReport(f"`{name}` may have at most {MOST_ROWS:,} occurrences")
    return rows


def serial_of(text: str) -> int:
    """A serial. Raises InvalidReport and ValueError."""
    found = int(text)
    if not 1 <= found <= LAST_SERIAL:
        raise InvalidReport(f"{text} isn't a serial")
    return found


def idle_of(found: Mapping[str, Any]) -> Idle:
    """Why an agent doesn't start an occurrence. Raises InvalidReport, AttributeError and TypeError."""
    if found.get("why") not in (ROOM, PLACE, PROGRAM, REFUSED):
        raise InvalidReport(f"`why` is {found.get('why')!r}")
    return Idle(found["why"], text_of(found.get("text", "")), text_of(found.get("where", "")))


def text_of(found: object) -> str:
    """A text, cut. Raises InvalidReport."""
    if not isinstance(found, str):
        raise InvalidReport(f"{found!r} isn't a text")
    return found[:MOST_TEXT]


def number_of(found: object) -> int:
    """A number. Raises InvalidReport."""
    if not isinstance(found, int) or isinstance(found, bool) or not 0 <= found <= schemas.LONGEST:
        raise InvalidReport(f"{found!r} isn't a number from 0 to {schemas.LONGEST:,}")
    return found
