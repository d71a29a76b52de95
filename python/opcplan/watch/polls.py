"""A poll of a watch: each desk and each disk in a thread of its own, with a deadline for all of them."""

import contextlib
import functools
import hashlib
import json
import os
import socket
import urllib.parse
from collections.abc import Callable, Iterable
from typing import Any

from opcplan.desk import client
from opcplan.needs import need
from opcplan.watch import conditions
from opcplan.watch.state import Undelivered
from opcplan.watch.workers import Crew, Done

# seconds to wait for the whole answer of a desk or a disk
PATIENCE = 30.0
# a clock that is so many seconds behind was set back
SET_BACK = 60.0
LATE = f"no whole answer came within {PATIENCE:g} s"
DESK, DISK = "desk ", "disk "
Answers = dict[str, Any]


class Quick(client.Client):
    """A client of one desk that can be given up: then what it has begun ends, and so does each further request, until
    `is_given_up` is false again."""

    open: socket.socket | None = None
    is_given_up = False

    def connection(self) -> Any:
        """A connection to the desk."""
        found: Any = self.places[0].connection(PATIENCE)
        connect = found.connect

        def noted() -> None:
            connect()
            self.open = found.sock
            if self.is_given_up:
                self.give_up()

        found.connect = noted
        return found

    def give_up(self) -> None:
        """Ends the answer that is under way, whatever comes, so that its thread is free again."""
        self.is_given_up = True
        if self.open is not None:
            with contextlib.suppress(OSError):
                socket.socket.shutdown(self.open, socket.SHUT_RDWR)


class Poll:
    """Polls desks and disks again and again. `answers` are those of the last poll: by desk what `GET /status` says, and
    by path how much of a disk is used in percent; or a text that says why that isn't known."""

    def __init__(self, crew: Crew, desks: Iterable[Quick], paths: Iterable[str],
                 ask: Callable[[Quick], Any], used: Callable[[str], Any]) -> None:
        self.crew = crew
        self.desks = {f"{DESK}{desk.name}": desk for desk in desks}
        self.jobs: dict[str, Callable[[], Any]] = {name: functools.partial(ask, desk)
                                                   for name, desk in self.desks.items()}
        self.jobs |= {f"{DISK}{path}": functools.partial(used, path) for path in paths}
        self.number = 0
        self.busy: dict[str, int] = {}  # whose job is under way, and of which poll
        self.left: set[str] = set()  # who hasn't answered this poll
        self.answers: Answers = {}
        self.until: float | None = None  # the deadline of the poll that is under way

    def begin(self, steady: float) -> None:
        """Begins a poll."""
        self.until, self.answers, self.left = steady + PATIENCE, {}, set(self.jobs)
        self.number += 1
        for name in self.jobs:
            self.start(name)

    def start(self, name: str) -> None:
        """Asks a desk or a disk, unless it is still busy with what an earlier poll asked."""
        if name not in self.busy:
            self.busy[name] = self.number
            if name in self.desks:
                self.desks[name].is_given_up = False
            self.crew.start(name, self.jobs[name])

    def take(self, done: Done) -> bool:
        """Takes what came of a job; False if it is none of a poll. An answer to an earlier poll doesn't count."""
        if done.name not in self.jobs:
            return False
        number = self.busy.pop(done.name)
        if done.name in self.left and number == self.number:
            self.left.discard(done.name)
            failed = isinstance(done.result, Exception)
            self.answers[done.name] = f"{type(done.result).__name__}: {done.result}" if failed else done.result
        elif done.name in self.left:
            self.start(done.name)
        return True

    def is_over(self, steady: float) -> bool:
        """Whether a poll was under way, and now all have answered it, or its deadline is past."""
        if self.until is None or self.left and steady < self.until:
            return False
        for name in self.left:
            self.answers[name] = LATE
            if name in self.desks:
                self.desks[name].give_up()
        self.until, self.left = None, set()
        return True

    def of_desks(self) -> Answers:
        """The answers of desks, by their names."""
        return self.part(DESK)

    def of_disks(self) -> Answers:
        """The answers of disks, by their paths."""
        return self.part(DISK)

    def part(self, head: str) -> Answers:
        """The answers whose names begin so."""
        return {name.removeprefix(head): one for name, one in self.answers.items() if name.startswith(head)}


def name_of(state: str) -> str:
    """The name of a watch in its reports: the machine, and the file of its state, which no other watch uses there."""
    return hashlib.sha256(f"{socket.gethostname()}:{os.path.realpath(state)}".encode()).hexdigest()[:16]


def report_of(name: str, calls: Iterable[Undelivered], now: float) -> bytes:
    """The report of a watch about calls that aren't delivered at a moment, as desks take it (docs/use/DESK.md)."""
    return json.dumps({"watch": name, "undelivered": [
        {"id": one.id or one.target, "target": one.target, "since": begin_of(one, now), "tries": one.tries,
         "why": one.why} for one in calls]}).encode()


def begin_of(one: Undelivered, now: float) -> float:
    """Since when a call isn't delivered: the same moment in each report, from each watch that tries it, unless somebody
    set the clock back."""
    return one.at if now - one.at > one.seconds - SET_BACK else now - one.seconds


def ask(desk: Quick, moment: str | None, report: bytes | None) -> dict[str, Any] | str:
    """A desk's answer to `GET /status`, as of a moment or by the desk's clock; or why there is none. It first gets
    the report of calls, if there is one; a desk that takes no report answers all the same."""
    query = f"?now={urllib.parse.quote(moment)}" if moment else ""
    try:
        if report is not None:
            with contextlib.suppress(client.RequestRefused):
                desk.asked("PUT", "/reports/calls", report, {"Content-Type": "application/json"})
        found: dict[str, Any] = json.loads(desk.asked("GET", f"/status{query}")[1])
        checked(found)
    except (client.DeskUnreachable, client.RequestRefused) as why:
        return str(why)
    except (ValueError, TypeError, KeyError, AttributeError):
        return "its answer isn't that of a desk; check the address"
    return found


def checked(found: Any) -> None:
    """Checks that an answer has the fields of `GET /status`. Raises KeyError, TypeError and ValueError."""
    int(found["position"])
    need.moment_of(found["now"])
    for one in found["agents"].values():
        int(one["looks"]), float(one["age"])
    for one in found["etcd"]:
        str(one["endpoint"]), bool(one["answers"])
    conditions.needs_of(found)
    for serial, name in found["followers"].items():
        int(serial), str(name)
    bool(found["is_whole"])
    if found["plan_end"] is not None:
        need.moment_of(found["plan_end"])
