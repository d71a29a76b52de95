"""What really happened, by the journal of a desk: when occurrences were started and ended, and how long jobs take.

A journal has universal time, so durations are right where clocks change; a plan has local moments without a zone."""

import dataclasses
import datetime
from collections.abc import Iterable
from typing import NamedTuple

from opcplan.errors import Unreadable
from opcplan.plans import journal, waits
from opcplan.plans.journal import StatusChange
from opcplan.plans.plan_file import Plan
from opcplan.rules import moments

# of an application: how many whole runs count
LAST = 30


class Run(NamedTuple):
    """A run of an occurrence: when it was started and when it ended, in seconds since 1970, None where the journal
    doesn't have it; S started, C complete, E in error."""

    start: float | None
    end: float | None
    status: str

    @property
    def seconds(self) -> float | None:
        """How long it took, or None."""
        return None if self.start is None or self.end is None else round(self.end - self.start, 3)


@dataclasses.dataclass(frozen=True)
class Usual:
    """How long the last whole runs of an application took, in seconds, and how many these are."""

    middle: float
    worst: float
    count: int


class Actual:
    """`runs` has by serial all runs in their order, `usual` by application what it takes."""

    def __init__(self, happened: Iterable[StatusChange]) -> None:
        self.runs: dict[int, list[Run]] = {}
        whole: dict[str, list[float]] = {}
        for serial, app, _, status, at, _ in happened:
            runs = self.runs.setdefault(serial, [])
            take(runs, status, seconds_of(at))
            if status == "C" and (seconds := runs[-1].seconds) is not None:
                whole.setdefault(app, []).append(seconds)
        self.usual = {app: usual_of(took[-LAST:]) for app, took in whole.items()}

    def started(self, serial: int) -> float | None:
        """When an occurrence was started last, or None."""
        return next((run.start for run in reversed(self.runs.get(serial, [])) if run.start is not None), None)

    def ended(self, serial: int) -> float | None:
        """When the last run of an occurrence ended, or None."""
        runs = self.runs.get(serial)
        return runs[-1].end if runs else None


def take(runs: list[Run], status: str, at: float) -> None:
    """Takes what happened next to an occurrence into its runs. Whoever completes what is in error runs nothing."""
    if status == "S":
        runs.append(Run(at, None, "S"))
    elif status in "CE" and runs and runs[-1].status == "S":
        runs[-1] = Run(runs[-1].start, at, status)
    elif status in "CE":
        runs.append(Run(None, at, status))


def usual_of(took: list[float]) -> Usual:
    import statistics  # it takes its time

    return Usual(statistics.median(took), max(took), len(took))


def seconds_of(text: str) -> float:
    """The seconds since 1970 of a moment in universal time. Raises ValueError."""
    return datetime.datetime.fromisoformat(text.replace("Z", "+00:00")).timestamp()


def local(seconds: float) -> float:
    """Seconds since 1970, by the clock of this machine, without a zone: those of a plan's moments."""
    return (datetime.datetime.fromtimestamp(seconds) - moments.EPOCH).total_seconds()


def moment(seconds: float) -> int:
    """The plan's moment in which something happened."""
    return int(local(seconds) // 60)


def shift(seconds: float, now: float) -> int:
    """By how many minutes the local clock was set forth between two moments, in seconds since 1970."""
    return round((local(now) - now - local(seconds) + seconds) / 60)


def moment_text(seconds: float) -> str:
    """`YYYY-MM-DD HH.MM` of when something happened."""
    return moments.moment_text(moment(seconds))


def length_text(seconds: float) -> str:
    """`12 s`, or as minutes are told."""
    return f"{round(seconds)} s" if seconds < 59.5 else waits.length_text(round(seconds / 60))


def usual_text(app: str, usual: Usual | None) -> str:
    """What an application takes, in words."""
    if usual is None:
        return f"No whole run of {app} is known."
    if usual.count == 1:
        return f"The only whole run of {app} that is known took {length_text(usual.middle)}."
    return (f"The last {usual.count} whole runs of {app} took {length_text(usual.middle)} in the middle and "
            f"{length_text(usual.worst)} at worst.")


def of_journal(path: str | None, plan: Plan) -> Actual | None:
    """What happened to a plan by a journal; None where no journal is named. Raises Unreadable."""
    if path is None:
        return None
    with journal.opened(path) as held:
        happened = held.happened()
    check(path, happened, plan)
    try:
        return Actual(happened)
    except (ValueError, AttributeError):
        raise Unreadable(f"{path}: it has an invalid time") from None


OTHERS = f"""SELECT was.serial, was.app, was.ia FROM temp.happened AS was JOIN
    ({' UNION ALL '.join(waits.SETS)}) AS here ON here.serial = was.serial
    WHERE here.app <> was.app OR here.ia <> was.moment LIMIT 1"""


def check(path: str, happened: Iterable[StatusChange], plan: Plan) -> None:
    """Asks that a journal is that of a plan: a serial has one application and input arrival for good. Raises
    Unreadable."""
    ask = plan.db.execute
    ask("DROP TABLE IF EXISTS temp.happened")
    ask("CREATE TEMP TABLE happened (serial INTEGER, app TEXT, ia TEXT, moment INTEGER)")
    known = {(serial, app, ia) for serial, app, ia, *_ in happened}
    plan.db.executemany("INSERT INTO temp.happened VALUES (?, ?, ?, ?)",
                        ((serial, app, ia, moments.moment_of(ia)) for serial, app, ia in known))
    other = ask(OTHERS).fetchone()
    if other:
        raise Unreadable(f"{path}: it is the journal of another plan: in it serial {other[0]} is {other[1]} {other[2]}")
