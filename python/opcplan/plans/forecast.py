"""When what is unfinished is likely to start and to end, by what its applications took till now."""

from collections import defaultdict
from collections.abc import Iterable, Mapping
from typing import NamedTuple

from opcplan.plans import actual
from opcplan.plans.actual import Actual, Usual
from opcplan.plans.waits import Row
from opcplan.rules import moments


class Expected(NamedTuple):
    """When an occurrence is likely to start and to end, in seconds of the plan's time. `is_least`: it ends later, since
    it or what it waits for is in error, or takes a time that isn't known; `cause`: the serial of that whose end decides
    its start, or None."""

    start: float
    end: float
    is_least: bool
    cause: int | None

    @property
    def end_moment(self) -> int:
        """The plan's moment in which it ends: the next full minute."""
        return int(-(-self.end // 60))

    @property
    def start_moment(self) -> int:
        return int(self.start // 60)


def of_rows(rows: list[Row], pairs: Iterable[tuple[int, int]], known: Actual, now: int) -> dict[int, Expected]:
    """By serial what is expected of unfinished rows and their pairs of serials, at a moment."""
    before: dict[int, list[int]] = defaultdict(list)
    after: dict[int, list[int]] = defaultdict(list)
    left = {row.serial: 0 for row in rows}
    for successor, predecessor in pairs:
        before[successor].append(predecessor)
        after[predecessor].append(successor)
        left[successor] += 1
    by_serial = {row.serial: row for row in rows}
    found: dict[int, Expected] = {}
    done = [serial for serial, count in left.items() if not count]
    while done:
        serial = done.pop()
        row = by_serial[serial]
        found[serial] = expected(row, [(found[other].end, other, found[other]) for other in before[serial]], known, now)
        for other in after[serial]:
            left[other] -= 1
            if not left[other]:
                done.append(other)
    return found


def expected(row: Row, others: list[tuple[float, int, Expected]], known: Actual, now: int) -> Expected:
    """What is expected of a row, by the ends of what it waits for."""
    at, usual = now * 60, known.usual.get(row.app)
    is_least = usual is None or row.place == "E" or any(other.is_least for _, _, other in others)
    took = usual.middle if usual else 0
    if row.place == "S":
        start = known.started(row.serial)
        return going_on(at if start is None else min(at, actual.local(start)), at, usual)
    begin: float = max(at, row.ia * 60)
    cause: int | None = None
    if others and max(others)[0] > begin:
        begin, cause, _ = max(others)
    return Expected(begin, begin + took, is_least, cause)


def going_on(start: float, now: float, usual: Usual | None) -> Expected:
    """What is expected of a row that is started: it takes what runs take in the middle, else the worst, else no one
    knows."""
    for took in (usual.middle, usual.worst) if usual else ():
        if start + took >= now:
            return Expected(start, start + took, False, None)
    return Expected(start, now, True, None)


def last_chain(found: Mapping[int, Expected]) -> list[int]:
    """The serials of the chain that decides when all is done: the last one ends last."""
    if not found:
        return []
    chain = [max(found, key=lambda serial: (found[serial].end, serial))]
    while (cause := found[chain[-1]].cause) is not None:
        chain.append(cause)
    return chain[::-1]


def chain_of(found: Mapping[int, Expected], serial: int) -> list[int]:
    """The serials of the chain that decides when an occurrence starts, with itself at the end."""
    chain = [serial]
    while (cause := found[chain[-1]].cause) is not None:
        chain.append(cause)
    return chain[::-1]


def end_text(one: Expected) -> str:
    """`2024-01-02 06.40`, or that it is the least."""
    return ("not before " if one.is_least else "") + moments.moment_text(one.end_moment)


def chain_lines(chain: list[int], found: Mapping[int, Expected], names: Mapping[int, str]) -> list[str]:
    """A line for each of a chain of serials, in columns: its name, when it starts, when it ends."""
    wide = max(len(names[serial]) for serial in chain)
    lines = []
    for serial in chain:
        one = found[serial]
        start, end = moments.moment_text(one.start_moment), moments.moment_text(one.end_moment)
        lines.append(f"  {names[serial]:{wide}}  {start} to {end}{' or later' if one.is_least else ''}")
    return lines
