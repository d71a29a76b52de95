"""By the journal of a desk: what ended late, what is going to, and the chain that decides when all is done."""

from collections.abc import Iterable

from opcplan.plans import actual, forecast, waits
from opcplan.plans.actual import Actual
from opcplan.plans.forecast import Expected
from opcplan.plans.plan_file import Plan
from opcplan.plans.waits import Row
from opcplan.rules import moments, statuses

# how many hours are looked back, and how many applications are named at most
BACK, MOST_NAMED = 24, 12


class Ends:
    """Ends of the unfinished rows of a plan and of its complete ones at a moment."""

    def __init__(self, rows: list[Row], found: dict[int, Expected], ended: list[Row], known: Actual, now: int) -> None:
        self.rows, self.found, self.ended, self.known = rows, found, ended, known
        going = [row for row in rows if row.deadline >= now and found[row.serial].end_moment > row.deadline]
        self.going = sorted(going, key=lambda row: (row.deadline, row.ia, row.app))

    @property
    def is_late(self) -> bool:
        """Whether something ended late, or is going to."""
        return bool(self.going or self.ended)

    @property
    def lines(self) -> list[str]:
        """What is told of all of them."""
        return [*self.going_lines(), *self.ended_lines(), *self.last_lines()]

    def text_of(self, row: Row) -> str:
        """When an unfinished row was started or ended in error, and when it is expected to end."""
        started, ended, parts = self.known.started(row.serial), self.known.ended(row.serial), []
        if row.place == "S" and started is not None:
            parts.append(f"started {actual.moment_text(started)}")
        if row.place == "E" and ended is not None:
            parts.append(f"ended in error {actual.moment_text(ended)}")
        return ", ".join([*parts, f"expected to end {forecast.end_text(self.found[row.serial])}"])

    def going_lines(self) -> list[str]:
        """A line for each row that is going to end late."""
        if not self.going:
            return []
        lines = ["", f"{len(self.going)} {'is' if len(self.going) == 1 else 'are'} going to end late:", ""]
        for row in self.going:
            one, due = self.found[row.serial], moments.moment_text(row.deadline)
            late = waits.length_text(one.end_moment - row.deadline)
            lines.append(f"  {row.key}  due {due}, expected to end {forecast.end_text(one)}, late by {late}, serial "
                         f"{row.serial}")
        return lines

    def ended_lines(self) -> list[str]:
        """A line for each row that ended late."""
        if not self.ended:
            return []
        lines = ["", f"{len(self.ended)} ended late in the {BACK} hours before:", ""]
        for row in self.ended:
            due, end = moments.moment_text(row.deadline), end_text(row, self.known)
            lines.append(f"  {row.key}  due {due}, {end}, serial {row.serial}")
        return lines

    def last_lines(self) -> list[str]:
        """The chain that decides when all is done, and what isn't known of it."""
        chain = forecast.last_chain(self.found)
        if not chain:
            return []
        names, last = {row.serial: row.key for row in self.rows}, self.found[chain[-1]]
        when = forecast.end_text(last) if last.is_least else f"at {forecast.end_text(last)}"
        lines = ["", f"All that is unfinished is expected to be done {when}, by this chain:", "",
                 *forecast.chain_lines(chain, self.found, names)]
        unknown = sorted({row.app for row in self.rows} - set(self.known.usual))
        if unknown:
            more = f" and {len(unknown) - MOST_NAMED} more" if len(unknown) > MOST_NAMED else ""
            lines += ["", f"No whole run is known of {', '.join(unknown[:MOST_NAMED])}{more}: each counts as no time."]
        return lines


def of_plan(plan: Plan, rows: list[Row], pairs: Iterable[tuple[int, int]], known: Actual, now: int) -> Ends:
    """The Ends of a plan's unfinished rows and their pairs, and of what is complete, at a moment."""
    return Ends(rows, forecast.of_rows(rows, pairs, known, now), late_rows(plan, known, now), known, now)


def late_rows(plan: Plan, known: Actual, now: int) -> list[Row]:
    """The complete rows that ended past their deadline in the hours before a moment, the earliest end first."""
    ended: dict[int, float] = {}
    for serial, runs in known.runs.items():
        end = runs[-1].end if runs and runs[-1].status == "C" else None
        if end is not None and now - BACK * 60 <= actual.moment(end) <= now:
            ended[serial] = end
    found = [row for row in complete_rows(plan, ended) if past(row, ended[row.serial]) > 0]
    return sorted(found, key=lambda row: (ended[row.serial], row.serial))


def complete_rows(plan: Plan, serials: Iterable[int]) -> list[Row]:
    """The rows with some serials that are complete, in the current plan or in history."""
    rows = [row for serial in serials for row in waits.rows_where(plan, "serial = :v0", serial)]
    return [row for row in rows if row.place in statuses.COMPLETE]


def past(row: Row, ended: float) -> float:
    """How many seconds past its deadline a row ended."""
    return actual.local(ended) - row.deadline * 60


def end_text(row: Row, known: Actual) -> str:
    """When a row ended, and how late."""
    ended = known.ended(row.serial)
    assert ended is not None, "a row that ended late has an end"
    late = past(row, ended)
    return f"ended {actual.moment_text(ended)}" + (f", late by {actual.length_text(late)}" if late > 0 else "")
