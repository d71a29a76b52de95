"""The page's data from a desk's journal: when its rows ran, how long applications take, what ended late or is going to,
and the chain that decides when all is done."""

from collections.abc import Mapping, Sequence

from opcplan.plans import actual, forecast, late_ends, row_model
from opcplan.plans.actual import Actual, Run, Usual
from opcplan.plans.plan_file import Plan
from opcplan.plans.waits import Row
from opcplan.webpage.page_values import Ran


def of_rows(
    plan: Plan,
    rows: list[Row],
    pairs: Sequence[tuple[int, int]],
    apps: Mapping[str, int],
    known: Actual | None,
    now: int,
) -> Ran | None:
    """The journal's part of the page's data, or None if there is no journal. Rows are named by place."""
    if known is None:
        return None
    places = {row.serial: place for place, row in enumerate(rows)}
    open_rows = [row for row in rows if row.place in row_model.OPEN]
    is_open = {row.serial for row in open_rows}
    open_pairs = [pair for pair in pairs if is_open.issuperset(pair)]
    ends = late_ends.of_plan(plan, open_rows, open_pairs, known, now)
    return {
        "runs": {places[serial]: [run_of(run) for run in runs] for serial, runs in known.runs.items()
                 if serial in places},
        "usual": {number: usual_of(known.usual[name]) for name, number in apps.items() if name in known.usual},
        "expected": {places[serial]: [one.start_moment, one.end_moment, int(one.is_least)]
                     for serial, one in ends.found.items()},
        "going": [places[row.serial] for row in ends.going],
        "ended": [[places[row.serial], late_ends.past(row, ended)] for row in ends.ended
                  if row.serial in places and (ended := known.ended(row.serial)) is not None],
        "hours": late_ends.BACK,
        "chain": [places[serial] for serial in forecast.last_chain(ends.found)],
    }


def usual_of(usual: Usual) -> list[float]:
    """How long an application takes, in seconds: the middle run, the worst, and of how many runs."""
    return [usual.middle, usual.worst, usual.count]


def run_of(run: Run) -> list[object]:
    """A run: its first and last minute since 1970 (None if not known), how many seconds it took, and its status."""
    return [*(None if at is None else actual.moment(at) for at in (run.start, run.end)), run.seconds, run.status]
