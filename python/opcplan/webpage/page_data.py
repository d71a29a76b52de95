"""The data of the page: the plan as one value of JSON, in columns of small numbers."""

import contextlib
import datetime
import os
import time
from collections.abc import Mapping, Sequence

from opcplan.needs import found, loaded
from opcplan.plans import actual, plan_file, row_model
from opcplan.plans.plan_file import Plan
from opcplan.plans.row_model import Model
from opcplan.plans.waits import Row
from opcplan.rules import moments, printable
from opcplan.rules.definitions import Definitions, RunCycle
from opcplan.webpage import page_actual, page_queries, page_values
from opcplan.webpage.page_queries import Lists

MOST_CHANGES = 5000


def packed(rows: list[Row], model: Model, apps: dict[str, int], cycles: dict[str, int]) -> page_values.Rows:
    """The rows as columns: serials and input arrivals as steps from the row before, deadlines in minutes from the
    arrival, pairs and roots as packed lists (`run`)."""
    return {
        "serial": steps([row.serial for row in rows]),
        "app": [apps[row.app] for row in rows],
        "arrival": steps([row.ia for row in rows]),
        "due": [row.deadline - row.ia for row in rows],
        "cycle": [-1 if row.cycle is None else cycles[row.cycle] for row in rows],
        "pairs": run(model.before),
        "roots": run({place: [root] for place, root in model.roots.items()}),
    }


def steps(numbers: list[int]) -> list[int]:
    """Numbers as steps, each from the one before; the first from 0."""
    return [after - before for before, after in zip([0, *numbers], numbers)]


def run(lists: Mapping[int, Sequence[int]]) -> list[int]:
    """Lists of places by place, packed into one list: the step from the place before, how many, and how far back each
    is."""
    flat: list[int] = []
    at = 0
    for place in sorted(lists):
        others = lists[place]
        flat += [place - at, len(others), *[place - other for other in others]]
        at = place
    return flat


def marks(model: Model) -> str:
    """A letter for each row: l for late, r for at risk, else a dot."""
    found = ["l" if is_late else "." for is_late in model.is_late]
    for place in model.at_risk:
        found[place] = "r"
    return "".join(found)


def cycle_words(cycle: RunCycle) -> list[object]:
    """A run cycle, as the page shows it."""
    days, due = cycle.due or (None, None)
    return [cycle.name, cycle.kind, cycle.period, cycle.rule, cycle.offsets, cycle.time, days, due,
            cycle.in_effect, cycle.out_effect]


def definition_columns(
    defined: Definitions, lists: Lists, names: list[str], first: int, last: int
) -> page_values.Definitions:
    """Applications with calendar and run cycles, their lists with limits, and each calendar's work days from first to
    last."""
    number = {name: place for place, name in enumerate(names)}

    def calendar_of(name: str) -> str:
        app = defined.applications.get(name)
        return app.calendar if app and app.calendar else defined.default_calendar

    calendars = sorted({calendar_of(name) for name in names} | {defined.default_calendar})
    apps, shown = [], []
    for name in names:
        app = defined.applications.get(name)
        cycles = [cycle_words(cycle) for cycle in defined.run_cycles.get(name, {}).values()]
        status = -1 if app is None else int(app.is_active)
        apps.append(page_values.App(name, status, calendars.index(calendar_of(name)), cycles))
    for name in calendars:
        calendar = defined.calendars.get(name)
        work = (calendar is None or calendar.is_work(day) for day in range(first, last + 1))
        days = "".join("01"[is_work] for is_work in work)
        shown.append(page_values.Calendar(name, calendar is not None, days))
    followed = [[number.get(other, other) for other in lists.get(name, {})] for name in names]
    limits = [list(lists.get(name, {}).values()) for name in names]
    return {"apps": apps, "calendars": shown, "lists": followed, "limits": limits}


def of_model(
    plan: Plan, rows: list[Row], model: Model, defined: Definitions, lists: Lists, now: int, first: int, last: int
) -> page_values.Data:
    """The data without what an older copy of the plan shows."""
    names = sorted(set(defined.applications) | {row.app for row in rows})
    cycles = sorted({row.cycle for row in rows if row.cycle is not None})
    columns = definition_columns(defined, lists, names, first, last)
    meta, (jobs, job_count) = plan.meta, page_queries.journal(plan)
    return {
        "file": printable.fit(os.path.basename(plan.path)), "now": now, "first": first, "last": last,
        "plan": {"created": plan.is_created, "first": meta["first_day"], "last": meta["last_day"],
                 "end": meta["plan_end"], "calendar": defined.default_calendar, **page_queries.totals(plan)},
        "apps": columns["apps"], "calendars": columns["calendars"], "lists": columns["lists"],
        "limits": columns["limits"],
        "cycles": cycles,
        "rows": packed(rows, model, {name: place for place, name in enumerate(names)},
                       {name: place for place, name in enumerate(cycles)}),
        "state": "".join(model.states), "marks": marks(model), "jobs": jobs, "jobCount": job_count,
        "since": None,
    }


def needs_of(plan: Plan, now: int, journal: str | None) -> page_values.Needs:
    """What of a plan needs a person at a moment, without what only a desk knows; by a journal, else by the one beside
    the plan if there is one."""
    facts, lacks = loaded.of_file(plan, plan.path, now, journal)
    values = found.of_facts(facts).values()
    return {"needs": values["needs"], "followers": values["followers"], "is_whole": values["is_whole"], "lacks": lacks}


def changed_since(plan: Plan, defined: Definitions, old: Plan, old_defined: Definitions) -> page_values.Since:
    """What changed since an older copy of the plan."""
    changes = page_queries.difference(plan, old)
    changed = time.localtime(old.written)
    return {
        "file": printable.fit(os.path.basename(old.path)), "kept": time.strftime("%Y-%m-%d %H.%M", changed),
        "rows": changes[:MOST_CHANGES], "count": len(changes),
        "definitions": page_queries.redefined(defined, old_defined),
    }


def data_of(
    path: str,
    now: int | None = None,
    first: int | None = None,
    last: int | None = None,
    since: str | None = None,
    journal: str | None = None,
    has_needs: bool = True,
) -> page_values.Data:
    """The data of the page for a plan file, at a moment, for days, since an older copy, with a journal, and with what
    needs a person unless that comes from a desk. Raises Unreadable."""
    clock = moments.now()
    with contextlib.ExitStack() as files:
        plan = files.enter_context(plan_file.opened(path))
        old = files.enter_context(plan_file.opened(since)) if since is not None else None
        now, note = moment_of(plan, now, clock)
        first, last = span(plan, now, first, last)
        rows, pairs = page_queries.occurrences(plan, first, last) if plan.is_created else ([], [])
        model = row_model.of_rows(rows, pairs, now)
        defined, lists = page_queries.applications(plan)
        data = of_model(plan, rows, model, defined, lists, now, first, last)
        apps = {name: place for place, (name, *_) in enumerate(data["apps"])}
        data["actual"] = page_actual.of_rows(plan, rows, pairs, apps, actual.of_journal(journal, plan), now)
        if has_needs:
            data["needs"] = needs_of(plan, now, journal)
        if old:
            data["since"] = changed_since(plan, defined, old, page_queries.applications(old)[0])
    data["made"], data["sample"], data["note"] = clock, now != clock, note
    return data


def moment_of(plan: Plan, now: int | None, clock: int) -> tuple[int, str]:
    """The moment that the page shows, and a note if the clock is outside the plan."""
    if now is not None:
        return now, ""
    first, last = plan.meta["first_day"] * moments.DAY, (plan.meta["last_day"] + 2) * moments.DAY
    if not plan.is_created or first <= clock <= last:
        return clock, ""
    return plan.meta["plan_end"], (f"The clock says {moments.moment_text(clock)}, which is outside this plan, so the "
                                   "page shows the end of the current plan; --now names another moment.")


def span(plan: Plan, now: int, first: int | None, last: int | None) -> tuple[int, int]:
    """The days that the page shows: those requested, else this month and the next as far as they are planned; in the
    first week of a month the month before too."""
    begin = (moments.EPOCH + datetime.timedelta(minutes=now, days=-7)).replace(day=1)
    end = moments.EPOCH + datetime.timedelta(minutes=now)
    for _ in range(2):
        end = end.replace(day=1) + datetime.timedelta(days=31)
    planned = range(plan.meta["first_day"], plan.meta["last_day"] + 1)
    if first is None:
        first = max(planned.start, (begin - moments.EPOCH).days)
    if last is None:
        last = min(planned.stop - 1, (end.replace(day=1) - moments.EPOCH).days - 1)
    return first, max(first, last)
