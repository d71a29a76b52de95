"""The definitions that stand in the tables of a plan."""

from opcplan.plans.plan_file import Plan
from opcplan.rules.definitions import Application, Calendar, Definitions, Due, Entry, Period, RunCycle


def of_plan(plan: Plan) -> Definitions:
    """The definitions that stand in a plan (plan_file.Plan)."""
    found = Definitions(default_calendar=plan.meta["default_calendar"], max_hours=plan.meta["max_hours"])
    for row in plan.db.execute("SELECT calendar, kind, day, work FROM calendar_entry ORDER BY calendar, kind, day"):
        calendar = found.calendars.setdefault(row["calendar"], Calendar())
        (calendar.dates if row["kind"] else calendar.weekdays)[row["day"]] = row["work"] == 1
    for row in plan.db.execute("SELECT name, type, origin, second FROM plan_period ORDER BY name, seq"):
        if row["type"] == "N":
            period = found.periods.setdefault(row["name"], Period("N"))
            period.entries.append(Entry(row["origin"], row["second"]))
        else:
            found.periods[row["name"]] = Period(row["type"], row["origin"], row["second"])
    for row in plan.db.execute("SELECT name, active, calendar FROM application ORDER BY name"):
        found.applications[row["name"]] = Application(row["active"] == 1, row["calendar"])
    read_run_cycles(plan, found)
    found.predecessors = lists_of(plan, "predecessor")
    return found


def read_run_cycles(plan: Plan, found: Definitions) -> None:
    """Puts the run cycles of a plan, with their offsets, into definitions."""
    offsets: dict[tuple[str, str], list[int]] = {}
    for row in plan.db.execute("SELECT app, name, k FROM run_cycle_offset ORDER BY app, name, seq"):
        offsets.setdefault((row["app"], row["name"]), []).append(row["k"])
    for row in plan.db.execute("SELECT * FROM run_cycle ORDER BY app, name"):
        due = None if row["deadline_day"] is None else Due(row["deadline_day"], row["deadline_time"])
        found.run_cycles.setdefault(row["app"], {})[row["name"]] = RunCycle(
            row["name"], row["type"], row["period"], row["rule"], offsets.get((row["app"], row["name"]), []),
            row["in_effect"], row["out_effect"], row["ia"], due,
        )


def lists_of(plan: Plan, table: str) -> dict[str, dict[str, int | None]]:
    """The lists of predecessors of one table, `predecessor` or `link_in_force`: by application and name, in order, the
    hours of a limit or None."""
    lists: dict[str, dict[str, int | None]] = {}
    within = "within" if plan.meta["version"] > 1 else "NULL"
    for row in plan.db.execute(f"SELECT app, pred, {within} AS hours FROM {table} ORDER BY app, pred"):
        lists.setdefault(row["app"], {})[row["pred"]] = row["hours"]
    return lists
