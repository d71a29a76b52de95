"""What in a plan needs a person at a moment, with counts of rows by state, and when the plans end."""

from collections import Counter
from typing import Any

from opcplan.needs import found, loaded
from opcplan.needs.facts import Facts, Live
from opcplan.plans import row_model
from opcplan.plans.plan_file import Plan
from opcplan.plans.row_model import Model
from opcplan.rules import moments

# the names of the counts of rows by state; late rows and those at risk are counted besides
STATES = {"E": "in_error", "S": "started", "R": "ready", "B": "blocked", "F": "to_come"}


def of_plan(plan: Plan, journal: str | None, now: int, live: Live = Live(), upto: int = loaded.LAST,
            by_usual: bool = True) -> dict[str, Any]:
    """The facts of a plan at a moment, as docs/use/MONITORING.md lists them; with a forecast if its desk has a journal,
    of which entries count up to the last one that the plan has. A row counts as at risk if it is neither late nor in
    error, but is going to end late by the forecast, or waits for what is late or in error, also through others. Counts
    go by the deadlines of the rules, and needs, if `by_usual`, by usual ones for rows that were added by hand."""
    facts, lacks = loaded.of_plan(plan, journal, now, live, upto, by_usual)
    ends = facts.ends
    return {
        "now": moments.moment_word(now), "plan_end": ends and moments.moment_word(ends.plan_end),
        "last_day": ends and moments.day_text(ends.last_day), "counts": counts_of(facts) if ends else {},
        **found.of_facts(facts).values(), "forecast": lacks if ends else "",
    }


def counts_of(facts: Facts) -> dict[str, int]:
    """How many rows of the current plan have which state, are late and at risk."""
    model = row_model.of_waits(facts.rows, facts.pairs, facts.now)
    counts = Counter({name: 0 for name in STATES.values()})
    counts.update(STATES[state] for state in model.states)
    return {**counts, "late": sum(model.is_late), "at_risk": len(at_risk(facts, model))}


def at_risk(facts: Facts, model: Model) -> set[int]:
    """The places of the rows that are at risk."""
    rows, expected, now = facts.rows, facts.expected, facts.now
    going = {place for place, row in enumerate(rows)
             if row.serial in expected and expected[row.serial].end_moment > row.deadline >= now}
    return {place for place in going | held_up(model) if model.states[place] != "E" and not model.is_late[place]}


def held_up(model: Model) -> set[int]:
    """The places of the rows that wait for what is late or in error, also through others."""
    reached: set[int] = set()
    left = [place for place, state in enumerate(model.states) if state == "E" or model.is_late[place]]
    while left:
        for later in model.behind.get(left.pop(), ()):
            if later not in reached:
                reached.add(later)
                left.append(later)
    return reached
