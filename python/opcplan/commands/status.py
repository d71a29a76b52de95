"""./plan status: how a plan is, on one screen."""

import argparse
from collections import Counter
from typing import NamedTuple

from opcplan.cli import colours, words
from opcplan.cli.colours import Paint
from opcplan.commands import desk_needs, desk_plan, late
from opcplan.desk import client
from opcplan.errors import UsageError
from opcplan.needs.need import Need
from opcplan.plans import locks, plan_definitions, plan_file, row_model, waits
from opcplan.plans.plan_file import Plan
from opcplan.plans.row_model import Model
from opcplan.plans.waits import Row
from opcplan.rules import moments, printable, statuses, usual_due
from opcplan.rules.naming_words import count_text

SUMMARY = "how a plan is, on one screen: who has it, how far it reaches, what needs a person, what is due next"
MOST, MOST_NEEDS = 5, 10  # rows that are due next, and needs
LATER = ("settings", "risk", "long-term-end", "definitions")  # kinds of needs that can wait until morning


class Line(NamedTuple):
    """A line of the screen, and its colour or None."""

    text: str
    colour: str | None = None


def add_words(parser: words.Parser) -> None:
    """Adds its words to a parser."""
    parser.description = (
        "Shows on one screen which program has the plan, when the current plan ends and has to be extended, and how "
        "many occurrences have which status. It also shows what needs a person (docs/use/MONITORING.md), and what is "
        "due next. Over PLAN.db it uses the journal beside it, if there is one. The exit status is 0 if nothing needs "
        "a person, and 1 if something does."
    )
    parser.add_argument("plan", metavar="PLAN.db", nargs="?", type=words.file, help="the file that opcplan --db keeps")
    parser.add_argument("--desk", metavar="DESK",
                        help="the desk that has the plan: http://HOST:PORT, or the path of its socket (else what "
                             "OPCPLAN_DESK has, if no PLAN.db is given)")
    words.add_now(parser)
    late.add_usual(parser)
    colours.add_words(parser)


def run(given: argparse.Namespace) -> int:
    """Does what the words ask for; the exit status."""
    desk = given.desk or (client.usual() if given.plan is None else None)
    if (given.plan is None) == (desk is None):
        raise UsageError("give PLAN.db or --desk DESK, one of them; ./plan status --help says more")
    now = moments.now() if given.now is None else given.now
    if desk is None:
        with plan_file.opened(given.plan) as plan:
            needs = desk_needs.of_file(plan, given.plan, now).needs
            first = Line(f"{given.plan}: {holder_text(given.plan)}")
            lines = [first, *lines_of(plan, needs, now, given.usual_deadlines)]
    else:
        asked = desk_plan.of_words(desk)
        needs = desk_needs.of_desk(asked, given.now)
        with desk_plan.copied(asked) as path, plan_file.opened(path) as plan:
            lines = [Line(f"{desk}: this desk has the plan."), *lines_of(plan, needs, now, given.usual_deadlines)]
    paint = Paint(given.color)
    print("\n".join(paint(printable.fit(line.text), line.colour) for line in lines))
    return 1 if any(line.colour in ("red", "yellow") for line in lines) else 0


def holder_text(path: str) -> str:
    """Which program has the plan in a file."""
    if locks.is_held(path, locks.OF_A_DESK):
        return "a desk has it; `./plan send --desk DESK` sends to the desk."
    if locks.is_held(path, locks.OF_A_RUN):
        return "opcplan or another program has it open."
    return "no program has it open."


def lines_of(plan: Plan, needs: tuple[Need, ...], now: int, by_usual: bool = False) -> list[Line]:
    """All lines on a plan at a moment, with what of it needs a person; `by_usual` has usual deadlines count for rows
    that were added by hand."""
    if not plan.is_created:
        return [Line("There is no long-term plan yet: `ltp-create` makes one, as `./plan send --db PLAN.db ltp-create "
                     "--from DAY --to DAY`.", "yellow")]
    rows, pairs = waits.unfinished(plan)
    usual = waits.usual_deadlines(rows, plan_definitions.of_plan(plan))
    if by_usual:
        rows = [row._replace(deadline=usual.get(row.serial, row.deadline)) for row in rows]
    model = row_model.of_waits(rows, pairs, now)
    row_model.find_holds(model, rows)
    return [*end_lines(plan, now), *count_lines(plan, model), *need_lines(needs), *row_lines(rows, model, now, usual)]


def need_lines(needs: tuple[Need, ...]) -> list[Line]:
    """What needs a person, each with what to do first."""
    if not needs:
        return [Line(""), Line("Nothing needs a person.")]
    more = f" ({len(needs):,}; these come first)" if len(needs) > MOST_NEEDS else ""
    lines = [Line(""), Line(f"Needs a person{more}:", "bold")]
    for place, one in enumerate(needs[:MOST_NEEDS]):
        lines.append(Line(f"  {one.text}", "yellow" if one.kind in LATER else "red"))
        following = needs[place + 1:place + 2] if place + 1 < MOST_NEEDS else ()
        if not any(other.advice == one.advice for other in following):
            lines.append(Line(f"    First: {one.advice}."))
    return lines


def is_never_extended(plan: Plan) -> bool:
    """Whether a plan had no daily plan yet: what is in the current plan and in history arrives before the plan end."""
    return bool(plan.meta["plan_end"] == plan.meta["first_day"] * moments.DAY)


def end_lines(plan: Plan, now: int) -> list[Line]:
    """When the plans end."""
    end, last = plan.meta["plan_end"], plan.meta["last_day"]
    left, day = end - now, moments.day_text(last)
    if is_never_extended(plan):
        first = f"The current plan is empty: the first `dp-extend` fills it, from {moments.moment_text(end)} on."
    elif left <= 0:
        first = f"The current plan ended {moments.moment_text(end)}, {waits.length_text(-left)} ago: `dp-extend` " \
            "makes it longer."
    else:
        first = f"The current plan ends {moments.moment_text(end)}, in {waits.length_text(left)}: `dp-extend` makes " \
            "it longer."
    days = last + 1 - now // moments.DAY
    far = f"in {count_text(days, 'day')}" if days > 0 else f"{count_text(1 - days, 'day')} ago"
    return [Line(first), Line(f"The long-term plan goes to {day}, which ends {far}: `ltp-extend` makes it longer.")]


def count_lines(plan: Plan, model: Model) -> list[Line]:
    """How many occurrences have which status; nothing of a current plan that was never extended."""
    if is_never_extended(plan):
        return []
    known = dict(plan.db.execute("SELECT status, count(*) FROM cp_row GROUP BY status"))
    counts = Counter({"C": known.get("C", 0), "D": known.get("D", 0)})
    counts.update(model.states)
    names = {**statuses.STATES, "F": "to come"}
    parts = [f"{counts[state]:,} {names[state]}" for state in "ESRBFCD" if counts[state]]
    total = count_text(sum(counts.values()), "occurrence")
    return [Line(f"The current plan has {total}{': ' if parts else ''}{', '.join(parts)}.")]


def row_lines(rows: list[Row], model: Model, now: int, usual: dict[int, int]) -> list[Line]:
    """What is due next, the earliest deadline first."""
    places = sorted(range(len(rows)), key=lambda place: (rows[place].deadline, rows[place].ia, rows[place].app))
    coming = [place for place in places if not model.is_late[place] and model.states[place] != "E"]
    if not coming:
        return []
    held = {one.place: one.held for one in model.holds}
    more = f" ({len(coming):,}; these are due first)" if len(coming) > MOST else ""
    return [Line(""), Line(f"Due next{more}:", "bold"),
            *(Line(f"  {text}") for text in aligned(rows, model, coming[:MOST], held, now, usual))]


def aligned(rows: list[Row], model: Model, places: list[int], held: dict[int, int], now: int,
            usual: dict[int, int]) -> list[str]:
    """A line for each of some rows, in columns."""
    keys, states = [rows[place].key for place in places], [statuses.STATES[model.states[place]] for place in places]
    wide, far = max(map(len, keys)), max(map(len, states))
    texts = []
    for place, key, state in zip(places, keys, states):
        row, root = rows[place], model.roots.get(place)
        more = [f"due {moments.moment_text(row.deadline)}", f"serial {row.serial}", waits.late_text(row, now)]
        more += [f"usually due {usual_due.text(usual[row.serial], row.ia)}"] if row.serial in usual else []
        more += [f"holds up {held[place]:,}"] if held.get(place) else []
        more += [f"waits for {rows[root].key}"] if root is not None else []
        texts.append(f"{key:{wide}}  {state:{far}}  " + ", ".join(filter(None, more)))
    return texts
