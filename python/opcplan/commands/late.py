"""./plan late: what is past its deadline at a moment, and what it waits for."""

import argparse
from collections.abc import Mapping

from opcplan.cli import colours, words
from opcplan.plans import actual, late_ends, plan_definitions, plan_file, row_model, waits
from opcplan.plans.late_ends import Ends
from opcplan.plans.plan_file import Plan
from opcplan.plans.row_model import Model
from opcplan.plans.waits import Row
from opcplan.rules import moments, printable, statuses, usual_due

NO_USUAL: Mapping[int, int] = {}
SUMMARY = "what is past its deadline, and what delays it"


def add_words(parser: words.Parser) -> None:
    """Adds its words to a parser."""
    parser.description = (
        "Lists the occurrences of the current plan that are neither complete nor deleted and whose deadline is past, "
        "the earliest deadline first. For those that wait it names their cause, the worst of those at which their "
        "waiting begins. Those with the same cause stand together, and the cause is below the last of them. With the "
        "journal of a desk it also lists what is going to end late, judged by earlier runs, and what ended late in "
        f"the {late_ends.BACK} hours before. It then shows the chain that decides when all of the current plan is "
        "done. The exit status is 0 if something is late, ended late or is going to, and 1 if nothing is."
    )
    words.add_plan(parser)
    words.add_now(parser)
    words.add_journal(parser)
    add_usual(parser)
    colours.add_words(parser)


def add_usual(parser: words.Parser) -> None:
    """The option that has usual deadlines count, as `words.usual_deadlines`."""
    parser.add_argument("--usual-deadlines", action="store_true",
                        help="count a run that was added by hand by the usual deadline of its application (else as due "
                             "a day after it arrives, by the rules)")


def run(given: argparse.Namespace) -> int:
    """Does what the words ask for; the exit status."""
    now = moments.now() if given.now is None else given.now
    lines, notes, is_late = plan_file.answer(
        given.plan, lambda plan: found(plan, given.journal, now, given.usual_deadlines))
    print(colours.text(printable.text(lines), given.color))
    for note in notes:
        words.print_message(note)
    return 0 if is_late else 1


def found(plan: Plan, journal: str | None, now: int, by_usual: bool = False) -> tuple[list[str], list[str], bool]:
    """The lines on a plan at a moment, what is to be said of the moment, and whether something is late, ended late or
    is going to; `by_usual` has usual deadlines count for rows that were added by hand."""
    known = actual.of_journal(journal, plan)
    rows, pairs = waits.unfinished(plan) if known or by_usual else waits.late_with_waits(plan, now)
    added = waits.added(plan)
    usual = waits.usual_deadlines(added, plan_definitions.of_plan(plan)) if added else {}
    if by_usual:
        rows = [row._replace(deadline=usual.get(row.serial, row.deadline)) for row in rows]
    model = row_model.of_waits(rows, pairs, now)
    ends = late_ends.of_plan(plan, rows, pairs, known, now) if known else None
    late, moment = in_order(rows, model), moments.moment_text(now)
    lines = late_lines(rows, model, late, moment, now, ends, usual) if late else [f"Nothing is late at {moment}."]
    is_late = bool(late or ends and ends.is_late)
    past = [] if by_usual else past_usual(added, usual, now)
    return [*lines, *past, *(ends.lines if ends else [])], waits.notes_on(plan, now), is_late


def past_usual(added: list[Row], usual: dict[int, int], now: int) -> list[str]:
    """The rows that were added by hand and aren't late by the rules, but are past their usual deadline."""
    found = [row for row in added if usual.get(row.serial, now) < now <= row.deadline]
    if not found:
        return []
    count = "1 run that was added by hand is" if len(found) == 1 else f"{len(found)} runs that were added by hand are"
    return ["", f"{count} past the usual deadline; --usual-deadlines counts that:",
            *(f"  {row.key}  usually due {moments.moment_text(usual[row.serial])}, by the rules due "
              f"{moments.moment_text(row.deadline)}, serial {row.serial}" for row in found)]


def in_order(rows: list[Row], model: Model) -> list[int]:
    """The places of the late rows, the earliest deadline first."""
    late = [place for place, is_late in enumerate(model.is_late) if is_late]
    return sorted(late, key=lambda place: (rows[place].deadline, rows[place].ia, rows[place].app))


def late_lines(
    rows: list[Row], model: Model, late: list[int], moment: str, now: int, ends: Ends | None = None,
    usual: Mapping[int, int] = NO_USUAL
) -> list[str]:
    """A line for each late row, in columns, and below it what else is to be said. Those that wait for one cause stand
    together, where the first of them stands, and the cause below the last."""
    keys = {place: rows[place].key for place in late}
    states = {place: statuses.STATES[model.states[place]] for place in late}
    lengths = {place: waits.length_text(now - rows[place].deadline) for place in late}
    wide, far, long = (max(map(len, texts.values())) for texts in (keys, states, lengths))
    lines = [f"{len(late)} {'is' if len(late) == 1 else 'are'} late at {moment}:", ""]
    for group in by_cause(model, late):
        for place in group:
            row = rows[place]
            due = moments.moment_text(row.deadline)
            lines.append(f"{keys[place]:{wide}}  {states[place]:{far}}  due {due}  late by {lengths[place]:{long}}  "
                         f"serial {row.serial}")
            more = [by_hand(row, usual.get(row.serial)), ends.text_of(row) if ends else ""]
            lines += [f"    {text}" for text in more if text]
        cause = root_text(rows, model, group[0])
        waiting = "waits" if len(group) == 1 else f"these {len(group):,} wait"
        lines += [f"    {waiting} for {cause}"] if cause else []
    return lines


def by_cause(model: Model, late: list[int]) -> list[list[int]]:
    """The places of late rows, those together that wait for one cause; in the order of their first ones."""
    groups: dict[tuple[bool, int], list[int]] = {}
    for place in late:
        root = model.roots.get(place)
        groups.setdefault((root is not None, place if root is None else root), []).append(place)
    return list(groups.values())


def by_hand(row: Row, usual: int | None = None) -> str:
    """That a deadline is made up: one added by hand is due a day after it arrives; and when it is usually due."""
    if row.cycle is not None:
        return ""
    if usual == row.deadline:
        return f"added by hand, and usually due {usual_due.text(usual, row.ia)}"
    more = "" if usual is None else f"; it is usually due {usual_due.text(usual, row.ia)}"
    return f"added by hand, so it is due a day after it arrives{more}"


def root_text(rows: list[Row], model: Model, place: int) -> str:
    """The worst of those at which its waiting begins, and how that is; or nothing."""
    root = model.roots.get(place)
    if root is None:
        return ""
    late = " and late" if model.is_late[root] else ""
    return f"{rows[root].key}, which is {statuses.STATES[model.states[root]]}{late}"
