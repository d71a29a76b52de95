"""./plan why: why an occurrence isn't started, or why it is where it is."""

import argparse
import dataclasses

from opcplan.acts import loaded, resolver
from opcplan.cli import words
from opcplan.commands import keys, why_day
from opcplan.plans import actual, forecast, late_ends, plan_definitions, plan_file, waits
from opcplan.plans.actual import Actual, Run
from opcplan.plans.plan_file import Plan
from opcplan.plans.waits import Row, Waits
from opcplan.rules import moments, naming, printable, statuses
from opcplan.rules.naming_words import meant_text

SUMMARY = "why an occurrence isn't started, or why it is where it is"
MOST_LINES, DEEPEST = 60, 20
SENTENCES = {
    "S": "It is started, and not complete yet.",
    "E": "It ended in error. `cp-reset` lets it wait again, `cp-complete` marks it as complete, `cp-delete` deletes "
         "it.",
    "C": "The next daily plan takes it to history.",
    "D": "An operator deleted it. The next daily plan takes it to the deletions.",
    "H": "It was complete, and a daily plan took it to history.",
    "o": "No planning statement makes it again; `ltp-add` or `cp-add` can.",
    "w": "When the long-term plan was modified, its run cycles no longer named it.",
    "p": "An operator deleted it in the current plan, and a daily plan took it to the deletions.",
}


@dataclasses.dataclass(frozen=True)
class Settings:
    """The occurrence, the moment, the journal of the desk, and whether the whole tree is shown."""

    key: keys.Key
    now: int
    journal: str | None
    all_lines: bool


def add_words(parser: words.Parser) -> None:
    """Adds its words to a parser."""
    parser.description = (
        "Shows where an occurrence is and why. For one that waits, a tree shows everything that isn't complete of what "
        "it waits for, down to those that wait for nothing. With the journal of a desk it also shows when the "
        "occurrence ran, how long its application takes, and, if it isn't complete, when it is likely to end. The exit "
        "status is 1 if it is nowhere."
    )
    words.add_plan(parser)
    keys.add_key(parser)
    words.add_now(parser)
    words.add_journal(parser)
    parser.add_argument("--all", action="store_true", help=f"all lines of the tree, also beyond {MOST_LINES}")


def run(given: argparse.Namespace) -> int:
    """Does what the words ask for; the exit status."""
    settings = Settings(given.key, moments.now() if given.now is None else given.now, given.journal, given.all)
    lines, is_found = plan_file.answer(given.plan, lambda plan: lines_of(plan, settings))
    print(printable.text(lines))
    return 0 if is_found else 1


def lines_of(plan: Plan, given: Settings) -> tuple[list[str], bool]:
    """What is printed of an occurrence at a moment, and whether it stands somewhere."""
    if given.key.meant is not None:
        meant = resolver.resolve(loaded.world_of(plan), given.key.meant, near=given.now)
        if meant.row is None:
            fit = [f"{len(meant.several)} occurrences fit {given.key.meant.text}; name one of them:"]
            return [*(fit if meant.several else []), *resolver.lines_of(meant)], False
        given = dataclasses.replace(given, key=keys.Key(meant.row.serial, None, None))
    found = keys.rows_of(plan, given.key)
    if found is None:
        return [keys.unknown_text(plan, given.key)], False
    app, ia, rows = found
    lines = row_lines(plan, rows[0], given.now, given.all_lines) if rows else nowhere_lines(plan, app, ia)
    known = actual.of_journal(given.journal, plan)
    if known and rows:
        lines += run_lines(rows[0], known) + end_lines(plan, rows[0], known, given.now)
    return lines + earlier_lines(rows[1:]) + job_lines(plan, app, ia), bool(rows)


def row_lines(plan: Plan, row: Row, now: int, all_lines: bool) -> list[str]:
    """Where a row stands, and why."""
    by = "added by hand" if row.cycle is None else f"by {row.cycle}"
    due = f"due {moments.moment_text(row.deadline)}" + (", a day after it arrives" if row.cycle is None else "")
    lines = [f"{row.key} {statuses.WHERE[row.place]} (serial {row.serial}, {by}, {due})."]
    if row.place in "WL":
        return lines + waiting_lines(plan, row, now, all_lines)
    lines.append(SENTENCES[row.place])
    if waits.is_late(row, now):
        lines.append(f"At {moments.moment_text(now)} it is {waits.late_text(row, now)}.")
    if row.place == "w":
        lines += ["", *named_lines(plan, row.app, row.ia)]
    return lines


def waiting_lines(plan: Plan, row: Row, now: int, all_lines: bool) -> list[str]:
    """What an occurrence that isn't started waits for."""
    waiting = waits.chain(plan, row)
    count = len(waiting) - 1
    if row.place == "L":
        end = moments.moment_text(plan.meta["plan_end"])
        lines = [f"The current plan ends at {end}; a daily plan that reaches past its arrival includes it."]
    else:
        how = STATE_WORDS[waits.state(row, bool(count), now)]
        late_by = f", and {waits.late_text(row, now)}" if waits.is_late(row, now) else ""
        lines = [f"At {moments.moment_text(now)} it {how}{late_by}."]
    if not count:
        done = "all that it waits for is complete" if waits.predecessors(plan, row.serial) else "it waits for nothing"
        return [*lines, f"Nothing holds it up: {done}."]
    lines.append(f"It waits for {count} that {'is' if count == 1 else 'are'} not complete:")
    lines += ["", *tree_lines(waiting, row, now, all_lines)]
    last = waits.roots(waiting, row)
    if any(other not in waiting[row.serial] for other in last):
        shown = last if all_lines else last[: MOST_LINES // 3]
        lines += ["", "Of these, which wait for nothing that isn't complete:", *aligned(shown, waiting, now)]
        if len(shown) < len(last):
            lines.append(f"  and {len(last) - len(shown)} more; --all shows them")
    return lines


STATE_WORDS = {
    "ready": "is ready",
    "blocked": "is blocked",
    "its time is to come": "has not arrived yet",
}


RUN_WORDS = {"S": "not ended yet", "C": "complete", "E": "in error"}


def run_lines(row: Row, known: Actual) -> list[str]:
    """When a row ran, and how long its application takes."""
    runs = known.runs.get(row.serial, [])
    lines = [f"  {run_text(run)}" for run in runs]
    if lines and runs[-1].status == "C":
        lines[-1] += f": {late_ends.end_text(row, known).partition(', ')[2] or 'in time'}"
    usual = actual.usual_text(row.app, known.usual.get(row.app))
    return ["", *(["Its runs:", *lines] if lines else ["No run of it is known."]), usual]


def run_text(run: Run) -> str:
    """When a run began and ended, and how long it took."""
    begin = "" if run.start is None else f"started {actual.moment_text(run.start)}"
    end = RUN_WORDS[run.status] + ("" if run.end is None else f" {actual.moment_text(run.end)}")
    took = "" if run.seconds is None else f", after {actual.length_text(run.seconds)}"
    return ", ".join(filter(None, [begin, end])) + took


def end_lines(plan: Plan, row: Row, known: Actual, now: int) -> list[str]:
    """When a row of the current plan that isn't complete is likely to end, and by which chain."""
    if row.place not in statuses.UNFINISHED:
        return []
    rows, pairs = waits.unfinished(plan)
    found = forecast.of_rows(rows, pairs, known, now)
    past = found[row.serial].end_moment - row.deadline
    late_by = f", late by {waits.length_text(past)}" if past > 0 else ""
    chain = forecast.chain_of(found, row.serial)
    lines = [f"It is expected to end {forecast.end_text(found[row.serial])}{late_by}."]
    if len(chain) == 1:
        return lines
    names = {other.serial: other.key for other in rows}
    return [*lines, "", "This chain decides it:", *forecast.chain_lines(chain, found, names)]


def tree_lines(waiting: Waits, row: Row, now: int, all_lines: bool) -> list[str]:
    """What a row waits for, each below what waits for it; what came before is not followed again."""
    shown: set[int] = set()
    rows: list[tuple[Row, int, bool]] = []
    left = [(other, 1) for other in reversed(waiting[row.serial])]
    while left and (all_lines or len(rows) < MOST_LINES):
        here, depth = left.pop()
        again = here.serial in shown and bool(waiting[here.serial])
        rows.append((here, depth, again))
        if here.serial not in shown:
            left += [(other, depth + 1) for other in reversed(waiting[here.serial])]
        shown.add(here.serial)
    lines = aligned([here for here, _, _ in rows], waiting, now, rows)
    return lines + (["  and more; --all shows them"] if left else [])


def aligned(rows: list[Row], waiting: Waits, now: int, places: list[tuple[Row, int, bool]] | None = None) -> list[str]:
    """A line for each row, in columns: its key (indented by its depth), how far it is, when it is due, its serial."""
    places = places or [(row, 1, False) for row in rows]
    keys = [indent(depth) + row.key for row, depth, _ in places]
    states = [waits.state(row, bool(waiting[row.serial]), now) for row, _, _ in places]
    wide, far = max(map(len, keys)), max(map(len, states))
    lines = []
    for (row, _, again), key, state in zip(places, keys, states):
        tail = [f"due {moments.moment_text(row.deadline)}", f"serial {row.serial}", waits.late_text(row, now)]
        tail.append("as above" if again else "")
        lines.append(f"{key:{wide}}  {state:{far}}  " + ", ".join(filter(None, tail)))
    return lines


def indent(depth: int) -> str:
    """The blanks before a row of a tree; deep ones stand at one place, behind the number of their depth."""
    return "  " * depth if depth <= DEEPEST else "  " * DEEPEST + f"{depth}: "


def nowhere_lines(plan: Plan, app: str, ia: int) -> list[str]:
    """Why an occurrence is in no plan, not in history, and not in the deletions."""
    apps = plan_definitions.of_plan(plan).applications
    if app not in apps and not waits.is_of_a_row(plan, app):
        return [f"The application {app} isn't defined{meant_text(app, apps)}, and the plan has no occurrence of it."]
    lines = [f"{app} {moments.moment_text(ia)} is nowhere, and never was."]
    if not plan.is_created:
        lines.append("There is no long-term plan yet; `ltp-create` makes one.")
    return lines + named_lines(plan, app, ia)


def named_lines(plan: Plan, app: str, ia: int) -> list[str]:
    """Whether the definitions name an occurrence now, and why it isn't there, or how they don't name it."""
    defined, (day, time) = plan_definitions.of_plan(plan), divmod(ia, waits.DAY)
    said = naming.names(defined, app, day)
    named = [one for one in said.times if one.time == time and not one.excluded_by]
    if named and said.obstacle is None:
        reason = why_day.why_missing(plan, app, ia, waits.rows_of_key(plan, app, ia))
        return [f"By the current definitions {named[0].cycle.name} names it.", reason]
    lines = [f"By the current definitions nothing names it at {moments.minute_text(time)}."]
    first, last = plan.meta["first_day"], plan.meta["last_day"]
    if plan.is_created and not first <= day <= last:
        lines.append(f"The long-term plan goes from {moments.day_text(first)} to {moments.day_text(last)}.")
    return [*lines, "", *why_day.day_lines(defined, app, day, said)]


def earlier_lines(rows: list[Row]) -> list[str]:
    """The other rows of the same key."""
    lines = [f"  serial {row.serial} {statuses.WHERE[row.place]}" for row in rows]
    return ["", "Others with this application and arrival:", *lines] if lines else []


def job_lines(plan: Plan, app: str, ia: int) -> list[str]:
    """What was asked of the key by its jobs."""
    lines = [f"  job {number}  {name}: {reply}" for number, name, reply in waits.jobs_of_key(plan, app, ia)]
    return ["", "Jobs on it:", *lines] if lines else []
