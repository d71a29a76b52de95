"""./plan dump: the definitions of a plan, as a job stream that gives them again."""

import argparse
import re
import sys
from collections.abc import Callable, Iterator
from typing import Any, NamedTuple

from opcplan.cli import words
from opcplan.plans import job_numbers, plan_definitions, plan_file
from opcplan.plans.plan_file import Plan
from opcplan.rules import record_texts
from opcplan.rules.record_texts import Unprintable

SUMMARY = "the definitions of a plan, as a job stream that gives them again"
GREATEST_JOB = 999_999_999


class Kind(NamedTuple):
    """What a plan defines of one kind: the kind, how many names it has in words, and its blocks."""

    kind: str
    title: str
    blocks: list[str]


def add_words(parser: words.Parser) -> None:
    """Adds its words to a parser."""
    parser.description = (
        "Prints the definitions of PLAN.db as a job stream. Run over an empty plan, it gives equal definitions. Each "
        "statement has a job number of its own; they begin after the greatest one that the plan has used."
    )
    words.add_plan(parser)
    parser.add_argument("--job", metavar="N", type=job_number, help="the job number of the first statement")


def job_number(text: str) -> int:
    """A job number, for `type=`."""
    if not re.fullmatch(r"[1-9][0-9]{0,8}", text):
        raise argparse.ArgumentTypeError(f"{text!r} is not a job number, 1 to {GREATEST_JOB}")
    return int(text)


def run(given: argparse.Namespace) -> int:
    """Does what the words ask for; the exit status."""
    with plan_file.opened(given.plan) as plan:
        try:
            text = stream_of(plan, given.job)
        except Unprintable as lacks:
            raise Unprintable(f"{given.plan}: {lacks}") from None
    sys.stdout.write(text)
    return 0


def stream_of(plan: Plan, first_job: int | None = None) -> str:
    """The stream whose statements give the definitions of the plan."""
    if first_job is None:
        first_job = job_numbers.after_greatest(plan.db)
    text, number = ["* The definitions of a plan: run over an empty plan, this stream gives them again.\n"], first_job
    for kind, title, blocks in kinds_of(plan):
        text.append(f"\n* {title}\n")
        for block in blocks:
            if number > GREATEST_JOB:
                raise Unprintable(f"there is no job number above {GREATEST_JOB}; give a smaller one with --job")
            text.append(f"define {kind} --job {number}\n{block}/*\n")
            number = job_numbers.following(number)
    return "".join(text)


def kinds_of(plan: Plan) -> Iterator[Kind]:
    """Each kind that the plan defines something of."""
    found = plan_definitions.of_plan(plan)
    limits = [within for listed in found.predecessors.values() for within in listed.values()]
    predecessor_records = record_texts.without_limits if limits.count(None) == len(limits) else record_texts.with_limits
    kinds: tuple[tuple[str, dict[str, Any], Callable[[str, Any], list[str]]], ...] = (
        ("calendars", found.calendars, record_texts.calendar_records),
        ("periods", found.periods, record_texts.period_records),
        ("applications", found.applications, record_texts.application_records),
        ("run-cycles", found.run_cycles, record_texts.run_cycle_records),
        ("predecessors", found.predecessors, predecessor_records),
    )
    for kind, names, records_of in kinds:
        records = {name: records_of(name, defined) for name, defined in names.items()}
        if records:
            title = f"{kind}, of {len(records)} name{'s' if len(records) > 1 else ''}"
            yield Kind(kind, title, record_texts.blocks_of(kind, records))
    options = f'default_calendar = "{found.default_calendar}"\nmax_extension_hours = {found.max_hours}\n'
    yield Kind("options", "options", [options])
