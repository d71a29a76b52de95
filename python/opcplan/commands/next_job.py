"""./plan next-job: the greatest job number that a plan has used, and the one after it."""

import argparse

from opcplan.cli import words
from opcplan.errors import Error
from opcplan.plans import job_numbers, plan_file, printed_numbers
from opcplan.plans.job_numbers import GREATEST

SUMMARY = "the greatest job number that is used, and one more"


def add_words(parser: words.Parser) -> None:
    """Adds its words to a parser."""
    parser.description = (
        "Prints the greatest job number that PLAN.db keeps, and the next free one. It passes over the numbers that a "
        "desk gave itself, and those of streams that `edit` or `import` printed and nobody ran yet. The exit status is "
        "1 if no greater number is left."
    )
    words.add_plan(parser)
    parser.add_argument("--short", action="store_true", help="the next number alone, for a script")


def run(given: argparse.Namespace) -> int:
    """Does what the words ask for; the exit status."""
    with plan_file.opened(given.plan) as plan:
        greatest, of_desk = job_numbers.greatest(plan.db), job_numbers.of_desk(plan.db)
    number = printed_numbers.behind(given.plan, job_numbers.following(greatest))
    if not given.short:
        print(f"greatest used: {greatest or 'none'}" + (", apart from a desk's own numbers" if of_desk else ""))
    if number > GREATEST:
        raise Error(f"{given.plan}: the greatest job number, {GREATEST}, is used; smaller ones may be free")
    print(number if given.short else f"next: {number}")
    return 0
