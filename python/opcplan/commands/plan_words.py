"""The words of a command whose plan is a file or that of a desk, and the plan that they name."""

import argparse
import contextlib
from collections.abc import Iterator

from opcplan.cli import words
from opcplan.commands import desk_plan
from opcplan.desk import client
from opcplan.errors import UsageError
from opcplan.plans import plan_file
from opcplan.plans.plan_file import Plan


def add_words(parser: words.Parser) -> None:
    """The word that names the plan's file, and the option that names a desk."""
    words.add_plan(parser, " (not with --desk)")
    parser.add_argument("--desk", metavar="DESK",
                        help="the desk that has the plan: http://HOST:PORT, or the path of its socket (else what "
                             "OPCPLAN_DESK has, if no PLAN.db is given)")


@contextlib.contextmanager
def opened(given: argparse.Namespace, prog: str) -> Iterator[Plan]:
    """The plan of a file, or a copy of that of a desk. Raises UsageError where the words name neither, or both."""
    desk = given.desk or (client.usual() if given.plan is None else None)
    if (given.plan is None) == (desk is None):
        raise UsageError(f"give PLAN.db or --desk DESK, one of them; {prog} --help says more")
    if desk is None:
        with plan_file.opened(given.plan) as plan:
            yield plan
        return
    with desk_plan.copied(desk_plan.of_words(desk)) as path, plan_file.opened(path) as plan:
        yield plan
