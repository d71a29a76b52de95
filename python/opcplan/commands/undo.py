"""./plan undo: takes the last change back, or the one of a journal's entry."""

import argparse

from opcplan.acts.verbs import Intention
from opcplan.cli import words
from opcplan.commands import acting, dump

SUMMARY = "takes the last change back, or the one of an entry of the journal"


def add_words(parser: words.Parser) -> None:
    """Adds its words to a parser."""
    acting.add_words(
        parser, "undo",
        "Takes a change back, if the statements can: the last one in the journal of the plan's desk (at a desk the "
        "last one of yours), or the one of --entry. Changes by agents don't count. An act of several statements is "
        "taken back whole. If the change can't be undone, it says why.", "nothing else")
    parser.add_argument("--entry", type=dump.job_number, metavar="N", help="the number of an entry of the journal")
    parser.add_argument("--journal", type=words.file, metavar="FILE",
                        help="the journal of the plan's desk (else the one beside PLAN.db)")
    parser.add_argument("--job", type=dump.job_number, metavar="N",
                        help="the job number of a statement that PLAN.db keeps, if there is no journal")


def run(given: argparse.Namespace) -> int:
    """Does what the words ask for; the exit status."""
    return acting.run(given, lambda rest: Intention("undo", " ".join(rest), entry=given.entry))
