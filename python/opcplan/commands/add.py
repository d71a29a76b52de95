"""./plan add: adds a run."""

import argparse

from opcplan.acts.verbs import Intention
from opcplan.cli import words
from opcplan.commands import acting

SUMMARY = "adds a run, with a deadline of its own if the plan allows it"


def add_words(parser: words.Parser) -> None:
    """Adds its words to a parser."""
    acting.add_words(
        parser, "add",
        "Adds an occurrence to the plan that covers its arrival (`cp-add` or `ltp-add`). It is due a day after it "
        "arrives. In the long-term plan --due gives it another deadline, by a run cycle of one day and "
        "`ltp-modify-one`. In the current plan the rules allow no other deadline, so it shows the one that comes.",
        "the application with the moment at which it arrives: APP DAY/HH.MM")
    parser.add_argument("--due", metavar="WHEN", help="when it is due: DAY/HH.MM, or the first HH.MM after it arrives")


def run(given: argparse.Namespace) -> int:
    """Does what the words ask for; the exit status."""
    return acting.run(given, lambda rest: Intention("add", " ".join(rest), None, given.due))
