"""./plan complete: says that a run is complete, or completes all that it waits for too."""

import argparse

from opcplan.cli import words
from opcplan.commands import acting

SUMMARY = "says that a run is complete, or completes all that it waits for too"


def add_words(parser: words.Parser) -> None:
    """Adds its words to a parser."""
    acting.add_words(
        parser, "complete",
        "Says that an occurrence is complete (`cp-complete`). With --chain it completes all that the occurrence waits "
        "for, each after what it waits for itself, and then the occurrence: what waits is started first.")
    parser.add_argument("--chain", action="store_true", help="complete all that it waits for, and then it")


def run(given: argparse.Namespace) -> int:
    """Does what the words ask for; the exit status."""
    return acting.run(given, acting.of_words("complete", chain=given.chain))
