"""./plan reset: lets a run that ended in error wait again."""

import argparse

from opcplan.cli import words
from opcplan.commands import acting

SUMMARY = "lets a run that ended in error wait again"


def add_words(parser: words.Parser) -> None:
    """Adds its words to a parser."""
    acting.add_words(
        parser, "reset",
        "Lets an occurrence that ended in error wait again (`cp-reset`).")


def run(given: argparse.Namespace) -> int:
    """Does what the words ask for; the exit status."""
    return acting.run(given, acting.of_words("reset"))
