"""./plan start: says that a run was started."""

import argparse

from opcplan.cli import words
from opcplan.commands import acting

SUMMARY = "says that a run was started"


def add_words(parser: words.Parser) -> None:
    """Adds its words to a parser."""
    acting.add_words(
        parser, "start",
        "Says that an occurrence was started (`cp-start`).")


def run(given: argparse.Namespace) -> int:
    """Does what the words ask for; the exit status."""
    return acting.run(given, acting.of_words("start"))
