"""./plan fail: says that a run ended in error."""

import argparse

from opcplan.cli import words
from opcplan.commands import acting

SUMMARY = "says that a run ended in error"


def add_words(parser: words.Parser) -> None:
    """Adds its words to a parser."""
    acting.add_words(
        parser, "fail",
        "Says that an occurrence ended in error (`cp-fail`).")


def run(given: argparse.Namespace) -> int:
    """Does what the words ask for; the exit status."""
    return acting.run(given, acting.of_words("fail"))
