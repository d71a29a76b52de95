"""./plan delete: deletes a run from the current plan."""

import argparse

from opcplan.cli import words
from opcplan.commands import acting

SUMMARY = "deletes a run from the current plan"


def add_words(parser: words.Parser) -> None:
    """Adds its words to a parser."""
    acting.add_words(
        parser, "delete",
        "Deletes an occurrence of the current plan (`cp-delete`).")


def run(given: argparse.Namespace) -> int:
    """Does what the words ask for; the exit status."""
    return acting.run(given, acting.of_words("delete"))
