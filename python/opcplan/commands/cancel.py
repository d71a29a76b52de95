"""./plan cancel: deletes a run from the plan that has it."""

import argparse

from opcplan.cli import words
from opcplan.commands import acting

SUMMARY = "deletes a run from the plan that has it"


def add_words(parser: words.Parser) -> None:
    """Adds its words to a parser."""
    acting.add_words(
        parser, "cancel",
        "Deletes an occurrence from the plan that has it, the current plan (`cp-delete`) or the long-term "
        "plan (`ltp-delete`).")


def run(given: argparse.Namespace) -> int:
    """Does what the words ask for; the exit status."""
    return acting.run(given, acting.of_words("cancel"))
