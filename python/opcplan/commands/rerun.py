"""./plan rerun: runs a run again, and perhaps those that followed it."""

import argparse

from opcplan.cli import words
from opcplan.commands import acting

SUMMARY = "runs a run again, and perhaps those that followed it"


def add_words(parser: words.Parser) -> None:
    """Adds its words to a parser."""
    acting.add_words(
        parser, "rerun",
        "Runs an occurrence again. One in error waits again (`cp-reset`). For one that is complete it adds another one "
        "in the next free minute (`cp-add`), and what waits and arrives later waits for that. With --with-followers "
        "all that followed it, also through others, runs again too, each after what it followed.")
    parser.add_argument("--with-followers", action="store_true", help="run again also what followed it")


def run(given: argparse.Namespace) -> int:
    """Does what the words ask for; the exit status."""
    return acting.run(given, acting.of_words("rerun", followers=given.with_followers))
