"""./plan move: moves a run to another moment."""

import argparse

from opcplan.acts.verbs import Intention, InvalidIntention
from opcplan.cli import words
from opcplan.commands import acting

SUMMARY = "moves a run to another moment, and keeps its deadline if the plan allows it"


def add_words(parser: words.Parser) -> None:
    """Adds its words to a parser."""
    acting.add_words(
        parser, "move",
        "Moves an occurrence that hasn't begun. The last word says where to: a day, a minute of its day, or a moment. "
        "In the long-term plan it keeps its deadline, by run cycles of one day and `ltp-modify-one`: at the same time, "
        "and as many days later as it moves. In the current plan the rules allow no deadline of one's own, so it shows "
        "the one that comes.", f"the occurrence and the last word, where to: {acting.KEY}; DAY, HH.MM or DAY/HH.MM")
    parser.add_argument("--due", metavar="WHEN", help="when it is due: DAY/HH.MM, or the first HH.MM after it arrives")


def run(given: argparse.Namespace) -> int:
    """Does what the words ask for; the exit status."""

    def made(rest: list[str]) -> Intention:
        if len(rest) < 2:
            raise InvalidIntention("`move` needs the occurrence, and where it is moved to: DAY, HH.MM or DAY/HH.MM")
        return Intention("move", " ".join(rest[:-1]), rest[-1], given.due)

    return acting.run(given, made)
