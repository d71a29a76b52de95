"""./plan edit PLAN.db predecessor: what an application waits for."""

import argparse

from opcplan.cli import words
from opcplan.cli.words import Parser
from opcplan.commands import edit_words
from opcplan.edits.predecessors import ADD, REMOVE

SUMMARY = "adds a predecessor to an application's list, with a limit or none, or removes one"
WORDS = ("app", "verb", "other", "hours")


def add_words(parser: Parser) -> None:
    """Adds its words to a parser."""
    words.offer(parser.add_argument("app", metavar="APP", type=edit_words.name, help="the application that waits"),
                names=["applications"])
    action = parser.add_argument("verb", metavar="add|remove", type=verb, help="add (also for another limit), or "
                                                                               "remove")
    words.offer(action, [ADD, REMOVE])
    parser.add_argument("other", metavar="P", type=edit_words.name, help="the application that it waits for")
    parser.add_argument("hours", metavar="HOURS", type=edit_words.hours, nargs="?",
                        help="how many hours before APP an occurrence of P may arrive at most (else without a limit)")


def verb(text: str) -> str:
    """What is to be done."""
    if text not in (ADD, REMOVE):
        raise argparse.ArgumentTypeError(f"{text!r} is neither add nor remove")
    return text
