"""Colours of what a subcommand prints, where it goes to a terminal: what is in error, late or refused stands out."""

import os
import re
import sys
from collections.abc import Callable

from opcplan.cli import words

CODES = {"red": "31", "yellow": "33", "green": "32", "blue": "34", "bold": "1"}
# by what is said of an occurrence, or the letter of its status
OF_STATE = {"E": "red", "in error": "red", "S": "blue", "started": "blue", "C": "green", "complete": "green",
            "R": "green", "ready": "green"}


def add_words(parser: words.Parser) -> None:
    """The option that says whether there are colours, as `words.color`."""
    parser.add_argument("--color", choices=("auto", "always", "never"), default="auto",
                        help="when to use colours: always, never, or auto, which is on a terminal if NO_COLOR isn't "
                             "set (else auto)")


class Paint:
    """What gives a text its colour, or leaves it as it is."""

    def __init__(self, color: str = "never") -> None:
        self.is_on = color == "always" or color == "auto" and is_for_colours()

    def __call__(self, text: str, colour: str | None) -> str:
        """A text in a colour of CODES; without one, or where there are none, as it is."""
        return f"\x1b[{CODES[colour]}m{text}\x1b[0m" if self.is_on and colour and text else text


def is_for_colours() -> bool:
    """Whether standard output is a terminal that shall have colours."""
    return not os.environ.get("NO_COLOR") and os.environ.get("TERM") != "dumb" and sys.stdout.isatty()


def of_line(line: str) -> str | None:
    """The colour of a line that reports something: of a refusal, a fault or an error, or of what is late."""
    if re.search(r"(?:^|: )(?:refused|fault) [0-9]|\bin error\b", line):
        return "red"
    return "yellow" if re.search(r"\blate by\b", line) else None


def of_row(line: str) -> str | None:
    """The colour of a row as lists print it, by its status."""
    return OF_STATE.get(line[-1:]) if line[-2:-1] == " " else None


def text(whole: str, color: str, colour_of: Callable[[str], str | None] = of_line) -> str:
    """A text of lines, each in its colour, where there are colours."""
    paint = Paint(color)
    return "\n".join(paint(line, colour_of(line)) for line in whole.split("\n")) if paint.is_on else whole
