"""./plan edit PLAN.db period: the origins, interval ends, type and interval of a period."""

import re

from opcplan.cli import words as cli_words
from opcplan.cli.words import Parser
from opcplan.commands import edit_words
from opcplan.edits.periods import KEYS, LISTED, WEEKDAY
from opcplan.rules import horizons

SUMMARY = "adds or removes an origin or an interval's end, changes type, origin or interval, removes, renames, copies"
WORDS = ("name", "changes")


def add_words(parser: Parser) -> None:
    """Adds its words to a parser."""
    parser.description = (
        f"{parser.description} Of type N: `add ORIGIN [END]` lists another interval, `remove ORIGIN` removes one, `end "
        "ORIGIN [END]` sets or removes the end of one. `months FIRST..LAST` lists each month from one YYYY-MM to "
        "another, `quarters` each quarter, `weeks` each week from one day to another, and `weekday 3FRI FIRST..LAST` "
        "each third Friday from one year or month to another (`-1FRI` is the last Friday), each to the day before the "
        "next; without FIRST they go on after the last interval. `remove` alone, `rename NEW` and `like OTHER` are "
        "about the period as a whole. With `new` before these, or before type=, origin= and interval=, the period is a "
        "new one. "
        "Otherwise type=, origin= and interval= change a period of type A or W; with type=N, origin= lists a first "
        "interval."
    )
    parser._negative_number_matcher = re.compile("-[0-9]")  # -1FRI is no option
    cli_words.offer(parser.add_argument("name", metavar="NAME", type=edit_words.short_name, help="the period"),
                    names=["periods"])
    action = parser.add_argument(
        "changes", metavar="CHANGE", nargs="+",
        help="add ORIGIN [END], remove ORIGIN, end ORIGIN [END], months, quarters or weeks "
             "[FIRST]..LAST, weekday NTH [FIRST]..LAST, KEY=VALUE .., remove, rename NEW, or like OTHER")
    cli_words.offer(action, [*LISTED, *horizons.NEXT, WEEKDAY, "new", "rename", "like", *(f"{key}=" for key in KEYS)])
