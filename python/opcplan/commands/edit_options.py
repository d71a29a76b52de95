"""./plan edit PLAN.db options: the default calendar, and how far one daily plan goes."""

from opcplan.cli import words
from opcplan.cli.words import Parser
from opcplan.commands import edit_words

SUMMARY = "changes default_calendar or max_extension_hours"
WORDS = ("pairs",)


def add_words(parser: Parser) -> None:
    """Adds its words to a parser."""
    action = parser.add_argument("pairs", metavar="KEY=VALUE", type=edit_words.pair_text, nargs="+",
                                 help="default_calendar=NAME or max_extension_hours=1 to 504")
    words.offer(action, ["default_calendar=", "max_extension_hours="])
