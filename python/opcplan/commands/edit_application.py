"""./plan edit PLAN.db application: whether an application is active, and its calendar."""

from opcplan.cli import words
from opcplan.cli.words import Parser
from opcplan.commands import edit_words

SUMMARY = "makes an application active or pending, gives it another calendar, makes, removes, renames, copies one"
WORDS = ("name", "changes")


def add_words(parser: Parser) -> None:
    """Adds its words to a parser."""
    words.offer(parser.add_argument("name", metavar="NAME", type=edit_words.name, help="the application"),
                names=["applications"])
    action = parser.add_argument(
        "changes", metavar="CHANGE", nargs="+",
        help="active, pending, calendar=NAME, or calendar= for the default one; `new` for an "
             "application that doesn't exist yet, and then also period=, ia=, deadline=, rule=, "
             "offsets= and other fields of its run cycle, which gets the name of cycle=NAME (else that "
             "of its period); remove, rename NEW, or like OTHER for one that doesn't exist yet")
    words.offer(action, ["active", "pending", "calendar=", "new", "remove", "rename", "like"])
