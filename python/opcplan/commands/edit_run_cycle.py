"""./plan edit PLAN.db run-cycle: the fields of a run cycle."""

from opcplan.cli import words
from opcplan.cli.words import Parser
from opcplan.commands import edit_words
from opcplan.edits import words as edit_texts
from opcplan.edits.run_cycles import FIELDS, NEW, OTHER_WORDS
from opcplan.rules.definitions import Definitions
from opcplan.rules.naming_words import few

SUMMARY = "changes fields of a run cycle, gives an application a new one, removes, renames or copies one"
WORDS = ("app", "name", "changes")


def add_words(parser: Parser) -> None:
    """Adds its words to a parser."""
    words.offer(parser.add_argument("app", metavar="APP", type=edit_words.name, help="its application"),
                names=["applications"])
    words.offer(parser.add_argument("name", metavar="NAME", type=edit_words.short_name, help="the run cycle"),
                names=["run-cycles"])
    action = parser.add_argument(
        "changes", metavar="FIELD=VALUE", nargs="+",
        help="`new` for a run cycle that doesn't exist yet, and then period=, ia= and deadline=. "
             f"Else {', '.join(FIELDS)}; offset and ia for short. deadline=DAYS/HH.MM sets both of its "
             "fields, deadline=HH.MM the time alone. Blanks or commas separate offsets; an empty value "
             "is none. Or remove, rename NEW, or, for one that doesn't exist yet, like OTHER or like "
             "APP/OTHER, and then fields that are different")
    words.offer(action, [*(f"{field}=" for field in [*FIELDS, "deadline", *OTHER_WORDS]), NEW, "remove", "rename",
                         "like"])


def name_lacked(found: Definitions, typed: list[str]) -> str:
    """That the run cycle's name is missing before a field, and which ones an application has; or nothing."""
    if len(typed) < 2 or "=" not in typed[1]:
        return ""
    app = typed[0].upper()
    if app not in found.applications and app not in found.run_cycles:
        return edit_texts.lack("application", app, found.applications)
    return f"the run cycle's name is missing before {typed[1]}: {app} has " \
        f"{few(found.run_cycles.get(app, {})) or 'no run cycle'}"
