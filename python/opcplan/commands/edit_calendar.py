"""./plan edit PLAN.db calendar: what a calendar lists of days or of a weekday."""

import re

from opcplan.cli import words
from opcplan.cli.words import Parser
from opcplan.commands import edit_words
from opcplan.edits.calendars import STATUSES
from opcplan.rules.definitions import Definitions, WEEKDAYS
from opcplan.rules.naming_words import few

SUMMARY = "lists days or a weekday as free or work, unlists them, or removes, renames or copies a calendar"
WORDS = ("name", "changes")


def add_words(parser: Parser) -> None:
    """Adds its words to a parser."""
    words.offer(parser.add_argument("name", metavar="NAME", type=edit_words.name, help="the calendar"),
                names=["calendars"])
    action = parser.add_argument(
        "changes", metavar="CHANGE", nargs="+",
        help="ENTRY STATUS: a day like 2026-12-24, days like 2026-12-24..2026-12-31, or a weekday, MON "
             "to SUN, and then free, work, or unlist (the weekday decides), also several of these; or remove, "
             "rename NEW, or like OTHER for a calendar that doesn't exist yet")
    words.offer(action, [*WEEKDAYS, *STATUSES, "remove", "rename", "like"])


def name_lacked(found: Definitions, typed: list[str]) -> str:
    """That the calendar's name is missing before a day, and which calendars a plan has; or nothing."""
    if not typed or not re.match("[0-9]", typed[0]):
        return ""
    return f"the calendar's name is missing before {typed[0]}: the plan has {few(found.calendars) or 'no calendar'}"
