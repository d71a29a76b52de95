"""A crontab as its lines: at which times and on which days each runs, and what."""

import dataclasses
import re
from collections.abc import Iterator

from opcplan.errors import Error

MONTHS = ("jan", "feb", "mar", "apr", "may", "jun", "jul", "aug", "sep", "oct", "nov", "dec")
WEEKDAYS = ("sun", "mon", "tue", "wed", "thu", "fri", "sat")
# of each field its name, its least and greatest number, and words for its numbers
FIELDS: tuple[tuple[str, int, int, dict[str, int]], ...] = (
    ("minute", 0, 59, {}), ("hour", 0, 23, {}), ("day of the month", 1, 31, {}),
    ("month", 1, 12, {name: number for number, name in enumerate(MONTHS, 1)}),
    ("day of the week", 0, 7, {name: number for number, name in enumerate(WEEKDAYS)}),
)
VARIABLE = re.compile(r"[A-Za-z_][A-Za-z0-9_]*\s*=|[\"'][^\"']*[\"']\s*=")
SHORT = {"@yearly": "0 0 1 1 *", "@annually": "0 0 1 1 *", "@monthly": "0 0 1 * *", "@weekly": "0 0 * * 0",
         "@daily": "0 0 * * *", "@midnight": "0 0 * * *", "@hourly": "0 * * * *"}


class UnsupportedLine(Error):
    """Why a line isn't taken."""


@dataclasses.dataclass
class Line:
    """A line of a crontab; days of the week are 0 for Monday. A day is meant where both have it, or where either has
    it if both are `given`, that is where neither begins with a star."""

    number: int
    minutes: list[int]
    hours: list[int]
    days: set[int]
    months: set[int]
    weekdays: set[int]
    days_given: bool
    weekdays_given: bool
    command: str
    text: str
    user: str = ""
    variables: tuple[tuple[str, str], ...] = ()  # what the crontab sets before the line, by name

    @property
    def times(self) -> list[int]:
        """The minutes of the day at which it runs."""
        return [hour * 60 + minute for hour in self.hours for minute in self.minutes]


def lines_of(text: str) -> Iterator[tuple[int, str]]:
    """The lines of a crontab that are a job or should be one, each with its number."""
    for number, line in enumerate(text.split("\n"), 1):
        line = line.strip()
        if line and not line.startswith("#") and not VARIABLE.match(line):
            yield number, line


def variables_of(text: str) -> dict[int, tuple[tuple[str, str], ...]]:
    """What a crontab sets, by the number of each line of a job behind it; a later value of a name takes the place of an
    earlier one."""
    found: dict[int, tuple[tuple[str, str], ...]] = {}
    held: dict[str, str] = {}
    for number, line in enumerate(text.split("\n"), 1):
        line = line.strip()
        if line and not line.startswith("#") and VARIABLE.match(line):
            name, _, value = line.partition("=")
            held[unquoted(name.strip())] = unquoted(value.strip())
        elif line and not line.startswith("#"):
            found[number] = tuple(held.items())
    return found


def unquoted(text: str) -> str:
    """A text without the quotes around it."""
    return text[1:-1] if len(text) > 1 and text[0] == text[-1] and text[0] in "'\"" else text


def zones_of(text: str) -> list[int]:
    """The lines that name a time zone."""
    return [number for number, line in enumerate(text.split("\n"), 1)
            if re.match(r"\s*[\"']?(CRON_)?TZ[\"']?\s*=", line)]


def read(number: int, text: str, has_user: bool) -> Line:
    """The Line of a line."""
    when, rest = timing_of(text)
    parts = rest.split(None, 1) if has_user else ["", rest]
    if len(parts) < 2 or not parts[1].strip():
        raise UnsupportedLine("it has no command" + (" after its user" if has_user else ""))
    sets = [numbers_of(*field, part) for field, part in zip(FIELDS, when)]
    weekdays = {(day - 1) % 7 for day in sets[4]}
    days_given, weekdays_given = not when[2].startswith("*"), not when[4].startswith("*")
    return Line(number, sorted(sets[0]), sorted(sets[1]), sets[2], sets[3], weekdays, days_given, weekdays_given,
                parts[1].strip(), text, parts[0])


def timing_of(text: str) -> tuple[list[str], str]:
    """The five fields of a line, and what stands behind them."""
    first, *rest = text.split(None, 1)
    if first.startswith("@"):
        if first.lower() not in SHORT:
            raise UnsupportedLine(f"{first[:20]} names no time")
        return SHORT[first.lower()].split(), "".join(rest)
    parts = text.split(None, 5)
    if len(parts) < 6:
        raise UnsupportedLine("it has fewer than five fields and a command")
    return parts[:5], parts[5]


def numbers_of(name: str, low: int, high: int, known: dict[str, int], text: str) -> set[int]:
    """The numbers of one field."""
    found: set[int] = set()
    for part in text.lower().split(","):
        shape = re.fullmatch(r"(?:\*|([0-9a-z]{1,3})-([0-9a-z]{1,3}))(?:/([1-9][0-9]?))?|([0-9a-z]{1,3})", part)
        if shape is None:
            raise UnsupportedLine(f"{part[:20]!r} is not a {name}")
        first, last, step, alone = shape.groups()
        begin, end = (number_of(name, low, high, known, word) if word else other
                      for word, other in ((first or alone, low), (last or alone, high)))
        if end < begin:
            raise UnsupportedLine(f"{part[:20]!r} is not a {name}: it ends before it begins")
        found.update(range(begin, end + 1, int(step or 1)))
    return found


def number_of(name: str, low: int, high: int, known: dict[str, int], text: str) -> int:
    """A number of one field."""
    number = known.get(text, int(text) if text.isdecimal() else -1)
    if not low <= number <= high:
        raise UnsupportedLine(f"{text[:20]!r} is not a {name}")
    return number
