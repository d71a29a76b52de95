"""Rows of lists as lines of JSON, with the column names of a plan's tables, and moments as statements have them."""

import dataclasses
import functools
import re
from collections.abc import Mapping, Sequence
from typing import NamedTuple

from opcplan.errors import Error
from opcplan.rules import columns, moments

WORDS = ("list", "app", "from", "to", "status", "fresh")
NONE = "-"  # stands for a missing word among the arguments of a process
# by form: the pattern of a field without the blanks around it, and its value as JSON, made of the groups. A blank field
# leaves nothing between the signs around it, and becomes null
FORMS = {
    columns.Form.SERIAL: ("0*([0-9]+)", "%s"),
    columns.Form.NAME: ("([A-Z@#$][A-Z0-9@#$]*)", '"%s"'),
    columns.Form.CYCLE: ("([A-Z@#$][A-Z0-9@#$]*)?", '"%s"'),
    columns.Form.LETTER: ("([A-Z])", '"%s"'),
    columns.Form.MOMENT: (r"([0-9]{4}-[0-9]{2}-[0-9]{2}) ([0-9]{2}\.[0-9]{2})", '"%s/%s"'),
    columns.Form.HOURS: ("([1-9][0-9]*)?", "%s"),
}
BLANKS = ((b'""', b"null"), (b": }", b": null}"), (b": ,", b": null,"))


class InvalidSelection(Error):
    """Why a list can't be shown."""


class Shape(NamedTuple):
    """The pattern of a list's line, and the line of JSON for its groups."""

    line: re.Pattern[bytes]
    json: bytes


@functools.cache
def shape_of(name: str) -> Shape:
    """The Shape of the lines of a list."""
    pattern, values = "", []
    for column in columns.LISTS[name].columns.values():
        field, value = FORMS[column.form]
        between = " *" if column.form is columns.Form.HOURS else " +"
        pattern += (between if pattern else "") + field
        values.append(f'"{column.name}": {value}')
    return Shape(re.compile(f"^{pattern} *$".encode(), re.M), f"{{{', '.join(values)}}}\n".encode())


@dataclasses.dataclass(frozen=True)
class Selection:
    """The rows of a list that are requested: of an application, that arrive from a day on and up to another one, of
    some statuses."""

    name: str
    app: str | None = None
    first: str | None = None
    last: str | None = None
    status: str | None = None

    @property
    def text(self) -> bytes:
        """The statement that prints the list."""
        return (f"list {self.name}" + (f" --app {self.app}" if self.app else "")).encode("ascii") + b"\n"

    @property
    def words(self) -> list[str]:
        """The selection as arguments of a process; `of_words` reads them."""
        return [self.name, *(word or NONE for word in (self.first, self.last, self.status))]

    def lines(self, data: bytes) -> bytes:
        """Whole lines of the list as lines of JSON. Raises InvalidSelection if they have another form."""
        shape = shape_of(self.name)
        chosen = data if not (self.first or self.last or self.status) else b"".join(
            line for line in data.splitlines(keepends=True) if self.has(line))
        rows = shape.line.findall(chosen)
        if len(rows) != chosen.count(b"\n"):
            raise InvalidSelection(f"opcplan prints the list `{self.name}` in a form that this desk doesn't know; use "
                                   "opcplan and ./plan of one version")
        found = b"".join([shape.json % row for row in rows])
        for blank, null in BLANKS:
            found = found.replace(blank, null)
        return found

    def has(self, line: bytes) -> bool:
        """Whether a line's row is requested; the days are those of its input arrival."""
        fields = columns.LISTS[self.name].columns
        if "ia" in fields:
            day = line[fields["ia"].begin : fields["ia"].begin + 10].decode()
            if self.first and day < self.first or self.last and day > self.last:
                return False
        return not self.status or line[fields["status"].begin : fields["status"].end].decode() in self.status


def of_words(words: Sequence[str]) -> Selection:
    """The Selection of a process's arguments."""
    name, *more = words
    first, last, status = (None if word == NONE else word for word in more)
    return Selection(name, None, first, last, status)


def of_query(query: Mapping[str, str]) -> Selection:
    """The Selection of a query. Raises InvalidSelection."""
    for word in query:
        if word not in WORDS:
            raise InvalidSelection(f"there is no parameter `{word[:40]}`; the parameters are {', '.join(WORDS)}")
    name, app, status = query.get("list", "cp"), query.get("app"), query.get("status")
    if name not in columns.LISTS:
        raise InvalidSelection(f"there is no list `{name[:40]}`; the lists are {', '.join(columns.LISTS)}")
    if app is not None and not re.fullmatch(r"[A-Z@#$][A-Z0-9@#$]{0,15}", app):
        raise InvalidSelection("`app` must be the name of an application")
    first, last = day_of(query, "from"), day_of(query, "to")
    if name == "links" and (first or last):
        raise InvalidSelection("the list `links` has no days, so leave out `from` and `to`")
    if status is not None and not ("status" in columns.LISTS[name].columns and re.fullmatch("[WSECD]+", status)):
        raise InvalidSelection("`status` must be letters of W, S, E, C and D, and the list cp or history")
    return Selection(name, app, first, last, status)


def freshness(query: Mapping[str, str]) -> int:
    """What a query requires: 1 if the answer must have all that any desk answered till now, 2 if a majority of the
    desks must have answered that alike, else 0. Raises InvalidSelection."""
    text = query.get("fresh", "0")
    if text not in ("0", "1", "2"):
        raise InvalidSelection("`fresh` must be 0, 1 or 2")
    return int(text)


def day_of(query: Mapping[str, str], word: str) -> str | None:
    """The day that a word of a query names, or None. Raises InvalidSelection."""
    text = query.get(word)
    if text is not None and moments.day_of(text) is None:
        raise InvalidSelection(f"`{word}` must be a day like 2026-11-25")
    return text
