"""The table of printed columns: name, begin and end of each field of each kind of line that opcplan prints.

Whatever reads such a line reads it by this table. The fields of a line stand in the order of their definition, with one
blank between two; the names are those that a plan's tables have, where they have the field."""

import enum
import re
from collections.abc import Iterator
from typing import NamedTuple

Value = int | str | None
SIGNS = "-+>=HX"  # in front of a row that a trial shows, with a blank


class Form(enum.Enum):
    """How a field is written: the pattern of its text, blanks at its ends included."""

    SERIAL = "[0-9]{9}"
    NAME = "[A-Z@#$][A-Z0-9@#$]* *"
    CYCLE = "[A-Z@#$][A-Z0-9@#$]* *| +"
    LETTER = "[A-Z]"
    MOMENT = r"[0-9]{4}-[0-9]{2}-[0-9]{2} [0-9]{2}\.[0-9]{2}"
    HOURS = " *[1-9][0-9]*| +"


class Column(NamedTuple):
    """A field of a line: its name, the place where it begins and the place behind it, and how it is written."""

    name: str
    begin: int
    end: int
    form: Form

    def fits(self, text: str) -> bool:
        """Whether the text of the field is written so in a line, and a blank follows where the line goes on."""
        is_apart = text[self.end : self.end + 1] in ("", " ")
        return is_apart and re.fullmatch(self.form.value, text[self.begin : self.end]) is not None

    def value(self, text: str) -> Value:
        """The value that the field has in a line: a number, a moment `YYYY-MM-DD/HH.MM` or a text; None for blanks."""
        found = text[self.begin : self.end].strip()
        if self.form is Form.MOMENT:
            return found.replace(" ", "/")
        return int(found) if found and self.form in (Form.SERIAL, Form.HOURS) else found or None


class Line:
    """The columns of a kind of line."""

    def __init__(self, *columns: Column) -> None:
        self.columns = {column.name: column for column in columns}
        self.width = columns[-1].end

    def value(self, name: str, text: str) -> Value:
        """The value of one field of a line."""
        return self.columns[name].value(text)

    def values(self, text: str) -> dict[str, Value]:
        """The values of all fields of a line, by their names."""
        return {name: column.value(text) for name, column in self.columns.items()}

    def fits(self, text: str) -> bool:
        """Whether a text is such a line."""
        return len(text) == self.width and all(column.fits(text) for column in self.columns.values())


def line_of(*fields: tuple[str, int, Form]) -> Line:
    """The line that has fields of a name, a width and a form."""
    return Line(*placed(fields))


def placed(fields: tuple[tuple[str, int, Form], ...]) -> Iterator[Column]:
    begin = 0
    for name, width, form in fields:
        yield Column(name, begin, begin + width, form)
        begin += width + 1


OF_ROW = (
    ("serial", 9, Form.SERIAL), ("app", 16, Form.NAME), ("origin", 1, Form.LETTER), ("run_cycle", 8, Form.CYCLE),
    ("ia", 16, Form.MOMENT), ("deadline", 16, Form.MOMENT),
)
ROW = line_of(*OF_ROW)
WITH_STATUS = line_of(*OF_ROW, ("status", 1, Form.LETTER))
WITH_REASON = line_of(*OF_ROW, ("reason", 1, Form.LETTER))
PAIR = line_of(
    ("successor", 9, Form.SERIAL), ("app", 16, Form.NAME), ("ia", 16, Form.MOMENT),
    ("predecessor", 9, Form.SERIAL), ("predecessor_app", 16, Form.NAME), ("predecessor_ia", 16, Form.MOMENT),
)
LINK = line_of(("app", 16, Form.NAME), ("predecessor", 16, Form.NAME), ("within", 4, Form.HOURS))
DAY = line_of(("ia", 16, Form.MOMENT), ("run_cycle", 8, Form.NAME), ("deadline", 16, Form.MOMENT))
# by the list that `list` shows
LISTS = {
    "ltp": ROW, "cp": WITH_STATUS, "history": WITH_STATUS, "deletions": WITH_REASON, "dependencies": PAIR,
    "links": LINK,
}


def unsigned(text: str) -> str:
    """A row that a trial shows, without its sign; any other line as it is."""
    return text[2:] if text[:1] in tuple(SIGNS) and text[1:2] == " " else text


def occurrence_of(text: str) -> tuple[int, str] | None:
    """Serial, and application and input arrival in words, of the occurrence of a row or the successor of a pair; None
    for any other line."""
    row = unsigned(text)
    for line, serial in ((ROW, "serial"), (WITH_STATUS, "serial"), (PAIR, "successor")):
        if line.fits(row):
            app, ia = (row[one.begin : one.end].rstrip() for one in (line.columns["app"], line.columns["ia"]))
            return int(row[line.columns[serial].begin : line.columns[serial].end]), f"{app} {ia}"
    return None
