"""On which line of a TOML file a table or a key is, so that a sentence about it can name the line. No I/O.

The parser of Python's library keeps no lines. The text has to be valid TOML."""

import re
import tomllib
from typing import Any

PART = r"""(?:[A-Za-z0-9_-]+|"(?:\\.|[^"\\\n])*"|'[^'\n]*')"""
KEY = rf"{PART}(?:[ \t]*\.[ \t]*{PART})*"
HEADER = re.compile(rf"(\[\[?)[ \t]*({KEY})[ \t]*\]\]?")
ASSIGNED = re.compile(rf"({KEY})[ \t]*=")
BLANK = re.compile(r"(?:\s|#[^\n]*)*")
# a part of a value: a text in quotes, of several lines or of one; a comment; a bracket; the end of a line; else
TOKEN = re.compile(r'"""(?:\\.|[^\\])*?"{3,5}(?!")|\'\'\'.*?\'{3,5}(?!\')|"(?:\\.|[^"\\])*"|\'[^\']*\'|#[^\n]*|'
                   r'[\[\]{}\n]|[^"\'#\[\]{}\n]+', re.S)
Place = tuple[str | int, ...]


class Lines:
    """The lines of a text. A place is the names of tables and of a key in them; the tables of an array are counted from
    1, as ("rule", 2, "minutes") for a key of the second [[rule]]."""

    def __init__(self, text: str = "") -> None:
        self.found: dict[Place, int] = {}
        self.counts: dict[Place, int] = {}  # of the tables of each array
        text, at = text.replace("\r\n", "\n"), 0
        table: Place = ()
        while (at := ended(BLANK.match(text, at))) < len(text):
            line = text.count("\n", 0, at) + 1
            if header := HEADER.match(text, at):
                table = self.table_of(names_of(header[2]), is_array=header[1] == "[[")
                self.found.setdefault(table, line)
                at = header.end()
            elif assigned := ASSIGNED.match(text, at):
                self.note(table, names_of(assigned[1]), line)
                at = assigned.end()
            else:  # it isn't TOML
                return
            at = end_of_value(text, at)

    def table_of(self, names: Place, is_array: bool) -> Place:
        """The place of a table with a header of these names."""
        found: Place = ()
        for name in names[:-1]:
            found = self.current((*found, name))
        found = (*found, names[-1])
        if is_array:
            self.counts[found] = self.counts.get(found, 0) + 1
        return self.current(found)

    def current(self, place: Place) -> Place:
        """The place of the last table of an array, or the place itself."""
        return (*place, self.counts[place]) if place in self.counts else place

    def note(self, table: Place, names: Place, line: int) -> None:
        """Notes a key of a table, with the tables that its names make."""
        for count in range(1, len(names) + 1):
            self.found.setdefault((*table, *names[:count]), line)

    def of(self, *place: str | int) -> int | None:
        """The line of a place, or of the nearest table around it; None if there is none."""
        return next((self.found[place[:count]] for count in range(len(place), 0, -1) if place[:count] in self.found),
                    None)

    def told(self, why: object, *place: str | int) -> str:
        """A sentence about a place, behind its line if there is one."""
        line = self.of(*place)
        return str(why) if line is None else f"line {line}: {why}"


def names_of(key: str) -> Place:
    """The names that a dotted key has."""
    found: Any = tomllib.loads(f"{key} = 0")
    names: list[str] = []
    while isinstance(found, dict):
        (name, found), = found.items()
        names.append(name)
    return tuple(names)


def end_of_value(text: str, at: int) -> int:
    """Where the line ends on which a value ends that begins at a place."""
    depth = 0
    while at < len(text):
        token = TOKEN.match(text, at)
        if token is None or token[0] == "\n" and not depth:
            break
        depth += (token[0] in "[{") - (token[0] in "]}")
        at = token.end()
    return at if at < len(text) and text[at] == "\n" else len(text)


def ended(found: re.Match[str] | None) -> int:
    """Where a match ends that there always is."""
    assert found is not None, "it matches nothing too"
    return found.end()
