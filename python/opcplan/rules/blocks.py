"""The data of a `define`: its records, what they define, and the first faulty one
(docs/rules/DEFINITION_RECORDS.md)."""

import dataclasses
import re
import tomllib
from collections.abc import Callable, Iterator
from typing import Any

from opcplan.rules import record_fields
from opcplan.rules.record_fields import InvalidField, Key, Seen, Texts

BYTE_ORDER_MARK = b"\xef\xbb\xbf"
Take = Callable[[dict[str, Any], Texts, Seen], Key]
OPTIONS: dict[str, str | int] = {"default_calendar": "DEFAULT", "max_extension_hours": 504}


@dataclasses.dataclass(frozen=True)
class Fault:
    """The first faulty record: its number, its line counted from the first line of the data as 0, and what is wrong."""

    record: int
    line: int
    field: str  # its name, or nothing where the whole record is faulty
    value: str
    wrong: str


@dataclasses.dataclass
class Block:
    """What a block of one kind defines, by name as in definitions.py, or its fault."""

    kind: str
    defined: dict[str, Any] = dataclasses.field(default_factory=dict)
    fault: Fault | None = None
    records: int = 0
    lines: dict[Key, int] = dataclasses.field(default_factory=dict)  # by the names of a record its line, from 0


def read(kind: str, data: bytes) -> Block:
    """The block that data are."""
    if kind == "options":
        return read_options(data.removeprefix(BYTE_ORDER_MARK))
    block, (names, take) = Block(kind), record_fields.KINDS[kind]
    fewest = record_fields.FEWEST.get(kind, len(names))
    seen: dict[Key, int] = {}
    for begin, line, fields in records(data.removeprefix(BYTE_ORDER_MARK)):
        block.records += 1
        try:
            ask_count(block, names, fewest, fields)
            fewest, names = len(fields), names[: len(fields)]
            take_record(block, names, take, seen, fields, line)
        except InvalidField as why:
            value = fields[names.index(why.field)].decode("utf-8", "backslashreplace") if why.field else ""
            block.fault = Fault(block.records, line, why.field, value, str(why))
            return block
    return block


def ask_count(block: Block, names: tuple[str, ...], fewest: int, fields: list[bytes]) -> None:
    """Asks that a record has as many fields as its kind has, and as the first record of the block."""
    count, most = len(fields), len(names)
    if fewest <= count <= most:
        return
    more, wanted = "more" if count > most else "fewer", f"{most}" if fewest == most else f"{fewest} or {most}"
    of = "the first record" if block.kind in record_fields.FEWEST and block.records > 1 else block.kind
    has = f"it has {count} field{'s' if count != 1 else ''}"
    raise InvalidField("", f"{has}, {more} than the {wanted} of {of}: {', '.join(names)}{parted_else(fields, fewest)}")


def parted_else(fields: list[bytes], fewest: int) -> str:
    """What is said of a record of one field which other marks than commas part into as many as there have to be."""
    marks = {b";": "semicolons", b"\t": "tabs", b"|": "bars"}
    found = [name for mark, name in marks.items() if len(fields) == 1 and fields[0].count(mark) + 1 >= fewest]
    return f"; separate them by commas, not by {found[0]}" if found else ""


def take_record(
    block: Block, names: tuple[str, ...], take: Take, seen: dict[Key, int], fields: list[bytes], line: int
) -> None:
    """Puts what one record defines into its block."""
    texts = record_fields.Texts(dict(zip(names, fields)))
    key = take(block.defined, texts, seen)
    seen.setdefault(key, block.records)
    block.lines.setdefault(key, line)


def records(data: bytes) -> Iterator[tuple[int, int, list[bytes]]]:
    """The records of a block: place, line from 0, and fields; quotes, line ends and empty lines as `csv` takes them."""
    place, line, counted = 0, 0, 0
    while place < len(data):
        if data[place] in b"\r\n":
            place += 1
            continue
        fields: list[bytes] = []
        begin, is_over = place, False
        line, counted = line + data.count(b"\n", counted, begin), begin
        while not is_over:
            field, place = field_at(data, place)
            fields.append(field)
            is_over = place >= len(data) or data[place] in b"\r\n"
            place += 1
        yield begin, line, fields


def field_at(data: bytes, place: int) -> tuple[bytes, int]:
    """The field that begins at a place, and the place behind it."""
    quoted = b""
    if data[place : place + 1] == b'"':
        place += 1
        while True:
            end = data.find(b'"', place)
            if end < 0:
                return quoted + data[place:], len(data)
            quoted += data[place:end]
            place = end + 1
            if data[place : place + 1] != b'"':
                break
            quoted, place = quoted + b'"', place + 1
    rest = re.compile(rb"[^,\r\n]*").match(data, place)
    assert rest is not None, "it takes nothing too"
    return quoted + rest.group(), rest.end()


def read_options(data: bytes) -> Block:
    """The block of options."""
    block = Block("options", records=1)
    given: dict[str, Any] = {}
    try:
        given = tomllib.loads(data.decode("utf-8"))
        for key, value in given.items():
            check_option(key, value)
        block.defined = {**OPTIONS, **given}
    except InvalidField as wrong:
        value = value_text(given[wrong.field])
        block.fault = Fault(1, line_of(data, wrong.field), wrong.field, value, str(wrong))
    except UnicodeDecodeError as error:
        line = data.count(b"\n", 0, error.start)
        block.fault = Fault(1, line, "", "", f"byte {data[error.start]:02X} hexadecimal isn't UTF-8 text")
    except (ValueError, RecursionError) as error:  # of tomllib, which also reads no number of thousands of digits
        at = re.search(r"line ([0-9]+)", str(error))
        line = int(at.group(1)) - 1 if at else max(0, data.count(b"\n") - 1)
        reason = f"{error}" if isinstance(error, tomllib.TOMLDecodeError) else "it is too deep or too long to be read"
        if re.search(rb"(?m)^[ \t]*default_calendar[ \t]*=[ \t]*[A-Za-z@#$]", data):
            reason += '; write a name in double quotes, default_calendar = "DEFAULT"'
        block.fault = Fault(1, line, "", "", f"it isn't TOML: {reason}")
    return block


def value_text(value: object) -> str:
    """A value of TOML for a reader."""
    try:
        return f"{value}"
    except ValueError:  # Python writes no number of thousands of digits
        return "of thousands of digits"


def check_option(key: str, value: object) -> None:
    """Asks that an option is known and in its range."""
    if key not in OPTIONS:
        raise InvalidField(key, "there is no such option; there are default_calendar and max_extension_hours")
    if key == "default_calendar":
        if not isinstance(value, str):
            raise InvalidField(key, "it has to be the name of a calendar, as text in quotes")
        record_fields.name(key, value, 16)
    elif type(value) is not int or not 1 <= value <= 504:
        raise InvalidField(key, "it has to be a whole number from 1 to 504")


def line_of(data: bytes, key: str) -> int:
    """The line of a key in options, from 0."""
    found = re.search(rb"(?m)^[ \t]*[\"']?" + re.escape(key.encode("utf-8")), data)
    return data.count(b"\n", 0, found.start()) if found else 0
