"""Holidays of a CSV file: records `date[,status[,comment]]`."""

import csv
import io
from collections.abc import Iterator

from opcplan.commands.import_result import Days
from opcplan.edits import words
from opcplan.edits.changes import ChangeRefused
from opcplan.rules import record_fields
from opcplan.rules.moments import day_text
from opcplan.rules.naming_words import count_text

STATUSES = {"": False, "free": False, "work": True}
MOST_LEFT = 5


def days(data: bytes, path: str, first: int, last: int) -> Days:
    """The days of a file from a first to a last one."""
    found: dict[int, bool] = {}
    wrong: list[str] = []
    try:
        for number, fields in records(text_of(data, path)):
            try:
                day, is_work = read(fields)
            except record_fields.InvalidField as why:
                wrong.append(f"line {number}: {why}")
                continue
            if found.setdefault(day, is_work) != is_work:
                wrong.append(f"line {number}: {day_text(day)} is both free and a work day in this file")
    except csv.Error as error:
        raise ChangeRefused(f"{path}: it isn't CSV: {error}", 2) from None
    if wrong:
        raise ChangeRefused(f"{path}: " + "; ".join(wrong[:MOST_LEFT])
                            + (f"; and {len(wrong) - MOST_LEFT:,} more lines" if len(wrong) > MOST_LEFT else ""), 2)
    inside = {day: is_work for day, is_work in found.items() if first <= day <= last}
    outside = len(found) - len(inside)
    sentences = [f"{count_text(outside, 'day')} of {path} before --from or after --to."] if outside else []
    return Days(inside, sentences, [])


def text_of(data: bytes, path: str) -> str:
    """The text of a file; what is no UTF-8 may stand in a comment."""
    if data[:2] in (b"\xff\xfe", b"\xfe\xff"):
        raise ChangeRefused(f"{path}: it is UTF-16 text; save it as UTF-8", 2)
    return data.decode("utf-8-sig", "surrogateescape")


def records(text: str) -> Iterator[tuple[int, list[str]]]:
    """The records that aren't empty, a first line of titles aside, each with the number of its line."""
    reader = csv.reader(io.StringIO(text, newline=""), strict=True)
    before = 0
    for fields in reader:
        number, before = before + 1, reader.line_num
        cells = [field.strip() for field in fields]
        if any(cells) and not (number == 1 and cells[0].lower() == "date"):
            yield number, cells


def read(fields: list[str]) -> tuple[int, bool]:
    """The day of a record, and whether it is a work day."""
    if len(fields) > 3:
        raise record_fields.InvalidField("", f"it has {len(fields)} fields, but a record is date, status, comment")
    if ";" in fields[0]:
        raise record_fields.InvalidField("", "separate its fields by commas, not by semicolons")
    day = words.texts_of(date=fields[0]).day("date")
    status = fields[1].lower() if len(fields) > 1 else ""
    if status not in STATUSES:
        raise record_fields.InvalidField("", f"{fields[1][:20]!r} is neither free nor work")
    return day, STATUSES[status]
