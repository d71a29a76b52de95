"""The words of an edit: names, days and fields as somebody types them. No I/O."""

from collections.abc import Callable, Iterable
from typing import TypeVar

from opcplan.edits.changes import ChangeRefused
from opcplan.rules import naming_words, record_fields
from opcplan.rules.definitions import WEEKDAYS

Read = TypeVar("Read")  # what a text is read as


def checked(read: Callable[[str], Read], text: str) -> Read:
    """What a reader of record_fields answers. Raises ChangeRefused."""
    try:
        return read(text)
    except record_fields.InvalidField as wrong:
        raise ChangeRefused(f"{text!r}: {wrong}", 2) from None


def texts_of(**fields: str) -> record_fields.Texts:
    """Words as the fields of a record; what is no text is told as a byte of it."""
    return record_fields.Texts({field: text.encode("utf-8", "surrogateescape") for field, text in fields.items()})


def name(text: str) -> str:
    """A name of 16; small letters are taken as capitals."""
    return checked(lambda given: texts_of(name=given.upper()).name("name"), text)


def short_name(text: str) -> str:
    """A name of 8; small letters are taken as capitals."""
    return checked(lambda given: texts_of(name=given.upper()).name("name", 8), text)


def day(text: str) -> int:
    """A day."""
    return checked(lambda given: texts_of(day=given).day("day"), text)


def hours(text: str) -> int:
    """A limit in hours."""
    return checked(lambda given: texts_of(hours=given).number("hours", 1, 9999), text)


def pair(text: str) -> tuple[str, str]:
    """`key=value`."""
    key, equals, value = text.partition("=")
    if not equals or not key:
        raise ChangeRefused(f"{text!r} is not of the form KEY=VALUE", 2)
    return key, value


def lack(what: str, name: str, known: Iterable[str]) -> str:
    """That a plan has no such definition, and what it has."""
    known = list(known)
    return f"there is no {what} {name}{naming_words.meant_text(name, known)}; the plan has " \
        f"{naming_words.few(known) or 'none'}"


def weekday(text: str) -> int | None:
    """The weekday of `MON` to `SUN`, 0 for Monday, or None."""
    return WEEKDAYS.index(text) if text in WEEKDAYS else None
