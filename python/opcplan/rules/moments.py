"""Days and moments as they are written, and as a plan keeps them: days and minutes since 1970-01-01, without a zone."""

import datetime
import re
from typing import overload

EPOCH = datetime.datetime(1970, 1, 1)
DAY = 1440
FIRST_YEAR, LAST_YEAR = 1972, 2071


def day_of(text: str) -> int | None:
    """The day of `YYYY-MM-DD`, or None where the text spells none that a plan can have."""
    if not re.fullmatch(r"[0-9]{4}-[0-9]{2}-[0-9]{2}", text):
        return None
    try:
        date = datetime.date.fromisoformat(text)
    except ValueError:
        return None
    return (date - EPOCH.date()).days if FIRST_YEAR <= date.year <= LAST_YEAR else None


def day_text(day: int) -> str:
    """`YYYY-MM-DD`."""
    return (EPOCH.date() + datetime.timedelta(days=day)).isoformat()


def minute_of(text: str) -> int | None:
    """The minute of `HH.MM`, or None."""
    if not re.fullmatch(r"[0-9]{2}\.[0-9]{2}", text):
        return None
    hour, minute = int(text[:2]), int(text[3:])
    return hour * 60 + minute if hour < 24 and minute < 60 else None


def minute_text(minute: int) -> str:
    """`HH.MM` of a minute of the day."""
    return f"{minute // 60:02}.{minute % 60:02}"


def moment_of(text: str) -> int | None:
    """The moment of `YYYY-MM-DD/HH.MM`, or None."""
    if len(text) != 16 or text[10] != "/":
        return None
    day, minute = day_of(text[:10]), minute_of(text[11:])
    return None if day is None or minute is None else day * DAY + minute


def typed_moment(text: str) -> int | None:
    """The moment of a text that somebody typed: a day, `/`, `T` or blanks, and `HH.MM` or `HH:MM`; or None."""
    found = re.fullmatch(r"(\S{10})(?:[/T]| +)([0-9]{2})[.:]([0-9]{2})", text)
    return moment_of(f"{found[1]}/{found[2]}.{found[3]}") if found else None


def moment_text(moment: int) -> str:
    """`YYYY-MM-DD HH.MM`."""
    return f"{day_text(moment // DAY)} {minute_text(moment % DAY)}"


def moment_word(moment: int) -> str:
    """`YYYY-MM-DD/HH.MM`: a moment as one word, as statements take it."""
    return f"{day_text(moment // DAY)}/{minute_text(moment % DAY)}"


def key_text(app: str, ia: int) -> str:
    """`APP YYYY-MM-DD/HH.MM`: an occurrence as statements name it."""
    return f"{app} {moment_word(ia)}"


@overload
def now(text: None = None) -> int: ...


@overload
def now(text: str) -> int | None: ...


def now(text: str | None = None) -> int | None:
    """The moment that the text spells; where there is no text, the clock's, in local time."""
    if text is not None:
        return moment_of(text)
    return int((datetime.datetime.now() - EPOCH).total_seconds()) // 60
