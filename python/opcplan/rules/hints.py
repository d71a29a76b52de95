"""What is wrong with a day, a minute, a moment or a character that was typed, in words."""

import calendar
import re
import unicodedata

from opcplan.rules.moments import FIRST_YEAR, LAST_YEAR, day_of, minute_of, moment_of

MONTHS = ("January February March April May June July August September October November December").split()
MARKS = {
    b"\xef\xbb\xbf": "a byte order mark, which an editor put there: save the file as UTF-8 without it",
    b"\xff\xfe": "the mark of UTF-16: save the file as plain text, in ASCII or UTF-8 without a byte order mark",
    b"\xfe\xff": "the mark of UTF-16: save the file as plain text, in ASCII or UTF-8 without a byte order mark",
}
MEANT = {"\u2010": "-", "\u2011": "-", "\u2012": "-", "\u2013": "-", "\u2014": "--", "\u2212": "-", "\u2018": "'",
         "\u2019": "'", "\u201c": '"', "\u201d": '"', "\u00a0": "a blank", "\u202f": "a blank"}


def of_day(text: str) -> str:
    """What is wrong with a day, or nothing where no more can be said than its form."""
    turned = turned_day(text)
    if turned != text:
        return of_day(turned) or f"as YYYY-MM-DD it is {turned}"
    found = re.fullmatch(r"([0-9]{1,4})-([0-9]{1,2})-([0-9]{1,2})", text)
    if not found:
        return ""
    if len(text) != 10:
        full = "-".join(part.zfill(width) for part, width in zip(found.groups(), (4, 2, 2)))
        return f"month and day have two digits: {full}" if len(found[1]) == 4 and day_of(full) is not None else ""
    year, month, day = map(int, found.groups())
    if not 1 <= month <= 12:
        return f"there is no month {found[2]}"
    if not FIRST_YEAR <= year <= LAST_YEAR:
        return f"the year {found[1]} isn't from {FIRST_YEAR} to {LAST_YEAR}"
    days = calendar.monthrange(year, month)[1]
    if not 1 <= day <= days:
        return f"there is no {day} {MONTHS[month - 1]} in {year}: the month has {days} days"
    return ""


def turned_day(text: str) -> str:
    """A day that is written day.month.year, as it is written here; any other text as it stands."""
    found = re.fullmatch(r"([0-9]{1,2})[.]([0-9]{1,2})[.]([0-9]{4})", text)
    return f"{found[3]}-{found[2].zfill(2)}-{found[1].zfill(2)}" if found else text


def of_minute(text: str) -> str:
    """What is wrong with a minute of the day, or nothing."""
    found = re.fullmatch(r"([0-9]{1,2})[.:]?([0-9]{2})(?:[.:][0-9]{2})?", text)
    if not found:
        return ""
    full = f"{found[1].zfill(2)}.{found[2]}"
    if found[1] == "24" and found[2] == "00":
        return "a day ends at 23.59: what is due at 24.00 is due at 00.00 of the next day"
    if minute_of(full) is None:
        return f"there is no {full}: a day goes from 00.00 to 23.59"
    return f"write it as {full}" if text != full else ""


def of_moment(text: str) -> str:
    """What is wrong with a moment, or nothing."""
    if re.fullmatch(r"[0-9]{1,2}[.:][0-9]{2}", text):
        full = text.replace(":", ".").zfill(5)
        return of_minute(text) if minute_of(full) is None else f"it lacks its day: YYYY-MM-DD/{full}"
    word = re.fullmatch(r"(now|today|tomorrow|yesterday)(?:[/T_ ].*)?", text, re.IGNORECASE)
    if word:
        return f"`{word[1]}` isn't a day: write it as YYYY-MM-DD"
    found = re.fullmatch(r"([0-9-]+|[0-9]{1,2}[.][0-9]{1,2}[.][0-9]{4})(?:[/T_ ]([0-9.:]*))?", text)
    if not found:
        return ""
    day, minute = turned_day(found[1]), found[2] or ""
    if day_of(day) is None:
        return of_day(day)
    if not minute:
        return f"it lacks its time: {day}/00.00 is the midnight that begins the day"
    full = re.sub("^([0-9])[.]", r"0\1.", minute.replace(":", "."))
    if minute_of(full) is None:
        return of_minute(minute)
    return f"write it as {day}/{full}" if moment_of(text) is None else ""


def of_bytes(text: bytes) -> str:
    """What the first character is that no statement and no name may have, and where; or nothing. A text that doesn't
    read as UTF-8 is told by its byte."""
    for mark, name in MARKS.items():
        if text.startswith(mark):
            return f"it begins with the bytes {mark.hex(' ').upper()}, {name}"
    place = next((at for at, byte in enumerate(text) if byte != 9 and not 32 <= byte <= 126), None)
    if place is None:
        return ""
    try:
        character, at = text.decode("utf-8")[place], f"character {place + 1}"
    except UnicodeDecodeError:
        latin = of_character(bytes([text[place]]).decode("latin-1"))
        return f"byte {place + 1} is {text[place]:02X} hexadecimal, {latin} in Latin-1: only ASCII is allowed there"
    meant = f" (did you mean {MEANT[character]}?)" if character in MEANT else ""
    what = "which isn't a printable character" if ord(character) < 128 else "which isn't ASCII"
    if character == "\r":
        what += ": a line ends with a line feed, and at most one carriage return before it"
    return f"{at} is {of_character(character)}, {what}{meant}"


def of_character(character: str) -> str:
    """A character for a reader: itself where it can be printed, its number, and its name."""
    shown = f"`{character}` " if character.isprintable() else ""
    name = unicodedata.name(character, "")
    return f"{shown}U+{ord(character):04X}{f' ({name.lower()})' if name else ''}"
