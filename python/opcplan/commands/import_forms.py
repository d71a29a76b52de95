"""Which form the data of a file have, where that is certain: iCalendar, CSV of days, or a crontab."""

import re

from opcplan.commands import crontab
from opcplan.rules import moments

NAMES = {"ics": "an iCalendar file", "csv": "a file of days", "cron": "a crontab"}
MOST_LINES = 50  # that are looked at


def other_form(data: bytes, taken: str) -> str:
    """That a file has another form than the one that it is taken for, and the option of that form; or nothing."""
    text = data.decode("utf-8-sig", "replace")
    forms = [form for form, is_so in (("ics", is_ics), ("csv", is_csv), ("cron", is_cron)) if is_so(text)]
    if taken in forms or not forms:
        return ""
    return f"it is {NAMES[forms[0]]}, not {NAMES[taken]}; did you mean --{forms[0]}?"


def is_ics(text: str) -> bool:
    """Whether a text begins as iCalendar does."""
    return text.lstrip().upper().startswith("BEGIN:VCALENDAR")


def is_csv(text: str) -> bool:
    """Whether the first line of a text that isn't a title begins with a day and a comma, or is a day."""
    lines = [line for line in text.splitlines()[:MOST_LINES] if line.strip()]
    firsts = [line.partition(",")[0].strip().strip('"') for line in lines]
    if firsts[:1] == ["date"]:
        firsts = firsts[1:]
    return bool(firsts) and moments.day_of(firsts[0]) is not None


def is_cron(text: str) -> bool:
    """Whether a line of a text runs a command at times, as cron reads it."""
    for number, line in list(crontab.lines_of(text))[:MOST_LINES]:
        if re.match(r"[^\s,;:]+(\s|$)", line):
            try:
                crontab.read(number, line, False)
                return True
            except crontab.UnsupportedLine:
                continue
    return False
