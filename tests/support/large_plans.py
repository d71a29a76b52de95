"""Plans of as many rows as there may be, put into the tables directly: 1,000 applications on each of 200 days; and
smaller ones of the same form."""

import functools
import shutil
import sqlite3
from contextlib import closing

from support import plans

from opcplan.rules import moments


APPS, DAYS, FIRST = 1000, 200, "2026-09-01"
NOW = "2026-11-25/06.00"


def name(number):
    return f"APP{number:05}"


def rows(apps=APPS, days=DAYS):
    """Serial, application, arrival, deadline, run cycle; by arrival and application, as they are numbered."""
    first = moments.day_of(FIRST)
    return [(1 + day * apps + number, name(number), (first + day) * 1440 + number * 1439 // apps,
             (first + day) * 1440 + number * 1439 // apps + 120 + 7 * (number % 90), "DAILY")
            for day in range(days) for number in range(apps)]


def pairs(apps=APPS, days=DAYS):
    """Each waits for the one before it and for the one at half its place, on its day."""
    for day in range(days):
        base = 1 + day * apps
        for number in range(1, apps):
            yield from {(base + number, base + number - 1), (base + number, base + number // 2)}


def planned(apps=APPS, days=DAYS):
    """The file of a plan with all rows in the long-term plan."""
    return made(apps, days)  # which is made once, however it is called


@functools.cache
def made(apps, days):
    """Makes such a file."""
    path = plans.folder() / f"planned-{apps}-{days}.db"
    first = moments.day_of(FIRST)
    with closing(sqlite3.connect(path)) as db:
        for text in plans.schema():
            db.execute(text)
        db.execute("INSERT INTO plan_meta VALUES (1, 2, 1, ?, ?, ?, ?, 'DEFAULT', 504)",
                   (first, first + days - 1, first * 1440, apps * days))
        db.executemany("INSERT INTO application VALUES (?, ?, ?)", [(name(number), 1, None) for number in range(apps)])
        cycles = [(name(number), "DAILY", "N", "DAY", "3", first, None, number * 1439 // apps, 0, 1439)
                  for number in range(apps)]
        db.executemany("INSERT INTO run_cycle VALUES (?, ?, ?, ?, ?, ?, ?, ?, ?, ?)", cycles)
        offsets = [(name(number), "DAILY", 0, 1) for number in range(apps)]
        db.executemany("INSERT INTO run_cycle_offset VALUES (?, ?, ?, ?)", offsets)
        links = {(name(number), name(other)) for number in range(1, apps) for other in (number - 1, number // 2)}
        db.executemany("INSERT INTO link_in_force VALUES (?, ?, NULL)", sorted(links))
        db.executemany("INSERT INTO ltp_row VALUES (?, ?, ?, ?, ?)", rows(apps, days))
        db.executemany("INSERT INTO dependency VALUES (?, ?)", pairs(apps, days))
        db.commit()
    return path


@functools.cache
def current(apps=APPS, days=DAYS):
    """The file of a plan with all rows in the current plan, waiting."""
    path = plans.folder() / f"current-{apps}-{days}.db"
    shutil.copyfile(planned(apps, days), path)
    with closing(sqlite3.connect(path)) as db:
        db.execute("INSERT INTO cp_row SELECT *, 'W' FROM ltp_row")
        db.execute("DELETE FROM ltp_row")
        db.execute("UPDATE plan_meta SET plan_end = plan_end + ?", (days * 1440,))
        db.commit()
    return path
