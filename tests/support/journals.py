"""Journals of desks, written with stock SQLite as docs/use/DESK.md has their tables."""

import datetime
import sqlite3
from contextlib import closing

TABLES = """
CREATE TABLE entry (seq INTEGER PRIMARY KEY, at TEXT NOT NULL, who TEXT NOT NULL, key TEXT, job INTEGER NOT NULL,
    text NOT NULL, reply TEXT);
CREATE TABLE happened (serial INTEGER NOT NULL, app TEXT NOT NULL, ia TEXT NOT NULL, status TEXT NOT NULL,
    at TEXT NOT NULL, seq INTEGER PRIMARY KEY);
PRAGMA user_version = 1;
"""


def universal(text):
    """`2024-01-01/08.00` or `2024-01-01/08.00.30` by this machine's clock, as a journal has it."""
    form = "%Y-%m-%d/%H.%M.%S" if text.count(".") == 2 else "%Y-%m-%d/%H.%M"
    moment = datetime.datetime.strptime(text, form).astimezone(datetime.timezone.utc)
    return moment.strftime("%Y-%m-%dT%H:%M:%S.") + "000Z"


def write(path, events, entries=()):
    """Makes a journal of what happened, (serial, application, input arrival, status, when), and of entries, (when, who,
    key, job, text, reply)."""
    with closing(sqlite3.connect(path)) as db:
        db.execute("PRAGMA journal_mode = WAL")
        db.executescript(TABLES)
        db.executemany("INSERT INTO happened VALUES (?, ?, ?, ?, ?, ?)",
                       [(*one[:4], universal(one[4]), seq) for seq, one in enumerate(events, 1)])
        db.executemany("INSERT INTO entry VALUES (?, ?, ?, ?, ?, ?, ?)",
                       [(seq, universal(one[0]), *one[1:]) for seq, one in enumerate(entries, 1)])
        db.commit()
    return path
