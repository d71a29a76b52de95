"""A page read back: what its data say, for tests."""

import itertools
import json
import re
import sqlite3
from contextlib import closing

from support import plans


def page_of(*given):
    """The page that `./plan page` prints for some words."""
    asked = plans.plan("page", *given)
    if asked.returncode or asked.stderr:
        raise AssertionError(f"page {given}: status {asked.returncode}, {asked.stderr}")
    return asked.stdout


def data_in(page):
    """The plan's data in a page."""
    return json.loads(re.search(r'<script type="application/json" id="data">(.*?)</script>', page, re.S)[1])


def serials_in(data):
    """The serial of each row."""
    return list(itertools.accumulate(data["rows"]["serial"]))


def rows_in(data):
    """Each row as (serial, application, arrival, deadline, run cycle)."""
    rows = data["rows"]
    arrivals = itertools.accumulate(rows["arrival"])
    return [(serial, data["apps"][app][0], ia, ia + due, None if cycle < 0 else data["cycles"][cycle])
            for serial, app, ia, due, cycle in
            zip(serials_in(data), rows["app"], arrivals, rows["due"], rows["cycle"], strict=True)]


def run_in(data, column):
    """The pairs of serials that a run of lists of rows has."""
    serials, flat, found, at, k = serials_in(data), data["rows"][column], [], 0, 0
    while k < len(flat):
        at += flat[k]
        found += [(serials[at], serials[at - back]) for back in flat[k + 2 : k + 2 + flat[k + 1]]]
        k += 2 + flat[k + 1]
    return found


def pairs_in(data):
    """Each pair of serials (successor, predecessor)."""
    return set(run_in(data, "pairs"))


def with_state(data, *states):
    """The serials of the rows in some states."""
    return {serial for serial, state in zip(serials_in(data), data["state"], strict=True) if state in states}


def late_in(data):
    """The serials of the rows that are late."""
    return {serial for serial, mark in zip(serials_in(data), data["marks"], strict=True) if mark == "l"}


def ask(path, text, *given):
    """What stock SQLite answers."""
    with closing(sqlite3.connect(path)) as db:
        return db.execute(text, given).fetchall()


def parts_of(planner):
    """All rows of a planner: serial to row and place."""
    found = {serial: (row, status) for serial, (row, status) in planner.current.items()}
    found.update((serial, (row, "L")) for serial, row in planner.planned.items())
    found.update((serial, (row, "H")) for serial, row in planner.history.items())
    found.update((serial, (row, reason.lower())) for serial, (row, reason) in planner.deleted.items())
    return found
