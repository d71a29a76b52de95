"""./plan export: each form against tools/reference/plain_planner.py and stock SQLite, and iCalendar line by line."""

import csv
import datetime
import functools
import io
import json
import os
import re
import subprocess
import tempfile
import time
import unittest
from contextlib import closing
from pathlib import Path
from types import SimpleNamespace

from support import plans

from opcplan.commands import export
import sqlite3


plain = plans.plain
STREAMS = ["each-list", "week-of-daily-plans", "data-centre-year", "batch-through-all-sets", "statuses-listed",
           "each-status-under-each-action"]
EVERY_SET = ["--set", "ltp", "--set", "cp", "--set", "history", "--set", "deletions"]
# columns of export --csv, by stock SQLite; an empty cell stands for NULL and for an empty text
BY_SQL = """SELECT serial, app, held, coalesce(status, ''), coalesce(reason, ''),
    strftime('%Y-%m-%d %H:%M', ia * 60, 'unixepoch'), strftime('%Y-%m-%d %H:%M', deadline * 60, 'unixepoch'),
    coalesce(run_cycle, ''), run_cycle IS NULL
    FROM (SELECT *, 'ltp' AS held, NULL AS status, NULL AS reason FROM ltp_row
    UNION ALL SELECT serial, app, ia, deadline, run_cycle, 'cp', CASE status WHEN 'W' THEN 'waiting'
    WHEN 'S' THEN 'started' WHEN 'E' THEN 'in error' WHEN 'C' THEN 'complete' WHEN 'D' THEN 'deleted' END, NULL
    FROM cp_row
    UNION ALL SELECT serial, app, ia, deadline, run_cycle, 'history', 'complete', NULL FROM history_row
    UNION ALL SELECT serial, app, ia, deadline, run_cycle, 'deletions', NULL, CASE reason WHEN 'O' THEN
    'deleted by an operator' WHEN 'W' THEN 'withdrawn' WHEN 'P' THEN 'deleted in the current plan' END
    FROM deletion_row)
    ORDER BY ia, app, serial"""
# deadlines before, at and after the arrival
DUE_EARLY = b"""define periods --job 1
DAY,A,2024-01-01,1
/*
define applications --job 2
EARLY,A,
AT@ONCE,A,
LATER,A,
/*
define run-cycles --job 3
EARLY,RC,N,DAY,3,1,2024-01-01,,12.00,0,08.00
AT@ONCE,RC,N,DAY,3,1,2024-01-01,,12.00,0,12.00
LATER,RC,N,DAY,3,1,2024-01-01,,12.00,99,12.01
/*
ltp-create --from 2024-01-01 --to 2024-01-01 --job 4
"""
# names that a spreadsheet takes for formulas
FORMULAS = b"""define periods --job 1
DAY,A,2024-01-01,1
/*
define applications --job 2
@A1,A,
A@1,A,
#A1,A,
/*
define run-cycles --job 3
@A1,@SUM,N,DAY,3,1,2024-01-01,,12.00,0,18.00
A@1,$RC,N,DAY,3,1,2024-01-01,,12.00,0,18.00
#A1,RC,N,DAY,3,1,2024-01-01,,12.00,0,18.00
/*
ltp-create --from 2024-01-01 --to 2024-01-01 --job 4
"""
# what no plan may have as a name, and a calendar would take for lines of its own
NAMES = ["X\r\nATTACH:http://example.com/x", "X\rSUMMARY:Y\nEND:VEVENT", "a;b,c\\d", "\u00e4" * 112,
         "Z" * 71 + "\U0001d11e" * 9, "\x1b[2J\x9b\x00", "\u2028X", "BEGIN:VEVENT"]
# Debian's python3-icalendar, where it is installed, is a module of Debian's own Python
DEBIAN = "/usr/bin/python3"
PARSER = """import icalendar, json, sys
found = icalendar.Calendar.from_ical(sys.stdin.buffer.read())
print(json.dumps([{name: value.to_ical().decode() if name[:2] == "DT" else str(value) for name, value in event.items()}
                  for event in found.walk("VEVENT")]))"""


@functools.cache
def has_icalendar():
    """Whether Debian's parser is there."""
    words = [DEBIAN, "-c", "import icalendar"]
    return os.path.exists(DEBIAN) and not subprocess.run(words, capture_output=True, check=False).returncode


def parsed(data):
    """The events of an iCalendar text by Debian's python3-icalendar."""
    ran = subprocess.run([DEBIAN, "-c", PARSER], input=data, capture_output=True, check=True)
    return json.loads(ran.stdout)


def exported(file, *words):
    ran = plans.plan("export", file, *words)
    assert (ran.returncode, ran.stderr) == (0, ""), ran
    return ran.stdout


def raw_export(file, *words):
    """The bytes that are printed."""
    ran = plans.subprocess.run([plans.TOP / "plan", "export", file, *words], capture_output=True, check=True)
    return ran.stdout


def rows_of(planner, sets):
    """Serial, application, arrival and deadline of what stands in these sets, in the order of lists."""
    held = {
        "ltp": planner.planned.values(),
        "cp": [row for row, _ in planner.current.values()],
        "history": planner.history.values(),
        "deletions": [row for row, _ in planner.deleted.values()],
    }
    rows = sorted((row for name in sets for row in held[name]), key=plain.in_lists)
    return [row[:4] for row in rows]


def events_of(data):
    """The events of an iCalendar text, as dictionaries of properties; asserts the form of each line."""
    assert data.endswith(b"\r\n")
    lines = data[:-2].split(b"\r\n")
    assert all(len(line) <= 75 and b"\r" not in line and b"\n" not in line and line for line in lines)
    assert all(line.decode("utf-8") for line in lines)
    text = data.replace(b"\r\n ", b"").decode("utf-8")
    unfolded = text[:-2].split("\r\n")
    names = [line.partition(":")[0] for line in unfolded]
    assert all(re.fullmatch("[A-Z-]+", name) for name in names), names
    assert unfolded[0] == "BEGIN:VCALENDAR" and unfolded[-1] == "END:VCALENDAR" and "METHOD" not in names
    assert names.count("VERSION") == names.count("PRODID") == 1
    events = []
    for line in unfolded[1:-1]:
        name, _, value = line.partition(":")
        if line == "BEGIN:VEVENT":
            events.append({})
        elif events and line != "END:VEVENT":
            assert name not in events[-1]
            events[-1][name] = value
    assert unfolded.count("BEGIN:VEVENT") == unfolded.count("END:VEVENT") == len(events)
    return events


def moment_of(text):
    """The moment of a floating local time."""
    when = datetime.datetime.strptime(text, "%Y%m%dT%H%M%S")
    return (when - datetime.datetime(1970, 1, 1)) // datetime.timedelta(minutes=1)


class Export(unittest.TestCase):
    def setUp(self):
        room = tempfile.TemporaryDirectory(prefix="export-")
        self.addCleanup(room.cleanup)
        self.room = Path(room.name)

    def test_table_shows_what_stock_sqlite_shows(self):
        for name in STREAMS:
            file = plans.copy_of(plans.of_worked(name), self.room)
            with closing(sqlite3.connect(file)) as db:
                wanted = [[str(value) for value in row] for row in db.execute(BY_SQL)]
            for words in (["--raw"], []):
                table = list(csv.reader(io.StringIO(exported(file, "--csv", *words, *EVERY_SET))))
                self.assertEqual(table[0], "serial application set status reason arrives due run_cycle added".split())
                self.assertEqual(table[1:], wanted, name)
                # as spreadsheets have it: an apostrophe, and what stands behind it is a text
                wanted = [["'" + cell if cell[:1] in {*"=+-@\t\r"} else cell for cell in row] for row in wanted]

    def test_cells_that_begin_as_formulas_have_an_apostrophe(self):
        file = plans.of_stream(FORMULAS)
        for words, wanted in (([], [["#A1", "RC"], ["'@A1", "'@SUM"], ["A@1", "$RC"]]),
                              (["--raw"], [["#A1", "RC"], ["@A1", "@SUM"], ["A@1", "$RC"]])):
            table = list(csv.DictReader(io.StringIO(exported(file, "--csv", *words))))
            self.assertEqual([[row["application"], row["run_cycle"]] for row in table], wanted)
        for text in ("=1", "+1", "-1", "@A", "\t=1", "\r=1", '=HYPERLINK("x")'):
            self.assertEqual(export.cell(text), "'" + text)
        for text in ("A", "A=1", "'", "", " =1", None, 5, -5, True):
            self.assertIs(export.cell(text), text)

    def test_usual_sets_are_those_of_live_and_completed_rows(self):
        for name in STREAMS:
            planner = plans.planner_of(plans.stream(name))
            table = list(csv.reader(io.StringIO(exported(plans.of_worked(name), "--csv"))))
            serials = [row[0] for row in rows_of(planner, ["ltp", "cp", "history"])]
            self.assertEqual([int(row[0]) for row in table[1:]], serials, name)

    def test_application_and_days_narrow_it(self):
        name = "week-of-daily-plans"
        planner, file = plans.planner_of(plans.stream(name)), plans.of_worked(name)
        rows = rows_of(planner, ["ltp", "cp", "history", "deletions"])
        app, first, last = rows[5][1], rows[5][2] // 1440, rows[-8][2] // 1440
        self.assertLess(first, last)
        for words, wanted in (
            (["--app", app], [row for row in rows if row[1] == app]),
            (["--from", plain.day_text(first)], [row for row in rows if row[2] >= first * 1440]),
            (["--to", plain.day_text(last)], [row for row in rows if row[2] < (last + 1) * 1440]),
            (["--from", plain.day_text(last), "--to", plain.day_text(last)],
             [row for row in rows if row[2] // 1440 == last]),
            (["--app", app, "--to", plain.day_text(last)],
             [row for row in rows if row[1] == app and row[2] // 1440 <= last]),
        ):
            self.assertTrue(wanted)
            shown = json.loads(exported(file, "--json", *EVERY_SET, *words))["occurrences"]
            self.assertEqual([one["serial"] for one in shown], [row[0] for row in wanted], words)

    def test_programs_get_pairs_and_bounds(self):
        for name in STREAMS:
            planner = plans.planner_of(plans.stream(name))
            shown = json.loads(exported(plans.of_worked(name), "--json", *EVERY_SET))
            pairs = {(one["serial"], other) for one in shown["occurrences"] for other in one["waits_for"]}
            self.assertEqual(pairs, planner.pairs, name)
            first, last, end = planner.bounds
            iso_end = plain.moment_text(end, "T").replace(".", ":")
            self.assertEqual((shown["first_day"], shown["last_day"], shown["plan_end"]),
                             (plain.day_text(first), plain.day_text(last), iso_end))
            for one, row in zip(shown["occurrences"], rows_of(planner, ["ltp", "cp", "history", "deletions"])):
                texts = [plain.moment_text(moment, "T").replace(".", ":") for moment in row[2:]]
                self.assertEqual([one["serial"], one["application"], one["arrives"], one["due"]], [*row[:2], *texts])

    def test_calendar_is_icalendar_with_the_planners_moments(self):
        statuses = set()
        for name in STREAMS:
            planner, file = plans.planner_of(plans.stream(name)), plans.of_worked(name)
            events = events_of(raw_export(file, "--ics", *EVERY_SET))
            rows = rows_of(planner, ["ltp", "cp", "history", "deletions"])
            self.assertEqual(len(events), len(rows))
            self.assertEqual(len({event["UID"] for event in events}), len(rows))
            written = max(os.stat(f"{file}{tail}").st_mtime for tail in ("", "-wal") if os.path.exists(f"{file}{tail}"))
            stamp = time.strftime("%Y%m%dT%H%M%SZ", time.gmtime(written))
            gone = {serial for serial in planner.deleted}
            gone |= {serial for serial, (_, status) in planner.current.items() if status == "D"}
            statuses |= {status for _, status in planner.current.values()}
            for event, (serial, app, arrival, deadline) in zip(events, rows):
                self.assertTrue(event["UID"].startswith(f"opcplan-{serial:09}-"), event)
                self.assertEqual((event["SUMMARY"], event["DTSTAMP"]), (app, stamp))
                self.assertEqual(moment_of(event["DTSTART"]), arrival)
                self.assertEqual(moment_of(event["DTEND"]) if "DTEND" in event else None,
                                 deadline if deadline > arrival else None)
                self.assertEqual(event["STATUS"] == "CANCELLED", serial in gone)
                self.assertIn(f"serial {serial}\\,", event["DESCRIPTION"])
                self.assertIn(f"due {plain.moment_text(deadline)}\\n", event["DESCRIPTION"])
        self.assertEqual(statuses, set("WSECD"))

    @unittest.skipUnless(has_icalendar(), "there is no python3-icalendar")
    def test_calendar_is_what_a_stock_parser_reads(self):
        for name in STREAMS:
            rows = rows_of(plans.planner_of(plans.stream(name)), ["ltp", "cp", "history", "deletions"])
            events = parsed(raw_export(plans.of_worked(name), "--ics", *EVERY_SET))
            self.assertEqual([event["SUMMARY"] for event in events], [app for _, app, _, _ in rows])
            self.assertEqual([moment_of(event["DTSTART"]) for event in events], [row[2] for row in rows])
            for event, (serial, _, _, deadline) in zip(events, rows):
                first, second, _ = event["DESCRIPTION"].split("\n")
                self.assertTrue(first.startswith(f"serial {serial}, "))
                self.assertTrue(second.endswith(f", due {plain.moment_text(deadline)}"))

    def calendar_of(self, names):
        """A calendar of occurrences with such names, whatever a plan takes."""
        found = [export.Occurrence(number, name, 28401120, 28401180, name, "cp", "W", "")
                 for number, name in enumerate(names, 1)]
        return "".join(export.calendar_texts(SimpleNamespace(path=str(self.room / "none.db")), found)).encode()

    def test_name_of_any_text_makes_no_line(self):
        events = events_of(self.calendar_of(NAMES))
        self.assertEqual(len(events), len(NAMES))
        for event in events:
            self.assertEqual(set(event), {"UID", "DTSTAMP", "DTSTART", "DTEND", "SUMMARY", "DESCRIPTION", "CATEGORIES",
                                          "STATUS", "TRANSP"})
            for value in event.values():
                self.assertTrue(value.isprintable(), value)
                # behind a backslash stands what is escaped, and nothing that has to be stands without one
                self.assertRegex(value, r"^(?:[^\\;,]|\\[\\;,n])*$")

    @unittest.skipUnless(has_icalendar(), "there is no python3-icalendar")
    def test_name_of_any_text_comes_back(self):
        names = [name for name in NAMES if name.replace("\r", "").replace("\n", "").isprintable()]
        shown = [name.replace("\r\n", "\n").replace("\r", "\n") for name in names]
        events = parsed(self.calendar_of(names))
        self.assertEqual([event["SUMMARY"] for event in events], shown)
        self.assertEqual([event["UID"].partition("T000000-")[2] for event in events], shown)

    def test_event_that_is_due_before_it_begins_has_no_end(self):
        events = events_of(raw_export(plans.of_stream(DUE_EARLY), "--ics"))
        self.assertEqual([(event["SUMMARY"], event.get("DTEND")) for event in events],
                         [("AT@ONCE", None), ("EARLY", None), ("LATER", "20240409T120100")])

    def test_nothing_found_is_reported(self):
        for name, words in (("empty", []), ("first-days", []), ("each-list", ["--app", "NOBODY"]),
                            ("each-list", ["--from", "2050-01-01"]), ("each-list", ["--to", "1999-01-01"])):
            for form in ("--ics", "--csv", "--json"):
                ran = plans.plan("export", plans.of_worked(name), form, *words)
                self.assertEqual((ran.returncode, ran.stdout), (1, ""), (name, words))
                self.assertTrue(ran.stderr.startswith("plan: "))

    def test_wrong_words_are_reported(self):
        file = plans.of_worked("each-list")
        for words in ([], ["--ics", "--csv"], ["--csv", "--set", "all"], ["--csv", "--from", "2024-02-30"],
                      ["--csv", "--app", "two words"], ["--xml"], ["--raw"], ["--ics", "--raw"], ["--json", "--raw"]):
            ran = plans.plan("export", file, *words)
            self.assertEqual((ran.returncode, ran.stdout), (2, ""), words)
            self.assertTrue(ran.stderr.startswith("plan: "))

    def test_plan_stays_as_it_was(self):
        file = plans.copy_of(plans.of_worked("each-list"), self.room)
        before = plans.prints(file)
        for form in ("--ics", "--csv", "--json"):
            exported(file, form)
        self.assertEqual(plans.prints(file), before)

    def test_a_year_of_rows(self):
        """Each has its place, also where they are read piece by piece. What 200,000 take of a processor,
        `tools/soak/seconds` prints."""
        planner, begin = plain.Planner(), plain.number_of(2024, 1, 1) * 1440
        planner.bounds, planner.issued = (begin // 1440, begin // 1440 + 364, begin), 20_000
        for number in range(20_000):
            arrival = begin + number // 60 * 1440
            planner.planned[number + 1] = (number + 1, f"A{number % 60}", arrival, arrival + 600, "RC")
        file = self.room / "many.db"
        plans.write(planner, file)
        for form in ("--ics", "--csv", "--json"):
            self.assertEqual(exported(file, form).count("A59"), 333 * (2 if form == "--ics" else 1), form)


if __name__ == "__main__":
    unittest.main()
