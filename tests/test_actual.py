"""What ./plan tells by a desk's journal: durations and ends worked out by hand, and by a second way of reckoning."""

import csv
import datetime
import io
import json
import os
import random
import re
import statistics
import tempfile
import time
import unittest
from pathlib import Path

from support import data_centre, journals, plans
from support.plans import plain

from opcplan.plans import actual
from opcplan.webpage import page_data


# application: arrives, due, and what it waits for
APPS = {"ALFA": ("08.00", "09.00", ""), "BRAVO": ("08.10", "08.40", "ALFA"), "CHARLIE": ("08.20", "08.50", "BRAVO"),
        "DELTA": ("07.00", "07.30", ""), "ECHO": ("07.00", "07.10", ""), "FOXTROT": ("08.00", "10.00", "ECHO")}
NOW = "2024-01-03/08.05"
# minutes that each took on the two days before
TOOK = {"ALFA": (8, 12), "BRAVO": (20, 20), "CHARLIE": (25, 35), "DELTA": (5, 5), "ECHO": (3, 5)}


def stream():
    """Three days of APPS: the first two are done, on the third DELTA is, ALFA is started, and ECHO is in error."""
    blocks = [("calendars", ["DEFAULT,2024-01-01,WORK"]), ("periods", ["DAY,A,2024-01-01,1"]),
              ("applications", [f"{app},A," for app in APPS]),
              ("run-cycles", [f"{app},DAILY,N,DAY,3,1,2024-01-01,,{ia},0,{due}" for app, (ia, due, _) in APPS.items()]),
              ("predecessors", [f"{app},{other}" for app, (_, _, other) in APPS.items() if other])]
    lines = [f"define {kind}" + " --job {}\n" + "\n".join(records) + "\n/*" for kind, records in blocks]
    lines.append("ltp-create --from 2024-01-01 --to 2024-01-09 --job {}")
    for day in (1, 2):
        lines.append(f"dp-extend --to 2024-01-0{day + 1}/00.00 --job {{}}")
        for app, (ia, _, _) in APPS.items():
            lines += [f"cp-{word} --app {app} --ia 2024-01-0{day}/{ia} --job {{}}" for word in ("start", "complete")]
    lines.append("dp-extend --to 2024-01-04/00.00 --job {}")
    for app, words in (("DELTA", ("start", "complete")), ("ECHO", ("start", "fail")), ("ALFA", ("start",))):
        lines += [f"cp-{word} --app {app} --ia 2024-01-03/{APPS[app][0]} --job {{}}" for word in words]
    return "".join(line.format(job) + "\n" for job, line in enumerate(lines, 1))


def rows_of(planner):
    """All rows of a planner by application and day of the month."""
    rows = [row for row, _ in planner.current.values()] + [*planner.history.values(), *planner.planned.values()]
    return {(row[1], int(plain.moment_text(row[2])[8:10])): row for row in rows}


def clock(day, minute):
    return f"2024-01-{day:02}/{plain.minute_text(minute)}"


class Journal(unittest.TestCase):
    def setUp(self):
        room = tempfile.TemporaryDirectory(prefix="actual-")
        self.addCleanup(room.cleanup)
        self.room = Path(room.name)
        (self.room / "plan").mkdir()
        self.planner = plans.planner_of(stream())
        self.rows = rows_of(self.planner)
        self.plan = plans.copy_of(plans.of_stream(stream()), self.room / "plan")
        self.journal = self.room / "plan" / "journal"
        journals.write(self.journal, self.events())

    def event(self, app, day, status, at):
        row = self.rows[app, day]
        return row[0], app, plain.moment_text(row[2], "/"), status, at

    def events(self):
        """FOXTROT isn't in the journal: its jobs told another program."""
        found = []
        for day in (1, 2):
            for app, took in TOOK.items():
                begin = plain.read_minute(APPS[app][0])
                found += [self.event(app, day, "S", clock(day, begin)),
                          self.event(app, day, "C", clock(day, begin + took[day - 1]))]
        return found + [
            self.event("DELTA", 3, "S", "2024-01-03/07.10"), self.event("DELTA", 3, "C", "2024-01-03/07.45"),
            self.event("ECHO", 3, "S", "2024-01-03/07.00"), self.event("ECHO", 3, "E", "2024-01-03/07.05"),
            self.event("ALFA", 3, "S", "2024-01-03/08.01")]

    def asked(self, *words, status=0):
        before = plans.prints(self.plan)
        ran = plans.plan(words[0], self.plan, *words[1:], "--journal", self.journal)
        self.assertEqual((ran.returncode, ran.stderr), (status, ""))
        self.assertEqual(plans.prints(self.plan), before)
        return ran.stdout


class Commands(Journal):
    def test_late(self):
        # ALFA takes 10 minutes in the middle, BRAVO 20, CHARLIE 30: 08.01, 08.11, 08.31, 09.01
        echo, delta, charlie, before = (self.rows[key][0] for key in (("ECHO", 3), ("DELTA", 3), ("CHARLIE", 3),
                                                                      ("CHARLIE", 2)))
        self.assertEqual(self.asked("late", "--now", NOW), f"""1 is late at 2024-01-03 08.05:

ECHO 2024-01-03 07.00  in error  due 2024-01-03 07.10  late by 55 min  serial {echo}
    ended in error 2024-01-03 07.05, expected to end not before 2024-01-03 08.09

1 is going to end late:

  CHARLIE 2024-01-03 08.20  due 2024-01-03 08.50, expected to end 2024-01-03 09.01, late by 11 min, serial {charlie}

2 ended late in the 24 hours before:

  CHARLIE 2024-01-02 08.20  due 2024-01-02 08.50, ended 2024-01-02 08.55, late by 5 min, serial {before}
  DELTA 2024-01-03 07.00  due 2024-01-03 07.30, ended 2024-01-03 07.45, late by 15 min, serial {delta}

All that is unfinished is expected to be done at 2024-01-03 09.01, by this chain:

  ALFA 2024-01-03 08.00     2024-01-03 08.01 to 2024-01-03 08.11
  BRAVO 2024-01-03 08.10    2024-01-03 08.11 to 2024-01-03 08.31
  CHARLIE 2024-01-03 08.20  2024-01-03 08.31 to 2024-01-03 09.01

No whole run is known of FOXTROT: each counts as no time.
""")

    def test_nothing_late_and_what_ended_a_day_ago_is_reported_no_more(self):
        shown = self.asked("late", "--now", "2024-01-04/07.46")
        self.assertNotIn("ended late", shown)
        self.assertIn("1 ended late", self.asked("late", "--now", "2024-01-04/07.45"))
        shown = self.asked("late", "--now", "2024-01-03/07.10")
        self.assertTrue(shown.startswith("Nothing is late at 2024-01-03 07.10.\n\n2 are going to end late:\n"), shown)

    def test_why(self):
        shown = self.asked("why", "CHARLIE", "2024-01-03/08.20", "--now", NOW)
        self.assertIn("""
No run of it is known.
The last 2 whole runs of CHARLIE took 30 min in the middle and 35 min at worst.
It is expected to end 2024-01-03 09.01, late by 11 min.

This chain decides it:
  ALFA 2024-01-03 08.00     2024-01-03 08.01 to 2024-01-03 08.11
""", shown)
        shown = self.asked("why", "DELTA", "2024-01-03/07.00")
        self.assertIn("\nIts runs:\n"
                      "  started 2024-01-03 07.10, complete 2024-01-03 07.45, after 35 min: late by 15 min\n"
                      "The last 3 whole runs of DELTA took 5 min in the middle and 35 min at worst.\n", shown)
        self.assertNotIn("expected", shown)
        shown = self.asked("why", "ALFA", "2024-01-02/08.00")
        self.assertIn("  started 2024-01-02 08.00, complete 2024-01-02 08.12, after 12 min: in time\n", shown)
        shown = self.asked("why", "FOXTROT", "2024-01-03/08.00", "--now", NOW)
        self.assertIn("No whole run of FOXTROT is known.\nIt is expected to end not before 2024-01-03 08.09.\n", shown)
        shown = self.asked("why", "FOXTROT", "2024-01-05/08.00", "--now", NOW)
        self.assertIn("No run of it is known.", shown)
        self.assertNotIn("expected", shown)

    def test_export(self):
        table = list(csv.DictReader(io.StringIO(self.asked("export", "--csv", "--set", "cp", "--now", NOW))))
        names = "started ended seconds seconds_late runs expected_end expected_or_later".split()
        shown = {row["application"]: [row[name] for name in names] for row in table}
        day = "2024-01-03 "
        self.assertEqual(shown, {
            "ALFA": [day + "08:01:00", "", "", "", "1", day + "08:11", "0"],
            "BRAVO": ["", "", "", "", "0", day + "08:31", "0"],
            "CHARLIE": ["", "", "", "", "0", day + "09:01", "0"],
            "DELTA": [day + "07:10:00", day + "07:45:00", "2100.0", "900", "1", "", ""],
            "ECHO": [day + "07:00:00", day + "07:05:00", "300.0", "0", "1", day + "08:09", "1"],
            "FOXTROT": ["", "", "", "", "0", day + "08:09", "1"]})
        found = json.loads(self.asked("export", "--json", "--now", NOW))
        self.assertEqual(found["durations"]["CHARLIE"], {"middle_seconds": 1800, "worst_seconds": 2100, "runs": 2})
        self.assertEqual(sorted(found["durations"]), sorted(TOOK))
        delta = next(one for one in found["occurrences"] if one["serial"] == self.rows["DELTA", 3][0])
        self.assertEqual((delta["started"], delta["ended"], delta["seconds_late"]),
                         ("2024-01-03T07:10:00", "2024-01-03T07:45:00", 900))
        shown = self.asked("export", "--ics", "--app", "DELTA", "--from", "2024-01-03", "--to", "2024-01-03")
        self.assertIn(r"\nstarted 2024-01-03 07:10:00\nended 2024-01-03 07:45:00\, late by 15 min",
                      shown.replace("\n ", ""))

    def test_without_a_journal_all_is_as_it_was(self):
        for words in (["export", "--csv"], ["export", "--json"], ["late", "--now", NOW], ["why", "1"]):
            with_it = self.asked(*words)
            without = plans.plan(words[0], self.plan, *words[1:]).stdout
            self.assertNotEqual(with_it, without)
            self.assertFalse(re.search("started 2|expected", without), without)

    def test_page(self):
        data = page_data.data_of(self.plan, plain.read_moment(NOW), journal=self.journal)
        found, numbers = data["actual"], {}
        at = 0
        for place, step in enumerate(data["rows"]["serial"]):
            at += step
            numbers[at] = place
        place = {app: numbers[self.rows[app, 3][0]] for app in APPS}

        def minute(text):
            return plain.read_moment(f"2024-01-03/{text}")

        self.assertEqual(found["runs"][place["DELTA"]], [[minute("07.10"), minute("07.45"), 2100, "C"]])
        self.assertEqual(found["runs"][place["ALFA"]], [[minute("08.01"), None, None, "S"]])
        self.assertEqual(found["expected"][place["CHARLIE"]], [minute("08.31"), minute("09.01"), 0])
        self.assertEqual(found["expected"][place["FOXTROT"]], [minute("08.09"), minute("08.09"), 1])
        self.assertEqual(found["going"], [place["CHARLIE"]])
        self.assertEqual(found["ended"], [[numbers[self.rows["CHARLIE", 2][0]], 300], [place["DELTA"], 900]])
        self.assertEqual(found["chain"], [place[app] for app in ("ALFA", "BRAVO", "CHARLIE")])
        app = next(number for number, one in enumerate(data["apps"]) if one[0] == "CHARLIE")
        self.assertEqual(tuple(found["usual"][app]), (1800, 2100, 2))
        self.assertIsNone(page_data.data_of(self.plan, plain.read_moment(NOW))["actual"])
        before = plans.prints(self.plan)
        ran = plans.plan("page", self.plan, "--journal", self.journal, "-o", self.journal)
        self.assertEqual((ran.returncode, plans.prints(self.plan)), (2, before), ran.stderr)

    def test_a_run_that_goes_on_takes_the_worst_and_then_no_one_knows(self):
        for now, wanted in (("2024-01-03/08.11", "2024-01-03 08.11"), ("2024-01-03/08.12", "2024-01-03 08.13"),
                            ("2024-01-03/08.14", "not before 2024-01-03 08.14")):
            shown = self.asked("why", "ALFA", "2024-01-03/08.00", "--now", now)
            self.assertIn(f"It is expected to end {wanted}.", shown)

    def test_files_that_are_no_journal_of_this_plan(self):
        other, empty, text = self.room / "other", self.room / "empty", self.room / "text"
        serial, app, ia, status, at = self.events()[0]
        journals.write(other, [(serial, app, "2024-01-01/08.01", status, at)])
        empty.touch()
        text.write_text("no journal\n" * 999, encoding="utf-8")
        odd = journals.write(self.room / "odd", [(serial, app, ia, status, at)])
        with plans.closing(plans.sqlite3.connect(odd)) as db:
            db.execute("UPDATE happened SET at = 'x'")
            db.commit()
        asked = [(path, ["late"]) for path in (empty, text, odd, self.plan, self.room, self.room / "none")]
        asked += [(other, words) for words in (["late"], ["why", "1"], ["export", "--json"], ["page"])]
        for path, words in asked:
            ran = plans.plan(words[0], self.plan, *words[1:], "--journal", path)
            self.assertEqual((ran.returncode, ran.stdout), (1, ""), (path, words))
            self.assertRegex(ran.stderr, f"^plan: {path}: [^\n]+\n$")


class Reckoning(unittest.TestCase):
    def happened(self, times):
        """What happened to one application, an occurrence after another: (status, seconds)."""
        begin = datetime.datetime(2024, 1, 1)
        return [(serial, "A", "2024-01-01/08.00", status, f"{(begin + datetime.timedelta(0, at)).isoformat()}Z", 0)
                for serial, status, at in times]

    def test_the_last_thirty_whole_runs_count(self):
        for count in (1, 2, 3, 29, 30, 31, 45):
            times, at = [], 0
            for serial in range(1, count + 1):
                took = 600 - 7 * serial  # the older ones took longer
                times += [(serial, "S", at), (serial, "C", at + took)]
                at += took
            found = actual.Actual(self.happened(times)).usual["A"]
            last = [600 - 7 * serial for serial in range(1, count + 1)][-30:]
            middle = sorted(last)[len(last) // 2] if len(last) % 2 else sum(sorted(last)[len(last) // 2 - 1:][:2]) / 2
            self.assertEqual(found, actual.Usual(middle, last[0], len(last)), count)

    def test_what_failed_was_taken_over_or_lacks_its_start_is_no_whole_run(self):
        times = [(1, "S", 0), (1, "E", 50), (1, "W", 60), (1, "S", 100), (1, "C", 130), (2, "S", 0), (2, "E", 500),
                 (2, "C", 900), (3, "C", 40), (4, "S", 7), (5, "S", 8), (5, "E", 9), (5, "D", 10)]
        known = actual.Actual(self.happened(times))
        self.assertEqual(known.usual, {"A": actual.Usual(30, 30, 1)})
        self.assertEqual([(run.seconds, run.status) for run in known.runs[1]], [(50, "E"), (30, "C")])
        self.assertEqual([(run.seconds, run.status) for run in known.runs[2]], [(500, "E"), (None, "C")])
        self.assertEqual([(run.seconds, run.status) for run in known.runs[3]], [(None, "C")])
        self.assertEqual([(run.seconds, run.status) for run in known.runs[4]], [(None, "S")])
        self.assertEqual((known.ended(5), known.started(5)), (known.ended(1) - 121, known.ended(1) - 122))
        self.assertEqual((known.started(6), known.ended(6)), (None, None))

    def test_an_hour_that_comes_twice_makes_no_duration_longer(self):
        self.addCleanup(time.tzset)
        self.addCleanup(os.environ.update if "TZ" in os.environ else os.environ.pop, *(
            [{"TZ": os.environ["TZ"]}] if "TZ" in os.environ else ["TZ", None]))
        os.environ["TZ"] = "Europe/Berlin"
        time.tzset()
        for begin, end, texts in (
            ("2024-03-31T00:30:00.000Z", "2024-03-31T01:30:00.000Z", ("2024-03-31 01.30", "2024-03-31 03.30")),
            ("2024-10-27T00:30:00.000Z", "2024-10-27T01:30:00.000Z", ("2024-10-27 02.30", "2024-10-27 02.30")),
        ):
            known = actual.Actual([(1, "A", "x", "S", begin, 1), (1, "A", "x", "C", end, 2)])
            self.assertEqual(known.usual["A"].middle, 3600)
            self.assertEqual((actual.moment_text(known.started(1)), actual.moment_text(known.ended(1))), texts)

    def test_ends_of_a_night_by_a_second_way(self):
        text, now = data_centre.whole(), plain.read_moment(data_centre.NOW)
        planner, rng = plans.planner_of(text), random.Random(4)
        unfinished = {serial: (row, status) for serial, (row, status) in planner.current.items() if status in "WSE"}
        took, events = {}, []
        for serial, row in sorted(planner.history.items()):
            if row[1] == "ARCHIVELOGS":
                continue  # of one application nothing is known
            minutes = rng.randrange(1, 90)
            took.setdefault(row[1], []).append(minutes)
            events += [(serial, row[1], plain.moment_text(row[2], "/"), status, plain.moment_text(row[2] + more, "/"))
                       for status, more in (("S", 0), ("C", minutes))]
        for serial, (row, status) in unfinished.items():
            if status == "S":
                events.append((serial, row[1], plain.moment_text(row[2], "/"), "S", plain.moment_text(now - 3, "/")))
        ends = {}

        def end(serial):
            row, status = unfinished[serial]
            if serial not in ends:
                usual = took.get(row[1], [0])[-30:]
                before = [end(last) for first, last in planner.pairs if first == serial and last in unfinished]
                start = now - 3 if status == "S" else max([now, *before] if status == "E" else [now, row[2], *before])
                long = statistics.median(usual)
                if status == "S" and start + long < now:
                    long = max(max(usual), 3)
                ends[serial] = start + long
            return ends[serial]

        with tempfile.TemporaryDirectory(prefix="actual-") as room:
            journal = journals.write(os.path.join(room, "journal"), events)
            words = ["--journal", journal, "--now", data_centre.NOW]
            ran = plans.plan("export", plans.of_stream(text), "--json", "--set", "cp", *words)
            output = plans.plan("late", plans.of_stream(text), *words).stdout
        found = json.loads(ran.stdout)["occurrences"]
        shown = {one["serial"]: one["expected_end"] for one in found if one["expected_end"]}
        self.assertEqual(set(shown), set(unfinished))
        self.assertGreater(len(shown), 20)
        for serial, text in shown.items():
            wanted = plain.moment_text(int(-(-end(serial) // 1)), "T").replace(".", ":")
            self.assertEqual(text, wanted, unfinished[serial])
        last = plain.moment_text(int(-(-max(ends.values()) // 1)))
        self.assertIn(f"{last}, by this chain:", output)


if __name__ == "__main__":
    unittest.main()
