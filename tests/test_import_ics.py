"""./plan import --ics: events in time zones, whose times may be in UTC, and what can't be taken of them."""

import os
import re
import subprocess
import tempfile
import unittest
from pathlib import Path

from support import TOP, bare_python, plans

from opcplan.commands import import_ics

PLAN = b"define applications --job 1\nSYNC,A,\n/*\n"
MAY = ["DTSTART;TZID=Europe/Berlin:20240501T000000", "DTEND;TZID=Europe/Berlin:20240502T000000"]
MAY_DATE = ["DTSTART;VALUE=DATE:20240501", "RRULE:FREQ=YEARLY;UNTIL=20260430T220000Z"]
BERLIN, TOKYO = "X-WR-TIMEZONE:Europe/Berlin", "X-WR-TIMEZONE:Asia/Tokyo"
HAVANA = ["DTSTART;TZID=America/Havana:20241103T000000", "DURATION:P1D", "RRULE:FREQ=YEARLY"]
SAO_PAULO = ["DTSTART;TZID=America/Sao_Paulo:20151018T000000", "DURATION:P1D", "RDATE:20161016T030000Z"]
# of each case the calendar's own lines, its events, and the days of 2015 to 2028 by the rules of iCalendar
CASES = [
    ("", [[*MAY, "RRULE:FREQ=YEARLY;UNTIL=20260430T220000Z", "EXDATE:20250430T220000Z"]], "2024-05-01 2026-05-01"),
    ("", [[*MAY, "RRULE:FREQ=YEARLY;UNTIL=20260430T215959Z"]], "2024-05-01 2025-05-01"),
    ("", [[*MAY, "RDATE:20240930T220000Z"]], "2024-05-01 2024-10-01"),
    ("", [["UID:a", *MAY, "RRULE:FREQ=YEARLY;COUNT=3"],
          ["UID:a", "RECURRENCE-ID:20250430T220000Z", "DTSTART;VALUE=DATE:20250503"]],
     "2024-05-01 2025-05-03 2026-05-01"),
    ("", [[MAY[0], "DTEND:20240502T220000Z"]], "2024-05-01 2024-05-02"),
    ("", [[MAY[0], "DURATION:P1D"]], "2024-05-01"),
    ("", [[MAY[0], "DURATION:P1W"]], " ".join(f"2024-05-0{day}" for day in range(1, 8))),
    ("", [["DTSTART;TZID=Europe/Berlin:20270327T000000", "DURATION:P2D"]], "2027-03-27 2027-03-28"),
    ("", [["DTSTART:20240501T000000Z", "DURATION:P1D", "RRULE:FREQ=YEARLY", "EXDATE;TZID=Asia/Tokyo:20250501T090000",
           "EXDATE;TZID=Asia/Tokyo:20260501T000000", "EXDATE;VALUE=DATE:20270501"]],
     "2024-05-01 2026-05-01 2028-05-01"),
    (BERLIN, [MAY_DATE], "2024-05-01 2025-05-01 2026-05-01"),
    (TOKYO, [[*MAY_DATE, "EXDATE:20250430T160000Z"]], "2024-05-01 2026-05-01"),
    # there midnight comes twice on 3 November 2024, and not at all on 18 October 2015
    ("", [[*HAVANA, "EXDATE:20241103T040000Z"]], "2025-11-03 2026-11-03 2027-11-03 2028-11-03"),
    ("", [[*SAO_PAULO, "EXDATE:20151018T030000Z"]], "2016-10-16"),
]
# what can't be taken: the same, the days of the other events, and words of what is told of the event
LEFT = [
    ("", [["SUMMARY:spring", "UID:a", *MAY, "RRULE:FREQ=YEARLY"],
          ["SUMMARY:fair", "UID:a", "RECURRENCE-ID;RANGE=THISANDFUTURE:20260430T220000Z",
           "DTSTART;VALUE=DATE:20260503"]],
     "2024-05-01 2025-05-01", "'fair' on 2026-05-03: it changes all later repetitions"),
    ("", [["SUMMARY:fair", *MAY_DATE], ["DTSTART;VALUE=DATE:20240701"]], "2024-07-01",
     "'fair' on 2024-05-01: its UNTIL is a moment in UTC, and it begins in no time zone"),
    ("", [["SUMMARY:fair", MAY[0].replace("Berlin", "Nowhere"), "DURATION:P1D", "RDATE:20240503T000000Z"],
          ["DTSTART;VALUE=DATE:20240701"]], "2024-07-01", "'fair' on 2024-05-01: its RDATE is a moment in UTC, and"),
    ("", [["SUMMARY:fair", *MAY, "RDATE:20240503T000000Z"], ["DTSTART;VALUE=DATE:20240701"]], "2024-07-01",
     "'fair' on 2024-05-01: RDATE of it has a time of day"),
    ("", [["SUMMARY:fair", *MAY, "RRULE:FREQ=YEARLY", "EXRULE:FREQ=YEARLY;INTERVAL=2"],
          ["DTSTART;VALUE=DATE:20240701"]], "2024-07-01", "'fair' on 2024-05-01: it has EXRULE"),
    ("", [["SUMMARY:fair", MAY[0], "DURATION:PT12H"], ["DTSTART;VALUE=DATE:20240701"]], "2024-07-01",
     "'fair' on 2024-05-01: it begins at a time of day"),
]


def has_library():
    """Whether an interpreter that ./plan takes has the library."""
    asked = [import_ics.DEBIAN, "-c", f"import {', '.join(import_ics.LIBRARIES)}"]
    return Path(import_ics.DEBIAN).exists() and subprocess.run(asked, capture_output=True, check=False).returncode == 0


@unittest.skipUnless(has_library(), "python3-icalendar isn't there")
class ImportIcs(unittest.TestCase):
    maxDiff = None

    def setUp(self):
        room = tempfile.TemporaryDirectory(prefix="ics-")
        self.addCleanup(room.cleanup)
        self.room = Path(room.name)
        self.plan = plans.copy_of(plans.of_stream(PLAN), self.room)

    def asked(self, of_calendar, events):
        lines = [line for event in events for line in ("BEGIN:VEVENT", *event, "END:VEVENT")]
        given = self.room / "given.ics"
        given.write_text("\r\n".join(["BEGIN:VCALENDAR", "VERSION:2.0", *filter(None, [of_calendar]), *lines,
                                      "END:VCALENDAR", ""]))
        return plans.plan("import", "--ics", given, "--calendar", "X", "--new", "--from", "2015-01-01",
                          "--to", "2028-12-31", self.plan)

    def test_times_in_utc_are_those_of_the_zone(self):
        for of_calendar, events, days in CASES:
            with self.subTest(events=events):
                ran = self.asked(of_calendar, events)
                self.assertEqual(" ".join(re.findall("(?m)^X,(.*),FREE$", ran.stdout)), days, ran.stderr)
                self.assertEqual(ran.returncode, 0, ran.stderr)

    def test_a_python_without_the_library_leaves_it_to_debians(self):
        of_calendar, events, days = CASES[0]
        python = bare_python.made(self.room)
        lacks = subprocess.run([python, "-c", "import icalendar"], capture_output=True, check=False)
        self.assertEqual(lacks.returncode, 1)
        self.asked(of_calendar, events)
        words = [python, TOP / "plan", "import", "--ics", self.room / "given.ics", "--calendar", "X", "--new",
                 "--from", "2015-01-01", "--to", "2028-12-31", self.plan]
        ran = subprocess.run(words, capture_output=True, encoding="utf-8", check=False)
        self.assertEqual((" ".join(re.findall("(?m)^X,(.*),FREE$", ran.stdout)), ran.returncode), (days, 0), ran.stderr)

    def test_what_is_not_taken_is_reported_with_the_name_of_its_event(self):
        for of_calendar, events, days, says in LEFT:
            with self.subTest(events=events):
                ran = self.asked(of_calendar, events)
                self.assertEqual(" ".join(re.findall("(?m)^X,(.*),FREE$", ran.stdout)), days, ran.stderr)
                self.assertIn(f"left out: {says}", ran.stderr)
                self.assertEqual(ran.returncode, 1)

    def test_random_events_have_the_days_that_dateutil_gives(self):
        words = [import_ics.DEBIAN, TOP / "tests" / "support" / "random_events.py", "77", "150"]
        paths = {**os.environ, "PYTHONPATH": str(TOP / "python"), "PYTHONDONTWRITEBYTECODE": "1"}
        ran = subprocess.run(words, capture_output=True, encoding="utf-8", check=False, timeout=300, env=paths)
        self.assertEqual((ran.stderr, ran.returncode), ("", 0))
        *wrong, last = ran.stdout.splitlines()
        self.assertEqual(wrong, [])
        self.assertRegex(last, "^150 events, 1[0-9][0-9] with days$")


if __name__ == "__main__":
    unittest.main()
