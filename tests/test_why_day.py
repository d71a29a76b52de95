"""./plan why-day: the days that it tells of, and its reasons, are those of tools/reference/plain_planner.py."""

import collections
import contextlib
import functools
import itertools
import shutil
import sqlite3
import tempfile
import types
import unittest

from support import plans
from support.plans import plain

from opcplan.commands import why_day
from opcplan.plans import plan_definitions, plan_file
from opcplan.rules import definitions, moments, naming, naming_words


NEW_YEAR = moments.day_of("2024-01-01")
DAYS = range(NEW_YEAR - 20, NEW_YEAR + 200)
EDGES = range(plain.FIRST_DAY, plain.FIRST_DAY + 20), range(plain.LAST_PLANNING_DAY - 20, plain.LAST_PLANNING_DAY + 1)
# no worked calendar has so many free days in a row, but those that have no work day at all
MARGIN = 40


class Defined(plain.Planner):
    """A planner that takes definitions alone, and nothing else."""

    def refuse(self, *_):
        raise plain.Refusal(20)

    def nothing(self, *_):
        return []

    create = extend = modify_all = modify_one = add = delete = daily = act = refuse
    days = list = nothing


@functools.cache
def defined_by(text):
    """What a stream defines, as the plain planner has it."""
    planner = Defined()
    plain.run(text, planner)
    return planner


@functools.cache
def read_back(text):
    """The same, read from the tables, which stand in memory."""
    tool = plans.plan_rows
    with contextlib.closing(sqlite3.connect(":memory:")) as db:
        db.row_factory = sqlite3.Row
        for made in plans.schema():
            db.execute(made)
        for table, rows in tool.table_rows(defined_by(text)).items():
            columns = tool.COLUMNS[table]
            db.executemany(f"INSERT INTO {table} ({columns}) VALUES ({', '.join('?' * len(columns.split(',')))})", rows)
        meta = db.execute("SELECT * FROM plan_meta").fetchone()
        return plan_definitions.of_plan(types.SimpleNamespace(db=db, meta=meta))


# what no worked stream has: a run cycle that is out of effect before it is in effect
MORE = """define periods --job 1
WEEK,A,2024-01-01,7
/*
define applications --job 2
PAY,A,
/*
define run-cycles --job 3
PAY,RC,N,WEEK,E,1,2024-02-01,2024-01-15,08.00,0,18.00
/*
"""


def worked():
    """The worked streams, and one more: name and text."""
    return [("more", MORE.encode())] + [(path.stem, path.read_bytes()) for path in sorted(plans.DATA.glob("*.in"))]


def differing():
    """The worked streams' applications, one of those that differ in names alone: stream, planner, definitions, name."""
    seen = set()
    for name, text in worked():
        planner = defined_by(text)
        for app, (is_active, calendar) in sorted(planner.defined["applications"].items()):
            cycles = planner.defined["run-cycles"].get(app, {})
            periods = [planner.defined["periods"].get(cycle["period"]) for cycle in cycles.values()]
            days = planner.defined["calendars"].get(calendar or planner.options["default_calendar"])
            what = repr((is_active, calendar is None, days, cycles, periods))
            if what not in seen:
                seen.add(what)
                yield name, planner, read_back(text), app


def obstacle(planner, app):
    """Why an application isn't planned, by the plain planner."""
    try:
        planner.ask_definitions([app])
    except plain.Refusal as refused:
        if refused.line.startswith("refused 22"):
            return "calendar"
        return "periods" if planner.defined["applications"][app][0] else "pending"
    return None if planner.defined["applications"][app][0] else "pending"


def is_slow(planner, app):
    """Whether its calendar has no work day: each question takes long then, to the plain planner too."""
    return longest_free_run(planner, app) >= MARGIN


def longest_free_run(planner, app):
    """The most free days in a row."""
    planner.work_days(app)
    name = planner.defined["applications"][app][1] or planner.options["default_calendar"]
    key = tuple(sorted(planner.defined["calendars"].get(name, {}).items()))
    if key not in RUNS:
        runs = itertools.groupby(planner.calendars[key].days)
        RUNS[key] = max((sum(1 for _ in run) for is_work, run in runs if not is_work), default=0)
    return RUNS[key]


RUNS = {}


def near(planner, app, days):
    """The planner with those intervals alone that can matter to some days: the plain one looks at each there is."""
    run = longest_free_run(planner, app)
    assert run < MARGIN or run == plain.LAST_DAY - plain.FIRST_DAY + 1
    other = planner.copy()
    for name, period in planner.defined["periods"].items():
        if period[0] == "A":
            spans = [span for span in plain.intervals_of(period)
                     if span[0] <= days[-1] + MARGIN and days[0] - MARGIN <= span[1]]
            other.defined["periods"][name] = ("N", spans)
    return other


class Days(unittest.TestCase):
    def test_each_day_of_each_application_is_named_as_by_the_plain_planner(self):
        asked = 0
        for name, planner, read, app in differing():
            if obstacle(planner, app) is None:
                with self.subTest(name, app=app):
                    for days in (DAYS[:60] if is_slow(planner, app) else DAYS, *EDGES):
                        asked += self.compare(near(planner, app, days), read, app, days)
        self.assertGreater(asked, 20_000)

    def compare(self, planner, read, app, days):
        wanted = {}
        for (day, time), value in planner.named(app, days[0], days[-1]).items():
            wanted.setdefault(day, {})[time] = value
        for day in days:
            said = naming.names(read, app, day)
            named = {one.time: (one.cycle.name, one.deadline) for one in said.times if not one.excluded_by}
            self.assertEqual((named, said.is_named), (wanted.get(day, {}), day in wanted), moments.day_text(day))
            self.check_answers(planner, read, app, day, said)
        return len(days)

    def check_answers(self, planner, read, app, day, said):
        """Each run cycle says something, and as the plain planner's days of it."""
        self.assertEqual([one.cycle.name for one in said.answers], sorted(planner.defined["run-cycles"].get(app, {})))
        for one in said.answers:
            self.assertEqual(one.names, not one.reasons)
            self.assertTrue(all(naming_words.reasons(read, app, day, one)))

    def test_what_can_not_be_planned_is_reported(self):
        seen = set()
        for _, planner, read, app in differing():
            said = naming.names(read, app, NEW_YEAR)
            wanted = obstacle(planner, app)
            self.assertEqual(said.obstacle, wanted, app)
            self.assertFalse(said.is_named and wanted is not None)
            seen.add(wanted)
        self.assertEqual(seen, {None, "pending", "calendar", "periods"})
        self.assertEqual(naming.names(definitions.Definitions(), "NOBODY", NEW_YEAR).obstacle, "unknown")


class Reasons(unittest.TestCase):
    """A reason is right where the plain planner, with that alone mended, names the day."""

    KINDS = "early over never omitted moved free offsets between past open".split()

    def test_reasons_hold_where_they_are_mended(self):
        seen = dict.fromkeys(self.KINDS, 0)
        for name, planner, read, app in differing():
            if obstacle(planner, app) is not None:
                continue
            close, asked = near(planner, app, DAYS), collections.Counter()
            for day in range(NEW_YEAR - 8, NEW_YEAR + (3 if is_slow(planner, app) else 32)):
                for one in naming.names(read, app, day).answers:
                    alike = (one.cycle.name, bool(one.hits), *(reason.kind for reason in one.reasons))
                    asked[alike] += 1
                    if asked[alike] > 2:  # two days of one kind of answer are enough for a run cycle
                        continue
                    with self.subTest(name, app=app, day=moments.day_text(day), cycle=one.cycle.name):
                        Mended(self, close, app, one.cycle.name).check(day, one, seen)
        self.assertTrue(all(seen.values()), seen)


@functools.cache
def mended_days(planner, app, name, changes):
    """The days of a time that a run cycle names with other values, whenever it is in effect."""
    cycle = {**planner.defined["run-cycles"][app][name], "first": plain.FIRST_DAY, "end": None, **dict(changes)}
    work = planner.work_days(app)
    first, last = (NEW_YEAR - 9, NEW_YEAR + 4) if is_slow(planner, app) else (NEW_YEAR - 20, NEW_YEAR + 50)
    return plain.days_named(cycle, planner.defined["periods"][cycle["period"]], work, first, last)


class Mended:
    """One run cycle, and what the plain planner says of it with other values."""

    def __init__(self, test, planner, app, name):
        self.test, self.planner, self.app, self.name = test, planner, app, name
        self.cycle = planner.defined["run-cycles"][app][name]
        # whatever the rule, an offset gives the same day by rule 3, but for rule E
        self.counting = "E" if self.cycle["rule"] == "E" else "3"

    def days(self, **changes):
        given = tuple((key, tuple(value) if key == "offsets" else value) for key, value in sorted(changes.items()))
        return mended_days(self.planner, self.app, self.name, given)

    def by_offset(self, *offsets):
        """The days that offsets give before a rule moves them."""
        return self.days(rule=self.counting, offsets=offsets)

    def check(self, day, one, seen):
        self.test.assertEqual(bool(one.hits), day in self.days())
        for hit in one.hits:
            self.test.assertIn(day, self.days(offsets=[hit.offset]))
            self.test.assertTrue(hit.raw != day or day in self.by_offset(hit.offset))
        for reason in one.reasons:
            seen[reason.kind] += 1
            self.test.assertTrue(getattr(self, reason.kind)(day, reason), reason)

    def early(self, day, _):
        return day < self.cycle["first"]

    def over(self, day, _):
        return self.cycle["end"] <= day

    def never(self, *_):
        return self.cycle["end"] <= self.cycle["first"]

    def free(self, day, _):
        counts = self.cycle["rule"] == "E" or self.planner.defined["periods"][self.cycle["period"]][0] == "W"
        return counts and not self.planner.work_days(self.app)(day)

    def omitted(self, day, reason):
        return self.cycle["rule"] == "4" and day in self.by_offset(reason.offset) and day not in self.days()

    def moved(self, day, reason):
        to = plain.shifted(self.cycle["rule"], day, self.planner.work_days(self.app))
        return reason.to == to and day in self.by_offset(reason.offset) and day not in self.days()

    def offsets(self, day, reason):
        here = [offset for offset in (reason.place, reason.from_end) if offset is not None and abs(offset) <= 1999]
        named = self.by_offset(*self.cycle["offsets"])
        return all(day in self.by_offset(offset) for offset in here) and day not in named

    def past(self, _, reason):
        return self.names_nothing(reason)

    def open(self, _, reason):
        return reason.offset < 0 and reason.interval[1] is None and self.names_nothing(reason)

    def names_nothing(self, reason):
        """An offset gives no day of an interval, but where another interval has it."""
        if reason.interval is None:
            return not self.by_offset(reason.offset)
        first, last = reason.interval
        inside = {day for day in self.by_offset(reason.offset) if first <= day and (last is None or day <= last)}
        spans = plain.intervals_of(self.planner.defined["periods"][self.cycle["period"]])
        return all(any(span != (first, last) and span[0] <= day and (span[1] is None or day <= span[1])
                       for span in spans) for day in inside)

    def between(self, day, _):
        return day not in self.by_offset(*range(1, 60), *range(-60, 0))


class Command(unittest.TestCase):
    def setUp(self):
        room = tempfile.mkdtemp(prefix="why-day-")
        self.addCleanup(shutil.rmtree, room)
        self.file = plans.copy_of(plans.of_worked("data-centre-year"), room)
        self.before = plans.prints(self.file)

    def tearDown(self):
        self.assertEqual(plans.prints(self.file), self.before)

    def ask(self, app, day, status):
        ran = plans.plan("why-day", self.file, app, day)
        self.assertEqual((ran.returncode, ran.stderr), (status, ""), ran.stdout)
        self.assertLessEqual(max(map(len, ran.stdout.split("\n"))), 110)
        return " ".join(ran.stdout.split())

    def test_a_day_that_is_named_by_a_move(self):
        output = self.ask("PAYROLL", "2024-02-23", 0)
        raw = "offset 25 gives Sunday 2024-02-25, the 25th day of MONTH's interval 2024-02-01 to 2024-02-29"
        for text in ("named at 08.00.", "by WAGES, due 2024-02-23 16.00", raw,
                     "It is in the long-term plan (serial ", "by rule 1 it goes to the work day before"):
            self.assertIn(text, output)

    def test_small_letters_of_an_application(self):
        self.assertEqual(self.ask("payroll", "2024-02-23", 0), self.ask("PAYROLL", "2024-02-23", 0))

    def test_a_free_date(self):
        output = self.ask("PAYROLL", "2024-12-25", 1)
        self.assertIn("not named.", output)
        self.assertIn("BANK lists 2024-12-25 as free", output)
        self.assertIn("by rule 1 it goes to the work day before, Monday 2024-12-23", output)

    def test_a_day_that_an_excluding_run_cycle_takes(self):
        output = self.ask("REPORT", "2024-12-02", 1)
        self.assertIn("07.00 excluded by CLOSED, though MORNING names it", output)

    def test_a_pending_application_and_an_unknown_one(self):
        self.assertIn("ARCHIVE is pending", self.ask("ARCHIVE", "2024-12-02", 1))
        self.assertIn("isn't defined", self.ask("NOBODY", "2024-12-02", 1))

    def test_a_day_outside_of_the_plan(self):
        last = plans.planner_of(plans.stream("data-centre-year")).bounds[1]
        self.assertIn(f"the long-term plan ends with {moments.day_text(last)}", self.ask("BACKUP", "2025-12-02", 0))

    def test_wrong_words_and_files(self):
        for words in (("PAYROLL",), ("PAYROLL", "2024-02-30"), ("1X", "2024-02-03"), ("PAYROLL", "2024-02-03", "more")):
            ran = plans.plan("why-day", self.file, *words)
            self.assertEqual((ran.returncode, ran.stdout), (2, ""), words)
            self.assertTrue(ran.stderr.startswith("plan: "))
        ran = plans.plan("why-day", self.file.with_name("none.db"), "PAYROLL", "2024-02-23")
        self.assertEqual((ran.returncode, ran.stdout), (1, ""))
        self.assertIn("there is no such file", ran.stderr)


DAILY = """define run-cycles --job 900
LEDGER,RC,N,DAY,3,1,2024-01-01,,18.00,1,06.00
LEDGER,EARLY,N,DAY,3,1,2024-01-01,,10.00,1,06.00
/*
"""


class Missing(unittest.TestCase):
    """Why an occurrence that is named isn't planned: a modification makes it exactly where this is told."""

    TEXTS = "isn't made yet", "isn't made:", "an operator deleted it"

    def test_a_modification_makes_what_is_said_to_wait_for_one(self):
        found = set()
        # an application is named on further days, and nothing is modified yet
        late = plans.stream("monday") + plans.stream("tuesday") + DAILY.encode()
        for name in ("batch-through-all-sets", "withdrawn-and-named-again", "deleted-stays-deleted", None):
            for text in beginnings(plans.stream(name)) if name else [late]:
                planner = plans.planner_of(text)
                with contextlib.ExitStack() as stack:
                    plan = stack.enter_context(plan_file.opened(plans.of_stream(text)))
                    found |= self.check(planner, plan)
        self.assertEqual(found, set(self.TEXTS))

    def check(self, planner, plan):
        if planner.bounds is None:
            return set()
        seen, read = set(), plan_definitions.of_plan(plan)
        for app in planner.active():
            after = planner.copy()
            try:
                after.modify_one(app)[2]()
            except plain.Refusal:
                continue
            made = {row[2] for row in after.planned.values() if row[1] == app}
            live = {row[2] for row in planner.live() if row[1] == app}
            named = sorted(planner.named(app, *planner.bounds[:2]))
            for day in range(planner.bounds[0], planner.bounds[1] + 1):
                lines = why_day.plan_lines(plan, app, day, naming.names(read, app, day))
                for time in [time for other, time in named if other == day]:
                    ia, at_time = day * plain.DAY + time, plain.minute_text(time)
                    found = [line for line in lines if line.startswith(at_time) and "It isn't" in line]
                    self.assertEqual(bool(found), ia not in live)
                    if found:
                        self.assertEqual("modify-one" in found[0], ia in made)
                        seen |= {text for text in self.TEXTS if text in found[0]}
        return seen


def beginnings(text):
    """The stream cut behind a third and two thirds of its lines, and whole."""
    lines = text.split(b"\n")
    return [b"\n".join(lines[: len(lines) * part // 3]) + b"\n" for part in (1, 2)] + [text]


if __name__ == "__main__":
    unittest.main()
