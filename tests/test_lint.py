"""./plan lint: what it finds is, by the plain planner, what names nothing or means something else than it says."""

import itertools
import random
import re
import shutil
import tempfile
import unittest
from pathlib import Path

from support import plans
from support.plans import plain

from opcplan.commands import lint
from opcplan.plans import plan_file, stream_state
from opcplan.rules import lint_checks, moments

from test_why_day import defined_by

SLIPS = """* Each slip once.
define calendars --job 1
WORK,SAT,FREE
WORK,SUN,FREE
/*
define periods --job 2
DAY,A,2024-01-01,1
WEEK,A,2024-01-01,7
FIVE,W,2024-01-01,5
MON,N,2024-01-01,
MON,N,2024-02-01,
MON,N,2024-03-01,
/*
define applications --job 3
POST,A,WORK
CORE,A,WORK
IDLE,A,
PENDING,P,
/*
define run-cycles --job 4
POST,RC,N,DAY,4,1,2024-01-01,,23.45,1,06.00
CORE,RC,N,DAY,4,1,2024-01-01,,23.00,1,05.00
CORE,OFF,X,DAY,4,1,2024-01-01,,22.00,,
CORE,PAST,N,WEEK,3,8 7 -8,2024-01-01,,10.00,0,11.00
CORE,SIXTH,N,WEEK,E,6 5,2024-01-01,,10.30,0,11.00
CORE,FIVE,N,FIVE,3,6 5,2024-01-01,,10.40,0,11.00
CORE,END,N,MON,1,-1 30,2024-01-01,,11.00,0,10.59
CORE,NEVER,N,MON,1,1,2024-01-01,2024-01-01,12.00,0,12.00
/*
define predecessors --job 5
CORE,POST
CORE,NOBODY
IDLE,PENDING
PENDING,IDLE
/*
ltp-create --from 2024-01-01 --to 2024-03-31 --job 6
"""
FOUND = [
    (17, "calendar", ("DEFAULT",)), (17, "idle", ("IDLE",)), (23, "exclusion", ("CORE", "OFF")),
    (24, "past", ("CORE", "PAST", -8)), (24, "past", ("CORE", "PAST", 8)), (25, "past", ("CORE", "SIXTH", 6)),
    (26, "past", ("CORE", "FIVE", 6)), (27, "due", ("CORE", "END")), (27, "open", ("CORE", "END", -1)),
    (27, "past", ("CORE", "END", 30)), (28, "effect", ("CORE", "NEVER")), (31, "later", ("CORE", "POST")),
    (32, "unknown", ("CORE", "NOBODY")), (34, "loop", ("IDLE", "PENDING")),
]


def findings(text):
    return lint.findings(plans.items_of(text), stream_state.Known())


def known_after(text):
    """What is known at the end of a stream."""
    now = stream_state.Known()
    for item in plans.items_of(text):
        if item.statement and (not item.has_data or item.is_whole):
            now.take(item)
    return now


def loops_by_ways(lists):
    """The applications of each loop: those that are reached from each other."""
    def reached(app):
        found, left = set(), [app]
        while left:
            more = set(lists.get(left.pop(), ())) - found
            found |= more
            left += more
        return found

    # a list that nobody can come back to is on none
    left = {app: set(listed) - {app} for app, listed in lists.items()}
    while ends := [app for app, listed in left.items() if not listed & left.keys()]:
        for app in ends:
            del left[app]
    ways = {app: reached(app) for app in left}
    loops = ({app} | {other for other in ways[app] & ways.keys() if app in ways[other]} for app in ways)
    return {tuple(sorted(loop)) for loop in loops if len(loop) > 1}


class Found(unittest.TestCase):
    def test_each_slip_is_found_with_its_line(self):
        self.assertEqual([(one.line, one.kind, one.about) for one in findings(SLIPS)], FOUND)
        self.assertEqual({one.kind for one in findings(SLIPS)}, set(lint_checks.KINDS))

    def test_what_is_mended_is_found_no_more(self):
        mends = {
            "calendar": ("define applications", "define calendars --job 90\nDEFAULT,SUN,FREE\n/*\ndefine applications"),
            "idle": ("CORE,OFF,", "IDLE,RC,N,DAY,4,1,2024-01-01,,23.45,1,06.00\nCORE,OFF,"),
            "exclusion": ("22.00,,", "10.00,,"),
            "effect": ("2024-01-01,2024-01-01", "2024-01-01,"),
            "due": ("11.00,0,10.59", "11.00,0,11.00"),
            "later": ("23.45,1", "22.45,1"),
            "unknown": ("CORE,NOBODY", "CORE,IDLE"),
            "loop": ("PENDING,IDLE", "PENDING,POST"),
            "open": ("MON,N,2024-03-01,", "MON,N,2024-03-01,2024-03-31"),
        }
        for kind, (old, new) in mends.items():
            self.assertEqual(SLIPS.count(old), 1, old)
            left = {one.kind for one in findings(SLIPS.replace(old, new))}
            self.assertEqual(left, set(lint_checks.KINDS) - {kind}, kind)
        mends = ((",8 7 -8,", ",7 1 -7,"), (",E,6 5,", ",E,5,"), ("N,FIVE,3,6", "N,FIVE,3,5"), ("-1 30,", "-1 29,"))
        for old, new in mends:
            self.assertEqual(SLIPS.count(old), 1, old)
            left = [one for one in findings(SLIPS.replace(old, new)) if one.kind == "past"]
            self.assertEqual(len(left), 5 - (2 if old == ",8 7 -8," else 1), old)

    def test_names_are_looked_for_when_the_plan_is_made(self):
        """The order of the blocks before it leaves no trace."""
        head, *blocks, last = SLIPS.split("define ")
        last, _, creation = last.partition("ltp-")
        turned = head + "".join(f"define {block}" for block in [last, *reversed(blocks)]) + f"ltp-{creation}"
        found = sorted((one.kind, one.about) for one in findings(turned))
        self.assertEqual(found, sorted(((kind, about) for _, kind, about in FOUND), key=lambda one: one))

    def test_a_job_that_is_asked_again_defines_nothing(self):
        again = SLIPS + "define applications --job 3\nPOST,P,\n/*\n"
        self.assertEqual(findings(again), findings(SLIPS))

    def test_what_is_refused_defines_nothing(self):
        twice, wrong = "define applications --job 1\nA,A,\nA,A,\n/*\n", "define applications\nB,A,\n/*\n"
        self.assertEqual(findings(twice + wrong + "define applications --job 2\nC,A,\n"), [])


class Meaning(unittest.TestCase):
    """Over all worked streams, at their ends, by the plain planner."""

    def test_all_worked_streams(self):
        seen = set()
        texts = {path.stem: path.read_bytes() for path in sorted(plans.DATA.glob("*.in"))}
        for name, text in [*texts.items(), ("slips", SLIPS.encode())]:
            planner, now = defined_by(text), known_after(text)
            found = lint_checks.all_of(now)
            with self.subTest(name):
                self.check_lines(text, found)
                for kind, about in self.wanted(planner):
                    seen.add(kind)
                about_of = {kind: {one.about for one in found if one.kind == kind} for kind in lint_checks.KINDS}
                for kind in ("calendar", "idle", "unknown", "effect", "due", "exclusion", "loop"):
                    wanted = {about for other, about in self.wanted(planner) if other == kind}
                    self.assertEqual(about_of[kind], wanted, kind)
                self.check_offsets(planner, now, about_of)
                self.check_exclusions(planner, about_of["exclusion"])
        self.assertEqual(seen, {"calendar", "idle", "unknown", "effect", "due", "exclusion", "loop"})

    def check_lines(self, text, found):
        """A finding's line has the record that it is about."""
        lines = text.split(b"\n")
        for one in found:
            if one.kind == "loop":
                fields = lines[one.line - 1].decode("ascii").rstrip("\r").split(",")
                self.assertLessEqual(set(fields[:2]), set(one.about))
            elif one.kind != "calendar":
                names = [name for name in one.about if isinstance(name, str)]
                fields = lines[one.line - 1].decode("latin-1").replace('"', "").rstrip("\r").split(",")
                self.assertEqual(fields[: len(names)], names)

    def wanted(self, planner):
        """What the plain planner's definitions say by themselves."""
        defined = planner.defined
        default = planner.options["default_calendar"]
        active = {app: calendar for app, (is_active, calendar) in defined["applications"].items() if is_active}
        if default not in defined["calendars"] and any(calendar in (None, default) for calendar in active.values()):
            yield "calendar", (default,)
        for app in active:
            if not defined["run-cycles"].get(app):
                yield "idle", (app,)
        for app, listed in defined["predecessors"].items():
            for other in set(listed) - set(defined["applications"]):
                yield "unknown", (app, other)
        yield from (("loop", loop) for loop in loops_by_ways(defined["predecessors"]))
        for app, cycles in defined["run-cycles"].items():
            times = {cycle["time"] for cycle in cycles.values() if cycle["kind"] == "N"}
            for name, cycle in cycles.items():
                if cycle["end"] is not None and cycle["end"] <= cycle["first"]:
                    yield "effect", (app, name)
                if cycle["kind"] == "N" and cycle["deadline"] < (0, cycle["time"]):
                    yield "due", (app, name)
                if cycle["kind"] == "X" and cycle["time"] not in times:
                    yield "exclusion", (app, name)

    def check_offsets(self, planner, now, about_of):
        for app, cycles in planner.defined["run-cycles"].items():
            for name, cycle in cycles.items():
                period = planner.defined["periods"].get(cycle["period"])
                if period is None or app not in planner.defined["applications"] or now.defined.lacks_calendar(app):
                    continue
                for offset in set(cycle["offsets"]):
                    about = (app, name, offset)
                    if period[0] == "W":
                        self.assertEqual(about in about_of["past"], abs(offset) > period[2])
                    else:
                        self.check_offset(planner, now, about, cycle, period, about_of)

    def check_offset(self, planner, now, about, cycle, period, about_of):
        """An offset is found where it gives no day in an interval in which its run cycle is in effect."""
        work, one = planner.work_days(about[0]), {**cycle, "offsets": [about[2]]}
        end = plain.LAST_DAY + 1 if cycle["end"] is None else cycle["end"]
        spans = [span for span in plain.intervals_of(period)
                 if span[0] < end and (span[1] is None or cycle["first"] <= span[1])]
        if period[0] == "A" and cycle["rule"] != "E":
            spans = spans[:1]

        def given(first, last):
            if cycle["rule"] == "E":
                return next(plain.counted_days(one, first, last, work, first + 40 if last is None else 0), None)
            return next(plain.raw_days(one, first, last), None)

        closed = [span for span in spans if span[1] is not None]
        empty = [span for span in closed if given(*span) is None]
        if cycle["rule"] == "E":
            self.assertEqual(about in about_of["past"], bool(spans) and len(empty) == len(spans), about)
        else:
            self.assertEqual(about in about_of["past"], bool(empty), about)
        if len(closed) < len(spans) and not (now.bounds and now.bounds[1] < spans[-1][0]):
            self.assertEqual(about in about_of["open"], about[2] < 0 and given(*spans[-1]) is None, about)
        else:
            self.assertNotIn(about, about_of["open"])

    def check_exclusions(self, planner, abouts):
        """Without an exclusion that is found the same is named."""
        first = moments.day_of("2024-01-01")
        for app, name in abouts:
            if app in planner.active() and not any(cycle["period"] not in planner.defined["periods"]
                                                   for cycle in planner.defined["run-cycles"][app].values()):
                before = planner.named(app, first, first + 60)
                other = planner.copy()
                cycles = planner.defined["run-cycles"][app]
                other.defined["run-cycles"][app] = {key: cycles[key] for key in cycles if key != name}
                self.assertEqual(other.named(app, first, first + 60), before)


class Later(unittest.TestCase):
    """Of two applications by their times: by the plain planner's pairs the nearest one is farther than the next one."""

    TEXT = """define periods --job 1
DAY,W,2024-01-01,1
/*
define applications --job 2
A,A,
B,A,
/*
define run-cycles --job 3
A,RC,N,DAY,3,1,2024-01-01,,{time},{days},{due}
B,RC,N,DAY,3,1,2024-01-01,,{other},1,12.00
/*
define predecessors --job 4
A,B{limit}
/*
ltp-create --from 2024-01-01 --to 2024-01-20 --job 5
"""

    def test_by_their_pairs(self):
        answers = set()
        for time, other, (days, due), limit in itertools.product(
            ("00.30", "08.00", "19.00", "23.00"), ("00.30", "05.00", "07.59", "08.00", "08.01", "20.00", "23.45"),
            ((0, "23.59"), (1, "05.00"), (1, "12.00")), ("", ",", ",4", ",20"),
        ):
            text = self.TEXT.format(time=time, other=other, days=days, due=due, limit=limit)
            found = [one for one in findings(text) if one.kind == "later"]
            with self.subTest(time=time, other=other, days=days, due=due, limit=limit):
                slips = self.slips(plans.planner_of(text))
                self.assertEqual(len(found), int(bool(slips)))
                answers.add(bool(slips))
                if found:
                    self.assertIn(f"{len(slips)} of the 20 times", found[0].text)
                    self.assertEqual(found[0].line, 13)
        self.assertEqual(answers, {True, False})

    def slips(self, planner):
        """The arrivals of A whose B comes within six hours, before A is due, and nearer than the one it waits for."""
        rows = planner.planned
        before = {first: rows[last][2] for first, last in planner.pairs}
        others = [row[2] for row in rows.values() if row[1] == "B"]
        found = []
        for serial, app, ia, due, _ in rows.values():
            after = min((other for other in others if app == "A" and other > ia), default=None)
            if after is not None and after < due and after - ia <= 360:
                if serial not in before or after - ia < ia - before[serial]:
                    found.append(serial)
        return found


class WholeWalk(lint.Walk):
    """A walk that looks at all applications at each planning statement."""

    def touched(self):
        return None


class WhatChanged(unittest.TestCase):
    """A look at what a statement may have changed finds what a look at all finds."""

    NAMES, PERIODS, CALENDARS = ("A", "B", "C", "D"), ("DAY", "WEEK", "LIST"), ("CAL", "DEFAULT")

    def statement(self, draw, job):
        """A statement at random."""
        app, other, period = draw.choice(self.NAMES), draw.choice(self.NAMES), draw.choice(self.PERIODS)
        calendar, hour = draw.choice(self.CALENDARS), draw.randint(0, 23)
        out = draw.choice(("", "2024-02-01"))
        blocks = {
            "applications": f"{app},{draw.choice('AAAP')},{draw.choice(('', calendar))}",
            "run-cycles": f"{app},RC{draw.randint(1, 2)},{draw.choice('NNNX')},{period},{draw.choice('E1234')},"
                          f"{draw.choice(('1', '-1', '2 9'))},2024-01-01,{out},{hour:02}.00,1,{(hour + 7) % 24:02}.30",
            "predecessors": f"{app},{other}{draw.choice(('', ',4'))}",
            "periods": draw.choice(("DAY,A,2024-01-01,1", "DAY,A,2024-01-01,2", "LIST,N,2024-01-01,2024-01-20")),
            "calendars": f"{calendar},{draw.choice(('MON', 'SAT'))},FREE",
        }
        kind = draw.choice(list(blocks))
        if draw.random() < 0.15:
            name = {"periods": period, "calendars": calendar}.get(kind, app)
            return f"undefine {kind} --name {name} --job {job}\n"
        if draw.random() < 0.45:
            return draw.choice((f"ltp-modify-all --job {job}\n", f"ltp-modify-one --app {app} --job {job}\n",
                                f"ltp-extend --to 2024-0{draw.randint(3, 5)}-01 --job {job}\n"))
        return f"define {kind} --job {job}\n{blocks[kind]}\n/*\n"

    def walked(self, walk, now, text):
        """The kinds of findings and what they are about, of a walk through a stream."""
        one = walk(now)
        for item in plans.items_of(text):
            one.take(item, lint.reply_of(now, item))
        return {(found.kind, found.about) for found in one.ended()}

    def test_streams_at_random(self):
        draw, kinds, changes = random.Random(2026), set(), 0
        for number in range(120):
            texts = [self.statement(draw, job) for job in range(1, 26)]
            texts.insert(6, "ltp-create --from 2024-01-01 --to 2024-02-15 --job 99\n")
            found = [self.walked(walk, stream_state.Known(is_whole=number % 2 == 0), "".join(texts))
                     for walk in (lint.Walk, WholeWalk)]
            with self.subTest(number):
                self.assertEqual(*found)
            kinds |= {kind for kind, _ in found[0]}
            changes += "change" in {kind for kind, _ in found[0]}
        self.assertGreater(len(kinds), 10, kinds)

    def test_streams_at_random_over_a_plan(self):
        draw, seen = random.Random(2027), 0
        for number in range(12):
            before = [self.statement(draw, job) for job in range(1, 15)]
            before.append("ltp-create --from 2024-01-01 --to 2024-02-15 --job 99\n")
            text = "".join(self.statement(draw, job) for job in range(100, 120))
            with plan_file.opened(plans.of_stream("".join(before))) as plan, self.subTest(number):
                found = [self.walked(walk, stream_state.of_plan(plan), text) for walk in (lint.Walk, WholeWalk)]
                self.assertEqual(*found)
                seen += len(found[0])
        self.assertGreater(seen, 20)


class Command(unittest.TestCase):
    def setUp(self):
        self.room = Path(tempfile.mkdtemp(prefix="lint-"))
        self.addCleanup(shutil.rmtree, self.room)

    def ask(self, text):
        path = self.room / "x.in"
        path.write_text(text, encoding="utf-8")
        return plans.plan("lint", path)

    def test_what_is_printed(self):
        ran = self.ask(SLIPS)
        self.assertEqual((ran.returncode, ran.stderr), (1, ""))
        lines = [int(number) for number in re.findall(r"(?m)^line ([0-9]+): ", ran.stdout)]
        self.assertEqual(lines, [line for line, _, _ in FOUND])
        self.assertLessEqual(max(map(len, ran.stdout.split("\n"))), 104)
        self.assertIn("at 2024-01-02 23.45; so it waits for the one of 2024-01-01 23.45", " ".join(ran.stdout.split()))

    def test_nothing(self):
        for text in ("", "list cp\n", (plans.DATA / "monday.in").read_text(encoding="utf-8")):
            ran = self.ask(text)
            self.assertEqual((ran.returncode, ran.stdout), (0, ""))
            self.assertIn("no likely mistakes", ran.stderr)

    def test_wrong_words_and_files(self):
        for given in ((), ("a", "b")):
            ran = plans.plan("lint", *given)
            self.assertEqual((ran.returncode, ran.stdout), (2, ""))
        ran = plans.plan("lint", self.room / "none.in")
        self.assertEqual((ran.returncode, ran.stdout), (1, ""))
        self.assertTrue(ran.stderr.startswith("plan: "))
        ran = plans.plan("lint", self.room)
        self.assertEqual((ran.returncode, ran.stdout), (1, ""))


if __name__ == "__main__":
    unittest.main()
