"""Edits as what decides them has them: their days before and after, and what takes them back, over random definitions,
by the plain planner and dateutil; and two editors, in each order of what they do.

What always holds:
- an application that an edit doesn't concern has the same runs before and after; the signs, the runs that differ and
  the numbers of one that it concerns are those of the plain planner over a year;
- the stream of an edit is accepted, and its inverse gives the definitions of before; so does the edit that is named;
- `modify` makes the long-term plan name what the signs say.
Planting a bug in a copy of what decides makes these fail (`Mutants`)."""

import datetime
import sys
import unittest
from unittest import mock

from support import edit_worlds
from support.plans import plain

from opcplan.acts.world import World
from opcplan.edits import days, inverses, previews
from opcplan.rules import moments

try:
    from dateutil import rrule
except ImportError:
    rrule = None

SEEDS, EDITS = range(12), 6
SPAN = days.Span(edit_worlds.FIRST, edit_worlds.LAST)
ASKED = {"from": "2027-01-01", "to": "2027-12-31"}
# edits that the page makes: each has an edit that takes it back
OF_PAGE = ("calendar", "run-cycle", "application")


def runs_by_day(planner, app, begin):
    """By day the runs that the plain planner names of an application from a moment on; nothing of one that can't be
    planned."""
    found = {}
    if app not in planner.active():
        return found
    try:
        planner.ask_definitions([app])
    except plain.Refusal:
        return found
    for (day, minute), (cycle, due) in sorted(planner.named(app, SPAN.first, SPAN.last).items()):
        if day * moments.DAY + minute >= begin:
            found.setdefault(day, []).append((day * moments.DAY + minute, due, cycle))
    return found


def sign_of(day, begin, was, now):
    """The sign of a day, from the rules of `days`."""
    if (day + 1) * moments.DAY <= begin:
        return " "
    if was == now:
        return "=" if was else "."
    return "-" if not now else "+" if not was else "~"


def definitions_of(planner):
    """All that a plain planner has of definitions."""
    return {kind: dict(names) for kind, names in planner.defined.items()}, dict(planner.options)


class Trial:
    """An edit over random definitions: its preview, and the plain planner before and after its stream."""

    def __init__(self, source, words, job):
        self.world, self.words, self.before = World(source), words, source.planner
        self.answer = previews.answer(self.world, {"edit": words, **ASKED}, 0)
        self.found, self.job = self.answer["edit"], job
        self.after = self.before.copy()
        if self.found:
            self.replies = self.run(self.after, self.found["stream"])

    def run(self, planner, stream):
        """Does a stream without job numbers; its replies."""
        lines = stream.splitlines()
        for place, line in enumerate(lines):
            if line.startswith(("define ", "undefine ")) and " --job" not in line:
                self.job += 1
                lines[place] = f"{line} --job {self.job}"
        return plain.run("".join(f"{line}\n" for line in lines).encode(), planner)


def trials(first=0, edits=EDITS):
    """The random trials of seeds from one on."""
    for seed in (first + number for number in SEEDS):
        made = edit_worlds.Definitions(seed)
        source = edit_worlds.source_of(made.stream())
        for number in range(edits):
            yield seed, Trial(source, made.edit(), 10_000 * (number + 1))


class Days(unittest.TestCase):
    def test_days_before_and_after_are_those_of_the_plain_planner(self):
        signs, refused = set(), 0
        for seed, one in trials():
            if one.found is None:
                refused += 1
                self.assertTrue(one.answer["why_not"])
                continue
            with self.subTest(seed=seed, words=one.words):
                signs |= self.check_days(one)
                self.assertTrue(all(reply.startswith("ok") for reply in one.replies), one.replies)
        self.assertEqual(signs, set("=-+~. "), "the worlds have days of each kind")
        self.assertTrue(0 < refused < len(SEEDS) * EDITS / 2, refused)

    def check_days(self, one):
        """Compares the days of all applications with the plain planner's; the signs that were seen."""
        begin = one.world.bounds.plan_end if one.world.bounds else 0
        shown = {app["app"]: app for app in one.found["apps"]}
        seen = set()
        for app in {*one.before.defined["applications"], *one.after.defined["applications"]}:
            was, now = (runs_by_day(planner, app, begin) for planner in (one.before, one.after))
            if app not in shown:
                self.assertEqual(was, now, app)
                continue
            wanted = "".join(sign_of(day, begin, was.get(day), now.get(day)) for day in SPAN.days)
            found = shown[app]
            self.assertEqual(found["signs"], wanted, app)
            self.assertEqual([found[name] for name in ("goes", "comes", "stays", "other")],
                             [wanted.count(sign) for sign in "-+=~"])
            differ = [day for day in SPAN.days if was.get(day) != now.get(day)]
            self.assertEqual([(moments.day_of(day["day"]), runs_of(day["was"]), runs_of(day["now"]))
                              for day in found["differences"]],
                             [(day, was.get(day, []), now.get(day, [])) for day in differ[:days.MOST_SHOWN]])
            seen |= set(wanted)
        return seen

    def test_a_modification_names_what_the_signs_say(self):
        modified = 0
        for seed, one in trials(100):
            if one.found is None or one.found["modify"] is None:
                continue
            with self.subTest(seed=seed, words=one.words):
                planner, bounds = one.after.copy(), one.world.bounds
                reply = plain.run(f"{one.found['modify']} --job 999999\n".encode(), planner)[-1]
                if reply.startswith("refused"):
                    self.assertRegex(reply, "refused 2[2356]")
                    continue
                modified += 1
                planned = {}
                for _, app, ia, due, cycle in planner.planned.values():
                    if cycle is not None:
                        planned.setdefault(app, set()).add((ia, due, cycle))
                for app in one.found["apps"]:
                    if one.found["modify"] not in ("ltp-modify-all", f"ltp-modify-one --app {app['app']}"):
                        continue
                    now = runs_by_day(one.after, app["app"], bounds.plan_end)
                    wanted = {run for day, runs in now.items() if day <= bounds.last_day for run in runs}
                    self.assertEqual(planned.get(app["app"], set()), wanted, app["app"])
        self.assertGreater(modified, 10)

    @unittest.skipUnless(rrule, "there is no python3-dateutil")
    def test_a_holiday_by_dateutil(self):
        """Work days by rrule: each first work day of a month, and each work day of a week."""
        text = """define calendars --job 1
DEFAULT,SAT,FREE
DEFAULT,SUN,FREE
/*
define periods --job 2
MONTH,N,2027-01-01,
""" + "".join(f"MONTH,N,2027-{month:02}-01,\n" for month in range(2, 13)) + """DAY,A,2027-01-01,1
/*
define applications --job 3
FIRST,A,
DAILY,A,
/*
define run-cycles --job 4
FIRST,RC,N,MONTH,E,1,2027-01-01,,06.00,0,20.00
DAILY,RC,N,DAY,E,1,2027-01-01,,06.00,0,20.00
/*
"""
        world = World(edit_worlds.source_of(text))
        found = previews.answer(world, {"edit": ["calendar", "DEFAULT", "2027-03-01", "free"], **ASKED}, 0)["edit"]
        year = {"dtstart": datetime.datetime(2027, 1, 1), "until": datetime.datetime(2027, 12, 31)}
        work = (rrule.MO, rrule.TU, rrule.WE, rrule.TH, rrule.FR)
        firsts = {day.date() for day in rrule.rrule(rrule.MONTHLY, byweekday=work, bysetpos=1, **year)}
        daily = {day.date() for day in rrule.rrule(rrule.DAILY, byweekday=work, **year)}
        free, later = datetime.date(2027, 3, 1), datetime.date(2027, 3, 2)
        self.assertIn(free, firsts)
        signs = {app["app"]: app["signs"] for app in found["apps"]}
        for app, days_before, days_after in (
            ("FIRST", firsts, firsts - {free} | {later}), ("DAILY", daily, daily - {free}),
        ):
            dates = [datetime.date(2027, 1, 1) + datetime.timedelta(days=place) for place in range(365)]
            wanted = "".join("=" if day in days_before & days_after else "-" if day in days_before else
                             "+" if day in days_after else "." for day in dates)
            self.assertEqual(signs[app], wanted, app)


def runs_of(found):
    """The runs of JSON as tuples."""
    return [(moments.moment_of(one["ia"]), moments.moment_of(one["deadline"]), one["run_cycle"]) for one in found]


class Inverses(unittest.TestCase):
    def test_the_stream_and_the_edit_give_back_what_was_defined(self):
        kinds = set()
        for seed, one in trials(200):
            if one.found is None:
                continue
            with self.subTest(seed=seed, words=one.words):
                wanted, back = definitions_of(one.before), one.after.copy()
                replies = one.run(back, one.found["inverse"])
                self.assertTrue(all(reply.startswith("ok") for reply in replies), replies)
                self.assertEqual(definitions_of(back), wanted)
                if one.words[0] in OF_PAGE and "remove" not in one.words:
                    self.assertIsNotNone(one.found["edit_back"], one.words)
                if one.found["edit_back"] is not None:
                    kinds.add(one.words[0])
                    after = inverses.applied(one.world, previews_change(one).all)
                    found = previews.answer(after, {"edit": one.found["edit_back"], **ASKED}, 0)["edit"]
                    back = one.after.copy()
                    one.run(back, found["stream"])
                    self.assertEqual(definitions_of(back), wanted)
        self.assertEqual(kinds, {"calendar", "run-cycle", "application", "period", "options", "predecessor"})


def previews_change(one):
    """The change of a trial."""
    return previews.edit.change_of(one.world, previews.edit.read(one.words))


class Mutants(unittest.TestCase):
    """Bugs that these tests find."""

    def found_by(self, test, place, bug):
        with mock.patch.object(*place, bug):
            result = unittest.TestResult()
            test.run(result)
        return bool(result.failures or result.errors)

    @mock.patch.object(sys.modules[__name__], "SEEDS", range(3, 6))
    def test_each_is_found(self):
        true_sign = days.sign
        true_concerned, true_back = days.concerned, inverses.changes_back
        bugs = (
            (Days("test_days_before_and_after_are_those_of_the_plain_planner"), (days, "sign"),
             lambda was, now: "=" if was and now else true_sign(was, now)),
            (Days("test_days_before_and_after_are_those_of_the_plain_planner"), (days, "concerned"),
             lambda before, after: true_concerned(before, after)[:1]),
            (Days("test_a_holiday_by_dateutil"), (days.Namer, "runs"), lambda self, app: {}),
            (Inverses("test_the_stream_and_the_edit_give_back_what_was_defined"), (inverses, "changes_back"),
             lambda before, changes: true_back(before, changes)[:1]),
        )
        for test, place, bug in bugs:
            with self.subTest(place=place[1]):
                self.assertTrue(self.found_by(test, place, bug))


class Words(unittest.TestCase):
    def test_what_is_no_edit_is_said(self):
        for asked, says in (
            ({}, "list of words"), ({"edit": "calendar"}, "list of words"), ({"edit": []}, "list of words"),
            ({"edit": ["options"], "year": 1}, "no field `year`"), ({"edit": ["x"] * 1001}, "at most 1,000 words"),
            ({"edit": ["options"], "from": "2027-02-30"}, "`from` must be a day"),
            ({"edit": ["options"], "to": "2027-02-03"}, "`to` needs `from`"),
            ({"edit": ["options"], "from": "2027-02-03", "to": "2027-02-02"}, "`to` must be from"),
            ({"edit": ["options"], "from": "2027-02-03", "to": "2037-02-02"}, "at most 1,462 days"),
        ):
            with self.assertRaises(previews.InvalidEdit) as raised:
                previews.asked_of(asked)
            self.assertIn(says, str(raised.exception), asked)

    def test_words_that_no_edit_has_are_a_reason(self):
        world = World(edit_worlds.source_of(edit_worlds.Definitions(1).stream()))
        for words, says in (
            (["calender", "DEFAULT"], "no edit 'calender'"), (["calendar", "DEFAULT"], "lacks what changes"),
            (["calendar", "DEFAULT", "2027-01-05"], "STATUS is missing"), (["run-cycle", "AA"], "lacks the run cycle"),
            (["calendar", "DEFAULT", "MON", "free", "MON", "work"], "twice"), (["predecessor", "AA", "add"], "lacks"),
            (["application", "NOBODY", "pending"], "no application NOBODY"), (["options", "x"], "KEY=VALUE"),
        ):
            self.assertIn(says, previews.answer(world, {"edit": words}, 0)["why_not"], words)


if __name__ == "__main__":
    unittest.main()
