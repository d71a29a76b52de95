"""./plan check, and lint and explain with --plan: what they say of a stream over a plan.

What is wanted is worked out by hand from the rules, or asked of the plain planner."""

import re
import subprocess
import tempfile
import unittest
from pathlib import Path

from support import plans
from support.plans import plain

from opcplan.plans import plan_file, stream_state
from opcplan.rules import changes, definitions, hints, loops, moments, refusals


# SAT, SUN and 18 dates
ENTRIES = """SAT SUN 2026-01-01 2026-01-06 2026-04-03 2026-04-06 2026-05-01 2026-05-14 2026-05-25 2026-06-04 2026-08-15
    2026-10-03 2026-11-01 2026-12-08 2026-12-24 2026-12-25 2026-12-26 2026-12-31 2027-01-01 2027-01-06""".split()
BASE = """define calendars --job 1
""" + "".join(f"DEFAULT,{entry},FREE\n" for entry in ENTRIES) + """BANK,SUN,FREE
/*
define periods --job 2
DAY,A,2026-01-01,1
WEEK,A,2026-01-05,7
MONTH,N,2026-10-01,
MONTH,N,2026-11-01,
MONTH,N,2026-12-01,2026-12-31
/*
define applications --job 3
SALES,A,
LEDGER,A,
BACKUP,A,BANK
REPORT,A,
/*
define run-cycles --job 4
SALES,DAILY,N,DAY,E,1,2026-01-01,,18.00,0,20.00
LEDGER,DAILY,N,DAY,E,1,2026-01-01,,20.00,0,23.00
BACKUP,NIGHTLY,N,DAY,3,1,2026-01-01,,22.00,1,05.00
BACKUP,WEEKLY,N,WEEK,3,7,2026-01-01,,23.00,1,06.00
REPORT,MONTHLY,N,MONTH,1,25,2026-01-01,,08.00,0,16.00
/*
define predecessors --job 5
LEDGER,SALES,
BACKUP,LEDGER,12
BACKUP,REPORT,
/*
define options --job 6
max_extension_hours = 48
/*
ltp-create --from 2026-11-02 --to 2026-12-31 --job 7
dp-extend --to 2026-11-03/06.00 --job 13
dp-extend --to 2026-11-04/06.00 --job 8
cp-start --app SALES --ia 2026-11-02/18.00 --job 9
cp-complete --app SALES --ia 2026-11-02/18.00 --job 10
cp-start --app SALES --ia 2026-11-03/18.00 --job 11
cp-fail --app SALES --ia 2026-11-03/18.00 --job 12
"""
HOLIDAY = """define calendars --job 20
DEFAULT,2026-11-18,FREE
/*
ltp-modify-all --job 21
"""


def needs_program(test):
    return unittest.skipUnless(plans.PROGRAM.exists(), "opcplan is not built")(test)


class InRoom(unittest.TestCase):
    maxDiff = None

    def setUp(self):
        room = tempfile.TemporaryDirectory(prefix="check-")
        self.addCleanup(room.cleanup)
        self.room = Path(room.name)

    def asked(self, name, text, *words, base=BASE):
        """What a subcommand answers to a stream over the plan of another, words wrapped no more."""
        file = self.room / "x.in"
        file.write_bytes(plans.as_bytes(text))
        plan = plans.of_stream(base)
        given = [name, plan, file, "--program", plans.PROGRAM]
        given = given if name in ("check", "what-if") else [name, file, "--plan", plan]
        ran = plans.plan_in_here(*given, *words)
        ran.stdout = ran.stdout.replace("\n    ", " ")
        return ran

    def findings(self, name, text, base=BASE):
        """The findings of a stream: line and sentence."""
        ran = self.asked(name, text, base=base)
        found = [(int(line), said) for line, said in re.findall("(?m)^line ([0-9]+): (.*)$", ran.stdout)]
        self.assertEqual(ran.returncode, 1 if found else 0, ran.stderr)
        return found


class Drops(InRoom):
    """A definition is replaced whole: what is not said again is told."""

    def test_a_calendar_with_one_more_holiday(self):
        dropped = (1, "drops 20 entries of DEFAULT: SAT, SUN, 2026-01-01, 2026-01-06, 2026-04-03 and 15 more")
        self.assertEqual(self.findings("lint", HOLIDAY), [dropped])
        whole = "".join(f"DEFAULT,{entry},FREE\n" for entry in ENTRIES)
        mended = HOLIDAY.replace("20\n", "20\n" + whole, 1)
        self.assertEqual(self.findings("lint", mended), [])
        turned = mended.replace("SUN,FREE", "SUN,WORK")
        self.assertEqual(self.findings("lint", turned), [(1, "turns 1 entry of DEFAULT to work: SUN")])

    @needs_program
    def test_check_says_it_too_and_how_many_are_refused(self):
        ran = self.asked("check", HOLIDAY)
        self.assertIn("line 1: drops 20 entries of DEFAULT: SAT, SUN, 2026-01-01,", ran.stdout)
        self.assertTrue(ran.stdout.endswith("\n\n2 accepted, 0 refused\n"), ran.stdout)
        self.assertEqual(ran.returncode, 1)
        ran = self.asked("check", "list cp\n" + BASE[BASE.index("define applications") : BASE.index("define run-")])
        self.assertEqual((ran.returncode, ran.stderr), (0, ""))
        self.assertEqual(ran.stdout, "2 accepted, 0 refused; 1 of them is a job that the plan keeps, with the same "
                                     "answer again\n")

    def test_each_kind(self):
        text = """define periods --job 20
MONTH,N,2026-10-01,
MONTH,N,2026-12-01,
DAY,W,2026-01-01,1
/*
define applications --job 21
REPORT,P,BANK
BACKUP,A,
/*
define run-cycles --job 22
BACKUP,NIGHTLY,N,DAY,3,1,2026-01-01,2027-01-01,22.30,0,23.00
SALES,DAILY,N,DAY,E,1 2,2026-01-01,,18.00,2,20.00
/*
define predecessors --job 23
BACKUP,LEDGER,
/*
define options --job 24
/*
"""
        self.assertEqual(self.findings("lint", text), [
            (2, "drops 1 interval of MONTH: from 2026-11-01 on"),
            (2, "changes the end of 1 interval of MONTH: of 2026-12-01 to 2026-12-31, then without an end"),
            (4, "changes the period DAY: type A from 2026-01-01 on with intervals of 1 day, then type W from "
                "2026-01-01 on "
                "with intervals of 1 work day"),
            (7, "makes REPORT pending, so it is no longer planned"),
            (7, "changes the calendar of REPORT: the default one, then BANK"),
            (8, "changes the calendar of BACKUP: BANK, then the default one"),
            (10, "drops run cycle WEEKLY of BACKUP"),
            (11, "moves the deadline of run cycle NIGHTLY of BACKUP: 05.00 of the next day, then 23.00 of the same "
                 "day"),
            (11, "changes run cycle NIGHTLY of BACKUP: out of effect never, then 2027-01-01; input arrival 22.00, then "
                 "22.30"),
            (12, "moves the deadline of run cycle DAILY of SALES: 20.00 of the same day, then 20.00 2 days later"),
            (12, "changes run cycle DAILY of SALES: offsets 1, then 1 2"),
            (12, "run cycle DAILY of SALES: offset 2 is past each interval of DAY, which has 1 work day"),
            (14, "drops predecessor REPORT of BACKUP"),
            (15, "changes the limit of predecessor LEDGER of BACKUP: 12 hours, then none"),
            (17, "sets the most hours of one daily plan to 504; they were 48"),
        ])

    def test_what_is_added_or_stays_is_not_reported(self):
        plan = stream_state.Known(is_whole=True).defined
        for kind, old, new in (
            ("calendars", definitions.Calendar({5: False}), definitions.Calendar({5: False}, {20000: True})),
            ("periods", definitions.Period("N", entries=[definitions.Entry(1, None)]),
             definitions.Period("N", entries=[definitions.Entry(1, None), definitions.Entry(9, 12)])),
            ("predecessors", {"A": None}, {"A": None, "B": 4}),
        ):
            found = changes.of_name(kind, "X", old, new)
            self.assertEqual([change.is_loss for change in found], [False])
            self.assertEqual(changes.of_name(kind, "X", new, new), [])
            self.assertTrue(changes.of_name(kind, "X", new, old)[0].text.startswith("drops "))
        self.assertEqual(list(changes.of_options(plan, plan)), [])


class Lacking(InRoom):
    """What stream and plan together don't define."""

    PARTIAL = """define run-cycles --job 20
REPORT,MONTHLY,N,MONTH,1,25,2026-01-01,,08.00,0,16.00
/*
define predecessors --job 21
SALES,REPORT
/*
define applications --job 22
SALES,A,
/*
"""

    def test_a_partial_stream(self):
        ran = plans.plan("lint", "/dev/stdin", text=self.PARTIAL)
        said = " ".join(ran.stdout.split())
        self.assertEqual(re.findall("isn't defined(?! in this stream)", said), [])
        self.assertIn("line 5: SALES waits for REPORT, which isn't defined in this stream; if the plan has "
                      "none either, it waits for nothing", said)
        self.assertIn("line 8: SALES is active, but has no run cycles in this stream", said)
        self.assertIn("line 8: the default calendar DEFAULT isn't defined in this stream, and if the plan has none "
                      "either, each day is a work day for SALES", said)
        self.assertEqual(self.findings("lint", self.PARTIAL), [])

    def test_what_neither_defines(self):
        text = """define run-cycles --job 20
ADHOC,ONCE,N,YEAR,E,1,2026-01-01,,18.00,0,21.00
SALES,DAILY,N,YEAR,E,1,2026-01-01,,18.00,0,20.00
/*
define predecessors --job 21
SALES,NOBODY
NONE,SALES
/*
define applications --job 22
LEDGER,A,WEST
/*
undefine periods --name MONTH --job 23
undefine applications --name SALES --job 24
"""
        lacks = [said for said in self.findings("lint", text) if "isn't defined" in said[1]]
        self.assertEqual(lacks, [
            (2, "ADHOC has run cycles, but isn't defined as an application, so it isn't planned"),
            (2, "run cycle ONCE of ADHOC names the period YEAR, which isn't defined"),
            (3, "SALES has run cycles, but isn't defined as an application, so it isn't planned"),
            (3, "run cycle DAILY of SALES names the period YEAR, which isn't defined"),
            (6, "SALES has a list of predecessors, but isn't defined as an application"),
            (6, "SALES waits for NOBODY, which isn't defined, so it waits for nothing"),
            (7, "NONE has a list of predecessors, but isn't defined as an application"),
            (7, "NONE waits for SALES, which isn't defined, so it waits for nothing"),
            (10, "LEDGER names the calendar WEST, which isn't defined: planning is refused 22 LEDGER"),
            (12, "run cycle MONTHLY of REPORT names the period MONTH, which isn't defined: planning is refused 23 "
                 "REPORT"),
            (13, "LEDGER waits for SALES, which isn't defined, so it waits for nothing"),
        ])
        planner = plans.planner_of(BASE).copy()
        replies = plain.run((text + "ltp-modify-all --job 30\n").encode(), planner)
        self.assertEqual(replies[-1], "refused 22 LEDGER")

    def test_a_name_that_is_nearly_a_known_one_is_guessed(self):
        text = """define run-cycles --job 20
SALLES,DAILY,N,DAYS,E,1,2026-01-01,,18.00,0,20.00
/*
define predecessors --job 21
LEDGER,SALSE
SALLES,LEDGER
/*
define applications --job 22
REPORT,A,BNAK
/*
define options --job 23
default_calendar = "DEFALT"
/*
"""
        found = [said for said in self.findings("lint", text) if "did you mean" in said[1]]
        self.assertEqual(found, [
            (2, "SALLES has run cycles, but isn't defined as an application (did you mean SALES?), so it isn't "
                "planned"),
            (2, "run cycle DAILY of SALLES names the period DAYS, which isn't defined (did you mean DAY?)"),
            (5, "LEDGER waits for SALSE, which isn't defined (did you mean SALES?), so it waits for nothing"),
            (6, "SALLES has a list of predecessors, but isn't defined as an application (did you mean SALES?)"),
            (9, "REPORT names the calendar BNAK, which isn't defined (did you mean BANK?): planning is refused 22 "
                "REPORT"),
            (11, "the default calendar DEFALT isn't defined (did you mean DEFAULT?), so each day is a work day for "
                 "LEDGER, SALES"),
        ])

    def test_a_predecessor_that_is_pending(self):
        text = "define applications --job 20\nREPORT,P,\n/*\n"
        said = (2, "BACKUP waits for REPORT, which is pending, so it is no longer planned")
        self.assertNotIn(said, self.findings("lint", "ltp-modify-all --job 21\n"))
        self.assertIn(said[1], [text for _, text in self.findings("lint", text)])
        planner = plans.planner_of(BASE).copy()
        plain.run((text + "ltp-modify-all --job 21\n").encode(), planner)
        self.assertNotIn("REPORT", {row[1] for row in planner.planned.values()})

    def test_lint_reports_what_is_refused_in_any_plan(self):
        """Each answer is that of the plain planner over an empty plan, and over one with definitions."""
        open_data = "define calendars --job 20\nC,SAT,FREE\n"
        for text, lines in (
            ("", []),
            ("nonsense\n", ["line 1: refused 10: it isn't a statement: there is no statement `nonsense`"]),
            ("list cp\nnonsense\ndefine calendars --job 20\nC,SAT\n/*\n",
             ["line 2: refused 10: it isn't a statement: there is no statement `nonsense`",
              "line 3: refused 11 1: record 1 of its data, line 4, is faulty; `C,SAT`; it has 2 fields, fewer than "
              "the 3 of calendars: calendar, entry, status"]),
            (open_data, ["line 1: refused 11 0: its data have no end: no line after it is `/*` and nothing else, so "
                         "everything after it was read as data"]),
        ):
            for planner in (plain.Planner(), plans.planner_of(BASE).copy()):
                refused = [reply for reply in plain.run(text.encode(), planner) if reply.startswith("refused")]
                self.assertEqual([line.split(": ")[1] for line in lines], refused)
            ran = self.asked("lint", text)
            shown = ran.stdout.replace("\n    ", " ").splitlines()
            self.assertEqual((ran.returncode, shown), (1 if lines else 0, lines))
            self.assertEqual(ran.stderr.endswith(": no likely mistakes\n"), not lines)

    def test_a_database_is_no_stream(self):
        """Neither of the three reads a plan as a stream, from a file or from standard input."""
        file = plans.copy_of(plans.of_stream(BASE), self.room)
        before = plans.prints(file)
        for *given, name in (("lint", file, file), ("lint", "--plan", file, file, file), ("check", file, file, file),
                             ("what-if", file, file, file), ("lint", "-", "standard input")):
            with open(file, "rb") as data:
                ran = subprocess.run([plans.TOP / "plan", *given], stdin=data, capture_output=True, encoding="utf-8",
                                     check=False, timeout=300)
            self.assertEqual((ran.returncode, ran.stdout), (2, ""), given)
            self.assertEqual(ran.stderr.count("\n"), 1, given)
            self.assertIn(f"{name} is a database, and no job stream", ran.stderr)
        self.assertEqual(plans.prints(file), before)

    def test_a_default_calendar_that_is_taken_away(self):
        gone = "the default calendar {} isn't defined, so each day is a work day for {}"
        every = "LEDGER, REPORT, SALES"
        for text, line, name in (
            ("undefine calendars --name DEFAULT --job 20\nlist cp\n", 1, "DEFAULT"),
            ('list cp\ndefine options --job 20\ndefault_calendar = "WEST"\nmax_extension_hours = 48\n/*\n', 2, "WEST"),
            ("undefine calendars --name DEFAULT --job 20\ndefine options --job 21\nmax_extension_hours = 48\n/*\n", 1,
             "DEFAULT"),
        ):
            self.assertIn((line, gone.format(name, every)), self.findings("lint", text))

    def test_what_the_plan_has_already_is_not_reported_again(self):
        base = BASE.replace("LEDGER,SALES,", "LEDGER,NOBODY,")
        self.assertEqual(self.findings("lint", "define calendars --job 20\nNEW,SUN,FREE\n/*\n", base=base), [])
        again = "define predecessors --job 20\nLEDGER,NOBODY\n/*\n"
        self.assertEqual(self.findings("lint", again, base=base),
                         [(2, "LEDGER waits for NOBODY, which isn't defined, so it waits for nothing")])


class Loops(InRoom):
    def test_over_stream_and_plan(self):
        """In the plan BACKUP waits for LEDGER, and LEDGER for SALES."""
        text = "define predecessors --job 20\nSALES,REPORT\nREPORT,BACKUP\n/*\nltp-modify-all --job 21\n"
        found = ("the lists of predecessors have a loop: BACKUP waits for REPORT waits for BACKUP (on a loop with "
                 "these: "
                 "LEDGER, SALES); a planning statement that puts them into force is refused 25")
        self.assertIn((3, found), self.findings("lint", text))
        replies = plain.run(text.encode(), plans.planner_of(BASE).copy())
        self.assertEqual(replies[-1], "refused 25 BACKUP")
        mended = text.replace("REPORT,BACKUP", "REPORT,REPORT")
        self.assertNotIn("loop", f"{self.findings('lint', mended)}")
        self.assertTrue(plain.run(mended.encode(), plans.planner_of(BASE).copy())[-1].startswith("ok "))

    def test_members_and_rings(self):
        lists = {"A": ["B"], "B": ["C", "D"], "C": ["A"], "D": ["E"], "E": ["F"], "F": ["D", "F"], "G": ["G", "A"]}
        lists = {app: dict.fromkeys(listed) for app, listed in lists.items()}
        self.assertEqual(loops.all_of(lists), [(["A", "B", "C"], ["A", "B", "C", "A"]),
                                               (["D", "E", "F"], ["D", "E", "F", "D"])])
        self.assertEqual(loops.all_of({"A": {"A": None}, "B": {"A": None, "C": None}}), [])
        long = {f"N{at}": {f"N{at + 1}": None} for at in range(20_000)}
        self.assertEqual(loops.all_of(long), [])
        self.assertEqual(len(loops.all_of({**long, "N20000": {"N0": None}})[0][0]), 20_001)


class Limits(InRoom):
    """Of 24, 31 and 32 the bounds; of 29 the status: what is said to be taken is, and what lies beside it isn't."""

    STATEMENTS = {
        "ltp-add": "ltp-add --app SALES --ia {} --job 40", "cp-add": "cp-add --app SALES --ia {} --job 40",
        "ltp-extend": "ltp-extend --to {} --job 40", "dp-extend": "dp-extend --to {} --job 40",
        "days": "days --app SALES --from 2026-11-30 --to {}",
    }
    WANTED = {  # by hand: the plan is 2026-11-02 to 2026-12-31, current up to 2026-11-04 06.00, 48 hours at most
        "ltp-add": ("2026-11-04 06.00", "2026-12-31 23.59"), "cp-add": ("2026-11-02 00.00", "2026-11-04 05.59"),
        "ltp-extend": ("2027-01-01", "2030-11-04"), "dp-extend": ("2026-11-04 06.01", "2026-11-06 06.00"),
        "days": ("2026-11-30", "2030-11-29"),
    }

    @needs_program
    def test_bounds(self):
        for name, text in self.STATEMENTS.items():
            low, high = self.WANTED[name]
            asked = (low if " " in low else f"{low} 00.00"), (high if " " in high else f"{high} 00.00")
            first, last = (plain.read_moment(one.replace(" ", "/")) for one in asked)
            step = 1 if " " in low else moments.DAY
            for at, is_taken in ((first - step, False), (first, True), (last, True), (last + step, False)):
                value = plain.moment_text(at, "/") if step == 1 else plain.day_text(at // moments.DAY)
                reply = plain.run(f"{text.format(value)}\n".encode(), plans.planner_of(BASE).copy())[-1]
                self.assertEqual(reply.startswith("ok"), is_taken, (name, value))
                if not is_taken:
                    said = self.asked("check", f"{text.format(value)}\n").stdout
                    self.assertIn(f"may be from {low} to {high}", " ".join(said.split()))

    @needs_program
    def test_which_limit_is_passed(self):
        for text, said in (
            ("dp-extend --to 2026-11-04/06.00 --job 40", "isn't later than the old one, 2026-11-04 06.00"),
            ("dp-extend --to 2026-11-06/06.01 --job 40", "is more than 48 hours (option max_extension_hours) after"),
            ("dp-extend --to 2027-01-01/00.01 --job 40", "is past the end of the long-term plan, 2027-01-01 00.00"),
            ("ltp-extend --to 2026-12-31 --job 40", "the plan already goes to 2026-12-31, and 2026-12-31 isn't later"),
            ("ltp-extend --to 2030-11-05 --job 40", "from 2026-11-04 to 2030-11-05 are more than 1,461 days"),
            ("days --app SALES --from 2026-11-02 --to 2026-11-01", "2026-11-01, is before the first one, 2026-11-02"),
            ("days --app SALES --from 2066-01-01 --to 2066-01-01", "is after 2065-12-31, the last that is planned"),
            ("ltp-add --app SALES --ia 2026-11-03/09.00 --job 40", "`cp-add` adds to the current plan"),
            ("cp-add --app SALES --ia 2026-11-05/09.00 --job 40", "`ltp-add` adds to the long-term plan"),
            ("cp-complete --app LEDGER --ia 2026-11-02/20.00 --job 40", "it has the status W (waiting)"),
            ("cp-complete --app SALES --ia 2026-11-02/18.00 --job 40", "it has the status C (complete)"),
            ("cp-start --app SALES --ia 2026-11-03/18.00 --job 40", "it has the status E (in error)"),
            ("cp-start --app SALES --ia 2026-11-04/18.00 --job 40", "it is in the long-term plan"),
            ("cp-start --app SALES --ia 2026-11-03/18.01 --job 40", "on that day SALES arrives at 18.00 (ended in "
                                                                    "error"),
            ("cp-start --app REPORT --ia 2026-11-03/18.01 --job 40", "REPORT doesn't arrive on that day"),
            ("cp-start --app SALSE --ia 2026-11-03/18.00 --job 40",
             "the application SALSE isn't defined (did you mean SALES?)"),
            ("cp-start --app NOBODY --ia 2026-11-03/18.00 --job 40", "the application NOBODY isn't defined"),
            ("cp-start --app LEDGER --ia 2026-11-03/20.00 --job 40", "serial 4, SALES 2026-11-03 18.00;"),
            ("ltp-add --app SALES --ia 2026-11-04/18.00 --job 40", "SALES 2026-11-04 18.00 is in the long-term plan"),
            ("ltp-add --app SALLES --ia 2026-11-05/18.00 --job 40", "SALLES isn't defined (did you mean SALES?)"),
            ("ltp-modify-all --job 9", "job 9 was used in an earlier run over the same file with other words"),
        ):
            with self.subTest(text):
                reply = plain.run(f"{text}\n".encode(), plans.planner_of(BASE).copy())[-1]
                body = " ".join(self.asked("check", f"{text}\n").stdout.split())
                self.assertTrue(body.startswith(f"line 1: {reply}: "), (reply, body))
                self.assertIn(said, body)
                self.assertTrue(body.endswith("0 accepted, 1 refused"), body)

    @needs_program
    def test_what_the_stream_made(self):
        """An addition of the stream itself, and a serial that it made: what is refused after that."""
        added = "cp-add --app REPORT --ia 2026-11-03/09.00 --job 40\n"
        later = "ltp-extend --to 2027-01-08 --job 40\ndp-extend --to 2026-11-06/00.00 --job 41\n"
        for before, text, wanted, says in (
            (added, "cp-start --app REPORT --ia 2026-11-03/10.00 --job 42", "refused 28",
             "on that day REPORT arrives at 09.00 (waits in the current plan)"),
            (added + "cp-delete --app REPORT --ia 2026-11-03/09.00 --job 41\n",
             "cp-start --app REPORT --ia 2026-11-03/10.00 --job 42", "refused 28", "REPORT doesn't arrive on that day"),
            ("ltp-add --app SALES --ia 2026-11-04/07.00 --job 40\ndp-extend --to 2026-11-05/00.00 --job 41\n",
             "cp-start --app LEDGER --ia 2026-11-04/20.00 --job 42", "refused 30", "SALES 2026-11-04 18.00;"),
            (later + "dp-extend --to 2026-11-07/00.00 --job 43\nltp-add --app SALES --ia 2027-01-04/07.00 --job 44\n"
             "define predecessors --job 45\nREPORT,SALES,\n/*\nltp-modify-all --job 46\n",
             "cp-start --app LEDGER --ia 2026-11-05/20.00 --job 42", "refused 30", "SALES 2026-11-05 18.00;"),
            (BASE, "cp-start --app LEDGER --ia 2026-11-03/20.00 --job 40", "refused 30", "SALES 2026-11-03 18.00;"),
        ):
            base = "" if before == BASE else BASE
            with self.subTest(text, before=before[-99:]):
                replies = plain.run(f"{before}{text}\n".encode(), plans.planner_of(base).copy())
                self.assertTrue(replies[-1].startswith(wanted), replies)
                for name in ("check", "what-if"):
                    output = " ".join(self.asked(name, f"{before}{text}\n", base=base).stdout.split())
                    self.assertIn(replies[-1], output)
                    self.assertIn(says, output)

    def test_explain_knows_what_the_stream_added(self):
        text = ("cp-add --app REPORT --ia 2026-11-03/09.00 --job 40\n"
                "cp-start --app REPORT --ia 2026-11-03/10.00 --job 42\n")
        replies = plain.run(text.encode(), plans.planner_of(BASE).copy())
        output = self.room / "x.out"
        output.write_text("".join(f"{reply}\n" for reply in replies), encoding="ascii")
        body = " ".join(self.asked("explain", text, output).stdout.split())
        self.assertIn("on that day REPORT arrives at 09.00 (waits in the current plan)", body)

    def test_sizes(self):
        """At most 200,000 rows stand in both plans together."""
        now, (item,) = stream_state.Known(is_whole=True), plans.items_of(b"ltp-extend --to 2027-01-31 --job 40\n")
        now.sizes = (199_990, 1_234_567)
        said = refusals.sentences(item, 31, "", now)[-1]
        self.assertEqual(said, "they have 199,990 rows, so 10 more fit; 1,234,567 serials were given")
        self.assertEqual(len(refusals.sentences(item, 31, "", stream_state.Known())), 1)

    def test_explain_reports_the_plan_too(self):
        for text, reply, said in (
            ("dp-extend --to 2026-11-04/06.00 --job 40", "refused 32", "may be from 2026-11-04 06.01 to 2026-11-06 "
                                                                       "06.00"),
            ("cp-complete --app LEDGER --ia 2026-11-02/20.00 --job 40", "refused 29", "it has the status W (waiting)"),
            ("cp-start --app LEDGER --ia 2026-11-03/20.00 --job 40", "refused 30 4", "serial 4, SALES 2026-11-03 "
                                                                                     "18.00;"),
        ):
            output = self.room / "x.out"
            output.write_text(f"{reply}\n", encoding="ascii")
            body = " ".join(self.asked("explain", f"{text}\n", output).stdout.split())
            self.assertIn(said, body)
            self.assertNotIn("keeps this answer", body)
        # the plan after the stream keeps its jobs
        after = BASE + f"{text}\n"
        body = " ".join(self.asked("explain", f"{text}\n", output, base=after).stdout.split())
        self.assertIn("serial 4, SALES 2026-11-03 18.00;", body)
        self.assertIn("(the plan keeps this answer for job 40, so give another try a new number; the reason is by the "
                      "plan as it is now)",
                      body)


class Walked(unittest.TestCase):
    """What is known after each statement that a stream has over a plan, by the plain planner."""

    STREAMS = ["week-of-daily-plans", "batch-through-all-sets", "each-list", "two-hundred-statements"]

    def test_places_sizes_bounds_and_lists(self):
        seen = 0
        for name in self.STREAMS:
            pieces = plans.plan_rows.items_of(plans.stream(name))
            for cut in (len(pieces) // 3, 2 * len(pieces) // 3):
                with self.subTest(name, cut=cut), plan_file.opened(plans.of_stream(b"".join(pieces[:cut]))) as plan:
                    planner, now = plans.planner_of(b"".join(pieces[:cut])).copy(), stream_state.of_plan(plan)
                    for piece in pieces[cut:]:
                        answer = plain.run(piece, planner)
                        for row in answer[:-1]:
                            now.see(row)
                        for item in plans.items_of(piece):
                            now.take(item, answer[-1])
                        seen += self.check(planner, now)
        self.assertGreater(seen, 5000)

    def check(self, planner, now):
        """Holds all that is known against the planner; how many places were known."""
        rows = len(planner.planned) + len(planner.current)
        self.assertEqual(now.sizes, (rows, planner.issued))
        self.assertEqual(now.bounds, planner.bounds and tuple(planner.bounds))
        self.assertEqual(now.in_force, {app: dict(listed) for app, listed in planner.in_force.items() if listed})
        wanted = {row[1:3]: "L" for row in planner.planned.values()}
        wanted |= {row[1:3]: status for row, status in planner.current.values() if status != "D"}
        wanted |= {row[1:3]: "H" for row in planner.history.values()}
        found = {key: now.place_of(*key) for key in wanted}
        known_ones = {key: place for key, place in found.items() if place is not None}
        self.assertEqual(known_ones, {key: wanted[key] for key in known_ones})
        return len(known_ones)


class Slips(unittest.TestCase):
    def test_days_minutes_and_moments(self):
        for of, text, said in (
            (hints.of_day, "2026-02-30", "there is no 30 February in 2026: the month has 28 days"),
            (hints.of_day, "2028-02-30", "there is no 30 February in 2028: the month has 29 days"),
            (hints.of_day, "2026-06-31", "there is no 31 June in 2026: the month has 30 days"),
            (hints.of_day, "2026-06-00", "there is no 0 June in 2026: the month has 30 days"),
            (hints.of_day, "2026-13-01", "there is no month 13"),
            (hints.of_day, "2072-01-01", "the year 2072 isn't from 1972 to 2071"),
            (hints.of_day, "2026-6-1", "month and day have two digits: 2026-06-01"),
            (hints.of_day, "2026-06-30", ""), (hints.of_day, "", ""),
            (hints.of_day, "1.6.2026", "as YYYY-MM-DD it is 2026-06-01"),
            (hints.of_day, "30.02.2026", "there is no 30 February in 2026: the month has 28 days"),
            (hints.of_day, "01.06.26", ""), (hints.of_day, "6/1/2026", ""),
            (hints.of_minute, "24.00", "a day ends at 23.59: what is due at 24.00 is due at 00.00 of the next day"),
            (hints.of_minute, "23.60", "there is no 23.60: a day goes from 00.00 to 23.59"),
            (hints.of_minute, "8.00", "write it as 08.00"), (hints.of_minute, "08:00", "write it as 08.00"),
            (hints.of_minute, "08.00", ""), (hints.of_minute, "noon", ""),
            (hints.of_moment, "2026-02-30/08.00", "there is no 30 February in 2026: the month has 28 days"),
            (hints.of_moment, "2026-02-03T08:00", "write it as 2026-02-03/08.00"),
            (hints.of_moment, "2026-02-03/8.00", "write it as 2026-02-03/08.00"),
            (hints.of_moment, "3.2.2026/8.00", "write it as 2026-02-03/08.00"),
            (hints.of_moment, "30.02.2026/08.00", "there is no 30 February in 2026: the month has 28 days"),
            (hints.of_moment, "03.02.2026", "it lacks its time: 2026-02-03/00.00 is the midnight that begins the day"),
            (hints.of_moment, "2026-02-03", "it lacks its time: 2026-02-03/00.00 is the midnight that begins the day"),
            (hints.of_moment, "2026-02-03/08.00", ""), (hints.of_moment, "#12", ""),
        ):
            self.assertEqual(of(text), said, text)

    def test_characters(self):
        for text, said in (
            (b"list cp", ""), (b"list\tcp", ""),
            ("list cp \u2014app A".encode(), "character 9 is `\u2014` U+2014 (em dash), which isn't ASCII (did you "
                                             "mean --?)"),
            ("--app \u00dcBER".encode(), "character 7 is `\u00dc` U+00DC (latin capital letter u with diaeresis), "
                                         "which "
                                         "isn't ASCII"),
            (b"--app \xdcBER", "byte 7 is DC hexadecimal, `\u00dc` U+00DC (latin capital letter u with diaeresis) in "
                               "Latin-1: only ASCII is allowed there"),
            (b"a\x1b[2J", "character 2 is U+001B, which isn't a printable character"),
            (b"list cp\rlist ltp", "character 8 is U+000D, which isn't a printable character: a line ends with a line "
                                   "feed, and at most one carriage return before it"),
            ("a\u202e".encode(), "character 2 is U+202E (right-to-left override), which isn't ASCII"),
            (b"\xef\xbb\xbflist cp", "it begins with the bytes EF BB BF, a byte order mark, which an editor put there: "
                                     "save "
                                     "the file as UTF-8 without it"),
        ):
            self.assertEqual(hints.of_bytes(text), said)

    def test_in_a_stream(self):
        for text, said in (
            (b"\xef\xbb\xbfdefine calendars --job 1\nC,SAT,FREE\n/*\n",
             "a byte order mark, which an editor put there: save the file as UTF-8 without it it isn't read as "
             "`define`, so "
             "each line of its data is read as a statement, and refused too"),
            (b"days --app A --from 2026-02-01 --to 2026-02-30\n",
             "not `2026-02-30`: there is no 30 February in 2026"),
            (b"cp-start --app A --ia 2026-02-01 08.00 --job 1\n", "a day and its time are one word, 2026-11-25/06.00"),
            (b"cp-start --app sales --ia 2026-02-01/08.00 --job 1\n", "in capital letters it would be one, SALES"),
            (b'cp-start --app "SALES" --ia 2026-02-01/08.00 --job 1\n', "without the quotes it would be one, SALES"),
            (b"ltp-modify-all -job 7\n", "`-job` is neither an option `--name` nor a word (did you mean `--job`?)"),
            (b"# the holidays\n", "there is no statement `#`: a comment is a line of its own, which begins with `*`"),
            (b"ltp-modify-all --job 7 * at night\n", "but `*` is one: a comment is a line of its own, which begins"),
            (b"list cp # all\n", "but `#` is one more: a comment is a line of its own, which begins with `*`"),
            (b"define calendars --job 1\nC;SAT;FREE\n/*\n", "separate them by commas, not by semicolons"),
            (b'define calendars --job 1\n"C,SAT,FREE\n/*\n', "a double quote in that line isn't closed there"),
            (b"define options --job 1\ndefault_calendar = WEST\n/*\n", "write a name in double quotes"),
            (b"ltp-modify-all --job 007\n", "without the zeros it would be one, 7"),
            (b"define calendars --job 1\nC,2026-02-30,FREE\n/*\n", "the field `entry` is `2026-02-30`: there is no 30 "
                                                                   "Feb"),
            ("define calendars --job 1\n\u00dcB,SAT,FREE\n/*\n".encode(),
             "the field `calendar` is `\u00dcB`: character 1 is `\u00dc` U+00DC"),
            (b"define calendars --job 1\nC\x1b[2J,SAT,FREE\n/*\n", "the field `calendar` is `C\\x1b[2J`"),
        ):
            with self.subTest(text), tempfile.TemporaryDirectory() as room:
                replies = plain.run(text, plain.Planner())
                self.assertTrue(all(reply.startswith("refused 1") for reply in replies))
                (Path(room) / "x.in").write_bytes(text)
                (Path(room) / "x.out").write_text("".join(f"{reply}\n" for reply in replies), encoding="ascii")
                ran = plans.plan("explain", Path(room) / "x.in", Path(room) / "x.out")
                self.assertIn(said, " ".join(ran.stdout.split()))
                self.assertNotIn("\x1b", ran.stdout)


if __name__ == "__main__":
    unittest.main()
