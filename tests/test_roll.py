"""./plan roll: what it does is what the plain planner makes of its statements, once, however often and however far it
is run; and what it doesn't do."""

import json
import os
import re
import sqlite3
import subprocess
import tempfile
import threading
import time
import unittest
from contextlib import closing
from pathlib import Path

from support import desks, expected, plans

MONDAY = plans.stream("monday")
NOW = "2024-01-02/05.30"
WORDS = ("--now", NOW, "--at", "06.00")
# what is due at that moment: fewer than 60 days are left on January 2, up to March 1, and the current plan has to reach
# January 4, 05.30: a roll that is missed leaves a whole day
DUE = ("ltp-extend --to 2024-03-31", "dp-extend --to 2024-01-04/06.00")
FAILED = b"cp-start --app REPORT --ia 2024-01-01/20.00 --job 50\ncp-fail --app REPORT --ia 2024-01-01/20.00 --job 51\n"


def jobs(path):
    """The jobs of roll's own range that a plan keeps: text without the number, and reply."""
    with closing(sqlite3.connect(path)) as db:
        asked = "SELECT number, CAST(body AS TEXT), reply FROM job WHERE number BETWEEN 800000001 AND 899999999"
        found = db.execute(asked).fetchall()
    return sorted((text.removesuffix(f" --job {number}"), reply.split()[0]) for number, text, reply in found)


@unittest.skipUnless(plans.PROGRAM.exists(), "opcplan is not built")
class Roll(unittest.TestCase):
    def setUp(self):
        room = tempfile.TemporaryDirectory(prefix="roll-test-")
        self.addCleanup(room.cleanup)
        self.room = Path(room.name)
        self.plan = plans.copy_of(plans.of_worked("monday"), self.room)

    def roll(self, *words, plan=None, program=plans.PROGRAM, how=plans.plan_in_here):
        return how("roll", plan or self.plan, "--program", program, "--wait", "20", *words)

    def runs(self, text, plan=None):
        subprocess.run([plans.PROGRAM, "--db", plan or self.plan], input=text, capture_output=True, check=False)

    def assert_done(self, *texts):
        """Asks that the plan is what the plain planner makes of these streams, with roll's own behind them."""
        done = "".join(f"{text} --job {number}\n" for number, text in enumerate(DUE, 700)).encode()
        self.assertEqual(expected.of_file(self.plan), expected.of_stream(MONDAY, *texts, done))

    def test_what_is_due_is_tried_and_done_once(self):
        ran = self.roll(*WORDS)
        self.assertEqual((ran.returncode, ran.stderr), (0, ""))
        lines = ran.stdout.splitlines()
        self.assertEqual(lines[0], "The current plan ends 2024-01-02 00.00, the long-term plan 2024-01-31.")
        said = [re.fullmatch(r"(trial|done): (.*) --job (8[0-9]{8}): (ok .*)", line).groups() for line in lines[1:]]
        self.assertEqual([(what, text) for what, text, *_ in said],
                         [*(("trial", text) for text in DUE), *(("done", text) for text in DUE)])
        self.assertEqual([one[1:] for one in said[:2]], [one[1:] for one in said[2:]])
        self.assert_done()
        again = self.roll(*WORDS)
        self.assertEqual((again.returncode, again.stderr, again.stdout), (
            0, "", "The current plan ends 2024-01-04 06.00, the long-term plan 2024-03-31: nothing is due.\n"))
        self.assert_done()
        self.assertEqual(jobs(self.plan), sorted((text, "ok") for text in DUE))

    def test_a_trial_alone_changes_nothing(self):
        before = plans.prints(self.plan)
        ran = self.roll(*WORDS, "--try")
        self.assertEqual((ran.returncode, ran.stderr), (0, ""))
        self.assertEqual(re.findall("^([a-z]+): ", ran.stdout, re.M), ["trial", "trial"])
        self.assertEqual(plans.prints(self.plan), before)

    def test_an_error_that_a_rule_names_is_not_passed_over(self):
        self.runs(FAILED)
        before = expected.of_file(self.plan)
        row = "REPORT 2024-01-01 20.00 (serial 2)"
        for words, what in ((["error"], "in error"), (["error:REP*"], "in error"), (["error:rep*"], "in error"),
                            (["error:LEDGER", "--stop-on", "error:?EPORT"], "in error"),
                            (["late"], "past its deadline")):
            now = ("--now", "2024-01-02/09.00", "--at", "06.00") if what != "in error" else WORDS
            ran = self.roll(*now, "--stop-on", *words)
            self.assertEqual(ran.returncode, 1, words)
            kind = "error" if what == "in error" else "late"
            self.assertEqual(ran.stderr, "plan: nothing was done: the daily plan is due, but --stop-on "
                                         f"{kind} stops it for {row}, {what}\n")
            self.assertIn(f"Needs a person: {row} is in error", ran.stdout)
            self.assertEqual(expected.of_file(self.plan), before)
        for words in (["error:LEDGER"], ["late"]):  # its deadline is still to come
            self.assertEqual(self.roll(*WORDS, "--try", "--stop-on", *words).returncode, 0, words)
        self.assertEqual(self.roll(*WORDS, "--stop-on", "late").returncode, 0)
        self.assert_done(FAILED)

    def test_nothing_is_due_beside_an_error(self):
        self.runs(FAILED)
        ran = self.roll("--now", "2023-12-30/00.00", "--stop-on", "error", "--reserve", "1d")
        self.assertEqual((ran.returncode, ran.stderr), (0, ""))
        self.assertIn("nothing is due", ran.stdout)
        self.assertEqual(jobs(self.plan), [])

    def test_a_stop_behind_each_statement(self):
        """The next run does the rest, and nothing twice."""
        for count in range(len(DUE) + 1):
            self.plan = plans.copy_of(plans.of_worked("monday"), self.room)
            with self.subTest(count):
                text = [f"{text} --job {number}" for text, number in zip(DUE, self.numbers())]
                self.runs("".join(f"{line}\n" for line in text[:count]).encode())
                ran = self.roll(*WORDS)
                self.assertEqual(ran.returncode, 0, ran.stderr)
                self.assert_done()
                self.assertEqual(jobs(self.plan), sorted((text, "ok") for text in DUE))

    def numbers(self):
        """The job numbers that a trial shows."""
        return re.findall(r"--job ([0-9]+): ok", self.roll(*WORDS, "--try").stdout)

    def test_a_planner_that_is_killed_is_reported(self):
        program = self.room / "cut"
        program.write_text(f'#!/bin/sh\ncase "$2" in {self.plan}) head -n 1 | {plans.PROGRAM} "$@"; kill -9 $$;; esac\n'
                           f'exec {plans.PROGRAM} "$@"\n')
        program.chmod(0o755)
        ran = self.roll(*WORDS, program=program)
        self.assertEqual(ran.returncode, 8)
        self.assertIn("plan: the planner answered 1 of 2 statements; run it again, and nothing is done twice\n",
                      ran.stderr)
        self.assertEqual(jobs(self.plan), [(DUE[0], "ok")])
        self.assertEqual(self.roll(*WORDS).returncode, 0)
        self.assert_done()
        self.assertEqual(jobs(self.plan), sorted((text, "ok") for text in DUE))

    def test_a_fault_in_place_of_the_last_answer_is_reported(self):
        program = self.room / "faulty"
        program.write_text(f'#!/bin/sh\ncase "$2" in {self.plan}) head -n 1 | {plans.PROGRAM} "$@"; echo fault 41; '
                           f'exit 8;; esac\nexec {plans.PROGRAM} "$@"\n')
        program.chmod(0o755)
        ran = self.roll(*WORDS, program=program)
        self.assertEqual(ran.returncode, 8)
        self.assertIn("plan: the planner answered 1 of 2 statements; run it again, and nothing is done twice\n",
                      ran.stderr)
        self.assertEqual(self.roll(*WORDS).returncode, 0)
        self.assert_done()

    def test_a_number_under_which_the_plan_has_a_refusal_is_not_used_again(self):
        """As one that was refused because somebody changed the plan between trial and statement."""
        second = self.numbers()[1]
        refused = f"dp-extend --to 2024-01-04/06.00 --job {second}\n"
        short = plans.copy_of(plans.of_stream(MONDAY.replace(b"--to 2024-01-31", b"--to 2024-01-02")), self.room,
                              "short.db")
        self.runs(refused.encode(), short)
        self.assertEqual(jobs(short), [(DUE[1], "refused")])
        ran = self.roll(*WORDS, plan=short)
        self.assertEqual(ran.returncode, 0, ran.stderr)
        self.assertEqual(jobs(short), sorted([(DUE[0], "ok"), (DUE[1], "ok"), (DUE[1], "refused")]))
        self.assertNotIn(f"--job {second}:", ran.stdout)

    def test_what_the_trial_refuses_is_not_sent(self):
        self.runs(b"undefine calendars --name DEFAULT --job 60\ndefine applications --job 61\nREPORT,A,NOWHERE\n/*\n")
        before = expected.of_file(self.plan)
        ran = self.roll(*WORDS)
        self.assertEqual(ran.returncode, 1)
        self.assertIn("plan: nothing was done, because the trial refuses `ltp-extend --to 2024-03-31", ran.stderr)
        self.assertIn("refused 22 REPORT", ran.stderr)
        self.assertEqual((expected.of_file(self.plan), jobs(self.plan)), (before, []))

    def test_two_at_once_over_a_file(self):
        ran = []
        both = [threading.Thread(target=lambda: ran.append(self.roll(*WORDS, how=plans.plan))) for _ in range(3)]
        for one in both:
            one.start()
        for one in both:
            one.join()
        self.assertEqual([one.returncode for one in ran], [0] * 3, [one.stderr for one in ran])
        self.assert_done()
        self.assertEqual(jobs(self.plan), sorted((text, "ok") for text in DUE))

    def test_numbers_of_others_go_on_as_before(self):
        before = plans.plan("next-job", self.plan, "--short").stdout
        self.roll(*WORDS)
        self.assertEqual(plans.plan("next-job", self.plan, "--short").stdout, before)

    def test_a_plan_without_its_first_day(self):
        path = plans.copy_of(plans.of_stream(MONDAY.split(b"ltp-create")[0]), self.room, "bare.db")
        ran = self.roll(*WORDS, plan=path)
        self.assertEqual((ran.returncode, ran.stdout, ran.stderr),
                         (1, "", "plan: there is no long-term plan yet; `ltp-create` makes one\n"))

    def test_wrong_words(self):
        for words in (["--ahead", "1w"], ["--ahead", "61d"], ["--ahead", "-1h"], ["--at", "6"], ["--at", "24.00"],
                      ["--at", "06.00,"], ["--reserve", "1001d"], ["--stop-on", "errors"], ["--stop-on", "error:A B"],
                      ["--stop-on", "error:"], ["--desk", "http://127.0.0.1:1"], ["--now", "today"]):
            ran = self.roll(*words)
            self.assertEqual((ran.returncode, ran.stdout, ran.stderr.count("\n")), (2, "", 1), ran.stderr)
        ran = plans.plan("roll", self.room / "nowhere.db")
        self.assertEqual((ran.returncode, ran.stderr.count("\n")), (1, 1), ran.stderr)
        self.assertFalse((self.room / "nowhere.db").exists())


@unittest.skipIf(desks.why_not(), desks.why_not())
class ByDesk(desks.Case):
    TEXT = MONDAY

    def roll(self, desk, *words, wait="20"):
        return plans.plan("roll", "--desk", desk, "--program", plans.PROGRAM, "--wait", wait, *WORDS, *words)

    def assert_done(self):
        self.assert_plan("".join(f"{text} --job {number}\n" for number, text in enumerate(DUE, 700)).encode())
        self.assertEqual(jobs(self.plan), sorted((text, "ok") for text in DUE))

    def test_a_desk_does_it_once(self):
        desk = self.desk()
        ran = []
        both = [threading.Thread(target=lambda: ran.append(self.roll(desk.socket))) for _ in range(3)]
        for one in both:
            one.start()
        for one in both:
            one.join()
        self.assertEqual([(one.returncode, one.stderr) for one in ran], [(0, "")] * 3)
        self.assertIn("nothing is due", self.roll(desk.socket).stdout)
        entries = [line for line in desk.asked("GET", "/journal")[2].splitlines() if line]
        self.assertEqual(len(entries), 2, entries)
        self.end(desk)
        self.assert_done()

    def test_the_file_of_a_desk(self):
        desk = self.desk()
        ran = plans.plan("roll", self.plan, "--program", plans.PROGRAM, "--wait", "0", *WORDS)
        self.assertEqual(ran.returncode, 8)
        self.assertIn(f"{self.plan}: nothing was sent, because a desk has it; `./plan roll --desk DESK` has the desk "
                      "do it\n", ran.stderr)
        self.end(desk)
        self.assertEqual(jobs(self.plan), [])

    def test_a_desk_that_is_away_is_waited_for(self):
        place = f"{self.plan}.socket"
        ran = self.roll(place, wait="0")
        self.assertEqual((ran.returncode, ran.stdout, ran.stderr.count("\n")), (1, "", 1), ran.stderr)
        found = []
        waiting = threading.Thread(target=lambda: found.append(self.roll(place, wait=str(desks.PATIENCE))))
        waiting.start()
        time.sleep(1)
        desk = self.desk()
        waiting.join()
        self.assertEqual(found[0].returncode, 0, found[0].stderr)
        self.end(desk)
        self.assert_done()

    def needs(self, desk):
        """The needs of the current plan that a desk lists, by kind, and what is said of them."""
        found = json.loads(desk.asked("GET", f"/status?now={NOW}")[2])["needs"]
        return {one["kind"]: one["text"] for one in found if one["kind"] in ("error", "roll", "plan-end")}

    def test_what_stops_it_needs_a_person_until_it_is_done(self):
        desk = self.desk()
        self.assertEqual(set(self.needs(desk)), {"plan-end"})
        desk.posted("cp-start --app REPORT --ia 2024-01-01/20.00\ncp-fail --app REPORT --ia 2024-01-01/20.00\n")
        self.assertEqual(self.roll(desk.socket, "--stop-on", "error", "--try").returncode, 1)
        self.assertEqual(set(self.needs(desk)), {"error", "plan-end"})
        ran = self.roll(desk.socket, "--stop-on", "error")
        self.assertEqual(ran.returncode, 1)
        self.assertEqual(re.findall(r"^Needs a person: (roll is stopped|REPORT)", ran.stdout, re.M),
                         ["roll is stopped", "REPORT"])
        found = self.needs(desk)
        self.assertEqual(set(found), {"error", "roll"})
        self.assertEqual(found["roll"], "roll is stopped: the daily plan is due, but --stop-on error stops it for "
                         "REPORT 2024-01-01 20.00 (serial 2), in error; the current plan ended 2024-01-02 00.00, 5 h "
                         "30 min ago, and nothing new starts")
        ran = self.roll(desk.socket)
        self.assertEqual((ran.returncode, ran.stderr), (0, ""))
        # what it did itself needs nobody any more
        self.assertEqual(re.findall(r"^Needs a person: ([a-z]*(?: [a-z]+)*)", ran.stdout, re.M), [""])
        self.assertEqual(set(self.needs(desk)), {"error"})
        self.assertRegex(ran.stdout, r"(?m)^Needs a person: REPORT 2024-01-01 20.00 \(serial 2\) is in error; .*"
                         r"First: read the end of its job's log, ")
        self.end(desk)

    def test_somebody_who_may_not(self):
        tokens = self.room / "tokens"
        tokens.write_text("")
        desk = self.desk("--tokens", tokens)
        ran = plans.plan("roll", "--desk", f"http://127.0.0.1:{desk.port}", *WORDS, "--program", plans.PROGRAM,
                         env={**os.environ, "OPCPLAN_TOKEN": "nobody's"})
        self.assertEqual((ran.returncode, ran.stdout, ran.stderr.count("\n")), (1, "", 1), ran.stderr)
        self.assertIn("the request has no token that this desk knows", ran.stderr)


if __name__ == "__main__":
    unittest.main()
