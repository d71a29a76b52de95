"""./plan desk --log: files that come late, logs of other plans, a cluster that is empty, and another opcplan from one
entry on."""

import re
import signal
import time
import unittest

from support import desks, etcds, expected, machines, plans
from support.logs import ADDS, COMPLETE, Case, FIRST, START, numbered


class Late(Case):
    def test_a_stale_file_under_a_trimmed_log(self):
        first = self.desk("a")
        first.posted(START)
        self.snapshot(first, "b")
        first.posted("\n".join(ADDS[:100]))
        self.trim_behind(2, "--keep", "10")
        before = plans.prints(self.plan("b"))["b.db"]
        self.assertIn("--from", self.refused("b"))
        self.assertEqual(plans.prints(self.plan("b"))["b.db"], before)
        self.snapshot(first, "b")
        second = self.desk("b")
        self.assertEqual(second.posted(COMPLETE)[2], "ok serial 1 status C\n")
        self.caught_up(first, 102)
        self.end(first, second)
        self.assert_plans("ab", numbered(START, *ADDS[:100], COMPLETE))

    def test_a_desk_that_is_gone_for_good_is_waited_for_no_more(self):
        first, second = self.desk("a"), self.desk("b")
        first.posted(START)
        self.caught_up(second, 1)
        self.end(second)
        for place in range(0, 40, 10):
            first.posted("\n".join(ADDS[place : place + 10]))
        (gone,) = self.behind(30)
        self.trim("--keep", "10")
        self.assertEqual(machines.entries(self.etcd, self.name)[0].seq, 1)
        wrong = plans.plan("log", self.log, "--trim", "--forget", "nobody")
        self.assertEqual((wrong.returncode, wrong.stdout), (1, ""))
        self.assertIn("nobody: no desk of this name has published its position", wrong.stderr)
        self.trim("--keep", "10", "--forget", gone)
        self.trim_behind(20, "--keep", "10")
        self.assertIn("--from", self.refused("b"))
        self.end(first)

    def behind(self, position):
        """The names of desks that haven't an entry, once another one said that it has."""
        until = time.monotonic() + desks.PATIENCE
        while True:
            output = dict(re.findall("^desk (.*): position ([0-9]+),", plans.plan("log", self.log).stdout, re.M))
            lacking = [name for name, found in output.items() if int(found) < position]
            if len(output) == 2 and len(lacking) == 1:
                return lacking
            self.assertLess(time.monotonic(), until, output)
            time.sleep(0.2)

    def test_a_file_within_the_margin_goes_on(self):
        first, second = self.desk("a"), self.desk("b")
        for place in range(0, 40, 10):
            first.posted("\n".join(ADDS[place : place + 10]))
        # what is refused by 10 to 12 leaves no trace in a file
        first.posted("\n".join(["define applications\nODD,X,\n/*"] * 5))
        self.caught_up(second, 45)
        self.end(second)
        self.trim_behind(1, "--keep", "20")
        first.posted(START)
        second = self.desk("b")
        self.caught_up(second, 46)
        self.end(first, second)
        self.assert_plans("ab", numbered(*ADDS[:40]), numbered(START, first=FIRST + 45))

    def test_a_log_of_another_plan(self):
        first = self.desk("a")
        first.posted(f"{START}\n{COMPLETE}")
        self.end(first)
        other = self.plan("other")
        expected.asked(other, numbered(COMPLETE))
        before = plans.prints(other)[other.name]
        said = self.refused("other")
        self.assertIn("another plan", said)
        self.assertEqual(plans.prints(other)[other.name], before)

    def test_an_empty_log_under_an_old_file(self):
        first = self.desk("a")
        first.posted(f"{START}\n{COMPLETE}")
        self.end(first)
        with etcds.cluster(1) as empty:
            said = self.refused("a", log=empty.log(self.name))
        self.assertIn("2", said)

    def test_a_new_desk_by_snapshot(self):
        first = self.desk("a")
        first.posted("\n".join(ADDS[:50]))
        path = self.room / "b.db"
        second = self.begun(path, "--from", f"http://127.0.0.1:{first.port}")
        self.assertIsNotNone(second.port, second.said)
        first.posted(START)
        self.caught_up(second, 51)
        self.end(first, second)
        self.assert_plans("ab", numbered(*ADDS[:50], START))

    def test_a_new_desk_from_the_first_plan_runs_the_whole_log(self):
        first = self.desk("a")
        first.posted("\n".join(ADDS))
        second = self.desk("b")
        self.caught_up(second, len(ADDS))
        self.end(first, second)
        self.assert_plans("ab", numbered(*ADDS))

    def test_a_plan_that_had_a_desk_of_its_own(self):
        alone = desks.Desk(self.plan("a"))
        self.addCleanup(lambda: alone.process.poll() is None and alone.ended(signal.SIGKILL))
        alone.posted(START)
        self.end(alone)
        self.assertIn("--begin", self.refused("a"))
        begin = plans.plan("log", self.log, "--begin", self.plan("a"), "--program", plans.PROGRAM)
        self.assertEqual(begin.returncode, 0, begin.stderr)
        first = self.desk("a")
        self.snapshot(first, "b")
        second = self.desk("b")
        self.assertEqual(second.posted(COMPLETE)[2], "ok serial 1 status C\n")
        self.caught_up(first, 2)
        self.end(first, second)
        self.assert_plans("ab", numbered(START, COMPLETE))

    def test_all_desks_go_over_to_another_opcplan_at_one_entry(self):
        newer = self.room / "newer"
        newer.write_text(f'#!/bin/sh\n[ "$1" = --version ] && exec echo opcplan 9.9.9\nexec {plans.PROGRAM} "$@"\n')
        newer.chmod(0o755)
        serving = [self.desk("a"), self.desk("b")]
        serving[0].posted(START)
        self.caught_up(serving[1], 1)
        self.assertIn("9.9.9", self.refused("c", program=newer))
        moved = plans.plan("log", self.log, "--version", "--program", newer)
        self.assertEqual(moved.returncode, 0, moved.stderr)
        for desk in serving:
            self.assertIn("9.9.9", desk.comes(lambda found: found.get("status") == "stopped")["why"])
            self.assertEqual(desk.posted(COMPLETE, Idempotency_Key="c")[0], 503)
            self.assertEqual(desk.asked("GET", "/rows?list=cp&app=APP00")[0], 200)
        self.end(serving[0])
        first = self.desk("a", program=newer)
        self.assertEqual(first.posted(COMPLETE, Idempotency_Key="c")[2], "ok serial 1 status C\n")
        self.assertEqual(serving[1].health()["position"], 1)
        self.end(serving[1])
        self.assertIn("9.9.9", self.refused("b"))
        second = self.desk("b", program=newer)
        self.caught_up(second, 2)
        self.assertEqual(second.posted(COMPLETE, Idempotency_Key="c")[2], "ok serial 1 status C\n")
        self.end(first, second)
        self.assert_plans("ab", numbered(START, COMPLETE))


if __name__ == "__main__":
    unittest.main()
