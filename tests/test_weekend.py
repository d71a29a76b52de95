"""A weekend by a clock that is handed in: two days in seconds, with a desk, an agent that is killed, three failures,
one of which holds up a chain until it is late, and a timer that extends the plan. Nothing is run twice, and the daily
plan is extended four times. What is expected is worked out by hand.

Nobody is called here. `test_nights_needs` has who is called if a job fails and holds up others (Errors), a chain is
late (Late), an agent is gone (Unstarted), `roll` doesn't extend the plan (Ends), and the watch begins anew (Away);
`test_nights_calls` has receivers that refuse at first."""

import collections
import contextlib
import dataclasses
import io
import json
import time
import unittest

from support import desks, plans

from opcplan.agent import executor
from opcplan.desk import client
from opcplan.rules import moments

SATURDAY, SUNDAY = "2024-01-06", "2024-01-07"
STEP = 30  # minutes
# PAY, and BILL that waits for it, and REPORT that waits for that; FEED twice a day, and LOAD
CENTRE = "\n".join([
    "define periods --job 1", "DAY,A,2024-01-01,1", "/*",
    "define applications --job 2", *(f"{app},A," for app in ("PAY", "BILL", "REPORT", "FEED", "LOAD")), "/*",
    "define run-cycles --job 3",
    *(f"{app},{cycle},N,DAY,3,1,2024-01-01,,{ia},0,{due}" for app, cycle, ia, due in (
        ("PAY", "RC", "08.00", "10.00"), ("BILL", "RC", "09.00", "11.00"), ("REPORT", "RC", "10.00", "12.00"),
        ("FEED", "EARLY", "02.00", "06.00"), ("FEED", "LATE", "14.00", "18.00"), ("LOAD", "RC", "20.00", "23.30"))),
    "/*",
    "define predecessors --job 4", "BILL,PAY", "REPORT,BILL", "/*",
    f"ltp-create --from {SATURDAY} --to 2024-01-20 --job 5", f"dp-extend --to {SATURDAY}/06.00 --job 6", ""]).encode()
# of each day what arrives
ARRIVES = {"PAY": ["08.00"], "BILL": ["09.00"], "REPORT": ["10.00"], "FEED": ["02.00", "14.00"], "LOAD": ["20.00"]}
JOB = """#!/bin/sh
echo "$1 $2" >> %(room)s/runs
if grep -qx "$1 $2" %(room)s/fails; then sed -i "\\\\,^$1 $2\\$,d" %(room)s/fails; exit 7; fi
"""
FAILS = [f"PAY {SATURDAY}/08.00", f"FEED {SUNDAY}/02.00", f"LOAD {SUNDAY}/20.00"]
# what an operator does
BY_HAND = {f"{SATURDAY}/13.00": f"cp-reset --app PAY --ia {SATURDAY}/08.00\n",
           f"{SUNDAY}/04.00": f"cp-complete --app FEED --ia {SUNDAY}/02.00\n"}
AGENT_ENDS, AGENT_BEGINS = f"{SUNDAY}/14.00", f"{SUNDAY}/17.00"
ROLLS = ("05.30", "17.30")


@unittest.skipIf(desks.why_not(), desks.why_not())
class Weekend(desks.Case):
    TEXT = CENTRE

    def setUp(self):
        super().setUp()
        jobs = self.room / "jobs"
        jobs.mkdir(mode=0o755)
        (self.room / "logs").mkdir()
        for app in ARRIVES:
            path = jobs / app
            path.write_text(JOB % {"room": self.room})
            path.chmod(0o755)
        (self.room / "runs").write_text("")
        (self.room / "fails").write_text("".join(f"{one}\n" for one in FAILS))
        self.now = moments.moment_of(f"{SATURDAY}/00.00")
        self.served = self.desk()
        self.client = client.Client(str(self.served.socket))
        self.agent = self.new_agent()

    def new_agent(self):
        given = executor.Settings(str(self.room / "jobs"), str(self.room / "logs"), now=self.now)
        agent = executor.Agent(given, self.client)
        agent.load()
        return agent

    def work(self):
        """Has the agent look until there is nothing more to do at this moment."""
        self.agent.given = dataclasses.replace(self.agent.given, now=self.now)
        until, idle = time.monotonic() + desks.PATIENCE, 0
        while idle < 2:
            self.assertLess(time.monotonic(), until)
            before = self.runs()
            self.agent.step()
            idle = idle + 1 if not self.agent.state.running and self.runs() == before else 0
            time.sleep(0.01)

    def begin_and_die(self):
        """Has the agent begin what is ready; then it is gone, and what it began goes on."""
        self.agent.given = dataclasses.replace(self.agent.given, now=self.now)
        while not self.agent.state.running:
            self.agent.step()
        for one in self.agent.runners:
            one.wait(desks.PATIENCE)
        self.agent = None

    def runs(self):
        return (self.room / "runs").read_text().splitlines()

    def roll(self, moment):
        """A timer that comes twice; what the second run says."""
        for _ in range(2):
            ran = plans.plan_in_here("roll", "--desk", self.served.socket, "--now", moment, "--ahead", "12h", "--at",
                                     "06.00,18.00", "--reserve", "20d", "--program", plans.PROGRAM)
            self.assertEqual((ran.returncode, ran.stderr), (0, ""))
        self.assertIn("nothing is due", ran.stdout)

    def step(self):
        """What happens at a moment."""
        moment = moments.moment_word(self.now)
        if moment[11:] in ROLLS:
            self.roll(moment)
        if moment in BY_HAND:
            self.client.statements(BY_HAND[moment].encode(), f"by-hand-{moment}", time.monotonic() + 20)
        if moment == AGENT_BEGINS:
            self.agent = self.new_agent()
        if moment == AGENT_ENDS:
            self.begin_and_die()
        elif self.agent is not None:
            self.work()

    def test_two_days(self):
        said = io.StringIO()
        with contextlib.redirect_stderr(said):
            for _ in range(2 * 24 * 60 // STEP):
                self.step()
                self.now += STEP
        entries = [json.loads(line) for line in self.served.asked("GET", "/journal")[2].splitlines()]
        self.check_runs(entries)
        self.end(self.served)

    def check_runs(self, entries):
        """Each occurrence ran once, PAY of Saturday once more after somebody reset it; and the plan was extended."""
        wanted = collections.Counter(f"{app} {day}/{ia}" for app, times in ARRIVES.items() for ia in times
                                     for day in (SATURDAY, SUNDAY))
        wanted[FAILS[0]] += 1
        self.assertEqual(collections.Counter(self.runs()), wanted)
        starts = [one for one in entries if one["statement"].startswith("cp-start")]
        self.assertEqual([one["reply"].startswith("ok") for one in starts], [True] * sum(wanted.values()))
        self.assertEqual((self.room / "fails").read_text(), "")
        extensions = [one["statement"].split()[2] for one in entries if one["statement"].startswith("dp-extend")]
        self.assertEqual(extensions, [f"{SATURDAY}/18.00", f"{SUNDAY}/06.00", f"{SUNDAY}/18.00", "2024-01-08/06.00"])
        longer = [one["statement"].split()[2] for one in entries if one["statement"].startswith("ltp-extend")]
        self.assertEqual(longer, ["2024-01-31"])
        self.assertEqual({one["reply"].split()[0] for one in entries}, {"ok"})


if __name__ == "__main__":
    unittest.main()
