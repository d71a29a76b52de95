"""./plan agent: each job is run once and its end told, whatever is killed; the desk is the plain planner here, and a
real one where a day is worked off."""

import contextlib
import dataclasses
import datetime
import hashlib
import io
import json
import os
import re
import signal
import subprocess
import sys
import time
import unittest
import unittest.mock
from pathlib import Path

from support import plans
from support.agents import day_stream, FIRST_JOB, PATIENCE, PlainDesk, Room
from support.plans import plain

from opcplan.agent import executor, record, state
from opcplan.desk import client


DEBIAN = "/usr/bin/python3"
DAY = {"AA": "", "AB": "AA", "AC": "AA", "AD": "AB AC", "BA": "", "BB": "BA", "CA": "", "CB": "CA BB", "DA": "AD",
       "DB": "CB"}


class Step(Room):
    def test_started_is_said_then_it_runs_then_its_end_is_reported(self):
        desk = PlainDesk(day_stream({"GOOD": "", "BAD": "", "NEXT": "GOOD"}))
        token = 'echo "token [$OPCPLAN_TOKEN$CREDENTIALS_DIRECTORY]" >&2'
        for name, end in (("GOOD", "exit 0"), ("BAD", "exit 3"), ("NEXT", "kill -9 $$")):
            self.job(name, f'echo "$@" $# >> {self.room}/runs; cat; pwd; {token}; {end}')
        for variable in ("OPCPLAN_TOKEN", "CREDENTIALS_DIRECTORY"):
            os.environ[variable] = "secret"
            self.addCleanup(os.environ.pop, variable)
        agent = self.agent(desk)
        messages = self.until(lambda: len(desk.log) == 6, agent)
        self.assertEqual({app: desk.status(app) for app in ("GOOD", "BAD", "NEXT")},
                         {"GOOD": "C", "BAD": "E", "NEXT": "E"})
        self.assertEqual(sorted(self.runs()), [["BAD", "2024-01-01/08.01", "2", "3"],
                                               ["GOOD", "2024-01-01/08.00", "1", "3"],
                                               ["NEXT", "2024-01-01/08.02", "3", "3"]])
        log = (self.logs / "000000001.log").read_text(encoding="utf-8")
        self.assertRegex(log, r"^== agent: begins GOOD 2024-01-01/08\.00 1 at \S+ \S+\n(?s:.*)"
                              r"\n== agent: ended at \S+ \S+: status 0\n$")
        self.assertIn(f"\n{self.jobs}\ntoken []\n", log)
        self.assertIn("status 3; it is in error", messages)
        self.assertIn("by signal 9; it is in error", messages)
        self.assertEqual(record.serials(self.logs), [])

    def test_no_more_than_so_many_at_once_and_the_earliest_deadline_first(self):
        desk = PlainDesk(day_stream(dict.fromkeys(("AA", "BB", "CC", "DD", "EE"), "")))
        for name in ("AA", "BB", "CC", "DD", "EE"):
            # the first one waits for the second one
            both = f"until [ $(wc -l < {self.room}/runs) -ge 2 ]; do sleep 0.05; done"
            self.job(name, f"echo b >> {self.room}/runs; {both}; sleep 0.2; echo e >> {self.room}/runs")
        agent = self.agent(desk)
        agent.given = dataclasses.replace(agent.given, most=2)
        self.until(lambda: len(desk.log) == 10, agent)
        running = greatest = 0
        for (sign,) in self.runs():
            running += 1 if sign == "b" else -1
            greatest = max(greatest, running)
        self.assertEqual((running, greatest), (0, 2))
        starts = [line for line in desk.asked() if line.startswith("cp-start")]
        self.assertEqual(starts, sorted(starts))

    def test_what_has_not_arrived_or_is_blocked_is_not_begun(self):
        desk = PlainDesk(day_stream({"AA": "", "BB": "AA", "CC": ""}))
        for name in ("BB", "CC"):
            self.job(name, f"echo >> {self.room}/runs")
        agent = self.agent(desk)
        agent.given = dataclasses.replace(agent.given, now=plain.read_moment("2024-01-01/08.01"))
        self.until(lambda: True, agent)
        self.assertEqual((desk.log, record.serials(self.logs)), ([], []))
        for statement in ("cp-start", "cp-complete"):
            desk.put(f"{statement} --app AA --ia 2024-01-01/08.00")
        self.until(lambda: desk.status("BB") == "C", agent)
        self.assertEqual(desk.status("CC"), "W")

    def test_what_waits_again_waits_for_what_was_added_meanwhile(self):
        desk = PlainDesk(day_stream({"AA": "", "BB": "AA"}))
        self.job("BB", f"echo >> {self.room}/runs")
        for word, app in (("start", "AA"), ("complete", "AA"), ("start", "BB"), ("fail", "BB")):
            desk.put(f"cp-{word} --app {app} --ia 2024-01-01/08.0{'AB'.index(app[0])}")
        desk.put("cp-add --app AA --ia 2024-01-01/08.01")
        agent = self.agent(desk)
        self.until(lambda: True, agent)
        desk.put("cp-reset --app BB --ia 2024-01-01/08.01")
        known = len(desk.log)
        self.until(lambda: agent.state.plan.position == known, agent)
        self.assertEqual(len(desk.log), known)  # the agent asks for nothing that is refused
        for word in ("start", "complete"):
            desk.put(f"cp-{word} --app AA --ia 2024-01-01/08.01")
        self.until(lambda: desk.status("BB") == "C", agent)
        self.assertEqual(len(self.runs()), 1)

    def test_an_answer_that_breaks_off_begins_nothing_twice(self):
        for faults in (["before", "before"], ["after"], ["before", "after", None, "after"], [None, "before"]):
            with self.subTest(faults=faults):
                desk = PlainDesk(day_stream({"AA": ""}))
                desk.faults = list(faults)
                (self.room / "runs").unlink(missing_ok=True)
                self.job("AA", f"echo x >> {self.room}/runs")
                agent = self.agent(desk)
                end = time.monotonic() + PATIENCE
                with contextlib.redirect_stderr(io.StringIO()):
                    while agent.state.records or desk.status("AA") != "C":
                        with contextlib.suppress(client.DeskUnreachable):
                            agent.step()
                        self.assertLess(time.monotonic(), end)
                        time.sleep(0.05)
                self.assertEqual(desk.asked(), [f"cp-{word} --app AA --ia 2024-01-01/08.00"
                                                for word in ("start", "complete")])
                self.assertEqual(len(self.runs()), 1)

    def test_killed_between_the_answer_and_the_run_it_is_begun_by_the_next_agent(self):
        desk = PlainDesk(day_stream({"AA": ""}))
        desk.faults = ["killed"]
        self.job("AA", f"echo x >> {self.room}/runs")
        with self.assertRaises(SystemExit), contextlib.redirect_stderr(io.StringIO()):
            self.agent(desk).step()
        self.assertEqual((desk.status("AA"), len(desk.log), self.runs()), ("S", 1, []))
        messages = self.until(lambda: desk.status("AA") == "C", self.agent(desk))
        self.assertNotIn("the agent changes nothing", messages)
        self.assertEqual((len(desk.log), len(self.runs())), (2, 1))

    def test_a_runner_that_was_killed_before_it_began_the_job_is_begun_again(self):
        desk = PlainDesk(day_stream({"AA": ""}))
        self.job("AA", f"echo x >> {self.room}/runs")
        agent = self.agent(desk)
        with unittest.mock.patch.object(executor.subprocess, "Popen"):  # a runner that ends at once
            self.until(lambda: desk.status("AA") == "S", agent)
        self.assertIsNone(record.read(self.logs, 1).began)
        self.until(lambda: desk.status("AA") == "C", self.agent(desk))
        self.assertEqual((len(desk.log), len(self.runs())), (2, 1))

    def test_an_agent_that_goes_over_to_another_desk_of_its_log_waits_for_it(self):
        first, behind = (PlainDesk(day_stream({"AA": "", "BB": ""})) for _ in range(2))
        agent = self.agent(first)
        first.put("cp-start --app AA --ia 2024-01-01/08.00")
        self.until(lambda: True, agent)
        agent.asking.desk = agent.desk = behind
        with self.assertRaisesRegex(client.DeskUnreachable, "this desk lacks entries up to 1"):
            agent.step()
        plan = agent.state.plan
        self.assertEqual((plan.position, plan.rows[1].status, behind.turn), (1, "S", 1))
        behind.put("cp-start --app AA --ia 2024-01-01/08.00")
        self.until(lambda: True, agent)
        behind.life = "another"
        behind.log.pop()
        self.until(lambda: True, agent)
        self.assertEqual(plan.position, 0)

    def test_killed_before_the_statement_it_is_begun_by_the_next_agent(self):
        desk = PlainDesk(day_stream({"AA": ""}))
        self.job("AA", f"echo x >> {self.room}/runs")
        record.write(self.logs, record.Record(1, "AA", "2024-01-01/08.00", "agent-before", 0, None))
        self.until(lambda: desk.status("AA") == "C", self.agent(desk))
        self.assertEqual((desk.log[0]["key"], len(desk.log), len(self.runs())), ("agent-before", 2, 1))

    def test_an_old_answer_begins_nothing(self):
        desk = PlainDesk(day_stream({"AA": ""}))
        self.job("AA", f"echo x >> {self.room}/runs")
        desk.keys["agent-before"] = desk.put("cp-start --app AA --ia 2024-01-01/08.00", "agent-before")
        for statement in ("cp-fail", "cp-reset"):
            desk.put(f"{statement} --app AA --ia 2024-01-01/08.00")
        record.write(self.logs, record.Record(1, "AA", "2024-01-01/08.00", "agent-before", 0, None))
        self.until(lambda: desk.status("AA") == "C", self.agent(desk))
        self.assertNotEqual(desk.log[3]["key"], "agent-before")
        self.assertEqual((len(desk.log), len(self.runs())), (5, 1))

    def test_a_runner_that_was_killed_leaves_its_row_alone(self):
        desk = PlainDesk(day_stream({"AA": ""}))
        self.job("AA", f"echo $PPID >> {self.room}/runs; sleep 60 & echo $! >> {self.room}/runs; wait")
        agent = self.agent(desk)
        self.until(lambda: len(self.runs()) == 2, agent)
        (runner,), (job,) = self.runs()
        os.kill(int(runner), signal.SIGKILL)
        self.addCleanup(os.kill, int(job), signal.SIGKILL)
        messages = self.until(lambda: agent.state.lost, agent)
        self.assertIn("left no end. Send `cp-complete` if", messages)
        messages = self.until(lambda: True, self.agent(desk))
        self.assertIn("left no end. Send `cp-complete` if", messages)
        self.assertEqual((desk.status("AA"), len(desk.log)), ("S", 1))

    def test_an_end_that_was_not_reported_is_reported_by_the_next_agent(self):
        desk = PlainDesk(day_stream({"AA": "", "BB": ""}))
        for name in ("AA", "BB"):
            self.job(name, f"echo x >> {self.room}/runs; {self.wait}; test {name} = AA")
        agent = self.agent(desk)
        self.until(lambda: len(self.runs()) == 2, agent)
        self.go()
        self.until(lambda: all(record.read(self.logs, serial).ended for serial in (1, 2)))
        self.assertEqual(len(desk.log), 2)
        self.until(lambda: len(desk.log) == 4, self.agent(desk))
        self.assertEqual((desk.status("AA"), desk.status("BB"), len(self.runs())), ("C", "E", 2))

    def test_an_end_is_reported_of_its_own_start_alone(self):
        desk = PlainDesk(day_stream({"AA": ""}))
        self.job("AA", f"echo x >> {self.room}/runs; {self.wait}")
        agent = self.agent(desk)
        self.until(lambda: self.runs(), agent)
        for word in ("fail", "reset", "start"):
            desk.put(f"cp-{word} --app AA --ia 2024-01-01/08.00")
        self.go()
        messages = self.until(lambda: not agent.state.records, agent)
        self.assertIn("the agent doesn't report this", messages)
        self.assertEqual((desk.status("AA"), len(desk.log), len(self.runs())), ("S", 4, 1))

    def test_an_old_job_that_is_answered_again_hides_no_start(self):
        desk = PlainDesk(day_stream({"AA": ""}))
        self.job("AA", f"echo x >> {self.room}/runs; {self.wait}")
        for job, word in enumerate(("start", "fail", "reset"), 20):
            desk.put(f"cp-{word} --app AA --ia 2024-01-01/08.00", job=job)
        agent = self.agent(desk)
        self.until(lambda: self.runs(), agent)
        for job, word in enumerate(("start", "fail"), 20):
            self.assertTrue(desk.put(f"cp-{word} --app AA --ia 2024-01-01/08.00", job=job)["reply"].startswith("ok"))
        self.go()
        self.until(lambda: desk.status("AA") == "C", agent)
        self.assertEqual(len(self.runs()), 1)

    def test_a_limit_ends_the_job_and_what_it_began(self):
        desk = PlainDesk(day_stream({"AA": ""}))
        self.job("AA", f"sleep 60 & echo $! >> {self.room}/runs; wait")
        agent = self.agent(desk)
        agent.given = dataclasses.replace(agent.given, limit=0.5)
        messages = self.until(lambda: desk.status("AA") == "E", agent)
        self.assertIn("by signal 15; it ran longer than 0.5 seconds, so the agent ended it", messages)
        ((job,),) = self.runs()
        state = Path(f"/proc/{job}/stat")
        self.until(lambda: not state.exists() or state.read_text(encoding="utf-8").rpartition(")")[2].split()[0] == "Z")

    def test_what_another_agent_has_is_left_to_it(self):
        desk = PlainDesk(day_stream({"AA": ""}))
        self.job("AA", f"touch {self.room}/runs")
        agent, send = self.agent(desk), state.State.send

        def slow(known, *words):
            if not desk.log:  # it is started behind what this agent sees
                desk.put("cp-start --app AA --ia 2024-01-01/08.00")
            send(known, *words)

        with unittest.mock.patch.object(state.State, "send", slow):
            messages = self.until(lambda: True, agent)
        self.assertIn("not started: the desk answers `refused 29`", messages)
        self.until(lambda: True, agent)
        self.assertEqual((len(desk.log), self.runs(), sorted(os.listdir(self.logs))), (2, [], []))

    def test_an_end_is_reported_once_the_plan_is_as_it_is_known(self):
        """Also where it changes all the while: the last try has no condition."""
        for changes in (1, state.TRIES, 3 * state.TRIES):
            with self.subTest(changes=changes):
                desk = PlainDesk(day_stream({"AA": "", "BB": ""}))
                self.job("AA", "true")
                agent, send, left = self.agent(desk), state.State.send, [changes]

                def slow(known, one, act, key, desk=desk, send=send, left=left):
                    send(known, one, act, key)
                    if act != "start" and left[0]:  # it changes behind what this agent sees
                        left[0] -= 1
                        desk.put(f"cp-{'start' if desk.status('BB') == 'W' else 'fail'} --app BB --ia 2024-01-01/08.01")
                        if desk.status("BB") == "E":
                            desk.put("cp-reset --app BB --ia 2024-01-01/08.01")

                with unittest.mock.patch.object(state.State, "send", slow):
                    messages = self.until(lambda: not agent.state.records and desk.status("AA") == "C", agent)
                self.assertIn("status 0; it is complete", messages)
                self.assertEqual([one["key"][-4:] for one in desk.log if "complete" in one["statement"]], ["-end"])
                self.assertEqual(left[0], max(0, changes - state.TRIES - 1))

    def test_what_the_desk_refuses_rests(self):
        desk = PlainDesk(day_stream({"AA": ""}))
        self.job("AA", f"touch {self.room}/runs")

        def refuse(text, key):
            desk.log.append({"seq": 1, "statement": text, "job": FIRST_JOB, "reply": "refused 29", "key": key})
            return desk.log[-1]

        desk.put, agent = refuse, self.agent(desk)
        messages = self.until(lambda: True, agent)
        self.assertIn("not started: the desk answers `refused 29`", messages)
        self.assertEqual(self.until(lambda: True, agent), "")
        self.assertEqual((self.runs(), sorted(os.listdir(self.logs))), ([], []))

    def test_hostile_names_begin_nothing(self):
        desk = PlainDesk(day_stream({"AA": ""}))
        (self.room / "OUT").write_text(f"#!/bin/sh\ntouch {self.room}/runs\n", encoding="utf-8")
        (self.room / "OUT").chmod(0o755)
        names = ["../OUT", "/bin/true", "log", "a", "", ".", "AA;true", "AA\nBB", "AA ", "$(true)", "A" * 17, "-AA",
                 None, 7]
        rows = [{"serial": 10 + place, "app": name, "ia": "2024-01-01/08.00", "deadline": "2024-01-01/10.00",
                 "status": "W"} for place, name in enumerate(names)]
        good = {"serial": 9, "app": "OUT", "ia": "2024-01-01/08.00", "deadline": "2024-01-01/10.00", "status": "W"}
        rows += [{**good, **odd} for odd in ({"serial": "../x"}, {"serial": 0}, {"ia": "x"}, {"deadline": None},
                                             {"ia": "2024-01-01/08.00\n"}, {"status": "WW"})]
        desk.rows = lambda: [*rows, {**good, "app": "LINK"}, {**good, "serial": 8, "app": "FOLDER"},
                             {**good, "serial": 7, "app": "PLAIN"}, {**good, "serial": 6, "app": "OPEN"}]
        (self.jobs / "LINK").symlink_to(self.room / "OUT")
        (self.jobs / "FOLDER").mkdir()
        (self.jobs / "PLAIN").write_text("true", encoding="utf-8")
        for name in ("OPEN", "log", "a"):
            self.job(name, f"touch {self.room}/runs")
        (self.jobs / "OPEN").chmod(0o757)
        messages = self.until(lambda: True, self.agent(desk))
        self.assertEqual((desk.log, self.runs(), record.serials(self.logs)), ([], [], []))
        for name in ("LINK", "FOLDER", "PLAIN", "OPEN"):
            self.assertEqual(messages.count(f"/{name}: "), 1, messages)

    def test_who_may_not_read_is_reported_why(self):
        desk = PlainDesk(day_stream({"AA": ""}))

        def request(method, path, *_):
            if path != "/health":
                raise client.RequestRefused(401, "the request has no token")
            return {}, b'{"status": "ok"}'

        desk.request = request
        with self.assertRaisesRegex(client.RequestRefused, "the request has no token"):
            self.agent(desk).step()
        for answer in (b"", b"[]", b"<html>", b'{"position": "9"}', b'{"position": null}', b"\xff"):
            desk.request = lambda *_, answer=answer: ({}, answer)
            with self.assertRaisesRegex(client.DeskUnreachable, "its answer isn't that of a desk"):
                self.agent(desk).step()

    def test_a_file_that_can_not_be_run_is_a_failure(self):
        desk = PlainDesk(day_stream({"AA": ""}))
        self.job("AA")
        (self.jobs / "AA").write_text("#!/nowhere/at/all\n", encoding="utf-8")
        self.assertIn("it can't be run", self.until(lambda: desk.status("AA") == "E", self.agent(desk)))

    def test_what_is_started_by_others_is_reported_and_stays(self):
        desk = PlainDesk(day_stream({"AA": ""}))
        self.job("AA", f"touch {self.room}/runs")
        desk.put("cp-start --app AA --ia 2024-01-01/08.00")
        messages = self.until(lambda: True, self.agent(desk))
        self.assertIn("AA 2024-01-01/08.00 (serial 1) is started, and no record here says by whom", messages)
        self.assertEqual(len(desk.log), 1)

    def test_what_another_agent_started_is_reported_with_its_name(self):
        for key, how in (
            (f"agent-etl-2-{'0a' * 12}", "was started by the agent etl-2; the agent leaves it alone"),
            (f"agent-etl-2-{'0a' * 12}.3", "was started by the agent etl-2; the agent leaves it alone"),
            (f"agent-own-{'0a' * 12}", "is started, and no record here says by whom; the agent leaves it alone"),
            (f"agent-{'0a' * 12}", "is started, and no record here says by whom; the agent leaves it alone"),
            (f"agent-etl-2-{'0a' * 12}-end", "is started, and no record here says by whom; the agent leaves it alone"),
            ("by-hand", "is started, and no record here says by whom; the agent leaves it alone"),
        ):
            with self.subTest(key):
                desk = PlainDesk(day_stream({"AA": ""}))
                self.job("AA", f"touch {self.room}/runs")
                desk.put("cp-start --app AA --ia 2024-01-01/08.00", key)
                messages = self.until(lambda: True, self.agent(desk, name="own"))
                self.assertEqual(messages.splitlines()[1:], [f"agent: AA 2024-01-01/08.00 (serial 1) {how}"])
                self.assertEqual((len(desk.log), os.path.exists(self.room / "runs")), (1, False))


def has_aiohttp():
    asked = [DEBIAN, "-c", "import aiohttp"]
    return os.path.exists(DEBIAN) and not subprocess.run(asked, capture_output=True, check=False).returncode


@unittest.skipUnless(plans.PROGRAM.exists(), "opcplan is not built")
@unittest.skipUnless(has_aiohttp(), "there is no python3-aiohttp")
class Day(Room):
    """A real desk, and agents as processes."""

    def begin(self, *words):
        """A command of ./plan as a process, which ends with the test; what it tells goes to a file."""
        found = self.room / f"told-{len(list(self.room.glob('told-*')))}"
        with open(found, "wb") as out:
            ran = subprocess.Popen([sys.executable, plans.TOP / "plan", *map(str, words)], stdout=out, stderr=out)
        self.addCleanup(self.end, ran)
        return ran, found

    def end(self, ran):
        if ran.poll() is None:
            ran.terminate()
            self.assertEqual(ran.wait(PATIENCE), 0)

    def begin_agent(self):
        return self.begin("agent", "--desk", self.socket, "--jobs", self.jobs, "--logs", self.logs, "--every", "0.1",
                          "--now", "2024-01-01/12.00", "--most", "3")

    def test_a_day_of_ten_applications_with_agents_that_are_killed(self):
        self.plan, self.socket = self.room / "plan.db", self.room / "socket"
        text = day_stream(DAY).encode()
        subprocess.run([plans.PROGRAM, "--db", self.plan], input=text, check=True, capture_output=True)
        for name in DAY:
            self.job(name, f'echo "$@" >> {self.room}/runs; sleep 0.5; [ $1 != CA ]')
        self.begin("desk", self.plan, "--socket", self.socket, "--program", plans.PROGRAM)
        self.until(self.socket.exists)
        agent, _ = self.begin_agent()
        for count in (2, 4):
            self.until(lambda count=count: len(self.runs()) >= count)
            agent.kill()
            agent.wait()
            agent, stderr = self.begin_agent()
        self.until(lambda: "works for" in stderr.read_text(encoding="utf-8"))
        second, stderr = self.begin_agent()
        self.assertEqual(second.wait(PATIENCE), 1)
        self.assertIn("another agent uses this folder of logs", stderr.read_text(encoding="utf-8"))
        desk = client.Client(str(self.socket))
        # CA fails, so CB and DB wait: they are not begun until it is mended
        wanted = {**dict.fromkeys(DAY, "C"), "CA": "E", "CB": "W", "DB": "W"}
        self.until(lambda: self.statuses(desk) == wanted)
        self.job("CA", f'echo "$@" >> {self.room}/runs')
        desk.statements(b"cp-reset --app CA --ia 2024-01-01/08.06\n", "mended", 0)
        self.until(lambda: set(self.statuses(desk).values()) == {"C"})
        self.check(desk)

    def statuses(self, desk):
        rows = objects(desk.request("GET", "/rows?list=cp")[1])
        return {row["app"]: row["status"] for row in rows}

    def test_a_token_is_in_no_environment_that_a_job_can_read(self):
        token = "secret" * 5
        self.job("AA", f"(cat /proc/$PPID/environ; env) > {self.room}/environ; touch {self.room}/runs")
        tokens, plan = self.room / "tokens", self.room / "plan.db"
        tokens.write_text(f"{hashlib.sha256(token.encode()).hexdigest()} agent operate\n", encoding="ascii")
        subprocess.run([plans.PROGRAM, "--db", plan], input=day_stream({"AA": ""}).encode(), check=True,
                       capture_output=True)
        _, stderr = self.begin("desk", plan, "--listen", "127.0.0.1:0", "--tokens", tokens, "--program", plans.PROGRAM)
        self.until(lambda: "listening" in stderr.read_text(encoding="utf-8"))
        address = re.search("http://[0-9.:]+", stderr.read_text(encoding="utf-8"))[0]
        with unittest.mock.patch.dict(os.environ, {"OPCPLAN_TOKEN": token}):
            agent, _ = self.begin("agent", "--desk", f"http://127.0.0.1:9,{address}", "--jobs", self.jobs, "--logs",
                                  self.logs, "--now", "2024-01-01/12.00", "--every", "0.1")
        self.until((self.room / "runs").exists)
        for text in ((self.room / "environ").read_bytes(), Path(f"/proc/{agent.pid}/environ").read_bytes()):
            self.assertIn(b"PATH=", text)
            self.assertNotIn(token.encode(), text)

    def check(self, desk):
        """The jobs ran as often and in such an order as the journal has it, and the plain planner answers the same."""
        log = objects(desk.request("GET", "/journal?from=1")[1])
        planner = plain.Planner()
        plain.run(day_stream(DAY).encode(), planner)
        for one in log:
            self.assertEqual(plain.run(one["statement"].encode() + b"\n", planner), [one["reply"]])
        starts = [one["statement"].split()[2] for one in log if one["statement"].startswith("cp-start")]
        self.assertEqual(sorted(starts), sorted([*DAY, "CA"]))
        self.assertEqual({one["reply"].split()[0] for one in log}, {"ok"})
        runs = [app for app, _, _ in self.runs()]
        self.assertEqual(sorted(runs), sorted([*DAY, "CA"]))
        for app, others in DAY.items():
            for other in others.split():
                last = len(runs) - runs[::-1].index(other)
                self.assertLess(last - 1, runs.index(app), (app, other))
        # each is said to be started before it begins
        for app in DAY:
            serial = next(int(one["reply"].split()[2]) for one in log if one["statement"].split()[2] == app)
            text = (self.logs / f"{serial:09}.log").read_text(encoding="utf-8")
            begins = re.findall(r"^== agent: begins .* at (.*)$", text, re.M)
            said = [one["at"] for one in log if one["statement"].startswith(f"cp-start --app {app} ")]
            self.assertEqual(len(begins), 2 if app == "CA" else 1)
            self.assertGreaterEqual(moment_of(begins[-1]), moment_of(said[-1]).replace(microsecond=0))


def moment_of(text):
    return datetime.datetime.fromisoformat(text.replace("Z", "+00:00"))


def objects(data):
    return [json.loads(line) for line in data.decode().splitlines()]


class Words(Room):
    def test_wrong_words_and_folders(self):
        away = self.room / "nowhere"
        good = ["--desk", away, "--jobs", self.jobs]
        for words, status in ((["--jobs", self.jobs], 2), (["--desk", "a/b"], 2), ([*good, "--most", "0"], 2),
                              (["--desk", "http://", "--jobs", "."], 2), (["--desk", away, "--jobs", away], 1),
                              ([*good, "--limit", "-1"], 2)):
            ran = plans.plan("agent", *words)
            self.assertEqual((ran.returncode, ran.stdout), (status, ""), words)
            self.assertRegex(ran.stderr, "^plan: [^\n]+\n$")
        self.jobs.chmod(0o777)
        ran = plans.plan("agent", "--desk", away, "--jobs", self.jobs)
        self.assertEqual(ran.returncode, 1)
        self.assertRegex(ran.stderr, f"^plan: agent: {self.jobs}: others than .* may write this folder, .* 0777; run "
                                     ".*\n$")


if __name__ == "__main__":
    unittest.main()
