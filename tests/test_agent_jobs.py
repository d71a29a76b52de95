"""jobs.toml beside the folder of jobs: what it may have, and how an agent runs, tries, limits and places jobs by it;
and the ends of logs that the agent gives its desk."""

import contextlib
import dataclasses
import datetime
import io
import json
import os
import pwd
import re
import subprocess
import sys
import time
import unittest
from pathlib import Path
from unittest import mock

from support import desks, plans
from support.agents import day_stream, PATIENCE, PlainDesk, Room

from opcplan.agent import jobs, record, runner
from opcplan.agent.record import Record
from opcplan.agent.state import Rules
from opcplan.desk import client

OTHER = "nobody"
# each line is wrong by itself, and what is said names its key
FAULTS = {
    "[PAY": "isn't valid TOML", "x = 1": "x: this is no application", "[pay]": "pay: this is no application",
    "PAY = 7": "PAY: this is no application", "[PAY]\nworkstation = 1": "PAY: there is no key `workstation`",
    "[PAY]\ncommand = \"/bin/true\"": "PAY: `command` must be a list",
    "[PAY]\ncommand = []": "PAY: `command` must be a list",
    "[PAY]\ncommand = [\"true\"]": "PAY: `command` must begin with the absolute path",
    "[PAY]\ncommand = [\"/a\\u0000\"]": "PAY: `command` must be a list",
    "[PAY]\nuser = 0": "PAY: `user` must be a text",
    "[PAY]\nuser = \"no-such-user\"": "PAY: `user` names 'no-such-user', whom this machine doesn't have",
    "[PAY]\nfolder = \"here\"": "PAY: `folder` must be the absolute path",
    "[PAY]\nfolder = 1": "PAY: `folder` must be a text",
    "[PAY]\nenvironment = [\"A=1\"]": "PAY: `environment` must have variables",
    "[PAY]\nenvironment.A = 1": "PAY: `environment` has `A`, which must be a text",
    "[PAY]\nenvironment.\"A B\" = \"1\"": "PAY: `environment` has `A B`, which can't name a variable",
    "[PAY]\nenvironment.OPCPLAN_TOKEN = \"1\"": "`environment` has `OPCPLAN_TOKEN`, which can't name a variable",
    "[PAY]\nlimit = 0": "PAY: `limit` must be a number", "[PAY]\nlimit = nan": "PAY: `limit` must be a number",
    "[PAY]\nlimit = \"1 h\"": "PAY: `limit` must be a number", "[PAY]\nlimit = true": "PAY: `limit` must be a number",
    "[PAY]\ntries = 0": "PAY: `tries` must be a number from 1",
    "[PAY]\ntries = 100": "PAY: `tries` must be a number from 1",
    "[PAY]\ntries = true": "PAY: `tries` must be a number from 1",
    "[PAY]\npauses = [1, -1]": "PAY: `pauses` must be a number",
    "[PAY]\ncomplete = 0": "PAY: `complete` must be a list",
    "[PAY]\ncomplete = [256]": "PAY: `complete` must be a list",
    "[PAY]\nclass = \"db\"": "PAY: `class` names 'db', which has no limit",
    "[PAY]\nclass = \"\"": "PAY: `class` must be a text",
    "classes = 2": "`classes` must have lines like", "classes.db = 0": "`classes.db` must be a number",
    "classes.\"d b\" = 1": "`classes.d b` must be a number",
    "[PAY]\nwhere = 1": "PAY: `where` must be a text",
}
DESCRIBED = """
classes.db = 2

[PAY]
command = ["/usr/bin/pay", "--at", "{ia}", "{app}{serial}-{try}", "{home}"]
folder = "/srv"
environment = { LANG = "C.UTF-8", TIER = "night" }
limit = "1h"
tries = 3
pauses = [60, "5m"]
complete = [0, 4]
class = "db"
where = "etl*"
"""


class Described(Room):
    """Rooms with a file of jobs."""

    def describe(self, text):
        path = Path(f"{self.jobs}.toml")
        path.write_text(text, encoding="utf-8")
        path.chmod(0o644)

    def log_of(self, serial):
        return (self.logs / f"{serial:09}.log").read_text(encoding="utf-8")


class File(Described):
    def test_each_fault_is_reported_by_its_key(self):
        for text, reason in FAULTS.items():
            self.describe(text + "\n")
            with self.subTest(text), self.assertRaises(jobs.InvalidJobsFile) as caught:
                jobs.Jobs(str(self.jobs), "here")
            self.assertIn(reason, str(caught.exception))
            line = 0 if "isn't valid TOML" in reason else 1 + text.startswith("[PAY]\n")
            self.assertTrue(str(caught.exception).startswith(f"{self.jobs}.toml: {f'line {line}: ' if line else ''}"))
            self.assertNotIn("\n", str(caught.exception).strip())

    def test_a_job_is_what_the_file_says(self):
        self.describe(DESCRIBED)
        found = jobs.Jobs(str(self.jobs), "etl1")
        self.assertEqual(found.rules, Rules(frozenset(), {"PAY": "db"}, {"db": 2}))
        self.assertEqual(jobs.Jobs(str(self.jobs), "web").rules.elsewhere, {"PAY"})
        one = found.of("PAY").put_into(Record(7, "PAY", "2024-01-01/08.00", "k", 3, 9.0, attempt=2))
        self.assertEqual(one.command, ("/usr/bin/pay", "--at", "2024-01-01/08.00", "PAY7-2", "{home}"))
        self.assertEqual((one.folder, one.user, one.limit, one.tries, one.complete), ("/srv", None, 3600.0, 3, (0, 4)))
        self.assertEqual([dataclasses.replace(one, attempt=place).pause for place in (1, 2, 3)], [60.0, 300.0, 300.0])
        other = found.of("OTHER").put_into(Record(8, "OTHER", "2024-01-01/08.00", "k", 3, 9.0))
        self.assertEqual((other.command, other.environment, other.limit, other.tries), ((), None, 9.0, 1))

    def test_a_record_is_read_as_it_was_written(self):
        self.describe(DESCRIBED)
        one = jobs.Jobs(str(self.jobs), "etl1").of("PAY").put_into(Record(7, "PAY", "2024-01-01/08.00", "k", 3, None))
        record.write(self.logs, one)
        self.assertEqual(record.read(self.logs, 7), one)
        (self.logs / "000000007.run").write_text(
            '{"serial": 7, "app": "PAY", "ia": "2024-01-01/08.00", "key": "k", "after": 3, "limit": null}', "utf-8")
        self.assertEqual(record.read(self.logs, 7), Record(7, "PAY", "2024-01-01/08.00", "k", 3, None))
        for text in ("[]", '{"serial": 7}', '{"serial": 7, "environment": 3}', '{"complete": 0}', "7"):
            (self.logs / "000000007.run").write_text(text, "utf-8")
            self.assertRaises(record.InvalidRecord, record.read, self.logs, 7)

    def test_another_user_takes_root(self):
        self.describe(f'[PAY]\nuser = "{OTHER}"\n[AWAY]\nuser = "no-such-user"\nwhere = "other"\n')
        with mock.patch.object(os, "geteuid", return_value=12345):
            self.assertRaisesRegex(jobs.InvalidJobsFile,
                                   f"PAY: `user` names {OTHER}, and only an agent of root can run a job as",
                                   jobs.Jobs, str(self.jobs), "here")
        with mock.patch.object(os, "geteuid", return_value=pwd.getpwnam(OTHER).pw_uid):
            jobs.Jobs(str(self.jobs), "here")
        with mock.patch.object(os, "geteuid", return_value=0):
            jobs.Jobs(str(self.jobs), "here")

    def test_what_is_no_file_or_too_large_is_not_read(self):
        self.describe("#" * (jobs.MOST_BYTES + 1))
        self.assertRaisesRegex(jobs.InvalidJobsFile, "more than 1,048,576 bytes", jobs.Jobs, str(self.jobs), "here")
        os.remove(f"{self.jobs}.toml")
        os.mkdir(f"{self.jobs}.toml")
        self.assertRaisesRegex(jobs.InvalidJobsFile, "this isn't a regular file", jobs.Jobs, str(self.jobs), "here")

    def test_a_fault_has_its_line(self):
        for old, new, said in (
            ("classes.db = 2", "classes.db = 0", "line 2: `classes.db` must be"),
            ("[PAY]", "[pay]", "line 4: pay: this is no application"),
            ("tries = 3", "try = 3", "line 9: PAY: there is no key `try`"),
            ('[60, "5m"]', '[60,\n"5 m"]', "line 10: PAY: `pauses` must be"),
            ('class = "db"', "class = 'web'", "line 12: PAY: `class` names 'web'"),
            ('folder = "/srv"', 'user = "no-such-user"', "line 6: PAY: `user` names 'no-such-user'"),
        ):
            self.describe(DESCRIBED.replace(old, new))
            with self.subTest(new), self.assertRaises(jobs.InvalidJobsFile) as caught:
                jobs.Jobs(str(self.jobs), "etl1")
            self.assertTrue(str(caught.exception).startswith(f"{self.jobs}.toml: {said}"), caught.exception)

    def test_an_agent_does_not_begin_with_a_faulty_one(self):
        """Status 1 if another machine, or this one later, could start with it; then systemd tries again."""
        for text, status, said in (("[PAY]\ntries = 0\n", 2, "line 2: PAY: `tries` must be a number from 1 to 99\n"),
                                   ("[PAY\n", 2, "the file isn't valid TOML: "),
                                   ('[PAY]\nuser = "no-such-user"\n', 1, "line 2: PAY: `user` names 'no-such-user'")):
            self.describe(text)
            ran = plans.plan("agent", "--desk", self.room / "nowhere", "--jobs", self.jobs)
            self.assertEqual((ran.returncode, ran.stdout, ran.stderr.count("\n")), (status, "", 1), ran.stderr)
            self.assertTrue(ran.stderr.startswith(f"plan: agent: {self.jobs}.toml: {said}"), ran.stderr)
        for words in (["--name", "a b"], ["--name", ""], ["--tail", "1M"], ["--tail", "many"]):
            ran = plans.plan("agent", "--desk", self.room / "nowhere", "--jobs", self.jobs, *words)
            self.assertEqual((ran.returncode, ran.stderr.count("\n")), (2, 1), ran.stderr)


class Tries(Described):
    def failing(self, most):
        """A job that fails so often, and then ends well; what it says is in its log."""
        self.job("AA", f'echo "$OPCPLAN_TRY" >> {self.room}/runs; echo "says $OPCPLAN_TRY"; '
                       f"[ $(wc -l < {self.room}/runs) -gt {most} ]")

    def acts(self, desk):
        return [line.split()[0].removeprefix("cp-") for line in desk.asked()]

    def test_each_step_of_a_try_is_a_statement_of_its_own(self):
        desk = PlainDesk(day_stream({"AA": ""}))
        self.failing(2)
        self.describe("[AA]\ntries = 3\n")
        messages = self.until(lambda: desk.status("AA") == "C", self.agent(desk))
        self.assertEqual(self.acts(desk), ["start", "fail", "reset", "start", "fail", "reset", "start", "complete"])
        key = desk.log[0]["key"]
        self.assertEqual([one["key"].removeprefix(key) for one in desk.log],
                         ["", "-again0", ".1-reset", ".2", ".2-again0", ".2-reset", ".3", ".3-end"])
        self.assertEqual(len({one["job"] for one in desk.log}), 8)
        self.assertIn("status 1; it is in error, try 1 of 3; the agent tries again after 0 seconds", messages)
        log = self.log_of(1)
        self.assertEqual(re.findall(r"try \d of 3|says \d|status \d", log),
                         ["try 1 of 3", "says 1", "status 1", "try 2 of 3", "says 2", "status 1", "try 3 of 3",
                          "says 3", "status 0"])

    def test_an_end_under_the_key_of_an_older_agent_is_known(self):
        """An agent that is replaced by this one sent the end of a first try without saying that another one follows."""
        desk = PlainDesk(day_stream({"AA": ""}))
        self.failing(1)
        self.describe('[AA]\ntries = 2\npauses = ["1m"]\n')
        with mock.patch.object(Record, "end_key", property(lambda one: f"{one.start_key}-end")):
            self.until(lambda: self.acts(desk) == ["start", "fail"], self.agent(desk))
        self.assertTrue(desk.log[1]["key"].endswith("-end"))
        with mock.patch.object(Record, "pause", 0.0):
            self.until(lambda: desk.status("AA") == "C", self.agent(desk))
        self.assertEqual(self.acts(desk), ["start", "fail", "reset", "start", "complete"])

    def test_the_key_of_an_end_says_after_how_many_seconds_another_try_follows(self):
        one = Record(1, "AA", "2024-01-01/08.00", "k", 0, None, tries=3, pauses=(59.2, 1e10), status=1)
        self.assertEqual([dataclasses.replace(one, attempt=attempt).end_key for attempt in (1, 2, 3)],
                         ["k-again60", "k.2-again999999999", "k.3-end"])
        self.assertEqual(dataclasses.replace(one, status=0).end_key, "k-end")

    def test_the_last_try_is_the_last(self):
        desk = PlainDesk(day_stream({"AA": ""}))
        self.failing(9)
        self.describe("[AA]\ntries = 2\n")
        agent = self.agent(desk)
        self.until(lambda: not agent.state.records and desk.status("AA") == "E" and len(desk.log) == 5, agent)
        self.until(lambda: True, agent)
        self.assertEqual(self.acts(desk), ["start", "fail", "reset", "start", "fail"])
        # somebody resets it: it has all its tries again
        desk.put("cp-reset --app AA --ia 2024-01-01/08.00")
        self.until(lambda: len(desk.log) == 11 and not agent.state.records, agent)
        self.assertEqual(self.acts(desk)[6:], ["start", "fail", "reset", "start", "fail"])

    def test_a_pause_lasts_from_the_end_of_a_try(self):
        desk = PlainDesk(day_stream({"AA": "", "BB": ""}))
        self.failing(1)
        self.job("BB", f"echo b >> {self.room}/others")
        self.describe('[AA]\ntries = 2\npauses = "1h"\n')
        agent = self.agent(desk, most=1)
        self.until(lambda: desk.status("AA") == "E" and desk.status("BB") == "C", agent)  # a pause takes no place
        for one in (agent, self.agent(desk, most=1)):  # the next agent waits too
            for _ in range(3):
                self.until(lambda: True, one)
            self.assertEqual(self.acts(desk).count("reset"), 0)
        # a try that took an hour: its pause begins at its end
        tried = record.read(self.logs, 1)
        begun = datetime.datetime.fromisoformat(tried.ended) - datetime.timedelta(hours=1)
        record.write(self.logs, dataclasses.replace(tried, began=begun.isoformat(" ", "seconds")))
        one, now = self.agent(desk, most=1), time.time
        for later in (0, 3500):
            with mock.patch.object(time, "time", lambda: now() + later):
                self.until(lambda: True, one)
                self.assertEqual(self.acts(desk).count("reset"), 0, "it is tried again within its pause")
        with mock.patch.object(time, "time", lambda: now() + 3601):
            self.until(lambda: desk.status("AA") == "C", one)

    def test_agents_that_are_killed_between_the_steps(self):
        for count in range(2, 6):
            with self.subTest(count):
                desk = PlainDesk(day_stream({"AA": ""}))
                (self.room / "runs").unlink(missing_ok=True)
                self.failing(1)
                self.describe("[AA]\ntries = 2\n")
                desk.faults = [None] * (count - 1) + ["killed"]
                with self.assertRaises(SystemExit):
                    self.until(lambda: False, self.agent(desk))
                agent = self.agent(desk)
                self.until(lambda: desk.status("AA") == "C" and not agent.state.records, agent)
                self.assertEqual(self.acts(desk), ["start", "fail", "reset", "start", "complete"])
                self.assertEqual(self.runs(), [["1"], ["2"]])

    def test_who_mends_it_meanwhile_is_left_alone(self):
        desk = PlainDesk(day_stream({"AA": ""}))
        self.failing(9)
        self.describe('[AA]\ntries = 9\npauses = "1h"\n')
        agent = self.agent(desk)
        self.until(lambda: desk.status("AA") == "E", agent)
        desk.put("cp-complete --app AA --ia 2024-01-01/08.00")
        messages = self.until(lambda: not agent.state.records, agent)
        self.assertIn("the agent doesn't try again, because it is complete by now", messages)
        self.assertEqual(len(desk.log), 3)

    def test_another_agent_counts_on(self):
        desk = PlainDesk(day_stream({"AA": ""}))
        self.failing(9)
        self.describe("[AA]\ntries = 3\n")
        first = self.agent(desk)
        self.logs = self.room / "more"
        self.logs.mkdir()
        second = self.agent(desk, name="second", most=0)
        self.until(lambda: True, second)
        with mock.patch.object(first, "claim", return_value=False):  # it resets, and doesn't come to the next start
            self.until(lambda: self.acts(desk)[-1:] == ["reset"], first)
            second.given = dataclasses.replace(second.given, most=1)
            self.until(lambda: len(desk.log) == 8 and not second.state.records, second)
        messages = self.until(lambda: not first.state.records, first)
        self.assertIn("not started: the desk answers `refused 29`", messages)
        self.assertEqual(self.acts(desk)[:8], ["start", "fail", "reset", "start", "fail", "reset", "start", "fail"])
        self.assertEqual([one["key"].split("-")[1] for one in desk.log[:8]], ["agent"] * 3 + ["second"] * 5)


class Placed(Described):
    def test_a_class_has_so_many_at_once_over_all_agents(self):
        apps = ("AA", "BB", "CC", "DD", "EE")
        desk = PlainDesk(day_stream(dict.fromkeys(apps, "")))
        for name in apps:
            self.job(name, f"echo b >> {self.room}/runs; sleep 0.1; echo e >> {self.room}/runs")
        self.describe("classes.db = 2\n" + "".join(f'[{name}]\nclass = "db"\n' for name in apps))
        first = self.agent(desk, most=1)
        self.logs = self.room / "more"
        self.logs.mkdir()
        agents = [first, self.agent(desk, name="second", most=4)]
        end = time.monotonic() + PATIENCE
        while len(desk.log) < 10:
            for agent in agents:
                self.until(lambda: True, agent)
            self.assertLess(time.monotonic(), end)
        running = greatest = 0
        for one in desk.log:
            running += {"S": 1, "C": -1}[one["reply"][-1]]
            greatest = max(greatest, running)
        self.assertEqual((running, greatest), (0, 2))
        self.assertEqual({one["key"].split("-")[1] for one in desk.log}, {"agent", "second"})

    def test_a_start_that_came_behind_another_one_is_not_done(self):
        desk = PlainDesk(day_stream({"AA": "", "BB": ""}))
        self.job("BB", f"echo >> {self.room}/runs")
        self.describe('classes.db = 1\n[AA]\nclass = "db"\n[BB]\nclass = "db"\n')
        agent, statement = self.agent(desk), desk.statement

        def behind(*words):
            if not desk.log:  # another agent is faster
                desk.put("cp-start --app AA --ia 2024-01-01/08.00")
            return statement(*words)

        with mock.patch.object(desk, "statement", behind):
            messages = self.until(lambda: True, agent)
        self.assertIn("its class has no room now", messages)
        self.assertEqual((desk.status("BB"), os.listdir(self.logs)), ("W", [".jobs-toml"]))
        desk.put("cp-complete --app AA --ia 2024-01-01/08.00")
        self.until(lambda: desk.status("BB") == "C", agent)

    def test_where_names_agents(self):
        desk = PlainDesk(day_stream({"AA": "", "BB": ""}))
        for name in ("AA", "BB"):
            self.job(name)
        self.describe('[AA]\nwhere = "etl*"\n')
        web = self.agent(desk, name="web")
        self.until(lambda: desk.status("BB") == "C", web)
        self.assertEqual((desk.status("AA"), record.serials(self.logs)), ("W", []))
        self.until(lambda: desk.status("AA") == "C", self.agent(desk, name="etl7"))

    def test_the_file_is_read_again_and_a_faulty_one_changes_nothing(self):
        desk = PlainDesk(day_stream({"AA": ""}))
        self.job("AA")
        self.describe('[AA]\nwhere = "away"\n')
        agent = self.agent(desk)
        self.until(lambda: True, agent)
        self.describe("[AA]\nwhere = 7\n")
        messages = "".join(self.until(lambda: True, agent) for _ in range(3))
        self.assertEqual(messages.count("the agent goes on with what the file had before"), 1)
        self.assertEqual((desk.log, agent.jobs.rules.elsewhere), ([], {"AA"}))
        self.describe('[AA]\nwhere = "agent"\n')
        self.until(lambda: desk.status("AA") == "C", agent)


class Ran(Described):
    def ran(self, text, script=None, **more):
        """The output of a job that is described so."""
        desk = PlainDesk(day_stream({"AA": ""}))
        if script is not None:
            self.job("AA", script)
        self.describe(text)
        self.until(lambda: desk.status("AA") in "CE", self.agent(desk, **more))
        return desk, self.log_of(1)

    def test_a_command_has_its_words_and_its_folder(self):
        _, log = self.ran(f'[AA]\ncommand = ["/bin/sh", "-c", "pwd; echo \\"$@\\"", "sh", "{{app}} {{ia}}", "$HOME", '
                          f'"{{serial}}"]\nfolder = "{self.room}"\n')
        self.assertIn(f"\n{self.room}\nAA 2024-01-01/08.00 $HOME 1\n", log)

    def test_the_environment_is_small_and_has_no_token(self):
        more = {"OPCPLAN_TOKEN": "secret", "OPCPLAN_TOKEN_FILE": "/secret", "SECRET": "secret", "TZ": "UTC"}
        with mock.patch.dict(os.environ, more):
            _, log = self.ran('[AA]\nenvironment = { TIER = "night", PATH = "/bin:/usr/bin" }\n', "env; true")
        found = dict(line.split("=", 1) for line in log.splitlines() if re.match("[A-Za-z_]+=", line))
        for name in ("PWD", "_", "SHLVL", "OLDPWD"):  # of the shell
            found.pop(name, None)
        user = pwd.getpwuid(os.geteuid())
        wanted = {"TIER": "night", "PATH": "/bin:/usr/bin", "SHELL": "/bin/sh", "HOME": user.pw_dir, "TZ": "UTC",
                  "USER": user.pw_name, "LOGNAME": user.pw_name, "OPCPLAN_APP": "AA", "OPCPLAN_TRY": "1",
                  "OPCPLAN_IA": "2024-01-01/08.00", "OPCPLAN_SERIAL": "1"}
        for name in ("LANG", "LC_ALL"):
            if name in os.environ:
                wanted[name] = os.environ[name]
        self.assertEqual(found, wanted)

    def test_statuses_that_count_as_complete(self):
        for status, wanted in ((0, "E"), (4, "C"), (5, "E")):
            with self.subTest(status):
                (self.logs / "000000001.log").unlink(missing_ok=True)
                desk, _ = self.ran("[AA]\ncomplete = [4]\n", f"exit {status}")
                self.assertEqual(desk.status("AA"), wanted)

    def test_a_limit_of_its_own_ends_the_whole_group_and_is_a_failure(self):
        with mock.patch.object(runner, "GRACE", 1):
            desk, log = self.ran("[AA]\nlimit = 0.5\ncomplete = [0, 1]\n", "trap 'exit 0' TERM; sleep 60 & wait",
                                 limit=1000)
        self.assertEqual(desk.status("AA"), "E")
        self.assertIn("status 0; it ran longer than 0.5 seconds, so the agent ended it", log)

    @unittest.skipIf(os.geteuid(), "only root runs jobs as others")
    def test_a_job_runs_as_its_user(self):
        os.chmod(self.room, 0o755)
        _, log = self.ran(f'[AA]\nuser = "{OTHER}"\n', "id -un; id -G; echo $HOME; kill -0 $PPID 2>&1; true")
        user = pwd.getpwnam(OTHER)
        groups = " ".join(map(str, sorted(os.getgrouplist(OTHER, user.pw_gid), key=lambda one: one != user.pw_gid)))
        self.assertIn(f"\n{OTHER}\n{groups}\n{user.pw_dir}\n", log)
        self.assertRegex(log, "(?i)not permitted")

    def test_what_can_not_be_run(self):
        for text, reason in ((f'folder = "{self.room}/none"', f"it can't be run: {self.room}/none: No such file"),):
            desk, log = self.ran(f"[AA]\n{text}\n", "true")
            self.assertEqual(desk.status("AA"), "E")
            self.assertIn(reason, log)
        desk = PlainDesk(day_stream({"AA": ""}))
        self.describe(f'[AA]\ncommand = ["{self.room}/none"]\n')
        messages = self.until(lambda: True, self.agent(desk))
        self.assertIn(f"{self.room}/none: No such file or directory, so AA isn't run", messages)
        self.assertEqual(desk.log, [])


@unittest.skipIf(desks.why_not(), desks.why_not())
class Hosts(desks.Case, Described):
    """A real desk, and agents of several names as processes, which are killed."""

    APPS = {"AA": "", "BB": "", "CC": "AA", "DD": "", "EE": "DD"}
    TEXT = day_stream(APPS).encode()

    def setUp(self):
        Described.setUp(self)
        self.plan = plans.copy_of(plans.of_stream(self.TEXT), self.room)
        self.desks = []
        self.addCleanup(self.end_all)
        self.socket = f"{self.plan}.socket"

    def agent_of(self, name):
        """An agent as a process, which ends with the test."""
        out = open(self.room / f"told-{len(list(self.room.glob('told-*')))}", "wb")
        self.addCleanup(out.close)
        words = ["agent", "--desk", self.socket, "--jobs", self.jobs, "--logs", self.room / name, "--name", name,
                 "--every", "0.1", "--now", "2024-01-01/12.00", "--most", "3"]
        ran = subprocess.Popen([sys.executable, plans.TOP / "plan", *map(str, words)], stdout=out, stderr=out)
        self.addCleanup(ran.wait)
        self.addCleanup(ran.kill)
        return ran

    def test_agents_that_are_killed_share_a_day(self):
        for app in self.APPS:
            self.job(app, f'echo "$1 $OPCPLAN_TRY" >> {self.room}/runs; echo "says $OPCPLAN_TRY"; sleep 0.3; '
                          "[ $OPCPLAN_TRY = 2 ]")
        self.describe("classes.db = 1\n" + "".join(
            f'[{app}]\ntries = 3\nclass = "db"\nwhere = "{"web" if app == "BB" else "etl*"}"\n' for app in self.APPS))
        desk, agents = self.desk(), {}
        asked = client.Client(self.socket)
        for name in ("etl1", "etl2", "web"):
            agents[name] = self.agent_of(name)
        for count in (2, 5, 8):
            self.until(lambda count=count: len(self.runs()) >= count)
            for name in ("etl1", "etl2"):
                agents[name].kill()
                agents[name].wait()
                agents[name] = self.agent_of(name)
        self.until(lambda: {row["status"] for row in lines(asked, "/rows?list=cp")} == {"C"})
        for one in agents.values():
            one.terminate()
            self.assertEqual(one.wait(PATIENCE), 0, self.printed_text())
        log = lines(asked, "/journal?from=1")
        self.assertEqual(sorted(map(tuple, self.runs())), [(app, again) for app in self.APPS for again in "12"])
        steps = {app: [one["statement"].split()[0] for one in log if f"--app {app} " in one["statement"]
                       and one["reply"].startswith("ok")] for app in self.APPS}
        wanted = ["cp-start", "cp-fail", "cp-reset", "cp-start", "cp-complete"]
        self.assertEqual(steps, dict.fromkeys(self.APPS, wanted))
        started = 0
        for one in log:
            started += {"S": 1, "C": -1, "E": -1, "W": 0}[one["reply"][-1]] if one["reply"].startswith("ok") else 0
            self.assertLessEqual(started, 1)
        self.assertEqual({one["key"].split("-")[1] for one in log if "--app BB " in one["statement"]}, {"web"})
        for row in lines(asked, "/rows?list=cp"):
            text = asked.request("GET", f"/logs/{row['serial']}")[1].decode()
            self.assertEqual(re.findall(r"says \d|try \d of 3|status \d", text),
                             ["try 1 of 3", "says 1", "status 1", "try 2 of 3", "says 2", "status 0"])
        self.end(desk)


def lines(asked, path):
    """What a desk lists."""
    return [json.loads(line) for line in asked.request("GET", path)[1].decode().splitlines()]


class Ends(Described):
    """The ends of logs at the desk."""

    def test_the_desk_has_the_end_of_a_log_before_it_hears_of_the_end(self):
        desk = PlainDesk(day_stream({"AA": ""}))
        self.job("AA", 'echo "says $OPCPLAN_TRY"; [ $OPCPLAN_TRY = 2 ]')
        self.describe("[AA]\ntries = 2\n")
        agent = self.agent(desk, tail=1 << 16)
        self.until(lambda: desk.status("AA") == "C" and not agent.state.records, agent)
        self.assertEqual(list(desk.tails), [("1", "1"), ("1", "2")])
        for attempt in ("1", "2"):
            text, position = desk.tails["1", attempt]
            self.assertEqual(re.findall(rb"says \d", text), [f"says {attempt}".encode()])
            self.assertIn(b"== agent: ended", text)
            ended = next(one["seq"] for one in desk.log
                         if re.search("-(end|again0)$", one["key"]) and one["seq"] > position)
            self.assertEqual((ended, position), {"1": (2, 1), "2": (5, 4)}[attempt])

    def test_it_has_no_more_than_so_many_bytes(self):
        desk = PlainDesk(day_stream({"AA": ""}))
        self.job("AA", "seq 1000")
        agent = self.agent(desk, tail=200)
        self.until(lambda: desk.status("AA") == "C" and not agent.state.records, agent)
        ((text, _),) = desk.tails.values()
        self.assertEqual((len(text), text), (200, (self.logs / "000000001.log").read_bytes()[-200:]))

    def test_that_of_a_job_that_runs_is_there_too(self):
        desk = PlainDesk(day_stream({"AA": ""}))
        self.job("AA", f"echo one; {self.wait}; echo two")
        agent = self.agent(desk, tail=1000)
        agent.tails.give, give = mock.Mock(side_effect=agent.tails.give), agent.tails.give
        self.until(lambda: any(b"\none\n" in text for text, _ in desk.tails.values()), agent)
        before = desk.tails["1", "1"]
        self.until(lambda: True, agent)
        self.assertIs(desk.tails["1", "1"], before)  # nothing came meanwhile
        agent.tails.give = give
        self.go()
        self.until(lambda: desk.status("AA") == "C", agent)
        self.assertIn(b"\ntwo\n", desk.tails["1", "1"][0])

    def test_a_desk_that_does_not_take_it_is_reported_once_and_all_goes_on(self):
        for error in (client.DeskUnreachable("it broke off", True), client.RequestRefused(404, "there is none"),
                      OSError(5, "bad")):
            desk = PlainDesk(day_stream({"AA": "", "BB": ""}))
            for name in ("AA", "BB"):
                self.job(name, f"echo x >> {self.room}/runs")
            request = desk.request

            def refusing(method, *words, request=request, error=error):
                if method == "PUT":
                    raise error
                return request(method, *words)

            with mock.patch.object(desk, "request", refusing):
                agent = self.agent(desk, tail=1000)
                messages = self.until(lambda: desk.status("AA") + desk.status("BB") == "CC", agent)
            self.assertEqual(messages.count("the desk didn't accept the end of a log"), 1)
            self.assertEqual(len(desk.log), 4)

    def test_a_log_that_was_taken_away(self):
        desk = PlainDesk(day_stream({"AA": ""}))
        self.job("AA", f"{self.wait}")
        agent = self.agent(desk, tail=1000)
        self.until(lambda: desk.status("AA") == "S" and record.read(self.logs, 1).began, agent)
        (self.logs / "000000001.log").rename(self.room / "gone")
        self.go()
        with contextlib.redirect_stderr(io.StringIO()):
            self.until(lambda: desk.status("AA") == "C", agent)


if __name__ == "__main__":
    unittest.main()
