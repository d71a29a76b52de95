"""An agent from outside: a process of its own that speaks with a desk by a socket, its runners, and jobs that say which
user, groups, environment and files they have, and which of their processes are left."""

import contextlib
import dataclasses
import os
import pwd
import re
import shutil
import signal
import subprocess
import sys
import time
import unittest
from pathlib import Path

from support import plans
from support.agents import day_stream, PATIENCE, PlainDesk, Room, Served
from support.system_calls import calls_of, unsynced
from support.traced import can_trace

from opcplan.agent import executor, record, runner
from opcplan.agent.record import Record
from opcplan.desk import client
from opcplan.plans import atomic_files, entry, journal

OTHER = "nobody"
# groups that an agent of root has here, and no job of another user
OF_AGENT = (4, 24, 27)
BY_ROOT = unittest.skipIf(os.geteuid(), "only root runs jobs as others")
BY_TRACE = unittest.skipUnless(can_trace(), "this machine lets no process trace its child")
PRIVATE = ("OPCPLAN_TOKEN", "OPCPLAN_TOKEN_FILE", "CREDENTIALS_DIRECTORY")
SECRET = "secret-of-the-desk"
# says what a job is, with marks for a reader
SAYS = """echo "groups $(sed -n 's/^Groups:[[:space:]]*//p' /proc/self/status)."
echo "ids $(sed -n 's/^[UG]id:[[:space:]]*//p' /proc/self/status | tr '\\t\\n' '  ')."
ls -l /proc/$$/fd
echo "runner $(tr '\\0' '\\n' < /proc/$PPID/environ 2>&1 | cut -d= -f1 | sort | tr '\\n' ' ')."
echo "own $(tr '\\0' '\\n' < /proc/$$/environ | cut -d= -f1 | sort | tr '\\n' ' ')."
"""


class Skin(Room):
    """Agents as processes, with a desk behind a socket."""

    def setUp(self):
        super().setUp()
        self.room.chmod(0o755)

    def agent_of(self, desk, *words, command=(), **how):
        """An agent as a process, which ends with the test."""
        self.served = Served(desk, self.room / "desk.socket")
        self.addCleanup(self.served.close)
        out = open(self.room / "told-agent", "wb")
        self.addCleanup(out.close)
        given = ["agent", "--desk", self.served.path, "--jobs", self.jobs, "--logs", self.logs, "--every", "0.1",
                 "--now", "2024-01-01/12.00", *words]
        ran = subprocess.Popen([*command, sys.executable, plans.TOP / "plan", *map(str, given)], stdout=out, stderr=out,
                               **how)
        self.addCleanup(ran.wait)
        self.addCleanup(ran.kill)
        return ran

    def describe(self, text):
        path = Path(f"{self.jobs}.toml")
        path.write_text(text, encoding="utf-8")
        path.chmod(0o644)

    def said(self, serial):
        """What the job of a serial says behind each of its marks."""
        text = (self.logs / f"{serial:09}.log").read_text(encoding="utf-8")
        return dict(re.findall(r"^(\w+) (.*)\.$", text, re.M))

    def ended(self, desk, *apps):
        self.until(lambda: all(desk.status(app) in "CE" for app in apps))

    def pids(self, name):
        """The processes that a job wrote into a file."""
        return [int(line) for line in (self.room / name).read_text(encoding="ascii").split()]


def is_there(pid):
    """Whether a process runs; one that ended and that nobody waited for doesn't."""
    with contextlib.suppress(FileNotFoundError, ProcessLookupError):
        return Path(f"/proc/{pid}/stat").read_text(encoding="utf-8").rpartition(")")[2].split()[0] != "Z"
    return False


class Users(Skin):
    @BY_ROOT
    def test_a_job_has_the_groups_of_its_user_and_no_others(self):
        desk = PlainDesk(day_stream({"AA": "", "BB": "", "CC": ""}))
        for name in ("AA", "BB", "CC"):
            self.job(name, SAYS)
        self.describe(f'[AA]\nuser = "{OTHER}"\n[CC]\nuser = "root"\n')
        self.agent_of(desk, extra_groups=OF_AGENT)
        self.ended(desk, "AA", "BB", "CC")
        user = pwd.getpwnam(OTHER)
        self.assertEqual(sorted(map(int, self.said(1)["groups"].split())),
                         sorted(os.getgrouplist(OTHER, user.pw_gid)))
        self.assertEqual(self.said(1)["ids"].split(), [str(user.pw_uid)] * 4 + [str(user.pw_gid)] * 4)
        # a job without a user has what the agent has
        self.assertEqual(sorted(map(int, self.said(2)["groups"].split())), sorted(OF_AGENT))
        self.assertEqual(sorted(map(int, self.said(3)["groups"].split())), sorted(os.getgrouplist("root", 0)))

    @BY_ROOT
    def test_a_user_with_groups_of_its_own(self):
        """A file of groups that only this agent sees has the user in three of them."""
        groups = self.room / "group"
        shutil.copyfile("/etc/group", groups)
        with groups.open("a", encoding="utf-8") as file:
            file.writelines(f"plan{number}:x:{number}:{OTHER}\n" for number in (70001, 70002, 70003))
        command = ["unshare", "--mount", "sh", "-c", 'mount --bind "$0" /etc/group && exec "$@"', groups]
        if subprocess.run([*command, "true"], capture_output=True, check=False).returncode:
            self.skipTest("this machine gives root no mounts of its own")
        desk = PlainDesk(day_stream({"AA": ""}))
        self.job("AA", SAYS)
        self.describe(f'[AA]\nuser = "{OTHER}"\n')
        self.agent_of(desk, command=command, extra_groups=OF_AGENT)
        self.ended(desk, "AA")
        self.assertEqual(sorted(map(int, self.said(1)["groups"].split())),
                         sorted({pwd.getpwnam(OTHER).pw_gid, 70001, 70002, 70003}))


class Environments(Skin):
    def check(self, serial, runners=True):
        """Neither the job nor its runner has a private variable; they have others."""
        said = self.said(serial)
        log = self.logs / f"{serial:09}.log"
        for who in ("runner", "own"):
            if who == "runner" and not runners:
                self.assertEqual(said[who], "")
                self.assertRegex(log.read_text(encoding="utf-8"), "/environ: Permission denied")
                continue
            self.assertIn("PATH", said[who].split())
            self.assertEqual([name for name in PRIVATE if name in said[who].split()], [], (who, said[who]))
        files = re.findall("^l.* -> (.*)$", log.read_text(encoding="utf-8"), re.M)
        program = str(self.jobs / {1: "AA", 2: "BB", 3: "CC"}[serial])  # the shell has it open by a number of its own
        self.assertEqual([one for one in files if one != program], ["/dev/null", str(log), str(log)])

    def tried(self, **given):
        """A job that isn't in jobs.toml, one that is, and one of another user."""
        desk = PlainDesk(day_stream({"AA": "", "BB": "", "CC": ""}))
        for name in ("AA", "BB", "CC"):
            self.job(name, SAYS)
        self.describe("[BB]\ntries = 1\n" + (f'[CC]\nuser = "{OTHER}"\n' if not os.geteuid() else ""))
        environment = {name: value for name, value in os.environ.items() if name not in PRIVATE}
        agent = self.agent_of(desk, env={**environment, **given})
        self.ended(desk, "AA", "BB", "CC")
        self.check(1)
        self.check(2)
        self.check(3, bool(os.geteuid()))
        self.assertTrue(all(heads.get("Authorization") == f"Bearer {SECRET}" for heads in self.served.heads))
        return agent

    def test_a_token_in_a_variable(self):
        agent = self.tried(OPCPLAN_TOKEN=SECRET, CREDENTIALS_DIRECTORY="/run/credentials/agent")
        self.assertNotIn(SECRET.encode(), Path(f"/proc/{agent.pid}/environ").read_bytes())

    def test_a_token_in_a_file(self):
        path = self.room / "token"
        path.write_text(SECRET, encoding="ascii")
        self.tried(OPCPLAN_TOKEN_FILE=str(path), CREDENTIALS_DIRECTORY=str(self.room))


class Processes(Skin):
    def test_at_its_limit_the_whole_group_ends(self):
        """The job ends at SIGTERM; of those that it began one ends by itself a while later, two heed no SIGTERM, and
        one has left the group."""
        desk = PlainDesk(day_stream({"AA": ""}))
        self.job("AA", f"""cd {self.room}
(trap 'sleep 1; echo $$ > tidy; exit' TERM; touch ready1; while :; do sleep 0.1; done) & echo $! >> group
(trap '' TERM; touch ready2; exec sleep 1000) & echo $! >> group
(trap '' TERM; (touch ready3; exec sleep 1000) & echo $! >> group; wait) & echo $! >> group
setsid sh -c 'echo $$ > away; exec sleep 1000' & wait""")
        self.describe("[AA]\nlimit = 4\n")
        self.agent_of(desk)
        self.until(lambda: all((self.room / name).exists() for name in ("ready1", "ready2", "ready3", "away")))
        before = [is_there(pid) for pid in self.pids("group")]
        self.ended(desk, "AA")
        (away,) = self.pids("away")
        self.addCleanup(os.kill, away, signal.SIGKILL)
        self.assertEqual((before, desk.status("AA")), ([True] * 4, "E"))
        self.assertEqual(self.left(self.pids("group")), [])
        self.assertTrue((self.room / "tidy").exists())
        self.assertTrue(is_there(away))  # it left the job's group by itself
        self.assertIn("by signal 15; it ran longer than 4 seconds", (self.logs / "000000001.log").read_text("utf-8"))

    def left(self, pids):
        """The processes that are still there although SIGKILL was sent to them: to end then takes milliseconds."""
        end = time.monotonic() + 20
        while (found := [pid for pid in pids if is_there(pid)]) and time.monotonic() < end:
            time.sleep(0.05)
        for pid in found:
            os.kill(pid, signal.SIGKILL)
        return found

    def test_what_a_job_leaves_running_is_neither_waited_for_nor_ended(self):
        desk = PlainDesk(day_stream({"AA": ""}))
        self.job("AA", f"sleep 1000 & echo $! > {self.room}/left")
        self.agent_of(desk)
        self.ended(desk, "AA")
        (left,) = self.pids("left")
        self.addCleanup(os.kill, left, signal.SIGKILL)
        self.assertEqual(desk.status("AA"), "C")
        self.assertTrue(is_there(left))
        self.until(lambda: record.serials(self.logs) == [])
        self.until(lambda: not record.is_run(str(self.logs), 1))  # it doesn't have the lock of the log
        self.assertTrue(is_there(left))

    def test_an_agent_that_is_killed_leaves_its_job_and_its_runner(self):
        desk = PlainDesk(day_stream({"AA": ""}))
        self.job("AA", f"echo $$ $PPID > {self.room}/both; {self.wait}")
        agent = self.agent_of(desk, start_new_session=True)
        self.until(lambda: (self.room / "both").exists() and len(self.pids("both")) == 2)
        os.killpg(agent.pid, signal.SIGKILL)  # with all of its group
        agent.wait()
        job, its_runner = self.pids("both")
        self.assertEqual((os.getsid(job), os.getsid(its_runner)), (job, its_runner))
        self.assertTrue(is_there(job) and is_there(its_runner))
        self.go()
        self.until(lambda: record.read(self.logs, 1).ended is not None)
        self.assertEqual(record.read(self.logs, 1).status, 0)


class Faults(Skin):
    def test_a_fault_is_no_answer(self):
        """The desk's first answer to each statement has a fault in place of the reply: nothing is taken for done."""
        desk = PlainDesk(day_stream({"AA": ""}))
        self.job("AA", f"echo x >> {self.room}/runs")
        statement, seen = desk.statement, set()

        def faulty(text, key, condition):
            answer = statement(text, key, condition)
            if key in seen:
                return answer
            seen.add(key)
            return re.sub(rb'"reply": "[^"]*"', b'"reply": "fault 41"', answer)

        desk.statement = faulty
        self.agent_of(desk)

        def is_done():
            self.assertNotIn("the desk answers `fault", self.printed_text())
            return desk.status("AA") == "C" and record.serials(self.logs) == []

        self.until(is_done)
        self.assertEqual((len(self.runs()), len(seen)), (1, 2))
        self.assertEqual([one["statement"].split()[0] for one in desk.log], ["cp-start", "cp-complete"])
        self.assertIn("its answer ends with `fault 41`", self.printed_text())


@BY_TRACE
class Order(Skin):
    """What is stored, synced and sent, in which order, by the system calls."""

    def test_an_agent_stores_before_it_sends_and_before_it_runs(self):
        desk = PlainDesk(day_stream({"AA": ""}))
        self.job("AA", "true")
        served = Served(desk, self.room / "desk.socket")
        self.addCleanup(served.close)
        path = record.path_of(str(self.logs), 1)

        def worked():
            agent = self.agent(client.Client(served.path))
            sys.stderr = open(os.devnull, "w", encoding="utf-8")
            end = time.monotonic() + PATIENCE
            while desk_status(served.path) != "C" or agent.state.records:
                agent.step()
                assert time.monotonic() < end
                time.sleep(0.05)

        calls = calls_of(worked)
        self.assertEqual(unsynced(calls), [])
        stored = [place for place, one in enumerate(calls) if one.name == "rename" and one.to == path]
        begins = [place for place, one in enumerate(calls) if one.name == "start"]
        self.assertTrue(stored and begins)
        folders = [place for place, one in enumerate(calls) if one.name == "sync" and one.path == str(self.logs)]
        # the record and its name are on the disk before the start is sent, and that is before the runner
        self.assertLess(stored[0], folders[0])
        sent = [place for place, one in enumerate(calls) if one.name == "send" and folders[0] < place < begins[0]]
        self.assertTrue(sent)
        self.assertEqual([desk.log[0]["statement"].split()[0], len(desk.log)], ["cp-start", 2])

    def test_a_runner_stores_that_the_job_begins_before_it_does(self):
        self.job("AA", "true")
        one = Record(1, "AA", "2024-01-01/08.00", "k", 0, None)
        record.write(str(self.logs), one)
        number = record.open_log(str(self.logs), 1)
        self.addCleanup(os.close, number)
        path = record.path_of(str(self.logs), 1)
        calls = calls_of(lambda: runner.main(str(self.logs), "1", str(self.jobs), str(number)))
        self.assertEqual(unsynced(calls), [])
        marks = [one.name for one in calls if one.name == "start" or one.name == "rename" and one.to == path
                 or one.name == "sync" and one.path == str(self.logs)]
        self.assertEqual(marks, ["rename", "sync", "start", "rename", "sync"])
        self.assertEqual(record.read(str(self.logs), 1).status, 0)

    def test_a_journal_has_an_entry_on_the_disk_before_it_returns(self):
        path = self.room / "journal"
        one = entry.Entry(1, "2024-01-01T08:00:00Z", "me", "k", 500_000_001, b"cp-fail --app AA --ia 2024-01-01/08.00")
        kept = journal.Journal(str(path))
        kept.put([one])
        self.addCleanup(kept.close)

        def put():
            journal.Journal(str(path)).put([dataclasses.replace(one, seq=2, key="l", job=500_000_002)])
            os._exit(0)

        def replied():
            journal.Journal(str(path)).keep_replies([journal.JournalReply(1, "refused 22", None)])
            os._exit(0)

        for what in (put, replied):
            calls = [(call.name, os.path.basename(call.path)) for call in calls_of(what)
                     if call.path.startswith(str(path)) and not call.path.endswith("-shm")]
            self.assertIn(("write", "journal-wal"), calls)
            self.assertEqual(calls[-1], ("sync", "journal-wal"), calls)
        self.assertEqual(kept.position(), 2)

    def test_what_is_renamed_is_synced_before(self):
        """A file that is replaced whole, by the one function for it."""
        path = str(self.room / "file")
        for text in (b"first", b"second"):
            calls = calls_of(lambda text=text: atomic_files.replace(path, text))
            self.assertEqual([one.name for one in calls], ["write", "sync", "rename", "sync"])
            self.assertEqual(unsynced(calls), [])
            self.assertEqual(Path(path).read_bytes(), text)


def desk_status(path):
    """The status of the first row of a desk."""
    return executor.desk_queries.DeskQueries(client.Client(path)).rows()[0][0].status


if __name__ == "__main__":
    unittest.main()
