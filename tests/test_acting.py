"""./plan rerun, move, cancel, undo and so on: over a file and at a desk, stopped after each statement, and what they
say if nothing is done."""

import contextlib
import fcntl
import io
import json
import os
import pty
import re
import select
import signal
import sqlite3
import subprocess
import tempfile
import termios
import unittest
from pathlib import Path
from unittest import mock

from support import act_worlds, desks, expected, plans

from opcplan import __main__ as program
from opcplan.acts import steps, verbs
from opcplan.acts.verbs import Intention
from opcplan.acts.world import World
from opcplan.desk import client

import opcplan

# PAY, then BANK, then MAIL, on each day
PLAN = """define periods --job 1
DAY,A,2026-01-01,1
/*
define applications --job 2
PAY,A,
BANK,A,
MAIL,A,
/*
define run-cycles --job 3
PAY,RC,N,DAY,3,1,2026-01-01,,06.00,0,22.00
BANK,RC,N,DAY,3,1,2026-01-01,,07.00,0,23.00
MAIL,RC,N,DAY,3,1,2026-01-01,,08.00,1,06.00
/*
define predecessors --job 4
BANK,PAY
MAIL,BANK
/*
ltp-create --from 2026-11-23 --to 2026-11-30 --job 5
dp-extend --to 2026-11-25/00.00 --job 6
""" + "".join(f"cp-{what} --app {app} --ia 2026-11-23/0{hour}.00 --job {number}\n" for hour, app, what, number in (
    (6, "PAY", "start", 60), (6, "PAY", "complete", 61), (7, "BANK", "start", 70), (7, "BANK", "complete", 71),
    (8, "MAIL", "start", 80), (8, "MAIL", "complete", 81)))
# does the first lines of a stream as they come, and is then killed
STOPPED = """#!/bin/sh
sed -u %s | %s "$@" 2>&1
kill -9 $$
"""


def plan(*words):
    """What ./plan answers to its words, run in this process; it may print bytes too."""
    out, err = (io.TextIOWrapper(io.BytesIO(), encoding="utf-8") for _ in "12")
    with contextlib.redirect_stdout(out), contextlib.redirect_stderr(err):
        status = program.status_of([str(word) for word in words])
    texts = []
    for one in (out, err):
        one.flush()
        texts.append(one.buffer.getvalue().decode())
    return subprocess.CompletedProcess(words, status, *texts)


class Case(unittest.TestCase):
    def setUp(self):
        room = tempfile.TemporaryDirectory(prefix="acting-")
        self.addCleanup(room.cleanup)
        self.room = Path(room.name)
        given = mock.patch.dict(os.environ, {"XDG_STATE_HOME": str(self.room / "state")})
        given.start()
        self.addCleanup(given.stop)
        os.environ.pop("OPCPLAN_DESK", None)
        self.plan = plans.copy_of(plans.of_stream(PLAN), self.room)
        self.words = ("--program", plans.PROGRAM)

    def ask(self, verb, *words, status=0, more=("--yes",)):
        """What a verb prints; its status is asked for."""
        ran = plan(verb, self.plan, *words, *self.words, *more)
        self.assertEqual(ran.returncode, status, (ran.stdout, ran.stderr))
        return ran

    def assert_plan(self, *lines):
        """Asks that the plan has what these statements make of the first one, whatever their job numbers are."""
        stream = "".join(f"{line} --job {number}\n" for number, line in enumerate(lines, 700_000_000))
        self.assertEqual(expected.of_file(self.plan), expected.of_stream(PLAN, stream))

    def jobs(self, asked="count(*)"):
        """How many jobs the plan keeps, or something else of them."""
        with contextlib.closing(sqlite3.connect(plans.copy_of(self.plan, self.room, "jobs.db"))) as db:
            return db.execute(f"SELECT {asked} FROM job").fetchone()[0]

    def states(self):
        """The notes of acts that were begun."""
        folder = self.room / "state" / "opcplan" / "acts"
        return sorted(os.listdir(folder)) if folder.exists() else []


@unittest.skipUnless(plans.PROGRAM.exists(), "opcplan is not built")
class OverAFile(Case):
    def test_a_week_without_a_serial(self):
        """Worked by hand from the rules of the statements."""
        self.ask("rerun", "pay", "2026-11-23")
        self.ask("complete", "MAIL", "2026-11-24", "--chain")
        self.ask("cancel", "PAY", "2026-11-28")
        self.ask("move", "BANK", "2026-11-29/07.00", "09.30")
        self.ask("add", "MAIL", "2026-11-24", "12.00")
        self.ask("start", "PAY", "06.01")
        self.ask("fail", "PAY")
        self.ask("reset", "PAY")
        key = "--app PAY --ia 2026-11-23/06.01"
        lines = [f"cp-add {key}"]
        for app, hour in (("PAY", 6), ("BANK", 7), ("MAIL", 8)):
            lines += [f"cp-{what} --app {app} --ia 2026-11-24/0{hour}.00" for what in ("start", "complete")]
        lines += ["ltp-delete --app PAY --ia 2026-11-28/06.00"]
        first = "".join(f"{line} --job {number}\n" for number, line in enumerate(lines, 700_000_000))
        moved = ("define run-cycles --job 800000001\nBANK,NOT1,X,DAY,3,1,2026-11-29,2026-11-30,07.00,,\n"
                 "BANK,ONCE1,N,DAY,3,1,2026-11-29,2026-11-30,09.30,0,23.00\n"
                 "BANK,RC,N,DAY,3,1,2026-01-01,,07.00,0,23.00\n/*\nltp-modify-one --app BANK --job 800000002\n")
        last = "".join(f"{line} --job {number}\n" for number, line in enumerate(
            ["cp-add --app MAIL --ia 2026-11-24/12.00", *(f"cp-{what} {key}" for what in ("start", "fail", "reset"))],
            800_000_003))
        self.assertEqual(expected.of_file(self.plan), expected.of_stream(PLAN, first, moved, last))
        self.assertEqual(self.states(), [])

    def test_it_shows_and_does_nothing(self):
        before = plans.prints(self.plan)
        ran = self.ask("rerun", "PAY", "2026-11-23", "--with-followers", more=("--dry-run",))
        self.assertIn("PAY 2026-11-23 06.01 is made", ran.stdout)
        self.assertIn("MAIL 2026-11-23 08.01 waits for BANK 2026-11-23 07.01", ran.stdout)
        self.assertIn("it is usually due 22.00", ran.stdout)
        self.assertIn("3 statements:", ran.stdout)
        ran = self.ask("rerun", "PAY", "2026-11-23", more=(), status=1)
        self.assertIn("nothing was done, because there is no terminal to ask on", ran.stderr)
        self.assertEqual(plans.prints(self.plan), before)

    def test_several_and_none(self):
        for words, status, out, err in (
            (("start", "MAIL"), 1, "", "MAIL 2026-11-24 08.00 waits for BANK 2026-11-24 07.00"),
            (("rerun", "PAX"), 1, "", "isn't defined (did you mean PAY?)"),
            (("cancel", "PAY", "2026-12-24"), 1, "", "the last before it is 2026-11-30 06.00"),
            (("start", "PAY", "2026-11-23"), 1, "", "is complete, in the current plan, so `start` isn't for it"),
            (("move", "PAY", "2026-11-24", "2026-12-24"), 1, "", "the plan goes from 2026-11-23 to 2026-11-30"),
            (("add", "PAY", "2026-11-24/06.00"), 1, "", "PAY 2026-11-24/06.00 is there already"),
            (("undo",), 1, "", "has no journal beside it"),
            (("move", "PAY"), 2, "", "needs the occurrence, and where it is moved to"),
            (("add", "PAY"), 2, "", "needs an application, and the moment"),
            (("start", "P-Y"), 2, "", "names no occurrence"), (("start",), 2, "", "needs the occurrence"),
            (("move", "PAY", "2026-11-24", "06.70"), 2, "", "there is no 06.70"),
        ):
            ran = self.ask(*words, status=status)
            self.assertIn(err, ran.stderr, words)
            self.assertEqual((ran.stdout, ran.stderr.count("\n")), (out, 1), (words, ran.stderr))
        ran = self.ask("cancel", "BANK", "07.00", status=0)
        self.assertIn("BANK 2026-11-24 07.00 waits", ran.stdout)
        ran = self.ask("cancel", "BANK", "07.00", status=1)
        self.assertEqual(ran.stdout.splitlines()[0], "1  BANK 2026-11-25 07.00  planned, serial 8")
        self.assertIn("6 occurrences fit BANK 07.00; name one of them", ran.stderr)

    def test_the_same_call_goes_on_wherever_it_was_stopped(self):
        calls = (("rerun", "PAY", "2026-11-23", "--with-followers"), ("complete", "MAIL", "2026-11-24", "--chain"),
                 ("move", "BANK", "2026-11-24", "2026-11-28/09.00"))
        wanted = {"rerun": Intention("rerun", "PAY 2026-11-23", followers=True),
                  "complete": Intention("complete", "MAIL 2026-11-24", chain=True),
                  "move": Intention("move", "BANK 2026-11-24", "2026-11-28/09.00")}
        for verb, *words in calls:
            act = verbs.act_of(World(act_worlds.Source(PLAN)), wanted[verb])
            whole = steps.numbered(act.steps, range(700_000_000, 700_000_100))
            lengths = [len(step.text.splitlines()) for step in act.steps]
            for count in range(len(lengths) + 1):
                with self.subTest(verb=verb, count=count):
                    self.plan = plans.copy_of(plans.of_stream(PLAN), self.room)
                    self.words = ("--program", self.stopped(sum(lengths[:count])))
                    ran = self.ask(verb, *words, status=8)
                    self.assertIn("type the same command again", ran.stderr)
                    self.words = ("--program", plans.PROGRAM)
                    ran = self.ask(verb, *words)
                    self.assertEqual(f"{count} of its {len(lengths)} statements" in ran.stdout, count > 0, ran.stdout)
                    self.assertEqual(expected.of_file(self.plan), expected.of_stream(PLAN, whole))
                    self.assertEqual(self.jobs(), plans.as_bytes(PLAN + whole).count(b" --job "))
                    self.assertEqual(self.states(), [])

    def stopped(self, lines, by=""):
        """A program that does the first lines of a stream and is killed; then somebody does a statement."""
        stopped = self.room / "stopped"
        text = STOPPED % (f"{lines}q" if lines else "-n 1q", plans.PROGRAM)
        if by:
            text = text.replace("kill", f"echo '{by}' | {plans.PROGRAM} \"$@\" >&2\nkill")
        stopped.write_text(text, encoding="ascii")
        stopped.chmod(0o755)
        return stopped

    def test_somebody_changes_the_plan_between_a_kill_and_the_same_call(self):
        """The cases and their results are those of the rules."""
        rerun = [f"cp-add --app {app} --ia 2026-11-23/{hour}.01" for hour, app in (("06", "PAY"), ("07", "BANK"), (
            "08", "MAIL"))]
        move = ["cp-add --app BANK --ia 2026-11-24/09.30", "cp-delete --app BANK --ia 2026-11-24/07.00"]
        cases = (
            (("rerun", "PAY", "2026-11-23", "--with-followers"), rerun, 2, "cp-start --app PAY --ia 2026-11-24/06.00",
             ""),
            (("rerun", "PAY", "2026-11-23", "--with-followers"), rerun, 1, rerun[1], "would be refused 27 now: "),
            (("rerun", "PAY", "2026-11-23", "--with-followers"), rerun, 1, rerun[0].replace("add", "delete"),
             "what was done of it has been taken back since"),
            (("move", "BANK", "2026-11-24/07.00", "09.30"), move, 1, move[1], "would be refused 28 now: "),
            (("move", "BANK", "2026-11-24/07.00", "09.30"), move, 1, "cp-fail --app PAY --ia 2026-11-24/06.00", ""))
        for call, lines, count, by, why in cases:
            with self.subTest(call=call[0], by=by):
                self.plan = plans.copy_of(plans.of_stream(PLAN), self.room)
                self.words = ("--program", self.stopped(count, f"{by} --job 900000000"))
                self.ask(*call, status=8)
                self.words = ("--program", plans.PROGRAM)
                ran = self.ask(*call, status=1 if why else 0)
                self.assertIn(f"{count} of its {len(lines)} statements", ran.stdout)
                self.assert_plan(*lines[:count], by, *([] if why else lines[count:]))
                self.assertEqual(self.states(), [])
                if why:
                    self.assertIn(why, ran.stderr)
                    self.assertIn(" So nothing more was done", ran.stderr)
                    ran = plan(*call[:1], self.plan, *call[1:], *self.words, "--dry-run")
                    self.assertNotIn("was stopped", ran.stdout)  # the next call begins anew

    def test_an_act_goes_no_further_than_its_first_refusal(self):
        """Somebody takes the place of the new run just before opcplan gets the first statement."""
        line = "cp-add --app BANK --ia 2026-11-24/09.30"
        first = self.room / "first"
        first.write_text(f"#!/bin/sh\necho '{line} --job 900000000' | {plans.PROGRAM} \"$@\" >/dev/null\n"
                         f"exec {plans.PROGRAM} \"$@\"\n", encoding="ascii")
        first.chmod(0o755)
        self.words = ("--program", first)
        ran = self.ask("move", "BANK", "2026-11-24/07.00", "09.30", status=4)
        self.assertEqual(ran.stdout.splitlines()[-1], "refused 27")
        self.assertIn("1 of its 2 statements was left out, because the one before was refused", ran.stderr)
        self.assert_plan(line)
        self.assertEqual(self.states(), [])

    def test_a_kept_job_is_undone_without_a_journal(self):
        self.ask("start", "PAY", "2026-11-24")
        number = self.jobs("max(number)")
        ran = self.ask("undo", "--job", number)
        self.assertIn("cp-fail --app PAY --ia 2026-11-24/06.00, cp-reset", ran.stdout)
        self.assert_plan(*(f"cp-{what} --app PAY --ia 2026-11-24/06.00" for what in ("start", "fail", "reset")))
        self.assertIn("keeps no job 999", self.ask("undo", "--job", "999", status=1).stderr)
        self.assertIn("none that takes `dp-extend` back", self.ask("undo", "--job", "6", status=1).stderr)

    def test_what_is_printed_takes_it_back(self):
        """Without a journal `undo` needs a job number, so the command with it is printed; other acts offer none."""
        ran = self.ask("add", "PAY", "2026-11-27/12.00")
        self.assertIn("`undo --job N` takes it back", ran.stdout)
        job = re.search(r"undo \S+ --job (\d+)` takes it back", ran.stderr)[1]
        self.ask("undo", "--job", job)
        key = "--app PAY --ia 2026-11-27/12.00"
        self.assert_plan(f"ltp-add {key}", f"ltp-delete {key}")
        ran = self.ask("add", "PAY", "2026-11-27/13.00", "--due", "14.00")
        self.assertIn("only with a journal", ran.stdout)
        self.assertEqual(ran.stderr, "")

    def test_a_plan_that_is_not_there(self):
        ran = plan("rerun", self.room / "no.db", "PAY", *self.words)
        says = f"plan: {self.room}/no.db: there is no such file (did you mean {self.plan}?)\n"
        self.assertEqual((ran.returncode, ran.stderr), (1, says))

    def test_why_and_send_take_the_same_texts(self):
        ran = plan("why", self.plan, "pay", "2026-11-24")
        self.assertTrue(ran.stdout.startswith("PAY 2026-11-24 06.00 waits in the current plan (serial 4,"), ran.stdout)
        ran = plan("why", self.plan, "PAY", "06.00")
        self.assertEqual((ran.returncode, ran.stdout.splitlines()[:2]), (1, [
            "2 occurrences fit PAY 06.00; name one of them:", "1  PAY 2026-11-23 06.00  complete, serial 1"]))
        ran = plan("send", "--db", self.plan, "--program", plans.PROGRAM, "start", "PAY")
        self.assertEqual((ran.returncode, ran.stdout), (0, "ok serial 4 status S\n"), ran.stderr)
        for words, text in ((("complete", "MAIL", "2026-11-24"), "MAIL 2026-11-24 08.00 waits"),
                            (("reset", "PAX"), "isn't defined (did you mean PAY?)")):
            ran = plan("send", "--db", self.plan, "--program", plans.PROGRAM, *words)
            self.assertEqual((ran.returncode, ran.stdout), (2, ""))
            self.assertIn(text, ran.stderr)

    def test_scripts_have_it(self):
        with opcplan.Plan(str(self.plan)) as held:
            act = held.act("rerun", "PAY 2026-11-23", followers=True)
            self.assertEqual(act.stream.count("cp-add"), 3)
            self.assertEqual([(was, row.key, row.status) for was, row in act.changes][0],
                             (None, "--app PAY --ia 2026-11-23/06.01", "W"))
            self.assertEqual(act.inverse.count("cp-delete"), 3)
            with self.assertRaises(opcplan.Plan.NotDoable) as several:
                held.act("cancel", "PAY 2026-11-24/09.00")
            self.assertEqual(several.exception.choices, ())
            with self.assertRaises(ValueError):
                held.act("go", "PAY")


class Terminal:
    """A run of ./plan at a terminal of its own, on which somebody types."""

    def __init__(self, words, environment):
        self.keys, lower = pty.openpty()
        self.said = b""
        self.ran = subprocess.Popen(
            [plans.TOP / "plan", *map(str, words)], stdin=lower, stdout=subprocess.PIPE, stderr=lower,
            env={**os.environ, **environment}, start_new_session=True,
            preexec_fn=lambda: fcntl.ioctl(0, termios.TIOCSCTTY, 0))
        os.close(lower)

    def type(self, question, keys):
        """Types keys, once a question is asked."""
        while question.encode() not in self.said:
            assert select.select([self.keys], [], [], 120)[0], self.said
            self.said += os.read(self.keys, 4096)
        self.said = b""
        os.write(self.keys, keys)

    def end(self):
        """The exit status, and what is printed and said."""
        out = self.ran.communicate(timeout=120)[0].decode()
        with contextlib.suppress(OSError):  # nobody has the other end
            while select.select([self.keys], [], [], 0)[0] and (more := os.read(self.keys, 4096)):
                self.said += more
        os.close(self.keys)
        return self.ran.returncode, out, self.said.decode("utf-8", "replace").replace("\r\n", "\n")


END, CTRL_C, WHICH, DO_IT = b"\x04", b"\x03", "Which one? [1-2] ", "Do it? [y/N] "


@unittest.skipUnless(plans.PROGRAM.exists(), "opcplan is not built")
class AtATerminal(Case):
    """Two runs of PAY at 06.00 are in the current plan, one complete: `rerun PAY 2026-11-23` is for one, and `cancel
    PAY 06.00` is for the one of the 24th; after `dp-extend` there are two that wait."""

    def setUp(self):
        super().setUp()
        self.more = "dp-extend --to 2026-11-26/00.00 --job 90\n"
        self.plan = plans.copy_of(plans.of_stream(PLAN + self.more), self.room)

    def typed(self, *answers):
        """What becomes of `cancel PAY 06.00`, if somebody types answers to its questions."""
        terminal = Terminal(["cancel", self.plan, "PAY", "06.00", *self.words], {})
        for question, keys in answers:
            terminal.type(question, keys)
        return terminal.end()

    def test_which_one(self):
        before = expected.of_file(self.plan)
        for keys, why in ((b"3\n", "because '3' isn't a number from 1 to 2"), (b"0\n", "because '0' isn't a number"),
                          (b"\n", "nothing was done\n"), ("\u00b2\n".encode(), "isn't a number"),
                          (b"\xff1\n", "isn't a number"), (b"y\n", "isn't a number"), (END, "nothing was done\n")):
            with self.subTest(keys=keys):
                status, out, said = self.typed((WHICH, keys))
                self.assertEqual((status, out.splitlines()), (1, [
                    "1  PAY 2026-11-24 06.00  waiting, serial 4", "2  PAY 2026-11-25 06.00  waiting, serial 7"]))
                self.assertIn(why, said)
                self.assertIn("nothing was done", said)
                self.assertNotIn("Traceback", said)
        self.assertEqual(expected.of_file(self.plan), before)
        self.assertEqual(self.states(), [])

    def test_ctrl_c_at_each_question(self):
        before = expected.of_file(self.plan)
        for answers in (((WHICH, CTRL_C),), ((WHICH, b"2\n"), (DO_IT, CTRL_C))):
            status, _, said = self.typed(*answers)
            self.assertEqual(status, -signal.SIGINT)
            self.assertNotIn("Traceback", said)
        self.assertEqual(expected.of_file(self.plan), before)
        self.assertEqual(self.states(), [])

    def test_one_is_chosen(self):
        before = expected.of_file(self.plan)
        for keys, why in ((b"n\n", "nothing was done"), (b"\n", "nothing was done"), (END, "nothing was done")):
            self.assertEqual(self.typed((WHICH, b"2\n"), (DO_IT, keys))[0], 1)
            self.assertEqual(expected.of_file(self.plan), before)
        status, out, _ = self.typed((WHICH, b" 2 \n"), (DO_IT, b"y\n"))
        self.assertEqual((status, out.splitlines()[-1]), (0, "ok serial 7 status D"))
        self.assertIn("PAY 2026-11-25 06.00 waits in the current plan (serial 7).", out)
        self.assertEqual(expected.of_file(self.plan), expected.of_stream(
            PLAN, self.more, "cp-delete --app PAY --ia 2026-11-25/06.00 --job 700000000\n"))
        self.assertEqual(self.states(), [])


@unittest.skipIf(desks.why_not(), desks.why_not())
class AtADesk(desks.Case):
    TEXT = PLAN.encode()

    def setUp(self):
        super().setUp()
        given = mock.patch.dict(os.environ, {"XDG_STATE_HOME": str(self.room / "state")})
        given.start()
        self.addCleanup(given.stop)
        self.serving = self.desk()
        self.script = opcplan.Desk(self.serving.socket)

    def ask(self, verb, *words, status=0, more=("--yes",)):
        ran = plan(verb, "--desk", self.serving.socket, *words, *more)
        self.assertEqual(ran.returncode, status, (ran.stdout, ran.stderr))
        return ran

    def test_verbs_and_undo(self):
        ran = self.ask("rerun", "PAY", "2026-11-23", "--with-followers")
        self.assertIn("ok serial 25\nok serial 26\nok serial 27\n", ran.stdout)
        self.assertEqual([(row.key, row.status) for row in self.script.rows("cp", app="MAIL", status="W")],
                         [("--app MAIL --ia 2026-11-23/08.01", "W"), ("--app MAIL --ia 2026-11-24/08.00", "W")])
        ran = self.ask("undo")  # the whole act
        self.assertEqual(ran.stdout.count("status D"), 3)
        self.ask("cancel", "PAY", "2026-11-28")
        self.assertIn("would be due 2026-11-29 06.00", self.ask("undo", status=1).stderr)
        self.ask("start", "PAY", "2026-11-24")
        ran = self.ask("undo", "--entry", "8")
        self.assertIn("it takes back `cp-start --app PAY --ia 2026-11-24/06.00", ran.stdout)
        self.assertIn("has changed since", self.ask("undo", "--entry", "8", status=1).stderr)
        self.ask("move", "BANK", "2026-11-28/07.00", "09.00")
        self.assertEqual(self.ask("undo").returncode, 0)
        self.assertEqual([row.ia.hour for row in self.script.rows("ltp", app="BANK", first="2026-11-28",
                                                                  last="2026-11-28")], [7])
        self.end(self.serving)

    def test_the_role_of_each_statement_is_asked_for(self):
        users = self.room / "users"
        users.write_text("anna operate\nbert read\n", encoding="ascii")
        self.end(self.serving)
        desk = self.desk("--users", str(users), "--proxy", desks.own_name(), "--host", "localhost")

        def asked(who, body, **heads):
            caller = client.Client(str(desk.socket))
            try:
                found = caller.request("POST", "/acts", json.dumps(body).encode(), {"X-Forwarded-User": who, **heads})
                return 200, json.loads(found[1])
            except client.RequestRefused as why:
                return why.status, str(why)

        for verb, of, wanted in (("start", "PAY 2026-11-24", (403, 200)), ("cancel", "PAY 2026-11-28", (403, 403))):
            for who, status in zip(("bert", "anna"), wanted):
                found = asked(who, {"verb": verb, "of": of})[1]
                done = asked(who, {"stream": found["act"]["stream"]}, **{"If-Match": found["tag"]})
                self.assertEqual(done[0], status, (verb, who, done))
        self.end(desk)

    def test_a_preview_is_done_in_its_state_alone_and_once(self):
        found = self.act({"verb": "rerun", "of": "PAY 2026-11-23", "followers": True})
        do = {"stream": found["act"]["stream"]}
        self.serving.posted("cp-start --app PAY --ia 2026-11-24/06.00\n")
        self.assertEqual(self.act(do, If_Match=found["tag"]), 412)
        again = self.act({"verb": "rerun", "of": "PAY 2026-11-23", "followers": True})
        self.assertEqual(again["act"], found["act"])
        done = self.act(do, If_Match=again["tag"], Idempotency_Key="act-1")
        self.assertEqual([one["reply"] for one in done["answers"]], ["ok serial 25", "ok serial 26", "ok serial 27"])
        self.assertEqual(self.act(do, If_Match=again["tag"], Idempotency_Key="act-1")["answers"], done["answers"])
        self.assertEqual(self.act({"stream": "cp-start --app PAY --ia 2026-11-23/06.01\n"}, If_Match=again["tag"],
                                  Idempotency_Key="act-1"), 409)
        self.end(self.serving)

    def act(self, body, **heads):
        """The answer to an act, or its status if it is refused."""
        status, _, text = self.serving.asked("POST", "/acts", json.dumps(body), **{"X_Opcplan": "desk", **heads})
        return json.loads(text) if status == 200 else status

    def test_a_call_that_was_stopped_goes_on(self):
        """The answer is lost after the desk has done all, or before it has begun."""
        from opcplan.commands import acting_desk

        class Stopped(Exception):
            pass

        real = acting_desk.asked
        for has_begun in (False, True):
            def asked(desk, body, heads=client.NO_HEADS, has_begun=has_begun):
                if "stream" in body:
                    if has_begun:
                        real(desk, body, heads)
                    raise Stopped
                return real(desk, body, heads)

            with mock.patch.object(acting_desk, "asked", asked), contextlib.suppress(Stopped):
                plan("rerun", "--desk", self.serving.socket, "PAY", "2026-11-23", "--yes")
            ran = self.ask("rerun", "PAY", "2026-11-23")
            self.assertEqual("`rerun PAY 2026-11-23` was stopped: 1 of its 1 statements is done" in ran.stdout,
                             has_begun, ran.stdout)
        self.assertEqual([(row.ia.hour, row.ia.minute) for row in self.script.rows("cp", app="PAY", status="W")],
                         [(6, 1), (6, 2), (6, 0)])
        self.end(self.serving)

    def test_send_takes_the_same_texts(self):
        ran = plan("send", "--desk", self.serving.socket, "start", "pay")
        self.assertEqual((ran.returncode, ran.stdout), (0, "ok serial 4 status S\n"), ran.stderr)
        ran = plan("send", "--desk", self.serving.socket, "delete", "PAY", "2026-11-30")
        self.assertIn("PAY 2026-11-30 06.00 is in the long-term plan", ran.stderr)
        self.assertEqual(ran.returncode, 2)
        self.end(self.serving)

    def test_scripts_have_it(self):
        act = self.script.act("complete", "MAIL 2026-11-24", chain=True, dry_run=True)
        self.assertEqual((act.stream.count("cp-start"), act.answers, act.inverse), (3, (), None))
        self.assertTrue(self.script.act("complete", "MAIL 2026-11-24", chain=True).ok)
        with self.assertRaises(opcplan.Desk.NotDoable) as several:
            self.script.act("cancel", "PAY 06.00")
        self.assertEqual(len(several.exception.choices), 6)
        self.end(self.serving)


if __name__ == "__main__":
    unittest.main()
