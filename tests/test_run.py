"""./plan run: what it shows, when it asks, what it runs, and its exit status."""

import contextlib
import io
import os
import pty
import re
import select
import sqlite3
import subprocess
import tempfile
import time
import unittest
from contextlib import closing
from pathlib import Path

from support import desks, expected, plans
from support.plans import plain

from opcplan.commands import run
from opcplan.desk import client

from test_check import BASE, HOLIDAY
from test_what_if import table_shown, table_wanted


@unittest.skipUnless(plans.PROGRAM.exists(), "opcplan is not built")
class Run(unittest.TestCase):
    def setUp(self):
        room = tempfile.TemporaryDirectory(prefix="run-")
        self.addCleanup(room.cleanup)
        self.room = Path(room.name)
        self.file = plans.copy_of(plans.of_stream(BASE), self.room)

    def asked(self, text, *words, file=None, program=plans.PROGRAM):
        stream = self.room / "x.in"
        stream.write_bytes(plans.as_bytes(text))
        return plans.plan("run", file or self.file, stream, "--program", program, *words, stdin=subprocess.DEVNULL)

    def lists(self, file):
        """All that a plan's statements show, by opcplan."""
        asked = b"".join(f"list {what}\n".encode() for what in ("ltp", "cp", "history", "deletions", "links"))
        ran = subprocess.run([plans.PROGRAM, "--db", file], input=asked, capture_output=True, check=False)
        return ran.stdout.decode().splitlines()

    def script(self, text):
        path = self.room / "program"
        path.write_text(f"#!/bin/sh\n{text}\n", encoding="utf-8")
        path.chmod(0o755)
        return path

    def test_it_shows_what_a_calendar_loses_and_runs_as_opcplan_does(self):
        before = plans.planner_of(BASE)
        after = before.copy()
        made, withdrawn = map(int, re.findall("[0-9]+", plain.run(HOLIDAY.encode(), after)[-1]))
        ran = self.asked(HOLIDAY, "--yes")
        self.assertEqual((ran.returncode, ran.stderr), (0, ""))
        self.assertTrue(ran.stdout.startswith("line 1: drops 20 entries of DEFAULT: SAT, SUN, 2026-01-01,"))
        # what a line tells isn't told again, and the name stands once before what it doesn't tell
        self.assertEqual(ran.stdout.count("drops 20 entries"), 1)
        self.assertIn("\nDefinitions:\n  calendars changed:\n    DEFAULT: adds 1 entry: 2026-11-18 FREE\n\n",
                      ran.stdout)
        self.assertRegex(ran.stdout, f"\n *{made}  new -> long-term plan\n")
        self.assertRegex(ran.stdout, f"\n *{withdrawn}  long-term plan -> withdrawn\n")
        wanted = table_wanted(before, after)
        table = table_shown(ran.stdout.partition("\n\nok ")[0])
        self.assertEqual(table[:-1], wanted[:20])
        self.assertEqual(" ".join(table[-1]), f"and {len(wanted) - 20} more, which `./plan what-if` shows")
        self.assertTrue(ran.stdout.endswith(f"\n\nok defined 1\nok made {made} withdrawn {withdrawn}\n"))
        listed = plain.run(b"list ltp\nlist cp\nlist history\nlist deletions\nlist links\n", after.copy())
        self.assertEqual(self.lists(self.file), listed)

    def test_a_moved_deadline_is_shown(self):
        text = ("define run-cycles --job 20\nREPORT,MONTHLY,N,MONTH,1,25,2026-01-01,,08.00,1,12.00\n/*\n"
                "ltp-modify-all --job 21\n")
        ran = self.asked(text, "--yes")
        self.assertIn("line 2: moves the deadline of run cycle MONTHLY of REPORT: 16.00 of the same day, then 12.00 of "
                      "the\n    next day\n", ran.stdout)
        # the 25th of November is a Wednesday; that of December is free, and rule 1 goes to the 23rd, since the 24th is
        for day, due in (("2026-11-25", "2026-11-26"), ("2026-12-23", "2026-12-24")):
            self.assertIn(f"{day} 08.00  long-term plan  long-term plan  {day} 16.00, then {due} 12.00\n", ran.stdout)
        self.assertIn("2  long-term plan, with another deadline or run cycle\n", ran.stdout)
        self.assertIn("\nDefinitions:\n  run cycles changed, as above: REPORT\n\n", ran.stdout)

    def test_refusals_stand_below_their_answers(self):
        text = "cp-start --app LEDGER --ia 2026-11-03/20.00 --job 20\nlist cp --app SALES\nquit\n"
        ran = self.asked(text, "--yes")
        self.assertEqual((ran.returncode, ran.stderr), (4, ""))
        answers = ran.stdout.partition("\n\nNothing would be different except the kept jobs.\n\n")[2]
        planner = plans.planner_of(BASE).copy()
        first, *rows, last = plain.run(text.encode(), planner)
        self.assertEqual((first, last), ("refused 30 4", "refused 10"))
        self.assertEqual(answers.splitlines(), [
            first,
            "    line 1: cp-start --app LEDGER --ia 2026-11-03/20.00 --job 20",
            "    an occurrence that it waits for isn't complete: serial 4, SALES 2026-11-03 18.00; `./plan why`",
            "    shows all of them",
            *rows,
            last,
            "    line 3: quit",
            "    it isn't a statement: there is no statement `quit`",
        ])

    def test_without_a_terminal_and_yes_nothing_is_done(self):
        before = plans.prints(self.file)
        ran = self.asked(HOLIDAY)
        self.assertEqual(ran.returncode, 1)
        self.assertEqual(ran.stderr, "plan: nothing was done, because there is no terminal to ask on; --yes runs it "
                                     "without asking\n")
        self.assertIn("line 1: drops 20 entries", ran.stdout)
        self.assertEqual({name: seen for name, seen in plans.prints(self.file).items() if name != "x.in"}, before)

    def test_on_a_terminal_it_asks(self):
        for answer, status in (("n", 1), ("", 1), ("yes", 0), ("y", 0)):
            with self.subTest(answer):
                file = plans.copy_of(plans.of_stream(BASE), self.room, f"{answer or 'none'}.db")
                before = self.lists(file)
                (self.room / "x.in").write_text(HOLIDAY, encoding="ascii")
                shown, ended = self.on_terminal(file, answer)
                self.assertEqual(ended, status, shown)
                self.assertIn("Run it? [y/N] ", shown)
                self.assertEqual(self.lists(file) == before, status == 1)
                self.assertEqual("nothing was done" in shown, status == 1)

    def on_terminal(self, file, answer):
        """What is shown on a terminal where the question is answered so, and the exit status."""
        ours, theirs = pty.openpty()
        words = [plans.TOP / "plan", "run", file, self.room / "x.in", "--program", plans.PROGRAM]
        ran = subprocess.Popen(list(map(str, words)), stdin=theirs, stdout=theirs, stderr=theirs)
        os.close(theirs)
        shown, is_answered, end = b"", False, time.monotonic() + 120
        while time.monotonic() < end:
            if not select.select([ours], [], [], 1)[0]:
                continue
            try:
                more = os.read(ours, 65_536)
            except OSError:
                more = b""
            if not more:
                break
            shown += more
            if b"[y/N] " in shown and not is_answered:
                os.write(ours, f"{answer}\n".encode())
                is_answered = True
        os.close(ours)
        return shown.decode(), ran.wait(60)

    def test_no_new_file_without_new(self):
        file = self.room / "plna.db"
        ran = self.asked(BASE, "--yes", file=file)
        self.assertEqual((ran.returncode, ran.stdout), (1, ""))
        self.assertEqual(ran.stderr, f"plan: {file}: there is no such file (did you mean {self.file}?); --new makes a "
                                     "new plan there\n")
        self.assertFalse(file.exists())
        self.assertEqual(self.asked(BASE, "--new", file=file).returncode, 1)
        self.assertFalse(file.exists())
        ran = self.asked(BASE, "--new", "--yes", file=file)
        self.assertEqual(ran.returncode, 0, ran.stderr)
        planner = plain.Planner()
        replies = plain.run(BASE.encode(), planner)
        self.assertTrue(ran.stdout.endswith("\n".join(["", *replies, ""])), ran.stdout)
        self.assertEqual(self.lists(file)[-1], f"ok rows {sum(map(len, planner.in_force.values()))}")
        ran = self.asked(BASE, "--new", "--yes", file=file)
        self.assertEqual((ran.returncode, ran.stdout), (1, ""))
        self.assertIn("the file exists already; leave --new away to run the stream over it", ran.stderr)

    def test_a_plan_alone_lacks_its_stream(self):
        ran = plans.plan("run", self.file, stdin=subprocess.DEVNULL)
        self.assertEqual((ran.returncode, ran.stdout), (2, ""))
        self.assertEqual(ran.stderr, f"plan: {self.file} is a database, so the stream is missing: ./plan run "
                                     f"{self.file} STREAM; ./plan run --help says more\n")

    def test_the_program_gets_the_stream_byte_for_byte(self):
        text = b"* \xc3\xbc\r\nlist cp\r\n\x00\nlist ltp"
        program = self.script(f'cat > {self.room}/got\necho "$@" > {self.room}/words\n'
                              f'exec {plans.PROGRAM} "$@" < {self.room}/got')
        ran = self.asked(text, "--yes", program=program)
        self.assertEqual(ran.returncode, 4, ran.stderr)
        self.assertEqual((self.room / "got").read_bytes(), text)
        self.assertEqual((self.room / "words").read_text(encoding="utf-8"), f"--db {self.file}\n")

    def test_a_plan_that_another_program_holds(self):
        with closing(sqlite3.connect(self.file)) as db:
            db.execute("BEGIN")
            db.execute("SELECT count(*) FROM job").fetchone()
            ran = self.asked("list cp\n", "--yes")
        self.assertEqual(ran.returncode, 8)
        self.assertTrue(ran.stdout.endswith("\nfault 50\n    the file can't be opened or made, isn't a plan, or "
                                            "another program has it open\n"), ran.stdout)
        self.assertIn("opcplan: fault 50:", ran.stderr)

    def test_a_plan_that_is_written_to_meanwhile(self):
        program = self.script(f'{plans.PROGRAM} --db {self.file} < {self.room}/other.in > {self.room}/other\n'
                              f'exec {plans.PROGRAM} "$@"')
        (self.room / "other.in").write_text("ltp-add --app SALES --ia 2026-12-30/09.00 --job 90\n", encoding="ascii")
        ran = self.asked(HOLIDAY, "--yes", program=program)
        self.assertEqual(ran.returncode, 1)
        self.assertIn("nothing was done, because another program wrote to it meanwhile; run it again", ran.stderr)
        self.assertEqual((self.room / "other").read_text(encoding="ascii"), "ok serial 151\n")

    def test_what_cannot_be_run_is_reported(self):
        for words, program in (((), self.room / "none"), ((), self.script("echo hello")), ((), self.script("exit 3"))):
            before = {name: seen for name, seen in plans.prints(self.file).items() if name == "plan.db"}
            ran = self.asked("list cp\n", *words, program=program)
            self.assertEqual(ran.returncode, 1, ran)
            self.assertRegex(ran.stderr, "^plan: ")
            self.assertEqual({name: plans.prints(self.file)[name] for name in before}, before)
        ran = self.asked("list cp\n", "--new", "--yes", file=self.room / "new.db", program=self.script("exit 3"))
        self.assertEqual((ran.returncode, ran.stdout, (self.room / "new.db").exists()), (1, "", False))
        self.assertIn("doesn't make a new plan; it ended with status 3", ran.stderr)
        with open("/dev/full", "w", encoding="ascii") as full:
            given = [plans.TOP / "plan", "run", self.file, self.room / "x.in", "--program", plans.PROGRAM, "--yes"]
            (self.room / "x.in").write_text(HOLIDAY, encoding="ascii")
            ran = subprocess.run(list(map(str, given)), stdout=full, stderr=subprocess.PIPE, check=False,
                                 encoding="utf-8")
        self.assertEqual((ran.returncode, ran.stderr.count("\n")), (1, 1))
        self.assertIn("nothing was done", ran.stderr)

    def test_a_plan_and_a_stream_that_are_exchanged(self):
        (self.room / "x.in").write_text("list cp\n", encoding="ascii")
        for name in ("check", "run", "what-if"):
            ran = plans.plan(name, self.room / "x.in", self.file, "--program", plans.PROGRAM)
            self.assertEqual((ran.returncode, ran.stdout), (1, ""))
            self.assertIn(f"it is not a plan, but {self.file} may be one; did you swap them?", ran.stderr)

    def test_a_stream_from_standard_input(self):
        given = [plans.TOP / "plan", "run", self.file, "-", "--program", plans.PROGRAM]
        for words, status in (((), 1), (("--yes",), 0)):
            ran = subprocess.run(list(map(str, (*given, *words))), input="list cp\n", capture_output=True, check=False,
                                 encoding="utf-8")
            self.assertEqual(ran.returncode, status, ran.stderr)
        self.assertTrue(ran.stdout.endswith("ok rows 6\n"), ran.stdout)

    def test_colours_where_they_are_wanted(self):
        ran = self.asked("cp-start --app SALES --ia 2026-12-30/09.00 --job 91\n", "--yes", "--color", "always")
        self.assertEqual(ran.returncode, 4)
        self.assertIn("\x1b[31mrefused 28\x1b[0m\n", ran.stdout)
        plain = self.asked("cp-start --app SALES --ia 2026-12-30/09.00 --job 91\n", "--yes")
        self.assertNotIn("\x1b", plain.stdout)


class Beside(client.Client):
    """A client of a desk beside which somebody else changes the plan: behind each copy, and before a stream is sent,
    six times at most."""

    def __init__(self, desk, others):
        super().__init__(str(desk.socket))
        self.desk, self.others, self.done, self.copies, self.sent = desk, list(others), [], 0, 0

    def change(self):
        if self.others:
            self.done.append(self.others.pop(0))
            assert self.desk.posted(self.done[-1])[2].startswith("ok serial"), self.done

    def download(self, path, file):
        found = super().download(path, file)
        self.copies += 1
        self.change()
        return found

    def statements(self, *given):
        self.sent += 1
        if self.sent <= 6:
            self.change()
        return super().statements(*given)


@unittest.skipIf(desks.why_not(), desks.why_not())
class ByADesk(desks.Case):
    """A stream that a desk does, once it was tried on a copy of its plan."""

    TEXT = plans.stream("monday")
    STREAM = ("define applications\nMORE,A,\n/*\ncp-start --app REPORT --ia 2024-01-01/20.00 --job 700000001\n"
              "cp-start --app REPORT --ia 2024-01-01/20.00\n")
    DONE = ("define applications --job 500000001\nMORE,A,\n/*\n"
            "cp-start --app REPORT --ia 2024-01-01/20.00 --job 700000001\n"
            "cp-start --app REPORT --ia 2024-01-01/20.00 --job 500000003\n")

    def asked(self, *words):
        stream = self.room / "x.in"
        stream.write_text(self.STREAM, encoding="ascii")
        return plans.plan("run", *words, stream, "--program", plans.PROGRAM, text="")

    def test_a_desk_does_what_was_tried(self):
        desk = self.desk()
        ran = self.asked("--desk", desk.socket)
        self.assertEqual(ran.returncode, 1, ran.stderr)
        self.assertIn("applications new: MORE", ran.stdout)
        self.assertIn("line 5: refused 29:", ran.stdout)
        self.assertIn("nothing was done, because there is no terminal to ask on; --yes runs it without "
                      "asking", ran.stderr)
        ran = self.asked(self.plan, "--yes")
        self.assertEqual((ran.returncode, ran.stdout), (1, ""))
        self.assertIn("a desk has it; `./plan run --desk DESK STREAM`", ran.stderr)
        ran = self.asked("--desk", f"http://127.0.0.1:{desk.port}", "--yes")
        self.assertEqual(ran.returncode, 4, ran.stderr)
        answers = [line for line in ran.stdout.splitlines() if line.startswith(("ok", "refused"))]
        planner = plans.planner_of(self.TEXT).copy()
        self.assertEqual(answers, plans.plain.run(self.DONE.encode(), planner))
        self.end(desk)
        self.assertEqual(expected.of_file(self.plan), expected.of_stream(self.TEXT, self.DONE))

    def journal(self):
        """The texts of all changes that a desk did, in order."""
        with closing(sqlite3.connect(f"{self.plan}.journal")) as db:
            return [bytes(text).decode() for (text,) in db.execute("SELECT CAST(text AS BLOB) FROM entry ORDER BY seq")]

    def on_terminal(self, desk, between, answers):
        """What a run by a desk shows on a terminal, and its status: before the answer to each question, a caller asks
        the desk something."""
        ours, theirs = pty.openpty()
        given = [plans.TOP / "plan", "run", "--desk", desk.socket, self.room / "x.in", "--program", plans.PROGRAM]
        ran = subprocess.Popen(list(map(str, given)), stdin=theirs, stdout=theirs, stderr=theirs)
        os.close(theirs)
        shown, asked, end = b"", 0, time.monotonic() + desks.PATIENCE
        while time.monotonic() < end:
            if not select.select([ours], [], [], 1)[0]:
                continue
            try:
                more = os.read(ours, 65_536)
            except OSError:
                break
            shown += more
            if shown.count(b"[y/N] ") > asked:
                self.assertEqual(desk.posted(between[asked])[0], 200)
                os.write(ours, answers[asked].encode() + b"\n")
                asked += 1
        os.close(ours)
        return shown.decode(), ran.wait(60), asked

    def test_what_others_change_between_question_and_answer(self):
        """Where it makes a difference it is asked again, and where it makes none it is not."""
        (self.room / "x.in").write_text("define applications\nMORE,A,\n/*\n", encoding="ascii")
        for name, between, answers, count in (
            ("another difference", ["define applications\nMORE,A,\n/*", "list cp"], ["y", "y"], 2),
            ("the same difference", ["cp-start --app REPORT --ia 2024-01-01/20.00"], ["y"], 1),
            ("another difference, declined", ["define applications\nMORE,A,\nLESS,A,\n/*", "list cp"], ["y", "n"], 2),
        ):
            with self.subTest(name):
                self.plan = plans.copy_of(plans.of_stream(self.TEXT), self.room, f"{len(name)}.db")
                desk = self.desk()
                shown, status, asked = self.on_terminal(desk, between, answers)
                self.assertEqual((asked, status), (count, 1 if answers[-1] == "n" else 0), shown)
                self.assertIn("somebody changed the plan of", shown)
                self.assertIn("0 of 1 statements are done", shown)
                found = self.journal()
                self.assertEqual(len(found), 1 if answers[-1] == "n" else 2, found)
                self.end(desk)

    def test_what_others_send_between_the_statements(self):
        """Each statement is done once and in order, whatever others ask between them."""
        count = 150
        own = [f"cp-add --app REPORT --ia 2024-01-01/{place // 60 + 1:02}.{place % 60:02}" for place in range(count)]
        (self.room / "x.in").write_text("".join(f"{line}\n" for line in own), encoding="ascii")
        desk = self.desk()
        given = [plans.TOP / "plan", "run", "--desk", desk.socket, self.room / "x.in", "--program", plans.PROGRAM]
        ran = subprocess.Popen([*map(str, given), "--yes"], stdout=subprocess.PIPE, stderr=subprocess.PIPE, text=True)
        desk.comes(lambda found: found["position"] >= 5)
        self.assertRegex(desk.posted("cp-add --app REPORT --ia 2024-01-01/23.59")[2], "^ok serial")
        output, said = ran.communicate(timeout=desks.PATIENCE)
        self.assertEqual(ran.returncode, 0, said)
        found = [text.partition(" --job ")[0] for text in self.journal()]
        place = found.index("cp-add --app REPORT --ia 2024-01-01/23.59")
        self.assertLess(place, count, "the other statement came behind all")
        self.assertEqual([text for text in found if text != found[place]], own)
        self.assertIn(f"meanwhile: {place} of {count} statements are done; the rest is tried", said)
        self.assertEqual(sum(line.startswith("ok serial") for line in output.splitlines()), count)
        texts = "".join(f"{text}\n" for text in self.journal())
        self.end(desk)
        self.assertEqual(expected.of_file(self.plan), expected.of_stream(self.TEXT, texts))

    def test_a_change_of_others_before_each_request(self):
        """What has nothing to do with the stream costs no new trial, and what has, one; all is done once and in
        order."""
        own = [f"cp-{what} --app REPORT --ia 2024-01-01/20.00" for what in ("start", "fail", "reset", "start")]
        own.append("cp-add --app REPORT --ia 2024-01-01/19.00")
        (self.room / "x.in").write_text("".join(f"{line}\n" for line in own), encoding="ascii")
        near = "cp-add --app {} --ia 2024-01-01/{:02}.30"
        for name, app, most, copies in (("apart", "MORE", 30, 1), ("near", "REPORT", 5, 4)):
            with self.subTest(name):
                self.plan = plans.copy_of(plans.of_stream(self.TEXT), self.room, f"{name}.db")
                desk = self.desk()
                desk.posted("define applications\nMORE,A,\n/*\n")
                others = [near.format(app, hour) for hour in range(23)][:most]
                beside, said = Beside(desk, others), io.StringIO()
                with contextlib.redirect_stdout(io.StringIO()), contextlib.redirect_stderr(said):
                    status = run.run_by_desk(run.Settings(None, str(self.room / "x.in"), str(plans.PROGRAM),
                                                          is_agreed=True), beside)
                self.assertEqual((status, beside.copies), (0, copies), said.getvalue())
                self.assertEqual(said.getvalue().count("the rest is tried on the plan as it is now"), copies - 1)
                found = [text.partition(" --job ")[0] for text in self.journal()][1:]
                self.assertEqual([text for text in found if text in own], own)
                self.assertEqual([text for text in found if text not in own], beside.done)
                self.assertGreaterEqual(len(beside.done), 5)
                texts = "".join(f"{text}\n" for text in self.journal())
                self.end(desk)
                self.assertEqual(expected.of_file(self.plan), expected.of_stream(self.TEXT, texts))

    def test_wrong_words_and_a_desk_that_is_away(self):
        for words, status in (((), 2), ((self.plan, "--desk", "127.0.0.1:1"), 2),
                              (("--desk", "127.0.0.1:1", "--new"), 2), (("--desk", "127.0.0.1:1", "--yes"), 1),
                              (("--desk", "x:y"), 1)):
            ran = self.asked(*words)
            self.assertEqual((ran.returncode, ran.stdout, ran.stderr.count("\n")), (status, "", 1), ran.stderr)


if __name__ == "__main__":
    unittest.main()
