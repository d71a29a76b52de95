"""./plan send: statements in words and streams are answered as opcplan answers them, once, also while others have the
file."""

import hashlib
import os
import pwd
import sqlite3
import subprocess
import tempfile
import threading
import unittest
from contextlib import closing
from pathlib import Path

from support import desks, expected, plans

from opcplan.rules import moments

MONDAY = plans.stream("monday")
EXTENDED = b"dp-extend --to 2024-01-03/00.00 --job 10\n"
# a planner that ends as its files say: it takes the first one, prints what is in it, and notes that it ran
STUB = """#!/bin/sh
cat > "$0.read"
echo run >> "$0.runs"
next=$(ls "$0".answer.* | head -n 1)
cat "$next"
status=8
case "$next" in
*held*) echo 'opcplan: fault 50: plan.db: another program has the file open. The file is unchanged' >&2 ;;
*other*) echo 'opcplan: fault 50: plan.db: the file is not a database. It is unchanged' >&2 ;;
*) status=0 ;; esac
rm "$next"
exit $status
"""


@unittest.skipUnless(plans.PROGRAM.exists(), "opcplan is not built")
class Send(unittest.TestCase):
    def setUp(self):
        room = tempfile.TemporaryDirectory(prefix="send-test-")
        self.addCleanup(room.cleanup)
        self.room = Path(room.name)
        self.plan = plans.copy_of(plans.of_worked("monday"), self.room)

    def send(self, *words, text="", db=None, program=plans.PROGRAM, **how):
        return plans.plan("send", "--db", db or self.plan, "--program", program, *words, text=text, **how)

    def jobs(self):
        """The jobs above those of the first stream: number and text."""
        with closing(sqlite3.connect(self.plan)) as db:
            return db.execute("SELECT number, CAST(body AS TEXT) FROM job WHERE number > 9 ORDER BY number").fetchall()

    def stub(self, *answers):
        program = self.room / "stub"
        program.write_text(STUB, encoding="utf-8")
        program.chmod(0o755)
        for number, (kind, text) in enumerate(answers):
            Path(f"{program}.answer.{number}.{kind}").write_text(text, encoding="utf-8")
        return program

    def runs(self, program):
        return Path(f"{program}.runs").read_text(encoding="utf-8").count("run")

    def test_a_statement_in_words(self):
        for words, line in (
            (["start", "report", "2024-01-01/20.00"], "cp-start --app REPORT --ia 2024-01-01/20.00"),
            (["complete", "REPORT", "2024-01-01/20.00", "--job", "70"],
             "cp-complete --app REPORT --ia 2024-01-01/20.00 --job 70"),
            (["dp-extend", "--to", "2024-01-03", "00:00"], "dp-extend --to 2024-01-03/00.00"),
            (["start", "LEDGER", "2024-01-02/18.00"], "cp-start --app LEDGER --ia 2024-01-02/18.00"),
            (["fail", "LEDGER", "2024-01-02", "18.00"], "cp-fail --app LEDGER --ia 2024-01-02/18.00"),
            (["reset", "LEDGER", "2024-01-02/18.00"], "cp-reset --app LEDGER --ia 2024-01-02/18.00"),
            (["delete", "LEDGER", "2024-01-02/18.00"], "cp-delete --app LEDGER --ia 2024-01-02/18.00"),
            (["add", "LEDGER", "2024-01-02/19.00"], "cp-add --app LEDGER --ia 2024-01-02/19.00"),
            (["list", "cp"], "list cp"),
        ):
            number = max([9, *(number for number, _ in self.jobs())]) + 1
            sent = line if line.startswith("list") or "--job" in line else f"{line} --job {number}"
            planner = plans.planner_from(MONDAY)
            plans.plain.run(b"\n".join(text.encode() for _, text in self.jobs()), planner)
            with self.subTest(line):
                ran = self.send(*words)
                self.assertEqual(ran.stdout.splitlines(), plans.plain.run(sent.encode(), planner))
                self.assertEqual((ran.returncode, ran.stderr), (0, f"plan: sends `{sent}`\n" if sent != line else ""))

    def test_a_refusal_is_explained_on_standard_error(self):
        ran = self.send("complete", "REPORT", "2024-01-01/20.00")
        self.assertEqual((ran.returncode, ran.stdout), (4, "refused 29\n"))
        self.assertIn("needs an occurrence that is started (S) or in error (E)", ran.stderr)
        self.assertEqual(ran.stderr[-2:].count("\n"), 1)

    def test_a_refusal_is_explained_by_the_plan(self):
        planner = plans.planner_of(MONDAY)
        self.assertEqual(planner.current[2][1], "W")
        self.assertIn("it has the status W (waiting)", self.send("complete", "REPORT", "2024-01-01/20.00").stderr
                      .replace("\n      ", " "))
        self.assertEqual(self.send("start", "REPORT", "2024-01-01/20.00").stdout, "ok serial 2 status S\n")
        self.assertIn("it has the status S (started)", self.send("start", "REPORT", "2024-01-01/20.00").stderr
                      .replace("\n      ", " "))
        ia = next(row[2] for row in planner.planned.values() if row[1] == "LEDGER")
        ran = self.send("delete", "LEDGER", moments.moment_word(ia))
        self.assertEqual(ran.stdout, "refused 28\n")
        self.assertIn("it is in the long-term plan: `ltp-delete` deletes it there", ran.stderr)

    def test_a_name_that_is_not_defined_takes_no_number(self):
        before = self.jobs()
        for words in (["start", "REPROT", "2024-01-01/20.00"], ["add", "REPROT", "2024-01-02/19.00"],
                      ["cp-start", "--app", "REPROT", "--ia", "2024-01-01/20.00"]):
            ran = self.send(*words)
            self.assertEqual((ran.returncode, ran.stdout), (2, ""), words)
            self.assertEqual(ran.stderr, "plan: the application REPROT isn't defined (did you mean REPORT?); nothing "
                                         "was sent\n")
        self.assertEqual(self.jobs(), before)

    def test_words_as_people_type_them(self):
        key = "--app REPORT --ia 2024-01-01/20.00"
        for words, line in (
            (["start REPORT 2024-01-01/20.00"], f"cp-start {key} --job 10"),
            (["fail", "2"], f"cp-fail {key} --job 11"),
            (["reset", "2", "--job", "12"], f"cp-reset {key} --job 12"),
            (["ltp-add", "ledger", "2024-01-09", "19.00"], "ltp-add --app LEDGER --ia 2024-01-09/19.00 --job 13"),
            (["ltp-delete", "LEDGER", "2024-01-09/19.00"], "ltp-delete --app LEDGER --ia 2024-01-09/19.00 --job 14"),
        ):
            with self.subTest(words):
                planner = plans.planner_from(MONDAY)
                plans.plain.run(b"\n".join(text.encode() for _, text in self.jobs()), planner)
                ran = self.send(*words)
                self.assertEqual(ran.stdout.splitlines(), plans.plain.run(line.encode(), planner), ran.stderr)
                self.assertEqual(self.jobs()[-1][1], line)
        ran = self.send("start", "999")
        self.assertEqual((ran.returncode, ran.stdout), (2, ""))
        self.assertIn("No occurrence has the serial 999: the last one is", ran.stderr)

    def test_a_moment_that_is_none_is_reported(self):
        for words, says in (
            ("start LEDGER 8:30", "it lacks its day: YYYY-MM-DD/08.30"),
            ("start LEDGER today/20.00", "`today` isn't a day: write it as YYYY-MM-DD"),
            ("cp-start --app LEDGER --ia today", "`today` isn't a day: write it as YYYY-MM-DD"),
            ("start LEDGER 05.01.2027/20.00", "write it as 2027-01-05/20.00"),
            ("start LEDGER 2027-01-05/8.00", "write it as 2027-01-05/08.00"),
        ):
            ran = self.send(*words.split())
            self.assertEqual((ran.returncode, ran.stdout), (2, ""), words)
            self.assertIn(f": {says}; nothing was sent\n", ran.stderr)
            self.assertNotIn("--job", ran.stderr)

    def test_an_occurrence_that_nothing_fits_is_reported(self):
        """A minute or a day alone may name one; if none fits, the nearest runs are named. LEDGER arrives at 18.00 on
        each work day of January 2024."""
        for words, says in (
            ("start LEDGER 20.00", "No run of LEDGER arrives then: the last before it is 2024-01-31 18.00"),
            ("start LEDGER 2027-01-05", "No run of LEDGER arrives then: the last before it is 2024-01-31 18.00"),
            ("start LEDGER 05.01.2027", "No run of LEDGER arrives then: the last before it is 2024-01-31 18.00"),
        ):
            ran = self.send(*words.split())
            self.assertEqual((ran.returncode, ran.stdout), (2, ""), words)
            self.assertEqual(f"plan: {says}; nothing was sent\n", ran.stderr)

    def test_an_application_alone_names_its_one_occurrence(self):
        """REPORT has one occurrence that can be started, on 2024-01-01; the others are in the long-term plan."""
        ran = self.send("start", "REPORT")
        self.assertEqual((ran.returncode, ran.stdout.splitlines()), (0, ["ok serial 2 status S"]), ran.stderr)
        self.assertIn("--app REPORT --ia 2024-01-01/20.00", self.jobs()[-1][1])

    def test_a_stream(self):
        text = plans.stream("tuesday")
        copy = plans.copy_of(self.plan, self.room, "copy.db")
        wanted = subprocess.run([plans.PROGRAM, "--db", copy], input=text, capture_output=True, check=False)
        ran = self.send(text=text.decode())
        self.assertEqual((ran.stdout.encode(), ran.returncode), (wanted.stdout, wanted.returncode))
        self.assertEqual(expected.of_file(self.plan), expected.of_stream(MONDAY, text))
        again = self.send(text=text.decode())
        self.assertEqual(expected.of_file(self.plan), expected.of_stream(MONDAY, text, text))
        self.assertEqual(again.stdout.count("ok moved"), 1)

    def test_it_waits_while_another_program_has_the_file(self):
        with expected.held(self.plan, EXTENDED) as program:
            ran = self.send("start", "REPORT", "2024-01-01/20.00")
            self.assertEqual((ran.returncode, ran.stdout), (8, "fault 50\n"))
            self.assertIn(f"{self.plan}: another program has the file open", ran.stderr)
            timer = threading.Timer(0.6, program.stdin.close)
            timer.start()
            ran = self.send("--wait", "30", "start", "REPORT", "2024-01-01/20.00")
            timer.join()
        self.assertEqual((ran.returncode, ran.stdout), (0, "ok serial 2 status S\n"))
        self.assertEqual([number for number, _ in self.jobs()], [10, 11])

    def test_many_at_once(self):
        """Each is answered, none waits for ever, and no two get one number."""
        (self.room / "open").mkdir()
        words = [plans.TOP / "plan", "send", "--db", self.plan, "--program", plans.PROGRAM, "--wait", "250"]
        each = [["add", "LEDGER", f"2024-01-01/{hour:02}.30"] for hour in range(3)]
        each += [["start", "REPORT", "2024-01-01/20.00"]] * 2
        started = [subprocess.Popen(words + one, stdout=subprocess.PIPE, stderr=subprocess.DEVNULL, text=True)
                   for one in each]
        answers = [program.communicate()[0] for program in started]
        self.assertEqual(sum(answer.startswith("ok serial") for answer in answers), 4, answers)
        self.assertEqual(sorted(answers[-2:]), ["ok serial 2 status S\n", "refused 29\n"])
        self.assertEqual([number for number, _ in self.jobs()], list(range(10, 15)))

    def test_nothing_is_run_twice(self):
        held, found = ("held", "fault 50\n"), ("ok", "ok serial 2 status S\n")
        program = self.stub(held, held, found)
        ran = self.send("--wait", "30", "start", "REPORT", "2024-01-01/20.00", program=program)
        self.assertEqual((ran.returncode, ran.stdout, self.runs(program)), (0, found[1], 3))
        for number, answers in enumerate((
            [("other", "fault 50\n"), found],
            [("held", "ok rows 0\nfault 50\n"), found],
            [("held", "fault 41\n"), found],
            [("held", ""), found],
        )):
            with self.subTest(number):
                for name in self.room.glob("stub*"):
                    name.unlink()
                program = self.stub(*answers)
                ran = self.send("--wait", "1", text="cp-start --app REPORT --ia 2024-01-01/20.00 --job 10\n",
                                program=program)
                self.assertEqual((ran.returncode, ran.stdout, self.runs(program)), (8, answers[0][1], 1))

    def test_a_number_that_a_stream_took_meanwhile_is_replaced(self):
        program = self.stub(("ok", "refused 12\n"), ("ok", "ok serial 2 status S\n"))
        ran = self.send("start", "REPORT", "2024-01-01/20.00", program=program)
        self.assertEqual((ran.stdout, self.runs(program)), ("ok serial 2 status S\n", 2))
        for name in self.room.glob("stub*"):
            name.unlink()
        program = self.stub(("ok", "refused 12\n"), ("ok", "ok serial 2 status S\n"))
        ran = self.send("start", "REPORT", "2024-01-01/20.00", "--job", "5", program=program)
        self.assertEqual((ran.stdout, self.runs(program)), ("refused 12\n", 1))

    def test_wrong_words_send_nothing(self):
        before = plans.prints(self.plan)
        for words in (
            ["strt", "REPORT", "2024-01-01/20.00"],
            ["start"],
            ["start", "REPORT", "tomorrow"],
            ["start", "REPORT", "2024-01-01/20.00\nltp-modify-all --job 99"],
            ["start", "RÉPORT", "2024-01-01/20.00"],
            ["start", "REPORT", "2024-01-01/20.00", "--ia", "2024-01-01/21.00"],
            ["start", "REPORT", "2024-01-01/20.00", "--job", "0"],
            ["list", "cp", "--job", "1"],
            ["define", "options", "--job", "10"],
            [""],
            ["*"],
        ):
            ran = self.send(*words)
            self.assertEqual((ran.returncode, ran.stdout), (2, ""), words)
            self.assertRegex(ran.stderr, "^plan: [^\n]*nothing was sent\n$", words)
        for wait in ("-1", "nan", "inf", "soon", ""):
            self.assertEqual(self.send("--wait", wait, "list", "cp").returncode, 2, wait)
        self.assertEqual(plans.prints(self.plan), before)

    def test_no_plan_is_made(self):
        ran = self.send("list", "cp", db=self.room / "none.db")
        self.assertEqual((ran.returncode, ran.stdout, ran.stderr.count("\n")), (8, "", 1))
        self.assertFalse((self.room / "none.db").exists())
        (self.room / "empty.db").touch()
        ran = self.send(db=self.room / "empty.db", text="list cp\n")
        self.assertEqual((ran.returncode, ran.stdout, ran.stderr.count("\n")), (8, "", 1))
        self.assertEqual((self.room / "empty.db").stat().st_size, 0)
        ran = self.send("start", "REPORT", "2024-01-01/20.00", db=self.room)
        self.assertEqual((ran.returncode, ran.stdout, ran.stderr.count("\n")), (8, "", 1))

    def test_names_that_mean_something_to_the_planner(self):
        for name in (":memory:", "file:x.db", "-x.db", "two words.db"):
            plans.copy_of(plans.of_worked("monday"), self.room, name)
            words = [plans.TOP / "plan", "send", f"--db={name}", "--program", plans.PROGRAM, "list", "links"]
            ran = subprocess.run(words, cwd=self.room, capture_output=True, text=True, check=False)
            self.assertEqual((ran.returncode, ran.stderr), (0, ""), name)
            self.assertTrue(ran.stdout.endswith("ok rows 1\n"), ran.stdout)

    def test_standard_output_that_is_full(self):
        with open("/dev/full", "w", encoding="utf-8") as full:
            ran = subprocess.run(
                [plans.TOP / "plan", "send", "--db", self.plan, "--program", plans.PROGRAM, "list", "cp"],
                stdout=full, stderr=subprocess.PIPE, text=True, check=False)
        self.assertEqual(ran.returncode, 8)
        self.assertIn("can't be printed", ran.stderr)
        self.assertNotIn("Traceback", ran.stderr)

    def test_a_stream_without_end_is_not_sent(self):
        with open("/dev/zero", "rb") as zeros:
            ran = subprocess.run([plans.TOP / "plan", "send", "--db", self.plan, "--program", plans.PROGRAM],
                                 stdin=zeros, capture_output=True, text=True, check=False, timeout=60)
        self.assertEqual((ran.returncode, ran.stdout, ran.stderr.count("\n")), (8, "", 1))
        self.assertEqual(self.jobs(), [])

    def test_a_program_that_is_not_there(self):
        ran = self.send("list", "cp", program=self.room / "none")
        self.assertEqual((ran.returncode, ran.stdout, ran.stderr.count("\n")), (8, "", 1))


@unittest.skipIf(desks.why_not(), desks.why_not())
class ToADesk(desks.Case):
    TEXT = MONDAY

    def send(self, *words, **how):
        return plans.plan("send", *words, **how)

    def test_replies_and_statuses_are_those_of_opcplan(self):
        desk = self.desk()
        begun = ["start", "report", "2024-01-01/20.00"]
        ran = self.send("--desk", desk.socket, *begun)
        self.assertEqual((ran.returncode, ran.stdout, ran.stderr), (0, "ok serial 2 status S\n", ""))
        ran = self.send("--desk", f"http://127.0.0.1:{desk.port}", *begun)
        self.assertEqual((ran.returncode, ran.stdout), (4, "refused 29\n"))
        self.assertIn("`cp-start` needs an occurrence that is waiting (W)", ran.stderr)
        text = "list cp\ndefine applications\nA,A,\nB,Z,\n/*\nx\nlist links\n"
        ran = self.send(text=text, env={**os.environ, "OPCPLAN_DESK": f"127.0.0.1:{desk.port}"})
        planner = plans.plain.Planner()
        plans.plain.run(MONDAY + b"cp-start --app REPORT --ia 2024-01-01/20.00 --job 500000001\n", planner)
        wanted = plans.plain.run(text.replace("applications", "applications --job 9000").encode(), planner)
        self.assertEqual((ran.returncode, ran.stdout.splitlines()), (4, wanted))
        self.assertIn("the field `status` is `Z`", ran.stderr)
        self.assertIn("line 6: x\n", ran.stderr)
        for key in ("a", "a"):
            ran = self.send("--desk", desk.socket, "--key", key, "complete", "REPORT", "2024-01-01/20.00")
            self.assertEqual((ran.returncode, ran.stdout), (0, "ok serial 2 status C\n"))
        self.end(desk)

    def test_what_a_desk_does_not_do_is_reported(self):
        tokens = self.room / "tokens"
        tokens.write_text(f"{hashlib.sha256(b'secret').hexdigest()} job operate\n")
        desk = self.desk("--tokens", tokens)
        where = ["--desk", f"http://127.0.0.1:{desk.port}"]
        for words, text, env, message in (
            ([*where, "list", "cp"], None, {}, "the request has no token that this desk knows"),
            ([*where, "dp-replan"], None, {"OPCPLAN_TOKEN": "secret"}, "job may not dp-replan"),
            (where, "define applications --job 7\nA,A,\n", {"OPCPLAN_TOKEN": "secret"}, "nothing was done"),
            ([*where, "list", "cp"], None, {"OPCPLAN_TOKEN_FILE": str(self.room / "none")}, "nothing was sent"),
            (["--desk", str(self.room / "none"), "list", "cp"], None, {}, "nothing was sent"),
            (["--desk", "127.0.0.1:1", "list", "cp"], None, {}, "nothing was sent"),
        ):
            ran = self.send(*words, text=text, env={**os.environ, **env})
            self.assertEqual((ran.returncode, ran.stdout, ran.stderr.count("\n")), (8, "", 1), ran.stderr)
            self.assertIn(message, ran.stderr)
        for words in (["--desk", "ftp://here", "list", "cp"], ["--desk", "x:y", "list", "cp"], ["list", "cp"],
                      [*where, "--key", "a b", "list", "cp"], [*where, "--db", self.plan, "list", "cp"],
                      [*where, "strt"], [*where, "define", "options"]):
            ran = self.send(*words)
            self.assertEqual((ran.returncode, ran.stdout, ran.stderr.count("\n")), (2, "", 1), ran.stderr)
        self.end(desk)
        self.assert_plan()

    def test_it_waits_for_a_desk(self):
        where = f"{self.plan}.socket"
        with subprocess.Popen([plans.TOP / "plan", "send", "--desk", where, "--wait", "60", "start", "REPORT",
                               "2024-01-01/20.00"], stdout=subprocess.PIPE, stderr=subprocess.PIPE, text=True) as sent:
            desk = self.desk()
            errors, wrong = sent.communicate(timeout=120)
        self.assertEqual((sent.returncode, errors, wrong), (0, "ok serial 2 status S\n", ""))
        self.end(desk)

    def test_an_answer_that_breaks_off_is_asked_again(self):
        """A stand-in for a desk that is killed: it knows the application, its first answer to the statement is cut, and
        the second whole, under one key."""
        seen = []
        listener = desks.socket.create_server(("127.0.0.1", 0))
        self.addCleanup(listener.close)

        def answer():
            for body in (b"a\r\nok rows 0\n\r\n0\r\n\r\n", b"14\r\nok serial 2 ",
                         b"15\r\nok serial 2 status S\n\r\n0\r\n\r\n"):
                one, _ = listener.accept()
                with one, one.makefile("rb") as lines:
                    heads = list(iter(lines.readline, b"\r\n"))
                    lines.read(int(next(head.split()[1] for head in heads if head.startswith(b"Content-Length"))))
                    seen.append([head for head in heads if head.startswith(b"Idempotency-Key")])
                    one.sendall(b"HTTP/1.1 200 OK\r\nTransfer-Encoding: chunked\r\n\r\n" + body)

        desk = threading.Thread(target=answer)
        desk.start()
        where = f"127.0.0.1:{listener.getsockname()[1]}"
        ran = self.send("--desk", where, "--wait", "30", "start", "REPORT", "2024-01-01/20.00")
        desk.join(30)
        self.assertEqual((ran.returncode, ran.stdout, ran.stderr), (0, "ok serial 2 status S\n", ""))
        self.assertEqual(len(seen), 3)
        self.assertTrue(seen[1] and seen[1] == seen[2] != seen[0], seen)

    def test_an_application_that_a_desk_lacks_takes_no_number(self):
        desk = self.desk()
        where = ["--desk", desk.socket]
        ran = self.send(*where, "start", "REPROT", "2024-01-01/20.00")
        self.assertEqual((ran.returncode, ran.stdout), (2, ""))
        self.assertIn("the application REPROT isn't defined, or is pending (did you mean REPORT?); nothing was sent",
                      ran.stderr)
        ran = self.send(*where, "start", "REPORT", "2024-01-01/20.00")
        self.assertEqual(ran.stdout, "ok serial 2 status S\n")
        self.end(desk)
        self.assertEqual([number for number, _ in self.kept()], [500_000_001])

    def kept(self):
        """The jobs that a desk numbered: number and text."""
        with closing(sqlite3.connect(self.plan)) as db:
            asked = "SELECT number, CAST(body AS TEXT) FROM job WHERE number > 500000000 ORDER BY number"
            return db.execute(asked).fetchall()

    def test_a_serial_is_taken_by_a_desk(self):
        desk = self.desk()
        for words, status, answer in ((["start", "2"], 0, "ok serial 2 status S\n"),
                                      (["fail", "2"], 0, "ok serial 2 status E\n"),
                                      (["start", "99999"], 2, "")):
            ran = self.send("--desk", desk.socket, *words)
            self.assertEqual((ran.returncode, ran.stdout), (status, answer), ran.stderr)
        self.assertIn("has the serial 99999; nothing was sent", ran.stderr)
        self.end(desk)
        self.assertEqual([text for _, text in self.kept()],
                         [f"cp-{word} --app REPORT --ia 2024-01-01/20.00 --job {500_000_000 + number}"
                          for number, word in enumerate(("start", "fail"), 1)])

    def test_what_a_desk_refuses_is_reported_as_its_plan_is(self):
        """A status since when and by whom, by the journal; and where an occurrence is instead."""
        desk = self.desk()
        where = ["--desk", desk.socket]
        self.send(*where, "start", "REPORT", "2024-01-01/20.00")
        ran = self.send(*where, "start", "REPORT", "2024-01-01/20.00")
        who = pwd.getpwuid(os.geteuid()).pw_name
        self.assertIn("it has the status S (started)\n", ran.stderr)
        self.assertRegex(ran.stderr, rf"    {who} made it so at [0-9]{{4}}-[0-9]{{2}}-[0-9]{{2}} [0-9.]{{8}}, "
                                     r"by `cp-start`, job 500000001\n$")
        ran = self.send(*where, "start", "REPORT", "2024-01-01/21.00")
        self.assertIn("on that day REPORT arrives at 20.00 (is started, in the current plan)", ran.stderr)
        ran = self.send(*where, "delete", "REPORT", "2024-01-19/20.00")
        self.assertIn("it is in the long-term plan: `ltp-delete` deletes it there", ran.stderr)
        self.end(desk)
        ran = self.send("--db", self.plan, "--program", plans.PROGRAM, "start", "REPORT", "2024-01-01/20.00")
        self.assertRegex(ran.stderr, rf"    {who} made it so at [0-9. -]+, by `cp-start`, job 500000001\n")
        os.remove(f"{self.plan}.journal")
        ran = self.send("--db", self.plan, "--program", plans.PROGRAM, "start", "REPORT", "2024-01-01/20.00")
        self.assertIn("    `cp-start`, job 500000001, made it so\n", ran.stderr)


if __name__ == "__main__":
    unittest.main()
