"""./plan as a whole: its help, wrong words, and what each subcommand says of files that are no plan."""

import importlib
import sys
import tempfile
import unittest
from contextlib import closing
from pathlib import Path

from support import TOP, plans
import sqlite3

# the words that each subcommand needs at least, with PLAN for the plan's file and STREAM for a job stream
READERS = {
    "page": ["PLAN", "-o", "OUT"],
    "why": ["PLAN", "LEDGER", "2024-01-01/18.00"],
    "why-day": ["PLAN", "LEDGER", "2024-01-01"],
    "late": ["PLAN", "--now", "2024-01-02/12.00"],
    "rows": ["PLAN"],
    "ready": ["PLAN", "--now", "2024-01-03/12.00"],
    "next-job": ["PLAN"],
    "what-if": ["PLAN", "STREAM"],
    "check": ["PLAN", "STREAM"],
    "run": ["PLAN", "STREAM"],
    "export": ["PLAN", "--csv"],
    "dump": ["PLAN"],
    "backup": ["PLAN", "COPY"],
    "edit": ["PLAN", "calendar", "DEFAULT", "2024-01-05", "free"],
    "import": ["--cron", "CRONTAB", "PLAN"],
    "status": ["PLAN", "--now", "2024-01-02/12.00"],
    "cal": ["PLAN", "DEFAULT", "2024"],
    "days": ["PLAN", "--from", "2024-01-01"],
    "next": ["PLAN", "LEDGER", "--now", "2024-01-02/12.00"],
    "day": ["PLAN", "2024-01-02", "--now", "2024-01-02/12.00"],
}
OF_STREAMS = {"explain", "lint"}
VERBS = {"start", "complete", "fail", "reset", "delete", "cancel", "rerun", "move", "add", "undo"}
WRITERS = {"init", "restore", "send", "desk", "log", "agent", "roll", "watch", *VERBS}
OF_JOURNALS = {"journal"}


def plan_program():
    """./plan as a module."""
    return importlib.import_module("opcplan.__main__")


class Commands(unittest.TestCase):
    def setUp(self):
        room = tempfile.TemporaryDirectory(prefix="commands-")
        self.addCleanup(room.cleanup)
        self.room = Path(room.name)
        self.stream = self.room / "stream.in"
        self.stream.write_bytes(plans.stream("tuesday"))
        self.crontab = self.room / "crontab"
        self.crontab.write_text("0 1 * * * backup\n")

    def asked(self, name, file, ask=plans.plan):
        names = {"PLAN": file, "STREAM": self.stream, "OUT": self.room / "page.html", "COPY": self.room / "copy",
                 "CRONTAB": self.crontab}
        return ask(name, *(names.get(word, word) for word in READERS[name]))

    def strangers(self):
        """Files that are no plan, each in a folder of its own."""
        plan = plans.of_worked("monday")
        with closing(sqlite3.connect(plans.copy_of(plan, self.room, "whole.db"))) as db:
            db.execute("PRAGMA wal_checkpoint(TRUNCATE)")
        whole = (self.room / "whole.db").read_bytes()
        for name, data in (
            ("empty", b""),
            ("text", b"no database, but a text\n" * 400),
            ("short", b"SQLite format 3\0"),
            ("cut", whole[:5000]),
            ("missing", None),
        ):
            file = self.room / name / "plan.db"
            file.parent.mkdir()
            if data is not None:
                file.write_bytes(data)
            yield name, file
        for name, change in (
            ("other", "CREATE TABLE note (text TEXT)"),
            ("version", "UPDATE plan_meta SET version = 9"),
            ("meta", "DELETE FROM plan_meta"),
            ("table", "DROP TABLE dependency"),
        ):
            file = self.room / name / "plan.db"
            file.parent.mkdir()
            if name != "other":
                file.write_bytes(whole)
            with closing(sqlite3.connect(file)) as db:
                db.executescript(change)
            yield name, file

    def test_files_that_are_no_plan_are_reported_and_stay(self):
        """Of one that is missing each command says so in a process of its own, of the others in this one."""
        for turn, (what, file) in enumerate(self.strangers()):
            for name in READERS if what in ("missing", "version") else list(READERS)[turn % 3 :: 3]:
                with self.subTest(name, file=what):
                    before = plans.prints(file)
                    ran = self.asked(name, file, plans.plan if what == "missing" else plans.plan_in_here)
                    self.assertEqual((ran.returncode, ran.stdout), (1, ""), ran.stderr)
                    self.assertRegex(ran.stderr, f"^plan: {file}: [^\n]+\n$")
                    self.assertEqual(plans.prints(file), before)
        self.assertFalse((self.room / "page.html").exists() or (self.room / "copy").exists())

    def test_plan_stays_as_it_was(self):
        (self.room / "plan").mkdir()
        file = plans.copy_of(plans.of_worked("monday"), self.room / "plan")
        before = plans.prints(file)
        for name in READERS:
            self.assertIn(self.asked(name, file).returncode, (0, 1), name)
            self.assertEqual(plans.prints(file), before, name)

    def test_help_names_each_subcommand(self):
        ran = plans.plan("--help")
        self.assertEqual((ran.returncode, ran.stderr), (0, ""))
        names = [line.split()[0] for line in ran.stdout.splitlines() if line.startswith("  ")]
        self.assertEqual(sorted(names), sorted(READERS.keys() | OF_STREAMS | OF_JOURNALS | WRITERS))
        self.assertEqual(sorted(plan_program().SUBCOMMANDS), sorted(names))
        for name in names:
            ran = plans.plan(name, "--help")
            self.assertEqual((ran.returncode, ran.stderr), (0, ""), name)
            self.assertTrue(ran.stdout.startswith(f"usage: ./plan {name} "), ran.stdout)

    def test_help_imports_no_subcommand(self):
        """Nor what reads plans; and a subcommand no other one. The one that is asked isn't told by -X importtime."""
        for words, reads in ((["--help"], False), (["next-job", "--help"], True)):
            ran = plans.subprocess.run([sys.executable, "-X", "importtime", TOP / "plan", *words],
                                       capture_output=True, encoding="utf-8", check=True)
            names = {line.rpartition("|")[2].strip() for line in ran.stderr.splitlines()}
            self.assertEqual([name for name in names if name.startswith("opcplan.commands.")], [])
            self.assertEqual("sqlite3" in names, reads)
            self.assertLessEqual(names & {"statistics", "inspect", "hmac"}, {"inspect"} if reads else set())
            self.assertIn("opcplan.cli.output", names)
        program = plan_program()
        self.assertEqual([program.summary_of(name) for name in program.SUBCOMMANDS],
                         [program.module_of(name).SUMMARY for name in program.SUBCOMMANDS])

    def test_wrong_words_are_reported(self):
        file = plans.of_worked("monday")
        for words in ([], ["show"], ["Page"], ["--page"], ["views"], ["plan_file"], ["dump", file, "--no-such-word"],
                      *([name] for name in [*READERS, *OF_STREAMS, *OF_JOURNALS, *WRITERS])):
            ran = plans.plan_in_here(*words)
            self.assertEqual((ran.returncode, ran.stdout), (2, ""), words)
            self.assertTrue(ran.stderr.startswith("plan: ") and ran.stderr.count("\n") == 1, ran.stderr)

    def test_a_subcommand_that_is_nearly_one_is_guessed(self):
        for word, message in (("whatif", " (did you mean what-if?)"), ("Page", " (did you mean page?)"), ("xyz", "")):
            self.assertEqual(plans.plan(word).stderr,
                             f"plan: there is no subcommand {word!r}{message}; ./plan --help lists all\n")

    def test_it_runs_from_anywhere_and_by_a_link(self):
        link = self.room / "link"
        link.symlink_to(TOP / "plan")
        plans.copy_of(plans.of_worked("monday"), self.room, "here.db")
        ran = plans.subprocess.run([link, "next-job", "here.db"], cwd=self.room, capture_output=True, check=False)
        self.assertEqual((ran.returncode, ran.stderr), (0, b""))


if __name__ == "__main__":
    unittest.main()
