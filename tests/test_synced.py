"""A file that takes its place whole is on the disk before it has its name, and its name is on the disk before the
command ends: by the system calls of each command that replaces a file."""

import contextlib
import os
import unittest
from pathlib import Path

from support import plans
from support.backup_rooms import BackupRoom
from support.system_calls import calls_of, unsynced
from support.traced import can_trace

from opcplan.cli import output
from opcplan.plans import entry, journal, journal_prune, kept_checks


@unittest.skipUnless(can_trace(), "this machine lets no process trace its child")
@unittest.skipUnless(plans.PROGRAM.exists(), "opcplan is not built")
class Synced(BackupRoom, unittest.TestCase):
    def check(self, path, call):
        """Asks that a call puts a file at a path, which is on the disk then. What was found sound is kept if its state
        is settled, which time decides, and may be lost."""
        calls = [one for one in calls_of(call) if Path(one.to).parent.name != kept_checks.FOLDER]
        self.assertTrue(any(one.name == "rename" and one.to == str(path) for one in calls), calls)
        self.assertEqual(unsynced(calls, ()), [])

    def command(self, *words):
        """A call of ./plan that has to end with status 0."""
        def call():
            with open(os.devnull, "w", encoding="utf-8") as null, contextlib.redirect_stderr(null):
                ran = plans.plan_in_here(*words)
            assert ran.returncode == 0, ran
        return call

    def test_a_file_that_is_written(self):
        path = self.room / "written"
        for text, is_forced in ((b"first", False), (b"second", True)):
            self.check(path, lambda text=text, is_forced=is_forced: output.write(str(path), text, is_forced))
            self.assertEqual(path.read_bytes(), text)

    def test_backup_and_restore(self):
        words = ("--program", plans.PROGRAM)
        self.check(self.file, self.command("backup", self.plan, self.file, *words))
        self.check(self.file, self.command("backup", self.plan, self.file, "--force", *words))
        self.check(self.plan, self.command("restore", self.file, self.plan, *words))
        self.check(self.room / "new.db", self.command("restore", self.file, self.room / "new.db", *words))

    def test_a_journal_that_is_pruned(self):
        path = self.room / "journal"
        with contextlib.closing(journal.Journal(str(path))) as kept:
            kept.put([entry.Entry(seq, "2024-01-01T08:00:00Z", "me", None, seq, b"x") for seq in range(1, 30)])
        cut = journal_prune.Cut(20, 20, 9, "2024-01-01T08:00:00Z", "2024-01-01T08:00:00Z", "2024-01-01T08:00:00Z", "")
        self.check(path, lambda: journal_prune.prune(str(path), cut))
        with contextlib.closing(journal.Journal(str(path))) as kept:
            self.assertEqual((kept.first(), kept.position()), (21, 29))

    def test_what_is_not_synced_is_seen(self):
        path = str(self.room / "file")

        def careless():
            Path(f"{path}.part").write_bytes(b"x")
            os.replace(f"{path}.part", path)

        self.assertEqual(unsynced(calls_of(careless), ()), [f"{path} got its name before its content was synced",
                                                            f"the name of {path} wasn't synced before the next end"])


if __name__ == "__main__":
    unittest.main()
