"""A plan and a folder for its backup, as the tests of backup and restore have them."""

import tempfile
from pathlib import Path

from support import plans

MONDAY = plans.stream("monday")
TUESDAY = b"dp-extend --to 2024-01-03/00.00 --job 10\ncp-start --app REPORT --ia 2024-01-01/20.00 --job 11\n"


class BackupRoom:
    """The plan of a Monday in a folder of its own, and beside it an empty folder with the name of a backup."""

    def setUp(self):
        room = tempfile.TemporaryDirectory(prefix="backup-test-")
        self.addCleanup(room.cleanup)
        self.room, self.kept = Path(room.name) / "plans", Path(room.name) / "kept"
        self.room.mkdir()
        self.kept.mkdir()
        self.plan = plans.copy_of(plans.of_worked("monday"), self.room)
        self.file = self.kept / "backup.db"

    def backup(self, *words, **how):
        return plans.plan("backup", self.plan, self.file, "--program", plans.PROGRAM, *words, **how)

    def restore(self):
        return plans.plan("restore", self.file, self.plan, "--program", plans.PROGRAM)

    def refused_by(self, call, message, status):
        """Asks that a call ends with that status and one sentence, and that plan and backup stay."""
        before = plans.prints(self.plan), plans.prints(self.file)
        ran = call()
        self.assertEqual((ran.returncode, ran.stdout), (status, ""), ran.stderr)
        self.assertRegex(ran.stderr, f"^plan: [^\n]*{message}[^\n]*\n$")
        self.assertEqual((plans.prints(self.plan), plans.prints(self.file)), before)
