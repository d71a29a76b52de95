"""./plan restore and ./plan backup, killed at each system call once the copy is checked: the place has nothing, what
stood there, or the whole copy, and the same words again leave nothing hidden."""

import os
import shutil
import tempfile
import unittest
import unittest.mock
from pathlib import Path

from support import expected, plans, traced
from support.backup_rooms import BackupRoom, MONDAY, TUESDAY

from opcplan.commands import backup, restore
from opcplan.plans import tempfiles

FROM_NOTHING = b"define applications --job 1\nOTHER,A,\n/*\n"


def as_it_is(room):
    """Names, bytes, modes and second names of a folder."""
    return tuple(sorted((item.name, item.read_bytes(), item.stat().st_mode, item.stat().st_nlink)
                        for item in room.iterdir()))


@unittest.skipUnless(plans.PROGRAM.exists(), "opcplan is not built")
@unittest.skipUnless(traced.can_trace(), "no process may be traced here")
class KilledCopies(BackupRoom, unittest.TestCase):
    def setUp(self):
        super().setUp()
        made = self.backup()
        self.assertEqual(made.returncode, 0, made.stderr)
        self.copy = Path(tempfile.mkdtemp(dir=self.kept)) / "copy.db"
        shutil.copyfile(self.file, self.copy)

    def each_state(self, room, call):
        """What a room is as a call in it is killed at each of its system calls, and at last is not: each state once,
        in the order in which they come. Each begins with the room as it is now."""
        beginning = {item.name: item.read_bytes() for item in room.iterdir()}
        seen, number, is_killed = set(), 0, True
        while is_killed:
            number += 1
            shutil.rmtree(room)
            room.mkdir()
            for name, data in beginning.items():
                (room / name).write_bytes(data)
            is_killed = traced.killed_at(number, call)
            state = as_it_is(room)
            if state not in seen:
                seen.add(state)
                yield number, is_killed
        self.assertGreater(number, 40)

    def lines(self, path):
        """What opcplan lists of a file where it stands, `refused` where it doesn't open it, None where it is gone."""
        if not os.path.lexists(path):
            return None
        lines, _, _ = expected.asked(path, expected.LOOK)
        return "refused" if lines[0] == "fault 50" else lines

    def ask_restores(self, old):
        """Asks all states of a restore: what may be in the place of the plan, and what is there after another one."""
        new, seen, words = expected.of_stream(MONDAY), [], (self.copy, str(self.plan), self.file)
        for number, is_killed in self.each_state(self.room, lambda: restore.put_back(*words)):
            is_linked = os.path.lexists(self.plan) and self.plan.stat().st_nlink > 1
            found = self.lines(self.plan)
            self.assertEqual(found == "refused", is_linked, number)
            if found != "refused":
                self.assertIn(found, (old, new), number)
            seen.append("refused" if is_linked else "new" if found == new else "old")
            if is_killed:
                restore.put_back(*words)
            self.assertEqual(self.lines(self.plan), new, number)
            self.assertEqual([name for name in os.listdir(self.room) if name[0] == "."], [], number)
        return seen

    def test_a_restore_over_a_plan_with_a_log(self):
        expected.killed(self.plan, TUESDAY)
        seen = self.ask_restores(expected.of_stream(MONDAY, TUESDAY))
        self.assertEqual(sorted(set(seen), key=seen.index), ["old", "refused", "new"])

    def test_a_restore_where_no_plan_is(self):
        self.plan.unlink()
        Path(f"{self.plan}-wal").unlink(missing_ok=True)
        seen = self.ask_restores(None)
        self.assertEqual(sorted(set(seen), key=seen.index), ["old", "new"])

    def test_a_restore_where_a_log_is_left(self):
        expected.killed(self.plan, TUESDAY)
        log = Path(f"{self.plan}-wal").read_bytes()
        self.plan.unlink()
        seen = self.ask_restores(None)
        self.assertEqual(sorted(set(seen), key=seen.index), ["old", "new"])
        self.assertIn(log, [item.read_bytes() for item in self.room.glob("plan.db.*-wal")])

    def ask_backups(self, old, is_forced):
        """The same of a backup."""
        new, seen = expected.of_stream(MONDAY), []
        room = self.room
        target = room / "backup.db"
        for number, _ in self.each_state(room, lambda: backup.put(self.copy, str(target), self.copy, is_forced)):
            found = self.lines(target)
            self.assertIn(found, (old, new), number)
            seen.append("new" if found == new else "old")
            if found != new or is_forced:
                backup.put(self.copy, str(target), self.copy, is_forced)
            self.assertEqual(self.lines(target), new, number)
            self.assertEqual([name for name in os.listdir(room) if name[0] == "."], [], number)
        self.assertEqual(sorted(set(seen), key=seen.index), ["old", "new"])

    def test_a_backup_where_no_file_is(self):
        for item in self.room.iterdir():
            item.unlink()
        self.ask_backups(None, False)

    def test_a_backup_over_another_one(self):
        for item in self.room.iterdir():
            item.unlink()
        shutil.copyfile(plans.of_stream(FROM_NOTHING), self.room / "backup.db")
        (self.room / "backup.db-wal").touch()
        self.ask_backups(expected.of_stream(FROM_NOTHING), True)

    def test_a_folder_of_a_killed_command_goes(self):
        """And that of one that runs stays."""
        held = tempfile.TemporaryDirectory(prefix="killed-")
        self.addCleanup(held.cleanup)
        with unittest.mock.patch("tempfile.gettempdir", return_value=held.name):
            child = os.fork()
            if not child:
                with tempfiles.folder("backup-"):
                    os._exit(0)
            os.waitpid(child, 0)
            self.assertEqual(len(os.listdir(held.name)), 1)
            other = Path(held.name) / f"backup-{'0' * 19}x"
            other.mkdir()
            with tempfiles.folder("backup-") as first, tempfiles.folder("backup-") as second:
                self.assertEqual({str(Path(held.name) / name) for name in os.listdir(held.name)},
                                 {first, second, str(other)})
            self.assertEqual(os.listdir(held.name), [other.name])


if __name__ == "__main__":
    unittest.main()
