"""Job numbers that were printed: no two streams of a plan have one in common, whoever prints them, in whatever order,
and wherever a command is killed."""

import contextlib
import itertools
import os
import stat
import tempfile
import time
import unittest
from pathlib import Path
from unittest import mock

from support import traced

from opcplan.errors import Unwritable
from opcplan.plans import printed_numbers

USERS = ("alice", "bob")


class Case(unittest.TestCase):
    def setUp(self):
        room = tempfile.TemporaryDirectory(prefix="numbers-")
        self.addCleanup(room.cleanup)
        self.room = Path(room.name)
        (self.room / "plans").mkdir()
        self.plan = self.room / "plans" / "plan.db"
        self.plan.write_bytes(b"")
        self.file = self.room / "plans" / "plan.db.numbers"

    def state(self, user):
        """The environment of a user, who has a folder of their own."""
        return mock.patch.dict(os.environ, XDG_STATE_HOME=str(self.room / user))

    def printed(self, user, text, count=2, least=6):
        """The numbers that a user's command prints for a stream."""
        with self.state(user):
            return printed_numbers.numbered(str(self.plan), text, least, lambda first: [*range(first, first + count)])

    def behind(self, user, least=6):
        with self.state(user):
            return printed_numbers.behind(str(self.plan), least)


class Users(Case):
    def test_every_order_of_three_streams_by_two_users(self):
        """Different streams never share a number, equal ones have the same, and `behind` is behind all."""
        for users in itertools.product(USERS, repeat=3):
            for texts in itertools.product("xyz", repeat=3):
                self.file.unlink(missing_ok=True)
                given = {}
                for user, text in zip(users, texts):
                    found = self.printed(user, text)
                    self.assertEqual(given.setdefault(text, found), found)
                    self.assertEqual(self.behind("carol"), max(map(max, given.values())) + 1)
                every = [number for numbers in given.values() for number in numbers]
                self.assertEqual(sorted(every), [*range(6, 6 + 2 * len(given))])

    def test_the_file_has_the_mode_of_the_plan_and_stands_alone(self):
        for mode in (0o600, 0o640, 0o660, 0o644):
            self.file.unlink(missing_ok=True)
            self.plan.chmod(mode)
            self.printed("alice", "x")
            self.assertEqual(stat.S_IMODE(self.file.stat().st_mode), mode)
            self.assertEqual({path.name for path in self.plan.parent.iterdir()}, {"plan.db", "plan.db.numbers"})

    def test_beside_a_plan_that_may_not_be_written_nothing_is_made(self):
        with mock.patch("os.access", lambda path, mode: False):
            self.assertEqual([self.printed("alice", "x"), self.printed("alice", "y")], [[6, 7], [8, 9]])
        self.assertEqual([path.name for path in self.plan.parent.iterdir()], ["plan.db"])
        own = self.room / "alice" / "opcplan" / printed_numbers.FILE
        self.assertEqual([stat.S_IMODE(path.stat().st_mode) for path in (own, own.parent)], [0o600, 0o700])
        # what the user's own file has counts beside the plan too
        self.assertEqual(self.printed("alice", "z"), [10, 11])

    def test_what_more_may_write_than_the_plan_is_not_read(self):
        self.printed("alice", "x")
        self.file.chmod(0o666)
        self.assertEqual(self.printed("bob", "y"), [6, 7])
        self.file.unlink()
        self.file.symlink_to(self.room / "elsewhere")
        self.assertEqual(self.printed("carol", "y"), [6, 7])
        self.assertFalse((self.room / "elsewhere").exists())

    def test_a_week_later_and_a_line_that_was_not_written_whole(self):
        self.printed("alice", "x")
        with open(self.file, "ab") as file:
            file.write(b"0000000000000000 8 9 17")
        self.assertEqual(self.printed("bob", "y"), [8, 9])
        self.assertEqual(self.printed("alice", "z"), [10, 11])
        now = time.time()
        with mock.patch("time.time", lambda: now + 8 * 86_400):
            self.assertEqual(self.printed("bob", "w"), [6, 7])
            self.assertEqual(self.file.read_bytes().count(b"\n"), 1)

    @unittest.skipUnless(os.geteuid() == 0, "it takes two users")
    def test_two_real_users_of_one_group(self):
        for path in (self.room, self.plan.parent):
            path.chmod(0o777)
        os.chown(self.plan, 12_001, 13_000)
        self.plan.chmod(0o660)
        for turn, (user, group) in enumerate(((12_001, 12_001), (12_002, 12_002), (12_001, 12_001))):
            (self.room / str(user)).mkdir(exist_ok=True)
            os.chown(self.room / str(user), user, user)
            child = os.fork()
            if not child:
                status = 1
                with contextlib.suppress(BaseException):
                    os.setgroups([13_000])
                    os.setgid(group)
                    os.setuid(user)
                    status = int(self.printed(str(user), f"text {turn}") != [6 + 2 * turn, 7 + 2 * turn])
                os._exit(status)
            self.assertEqual(os.waitstatus_to_exitcode(os.waitpid(child, 0)[1]), 0, f"turn {turn}")
        found = self.file.stat()
        self.assertEqual((found.st_uid, found.st_gid, stat.S_IMODE(found.st_mode)), (12_001, 13_000, 0o660))


@unittest.skipUnless(traced.can_trace(), "no process may be traced here")
class Stops(Case):
    """A command that is killed, or stands still, at each of its system calls."""

    def setUp(self):
        super().setUp()
        self.own = self.room / "printed"
        self.addCleanup(setattr, printed_numbers, "PATIENCE", printed_numbers.PATIENCE)
        printed_numbers.PATIENCE = 0.05

    def print_to_file(self, user, text):
        """Prints the numbers of a stream, in another process."""
        found = self.printed(user, text)
        self.own.write_text(" ".join(map(str, found)))

    def fresh(self, has_line):
        for path in self.plan.parent.iterdir():
            if path != self.plan:
                path.unlink()
        self.own.unlink(missing_ok=True)
        return [self.printed("alice", "before")] if has_line else []

    def test_killed_at_each_call(self):
        for has_line in (False, True):
            for number in itertools.count(1):
                given = self.fresh(has_line)
                if not traced.killed_at(number, lambda: self.print_to_file("alice", "killed")):
                    self.assertGreater(number, 10)
                    break
                if self.own.exists() and self.own.read_text():
                    given.append([*map(int, self.own.read_text().split())])
                given += [self.printed("bob", "later"), self.printed("alice", "last")]
                every = [one for numbers in given for one in numbers]
                self.assertEqual(len(every), len({*every}), f"call {number}: {given}")
                if has_line:
                    self.assertEqual(self.printed("bob", "before"), given[0])

    def test_another_user_between_any_two_calls(self):
        """The other one prints numbers of its own, or after a while says that they aren't certain."""
        for has_line in (False, True):
            waited = 0
            for number in itertools.count(1):
                given = self.fresh(has_line)

                def other(given=given):
                    nonlocal waited
                    try:
                        given.append(self.printed("bob", "other"))
                    except Unwritable as why:
                        self.assertIn("--job", str(why))
                        waited += 1

                if not traced.stopped_at(number, lambda: self.print_to_file("alice", "stopped"), other):
                    break
                given.append([*map(int, self.own.read_text().split())])
                every = [one for numbers in given for one in numbers]
                self.assertEqual(len(every), len({*every}), f"call {number}: {given}")
                self.assertNotIn(True, [path.name.startswith(".plan-") for path in self.plan.parent.iterdir()])
            self.assertGreater(waited, 0)


if __name__ == "__main__":
    unittest.main()
