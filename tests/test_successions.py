"""Which states of a plan's file are sound because opcplan made them of a sound one: in every order of events of small
worlds, and over real files of which somebody else changes a cell at each moment."""

import contextlib
import os
import shutil
import sqlite3
import subprocess
import tempfile
import types
import unittest
from contextlib import closing
from pathlib import Path
from unittest import mock

from support import plans, succession_worlds
from support.succession_worlds import explored, first

from opcplan.desk import sound_states
from opcplan.plans import own_runs, plan_file, sound_rows, successions, trial

PLAN = "week-of-daily-plans"
OPTIONS = b"define options --job 9000%02d\nmax_extension_hours = %d\n/*\n"
# by what a world is for: our programs, and how often somebody else writes and something is killed
WORLDS = {
    "a stream is sent, and one thing is killed": (["send"], {}),
    "a stream is tried, and then run": (["trial"], {"kills": 1}),
    "a desk": (["desk"], {"kills": 0, "now": 2}),
    "a desk that is killed": (["desk"], {"now": 3, "most": 1}),
    "a look beside a stream": (["send", "look"], {"kills": 0, "now": 3, "most": 1}),
    "a desk over a foreign file": (["desk"], {"kills": 0, "now": 2, "most": 1, "is_known": False}),
    "a desk over a file that was just written": (["desk"], {"kills": 0, "now": 0, "most": 1, "is_known": False}),
    "a desk over a damaged file": (["desk"], {"kills": 0, "now": 2, "most": 1, "is_known": False,
                                              "says": succession_worlds.Damaged(0)}),
}
# what is decided wrongly, by name, and in which worlds that is seen
MUTANTS = {
    "goes_on": (lambda sound, now: sound is not None, "a stream is sent, and one thing is killed"),
    "may_be_copied": (lambda sound, log, now: True, "a stream is sent, and one thing is killed"),
    "is_sound_copied": (lambda before, is_equal, after: before.is_settled and before.stamps == after.stamps,
                        "a stream is sent, and one thing is killed"),
    "is_sound_unwritten": (lambda sound, now: sound is not None and now.is_settled,
                           "a stream is sent, and one thing is killed"),
    "is_sound_beside": (lambda sound, log, now: successions.goes_on(sound, now) and now.is_settled, "a desk"),
    "is_opened": (lambda before, opened: successions.is_alone(before) and successions.goes_on(before, opened),
                  "a desk over a file that was just written"),
    "is_sound_opened": (lambda before, is_undamaged, now: successions.goes_on(before, now),
                        "a desk over a damaged file"),
}
UNSETTLED = {
    "is_sound_copied": (lambda before, is_equal, after: is_equal and successions.is_alone(before)
                        and before.stamps == after.stamps, "a stream is tried, and then run"),
}


def world(name):
    ways, budget = WORLDS[name]
    return first(ways, **budget)


class Worlds(unittest.TestCase):
    def test_no_state_counts_as_sound_that_is_not(self):
        for name in WORLDS:
            with self.subTest(name):
                came, bad = explored([world(name)])
                self.assertIsNone(bad)
                self.assertGreater(len(came), 300)

    def test_what_nobody_disturbs_is_kept(self):
        """Each of our programs can keep each state to which it comes, if nobody else writes and nothing is killed."""
        for ways in ("send", "trial", "desk"):
            came, _ = explored([first([ways], writes=0, kills=0)])
            ends = [one for one in came if one.run is None and not one.ours and one.is_sound
                    and one.file.says != succession_worlds.FIRST]
            says = {one.file.says for one in ends}
            self.assertGreater(len(says), 0, ways)
            for made in says - ({2} if ways == "trial" else set()):
                self.assertTrue(any(one.is_marked for one in ends if one.file.says == made), (ways, made))

    def test_foreign_file_of_a_desk_is_kept(self):
        """What opcplan has opened and isn't damaged is kept, and stays so while opcplan answers."""
        for says, wanted in ((succession_worlds.FIRST, {0, 1, 2}), (succession_worlds.Damaged(0), set())):
            came, _ = explored([first(["desk"], says=says, is_known=False, writes=0, kills=0)])
            kept = {succession_worlds.merged(one.file, one.log) for one in came if one.is_marked}
            self.assertEqual(kept, wanted)

    def test_wrong_decisions_are_seen(self):
        for number, mutants in enumerate((MUTANTS, UNSETTLED)):
            for name, (wrong, where) in mutants.items():
                with self.subTest(name, number=number):
                    plain = types.SimpleNamespace(**{key: getattr(successions, key) for key in (
                        "goes_on", "may_be_copied", "log_is_empty", "log_begin", "is_sound_copied",
                        "is_sound_unwritten", "is_sound_beside", "is_opened", "is_sound_opened")} | {name: wrong})
                    if name == "goes_on":
                        plain.may_be_copied = lambda sound, log, now, goes_on=wrong: goes_on(sound, now)
                        plain.is_sound_unwritten = lambda sound, now, goes_on=wrong: (
                            goes_on(sound, now) and successions.is_alone(now) and now.is_settled)
                    self.assertIsNotNone(explored([world(where)], plain)[1])


@unittest.skipUnless(plans.PROGRAM.exists(), "opcplan is not built")
class Files(unittest.TestCase):
    def setUp(self):
        room = tempfile.TemporaryDirectory(prefix="successions-")
        self.addCleanup(room.cleanup)
        self.room = Path(room.name)
        cache = self.room / "cache"
        cache.mkdir(0o700)
        for patched in (mock.patch.dict(os.environ, XDG_CACHE_HOME=str(cache)),
                        mock.patch.object(own_runs, "is_own", lambda program: True),
                        mock.patch.object(trial, "is_own", lambda program: True),
                        mock.patch.object(sound_states, "is_own", lambda program: True),
                        mock.patch.object(own_runs, "SETTLES", 10.0)):
            patched.start()
            self.addCleanup(patched.stop)

    def plan(self, name="plan.db"):
        """A plan that was found sound."""
        path = plans.copy_of(plans.of_worked(PLAN), self.room, name)
        with closing(sqlite3.connect(path)) as db:
            db.execute("PRAGMA wal_checkpoint(TRUNCATE)")
        own_runs.settled(str(path))
        with plan_file.opened(path):
            pass
        self.assertTrue(self.is_kept(path))
        return path

    def is_kept(self, path):
        return plan_file.kept_state(os.path.realpath(path)) is not None

    def send(self, path, *texts):
        return own_runs.ran(str(plans.PROGRAM), str(path), b"".join(texts))

    def hours(self, path):
        """What stock SQLite reads in a copy of a file and its log: at the file itself it would touch the log."""
        with tempfile.TemporaryDirectory(prefix="successions-") as room:
            for tail in ("", "-wal"):
                if os.path.exists(f"{path}{tail}"):
                    shutil.copy(f"{path}{tail}", f"{room}/plan.db{tail}")
            with closing(sqlite3.connect(f"{room}/plan.db")) as db:
                return db.execute("SELECT max_hours FROM plan_meta").fetchone()[0]

    @mock.patch.object(own_runs, "LOOK", 60.0)  # a busy machine may hold opcplan up for seconds
    def test_what_is_sent_is_kept(self):
        path = self.plan()
        for number, hours in ((1, 7), (2, 8)):
            ran = self.send(path, OPTIONS % (number, hours), b"list cp\n", b"nonsense\n", b"* a remark\n")
            lines = [line for line in ran.stdout.splitlines() if line.startswith((b"ok", b"refused"))]
            self.assertEqual((ran.returncode, len(lines), lines[-1]), (4, 3, b"refused 10"))
            self.assertEqual((self.is_kept(path), self.hours(path)), (True, hours))
        with mock.patch.object(sound_rows, "asked") as asked, plan_file.opened(path) as plan:
            self.assertEqual((plan.meta["max_hours"], asked.called), (8, False))

    def test_same_answers_as_without(self):
        """Whatever a stream is, it gets what opcplan answers to it, also where it has no end or no statement."""
        for text in (b"", b"\n", b"* a\n", b"list cp", b"define options --job 1\nmax_extension_hours = 5\n",
                     b"define options --job 1\n/*", OPTIONS % (1, 9) + b"list ltp\r\n", b"list cp\n" * 50, b"\xff\0\n",
                     b"define nothing\nx\n/*\nlist cp\n", b" \t\n", b"x" * 70000 + b"\n"):
            path, other = self.plan(), plans.copy_of(self.room / "plan.db", self.room, "other.db")
            found = self.send(path, text)
            wanted = subprocess.run([plans.PROGRAM, "--db", other], input=text, capture_output=True, check=False)
            self.assertEqual((found.returncode, found.stdout), (wanted.returncode, wanted.stdout), text[:40])
            self.assertEqual(path.read_bytes(), other.read_bytes())

    def test_silent_program_is_not_waited_for(self):
        path = self.plan()
        with mock.patch.object(own_runs, "replies_to", lambda text: 5), mock.patch.object(own_runs, "LOOK", 0.2):
            self.assertEqual(self.send(path, b"list cp\n").returncode, 0)

    def test_nothing_is_kept_without_a_sound_begin(self):
        path = self.plan()
        with closing(sqlite3.connect(path)) as db:
            db.execute("UPDATE plan_meta SET max_hours = max_hours - 1")
            db.commit()
        self.assertEqual(self.send(path, OPTIONS % (1, 7)).returncode, 0)
        self.assertFalse(self.is_kept(path))

    def test_long_run_is_not_kept(self):
        """opcplan copies its log into the file meanwhile, so nobody can say who wrote what."""
        path = self.plan()
        many = b"".join(OPTIONS % (number % 100, 7) for number in range(1)) + b"".join(
            b"define options --job %d\n/*\n" % (910000 + number) for number in range(700))
        self.assertEqual(self.send(path, many).returncode, 0)
        self.assertFalse(self.is_kept(path))

    # Somebody else writes.

    def planted(self, path):
        """Changes one cell beside equal size and times: what is read is no sound plan then."""
        data = bytearray(path.read_bytes())
        seen, place = os.stat(path), self.cell(data)
        with open(path, "r+b") as file:
            file.seek(place)
            file.write(b"X")
        os.utime(path, ns=(seen.st_atime_ns, seen.st_mtime_ns))

    def cell(self, data):
        """The place of a status in the bytes of the file, by what SQLite would change."""
        other = self.room / "changed.db"
        other.write_bytes(bytes(data))
        with closing(sqlite3.connect(other)) as db:
            db.execute("UPDATE cp_row SET status = 'X' WHERE serial = (SELECT min(serial) FROM cp_row)")
            db.commit()
            db.execute("PRAGMA wal_checkpoint(TRUNCATE)")
        changed = other.read_bytes()
        return next(at for at in range(100, len(data)) if data[at] != changed[at] and changed[at] == ord("X"))

    def test_cell_that_is_planted_is_seen_at_each_moment(self):
        steps = {"before it begins": (own_runs, "talked"), "before the look": (own_runs.Look, "take"),
                 "before it is merged": (own_runs, "merge"), "before it is compared": (own_runs, "same_bytes"),
                 "before it is kept": (own_runs, "keep_state")}
        for name, (owner, step) in steps.items():
            with self.subTest(name):
                path = self.plan(f"{step}.db")
                plain = getattr(owner, step)

                def disturbed(*given, plain=plain, path=path):
                    self.planted(path)
                    return plain(*given)

                with mock.patch.object(owner, step, disturbed):
                    self.send(path, OPTIONS % (1, 7))
                self.assertFalse(self.is_kept(path))
                with self.assertRaises(plan_file.Unreadable), plan_file.opened(path):
                    self.fail("it was opened")

    def test_file_that_is_replaced_is_seen(self):
        path, other = self.plan(), self.plan("other.db")
        plain = own_runs.Look.keep

        def replaced(look):
            shutil.copy2(other, self.room / "new.db")
            os.replace(self.room / "new.db", path)
            plain(look)

        with mock.patch.object(own_runs.Look, "keep", replaced):
            self.send(path, OPTIONS % (1, 7))
        self.assertFalse(self.is_kept(path))

    def test_damaged_log_is_seen(self):
        path = self.plan()
        plain = own_runs.Look.take

        def damaged(look):
            with open(f"{path}-wal", "r+b") as file:
                file.seek(32 + 24 + 200)
                file.write(b"damaged")
            plain(look)

        with mock.patch.object(own_runs.Look, "take", damaged):
            self.send(path, OPTIONS % (1, 7))
        if self.is_kept(path):  # then it is an earlier plan, whole
            with plan_file.opened(path) as plan:
                sound_rows.ask(plan.db, plan.version)

    def test_run_that_is_killed_is_not_kept(self):
        path = self.plan()
        with mock.patch.object(own_runs.Look, "take", side_effect=KeyboardInterrupt):
            with self.assertRaises(KeyboardInterrupt):
                self.send(path, OPTIONS % (1, 7))
        self.assertFalse(self.is_kept(path))

    # A desk.

    @contextlib.contextmanager
    def opened_by_desk(self, path):
        """The states of a plan that opcplan has just opened, as a desk notes them."""
        own_runs.settled(str(path))
        states = sound_states.SoundStates(str(plans.PROGRAM), str(path))
        states.begins()
        with subprocess.Popen([plans.PROGRAM, "--db", path], stdin=subprocess.PIPE, stdout=subprocess.PIPE) as ran:
            ran.stdin.write(b"nonsense\n")
            ran.stdin.flush()
            self.assertEqual(ran.stdout.readline(), b"refused 10\n")
            states.opened()
            yield states, ran
            states.ends()
            ran.stdin.close()

    def test_foreign_file_of_a_desk_is_checked_by_opcplan(self):
        path = plans.copy_of(plans.of_worked(PLAN), self.room, "foreign.db")
        with mock.patch.object(sound_rows, "asked") as asked, self.opened_by_desk(path) as (states, ran):
            self.assertFalse(self.is_kept(path))
            states.note()
            self.assertTrue(self.is_kept(path))
            ran.stdin.write(OPTIONS % (1, 7))
            ran.stdin.flush()
            self.assertTrue(ran.stdout.readline().startswith(b"ok"))
            states.note()
            with plan_file.opened(path) as plan:
                self.assertEqual((plan.meta["max_hours"], plan_file.is_sound(plan)), (7, True))
        self.assertFalse(asked.called)

    def test_file_of_a_desk_that_somebody_writes_to_is_not_kept(self):
        for name, step in (("tables", "is_undamaged"), ("note", "judge")):
            path = plans.copy_of(plans.of_worked(PLAN), self.room, f"{name}.db")
            with self.subTest(name), self.opened_by_desk(path) as (states, _):
                plain = getattr(states, step)

                def disturbed(plain=plain, path=path):
                    found = plain()
                    self.planted(path)
                    return found

                with mock.patch.object(states, step, disturbed):
                    states.note()
                self.assertFalse(self.is_kept(path))

    def test_damaged_index_of_a_desk_is_not_kept(self):
        """opcplan takes the rows of a plan whose index says other names."""
        path = plans.copy_of(plans.of_worked(PLAN), self.room, "damaged.db")
        with closing(sqlite3.connect(path)) as db:
            app, root = (db.execute(text).fetchone()[0] for text in (
                "SELECT min(name) FROM application",
                "SELECT rootpage FROM sqlite_schema WHERE name = 'sqlite_autoindex_application_1'"))
            db.execute("PRAGMA wal_checkpoint(TRUNCATE)")
        data = path.read_bytes()
        page = data[(root - 1) * 4096:root * 4096]
        other = page.replace(app.encode(), b"0" * len(app))
        self.assertNotEqual(page, other)
        path.write_bytes(data[:(root - 1) * 4096] + other + data[root * 4096:])
        states = sound_states.SoundStates(str(plans.PROGRAM), str(path))
        own_runs.settled(str(path))
        states.begins()
        self.assertIsNotNone(states.before)
        states.judge()
        self.assertIsNone(states.sound)

    # The commands.

    def test_commands_keep_what_they_leave(self):
        path, backup, new = self.plan(), self.room / "backup.db", self.room / "new.db"
        (self.room / "in").write_bytes(OPTIONS % (1, 7))
        ways = ((path, ["run", path, self.room / "in", "--yes"]), (backup, ["backup", path, backup]),
                (path, ["restore", backup, path]), (new, ["init", new, "--yes"]),
                (path, ["send", "--db", path, "cp-add", "--app", self.app(path), "--ia", "2024-01-02/08.00"]))
        for file, words in ways:
            ran = plans.plan(*words)
            self.assertIn(ran.returncode, (0, 4), ran.stderr)
            self.assertTrue(self.is_kept(file), (words, ran.stderr))

    def app(self, path):
        with closing(sqlite3.connect(path)) as db:
            return db.execute("SELECT min(name) FROM application").fetchone()[0]

    def test_trial_and_run_of_a_long_stream(self):
        path, text = self.plan(), self.room / "long"
        text.write_bytes(b"".join(b"define options --job %d\n/*\n" % (910000 + number) for number in range(700)))
        ran = plans.plan("run", path, text, "--yes")
        self.assertEqual(ran.returncode, 0, ran.stderr)
        self.assertTrue(self.is_kept(path))

    def test_trial_finds_a_file_sound(self):
        path = plans.copy_of(plans.of_worked(PLAN), self.room, "foreign.db")
        own_runs.settled(str(path))
        (self.room / "in").write_bytes(b"list cp\n")
        self.assertFalse(self.is_kept(path))
        with mock.patch.object(sound_rows, "asked") as asked:
            self.assertEqual(plans.plan("check", path, self.room / "in").returncode, 0)
        self.assertEqual((asked.called, self.is_kept(path)), (False, True))


if __name__ == "__main__":
    unittest.main()
