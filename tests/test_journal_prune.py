"""./plan journal --prune: what goes of a journal and of logs, what stays, that a desk goes on with it, and that whoever
is stopped leaves the old journal or the new one."""

import datetime
import os
import pty
import shutil
import sqlite3
import subprocess
import sys
import tempfile
import unittest
from contextlib import closing
from pathlib import Path
from unittest import mock

from support import desks, journals, plans, traced

from opcplan.agent import record
from opcplan.desk import client
from opcplan.plans import journal, journal_plan, journal_prune

FIRST_JOB = 500_000_001
STARTED, ERROR, COMPLETE = "S", "E", "C"
WORDS = {STARTED: "start", ERROR: "fail", COMPLETE: "complete", "W": "reset"}


def days_ago(days):
    """A moment so many days ago, as `journals.write` takes it."""
    return (datetime.datetime.now() - datetime.timedelta(days=days)).strftime("%Y-%m-%d/%H.%M")


def entries_of(steps):
    """Entries of a journal, by steps (days ago, serial, status or None where it isn't answered)."""
    return [(days_ago(days), "me", f"k{seq}", FIRST_JOB + seq,
             f"cp-{WORDS.get(status, 'start')} --app A{serial} --ia 2024-01-01/08.00 --job {FIRST_JOB + seq}\n",
             status and f"ok serial {serial} status {status}") for seq, (days, serial, status) in enumerate(steps)]


def written(path, steps):
    """A journal of steps, which is not in use."""
    happened = [(serial, f"A{serial}", "2024-01-01/08.00", status, days_ago(days)) for days, serial, status in steps
                if status]
    journals.write(path, happened, entries_of(steps))
    with closing(journal.Journal(str(path))):
        pass
    return path


def lists(path):
    """All that stands in a journal, by a copy of it."""
    with tempfile.TemporaryDirectory(dir=desks.IN_MEMORY) as folder:
        for tail in ("", "-wal", "-journal"):
            if os.path.exists(f"{path}{tail}"):
                shutil.copy(f"{path}{tail}", f"{folder}/copy{tail}")
        with closing(sqlite3.connect(f"{folder}/copy")) as db:
            return {name: db.execute(f"SELECT * FROM {name} ORDER BY seq").fetchall() for name in ("entry", "happened")}


def seqs(path, table="entry"):
    return [seq for seq, *_ in lists(path)[table]] if table == "entry" else [seq for *_, seq in lists(path)[table]]


RUN = [STARTED, COMPLETE]


class Room(unittest.TestCase):
    def setUp(self):
        room = tempfile.TemporaryDirectory(prefix="prune-", dir=desks.IN_MEMORY)
        self.addCleanup(room.cleanup)
        self.room = Path(room.name)
        self.path = self.room / "plan.db.journal"

    def cut(self, days=90, at_least=1):
        """Where a journal is cut."""
        before = datetime.datetime.now(datetime.timezone.utc) - datetime.timedelta(days=days)
        with closing(journal.Journal(str(self.path))) as held:
            return journal_prune.cut_of(held, before.strftime("%Y-%m-%dT%H:%M:%S.000Z"), at_least)

    def prune(self, **how):
        cut = self.cut(**how)
        if cut is not None:
            journal_prune.prune(str(self.path), cut)
        return cut


class Cuts(Room):
    def test_what_is_older_goes_and_all_else_stays(self):
        written(self.path, [(100 - seq, seq // 2 + 1, RUN[seq % 2]) for seq in range(40)])
        before = lists(self.path)
        cut = self.prune()
        # entry n was taken 101 - n days ago; those of 90 days ago are about as old as what is asked for
        self.assertIn(cut.last, (10, 11))
        self.assertEqual((cut.goes, cut.stays), (cut.last, 40 - cut.last))
        after = lists(self.path)
        self.assertEqual(after["entry"], before["entry"][cut.last:])
        self.assertEqual(oct(self.path.stat().st_mode & 0o777), "0o600")
        self.assertEqual(sorted(os.listdir(self.room)), ["plan.db.journal"])
        with closing(sqlite3.connect(self.path)) as db:
            self.assertEqual(db.execute("PRAGMA user_version").fetchone(), (1,))
            self.assertEqual(db.execute("PRAGMA integrity_check").fetchone(), ("ok",))
            names = {name for (name,) in db.execute("SELECT name FROM sqlite_schema")}
        self.assertLessEqual({"entry", "happened"}, names)
        self.assertIsNone(self.cut())

    def test_what_a_desk_needs_stays(self):
        days = [(200, serial, status) for serial in range(1, 6) for status in RUN]
        for more, at_least, first in (
                ([(200, 9, STARTED)] + [(200, 7, one) for one in RUN], 1, 11),  # is still started
                ([(200, 9, STARTED), (200, 9, ERROR)] + [(200, 7, one) for one in RUN], 1, 14),
                ([(200, 9, None)] + [(200, 7, one) for one in RUN], 1, 11),  # has no answer
                ([], 4, 7), ([], 1, 10), ([], 100, None)):
            with self.subTest(more=more, at_least=at_least):
                self.path.unlink(missing_ok=True)
                written(self.path, days + more)
                cut = self.cut(at_least=at_least)
                self.assertEqual(cut and cut.last + 1, first)

    def test_the_last_entry_that_the_plan_keeps_stays(self):
        written(self.path, [(200, 1, STARTED), (200, 1, COMPLETE)])
        with closing(sqlite3.connect(self.path)) as db, db:
            db.execute("UPDATE entry SET reply = 'refused 10' WHERE seq = 2")
        self.assertIsNone(self.cut())

    def test_when_jobs_ran_stays_for_what_is_open_and_for_the_last_runs(self):
        runs = [(300, serial, status) for serial in range(1, 41) for status in RUN]
        written(self.path, [(300, 99, STARTED), (300, 99, ERROR), *runs, (1, 98, STARTED)])
        with closing(sqlite3.connect(self.path)) as db, db:
            db.execute("UPDATE happened SET app = 'A' WHERE serial < 90")
        cut = self.prune()
        self.assertEqual((cut.last, seqs(self.path)), (82, [83]))
        # 40 runs of A: the last 30 stay; 99 is in error, and stays
        self.assertEqual(seqs(self.path, "happened"), [1, 2, *range(23, 83), 83])

    def test_jobs_of_what_goes_are_noted_as_those_of_the_plan(self):
        written(self.path, [(300, serial, status) for serial in (1, 2) for status in RUN])
        with closing(journal.Journal(str(self.path))) as held:
            held.note_plan("/plan.db", 1, 2, "1-6,9")
        self.prune()
        with closing(journal.Journal(str(self.path))) as held:
            self.assertEqual(held.of_plan().jobs, {1, 2, 3, 4, 5, 6, 9, *range(FIRST_JOB, FIRST_JOB + 3)})

    def test_a_shared_log_is_known_up_to_what_goes(self):
        written(self.path, [(300, serial, status) for serial in (1, 2) for status in RUN])
        with closing(journal.Journal(str(self.path))) as held:
            held.begin("log", 4, 5, "first", "p")
            held.db.execute("UPDATE begun SET seq = 1, since = 1")  # the entries after the first are its own answers
            held.db.execute("UPDATE entry SET digest = 'd' || seq")
        self.prune()
        with closing(journal.Journal(str(self.path))) as held:
            self.assertEqual(held.begun(), journal.LogStart("log", 3, 5, "d3", "p", 1, 0, None))
            self.assertEqual((held.digest_at(3, 3, "d3"), held.digest_at(4, 3, "d3")), ("d3", "d4"))

    def test_an_old_job_that_is_answered_again_did_not_happen_again(self):
        steps = [(300, 1, STARTED), (300, 1, COMPLETE), (1, 2, STARTED)]
        written(self.path, steps)
        with closing(sqlite3.connect(self.path)) as db, db:
            db.execute("UPDATE entry SET job = 17 WHERE seq = 1")
        with closing(journal.Journal(str(self.path))) as held:
            held.note_plan("/plan.db", 1, 2, "")
        self.prune()
        with closing(journal.Journal(str(self.path))) as held:
            for seq, job in ((4, 17), (5, 18)):
                held.put([journal.Entry(seq, "2026-01-01T00:00:00.000Z", "me", None, job,
                                        b"cp-start --app A1 --ia 2024-01-01/08.00 --job %d\n" % job, None, None)],
                         [])
                held.keep_replies([journal.JournalReply(seq, "ok serial 1 status S", None)])
            self.assertEqual([one.seq for one in held.happened() if one.seq > 3], [5])

    @unittest.skipUnless(traced.can_trace(), "no process may be traced here")
    def test_who_is_stopped_at_a_system_call_leaves_the_old_one_or_the_new_one(self):
        written(self.path, [(300, serial, status) for serial in range(1, 5) for status in RUN])
        kept, cut = self.path.read_bytes(), self.cut()
        old = lists(self.path)
        journal_prune.prune(str(self.path), cut)
        new, seen, number, is_killed = lists(self.path), [], 0, True
        self.assertNotEqual(old, new)
        while is_killed:
            number += 1
            for name in os.listdir(self.room):
                os.remove(self.room / name)
            self.path.write_bytes(kept)
            is_killed = traced.killed_at(number, lambda: journal_prune.prune(str(self.path), cut))
            found = lists(self.path)
            self.assertIn(found, (old, new), number)
            seen.append(found == new)
            self.prune()
            self.assertEqual(lists(self.path), new, number)
            if not seen[-1]:  # the second run leaves nothing behind
                self.assertEqual(os.listdir(self.room), ["plan.db.journal"], number)
        self.assertGreater(number, 50)
        self.assertEqual(seen, sorted(seen))

    def test_a_disk_that_is_full_changes_nothing(self):
        written(self.path, [(300, serial, status) for serial in range(1, 5) for status in RUN])
        cut, old = self.cut(), lists(self.path)
        for name in ("os.replace", "os.fsync", "os.open"):
            with mock.patch(name, side_effect=OSError(28, "No space left on device")):
                self.assertRaisesRegex(journal_prune.Unwritable, "can't be pruned: No space left", journal_prune.prune,
                                       str(self.path), cut)
            self.assertEqual((lists(self.path), os.listdir(self.room)), (old, ["plan.db.journal"]))


@unittest.skipIf(desks.why_not(), desks.why_not())
class WithADesk(desks.Case):
    def pruned(self, *words):
        return plans.plan("journal", self.plan, "--prune", *words)

    def age(self, upto, days=400):
        """Has entries up to one be older than they are."""
        at = journals.universal(days_ago(days))
        with closing(sqlite3.connect(f"{self.plan}.journal")) as db, db:
            db.execute("UPDATE entry SET at = ? WHERE seq <= ?", (at, upto))

    def test_a_desk_goes_on_behind_a_journal_that_was_pruned(self):
        desk = self.desk()
        text = "cp-start --app APP00 --ia 2024-01-01/08.00\ncp-fail --app APP00 --ia 2024-01-01/08.00\n" \
               "cp-reset --app APP00 --ia 2024-01-01/08.00\n"
        found = [desk.posted(text, Idempotency_Key=f"k{one}")[2].count("ok serial") for one in range(4)]
        self.end(desk)
        self.assertEqual(found, [3] * 4, "the centre has no such occurrence")
        self.age(8)
        with mock.patch.object(journal_plan, "MOST_COMPARED", 1):
            ran = self.pruned("--yes")  # by itself it keeps the last 2,000
        self.assertEqual((ran.returncode, ran.stderr), (0, ""))
        self.assertIn("nothing goes", ran.stdout)
        with closing(journal.Journal(f"{self.plan}.journal")) as held:
            cut = journal_prune.cut_of(held, "2026-01-01T00:00:00.000Z", 2)
        self.assertEqual(cut.last, 8)
        journal_prune.prune(f"{self.plan}.journal", cut)
        desk = self.desk()
        heads, data = client.Client(desk.socket).request("GET", "/journal?from=1")
        self.assertEqual(data.count(b"\n"), 4)
        # the last stream is answered as it was; one that went is done anew
        self.assertIn("ok serial", desk.posted(text, Idempotency_Key="k3")[2])
        self.assertEqual(desk.health()["position"], 12)
        self.assertIn("ok serial", desk.posted(text, Idempotency_Key="k0")[2])
        self.assertEqual(desk.health()["position"], 15)
        with client.Client(desk.socket).answer("GET", "/events?since=3") as answer:
            self.assertIn(b"anew-0", b"".join(answer.fp.readline() for _ in range(5)))
        self.end(desk)
        self.end(self.desk())

    def test_a_desk_that_runs_is_in_the_way(self):
        desk = self.desk()
        ran = self.pruned("--yes")
        self.assertEqual((ran.returncode, ran.stdout, ran.stderr.count("\n")), (1, "", 1))
        self.assertIn("nothing was done, because a desk has it; end the desk, prune, and start the desk "
                      "again", ran.stderr)
        self.end(desk)


class Words(Room):
    def setUp(self):
        super().setUp()
        self.plan = self.room / "plan.db"
        self.plan.write_bytes(b"plan")  # which isn't looked into

    def write(self, count=4000):
        written(self.path, [(300, serial, status) for serial in range(1, count // 2 + 1) for status in RUN])

    def pruned(self, *words):
        return plans.plan("journal", self.plan, "--prune", *words)

    def test_it_is_said_first(self):
        self.write()
        old = lists(self.path)
        ran = self.pruned()
        self.assertEqual(ran.returncode, 1)
        self.assertIn("nothing was done, because there is no terminal to ask on; --yes prunes without "
                      "asking", ran.stderr)
        for part in ("2,000 entries go, up to entry 2000", "2,000 entries stay, from entry 2001 on",
                     "because the last 2,000 always stay", "the keys of their streams"):
            self.assertIn(part, ran.stdout)
        self.assertEqual(lists(self.path), old)
        ran = self.pruned("--yes")
        self.assertEqual((ran.returncode, ran.stderr), (0, ""))
        self.assertEqual(seqs(self.path), list(range(2001, 4001)))
        ran = self.pruned("--yes")
        self.assertEqual((ran.returncode, ran.stdout), (0, f"{self.path}: nothing goes\n"
                                                           f"{self.plan}.logs: 0 logs go, 0 bytes; 0 stay, 0 bytes\n"))

    def test_at_a_terminal_it_asks(self):
        self.write()
        for answer, status in ((b"n\n", 1), (b"\n", 1), (b"y\n", 0)):
            main, other = pty.openpty()
            with open(main, "r+b", buffering=0) as typed, open(other, "r+b", buffering=0) as shown:
                typed.write(answer)
                ran = subprocess.run([sys.executable, plans.TOP / "plan", "journal", self.plan, "--prune"], stdin=shown,
                                     stderr=shown, stdout=subprocess.PIPE, check=False, timeout=60)
            self.assertEqual((ran.returncode, len(seqs(self.path))), (status, 4000 if status else 2000), answer)

    def test_words_that_do_not_go_together(self):
        self.write(2)
        for words in (["--keep", "90"], ["--keep", "0d"], ["--size", "-1"], ["--keep", "90d", "--app", "A"], ["--json"],
                      ["--stream"], ["--from", "2024-01-01"]):
            ran = self.pruned(*words)
            self.assertEqual((ran.returncode, ran.stdout, ran.stderr.count("\n")), (2, "", 1), words)
        for words in ([], ["--prune"], [self.plan, "--yes"], [self.plan, "--keep", "90d"], ["--yes"],
                      ["--prune", "--logs", "x", "--journal", "y"]):
            ran = plans.plan("journal", *words)
            self.assertEqual((ran.returncode, ran.stdout, ran.stderr.count("\n")), (2, "", 1), words)
        for path in (self.room / "none", self.room):
            ran = plans.plan("journal", path, "--prune", "--yes")
            self.assertEqual((ran.returncode, ran.stdout, ran.stderr.count("\n")), (1, "", 1), path)

    def logs(self, folder, ages, form="{:09}.log"):
        """Logs of so many days, of 1,000 bytes each."""
        folder.mkdir(exist_ok=True)
        for serial, days in enumerate(ages, 1):
            path = folder / form.format(serial)
            path.write_bytes(b"x" * 1000)
            moment = (datetime.datetime.now() - datetime.timedelta(days=days)).timestamp()
            os.utime(path, (moment, moment))
        return folder

    def test_old_logs_go_by_age_and_size(self):
        folder = self.logs(self.room / "log", [200, 100, 80, 70, 1])
        ran = plans.plan("journal", "--prune", "--logs", folder, "--yes")
        self.assertEqual((ran.returncode, ran.stderr), (0, ""))
        self.assertEqual(ran.stdout, f"{folder}: 2 logs go, 2.0 kB; 3 stay, 3.0 kB\n")
        self.assertEqual(sorted(os.listdir(folder)), [f"{serial:09}.log" for serial in (3, 4, 5)])
        ran = plans.plan("journal", "--prune", "--logs", folder, "--size", "2000", "--yes")
        self.assertEqual(sorted(os.listdir(folder)), [f"{serial:09}.log" for serial in (4, 5)])
        ran = plans.plan("journal", "--prune", "--logs", folder, "--keep", "2d", "--yes")
        self.assertEqual(os.listdir(folder), ["000000005.log"])

    def test_those_of_the_desk_go_too(self):
        self.write(2)
        folder = self.logs(self.room / "plan.db.logs", [200, 1], "{:09}.01.log")
        (folder / "other").write_text("stays", encoding="ascii")
        ran = self.pruned("--yes")
        self.assertEqual((ran.returncode, ran.stderr), (0, ""))
        self.assertEqual(sorted(os.listdir(folder)), ["000000002.01.log", "other"])

    def test_a_log_of_a_run_stays(self):
        folder = self.logs(self.room / "log", [200, 200, 200])
        record.write(folder, record.Record(1, "AA", "2024-01-01/08.00", "k", 0, None))
        with record.locked_log(folder, 2):
            ran = plans.plan("journal", "--prune", "--logs", folder, "--yes")
        self.assertEqual((ran.returncode, ran.stderr), (0, ""))
        self.assertEqual(sorted(os.listdir(folder)), ["000000001.log", "000000001.run", "000000002.log"])

    def test_a_log_that_goes_as_it_is_opened_is_made_anew(self):
        folder = self.logs(self.room / "log", [200])
        taken, path = record.is_taken, record.log_of(folder, 1)

        def late(number):
            os.remove(path)
            return taken(number)

        turns = [late]
        with mock.patch.object(record, "is_taken", lambda number: (turns.pop() if turns else taken)(number)):
            number = record.open_log(folder, 1)
        self.addCleanup(os.close, number)
        self.assertTrue(os.path.samestat(os.fstat(number), os.stat(path)))
        self.assertTrue(record.is_run(folder, 1))


if __name__ == "__main__":
    unittest.main()
