"""./plan desk: files that are moved, journals of other plans, plans that were changed by hand, and an opcplan that
stands still."""

import contextlib
import os
import shutil
import signal
import sqlite3
import subprocess
import unittest
from contextlib import closing

from support import desks, plans

START, COMPLETE = (f"cp-{what} --app APP00 --ia 2024-01-01/08.00" for what in ("start", "complete"))


@unittest.skipIf(desks.why_not(), desks.why_not())
class Moved(desks.Case):
    """What is answered after a file was moved isn't acknowledged, and the desk ends."""

    def test_each_file(self):
        desk = self.desk()
        for tail in ("", "-wal", ".journal", ".journal-wal"):
            for what in ("moved", "replaced"):
                with self.subTest(tail=tail, what=what):
                    desk = self.moved(desk, f"{self.plan}{tail}", what)
        self.end(desk)

    def moved(self, desk, path, what):
        """The desk that goes on once the file is back of which a desk's own was moved."""
        line = f"cp-add --app APP00 --ia 2024-01-02/{len(self.desks):02}.00"
        self.assertEqual(desk.posted(line)[0], 200)
        os.rename(path, f"{path}.old")
        if what == "replaced":
            shutil.copyfile(f"{path}.old", path)
        try:
            status, _, body = desk.posted(START)
            self.assertEqual((status, body.count("\n")), (503, 1), body)
        except ConnectionError:
            pass  # the desk has ended
        self.assertEqual(desk.process.wait(desks.PATIENCE), 1)
        desk.reader.join(10)
        self.assertIn(os.path.basename(path).removesuffix("-wal"), desk.said[-1])
        os.replace(f"{path}.old", path)
        for one in self.room.iterdir():
            if one.name.endswith(".socket"):
                one.unlink()
        # the plan as it was, and what its own journal has, go on together
        again = self.desk()
        again.comes(lambda found: found.get("status") == "ok")
        return again

    def test_a_desk_that_nobody_asks_anything(self):
        for tail in ("", ".journal"):
            desk = self.desk()
            desk.posted(START)
            os.rename(f"{self.plan}{tail}", f"{self.plan}{tail}.old")
            self.assertEqual(desk.process.wait(desks.PATIENCE), 1)
            desk.reader.join(10)
            self.assertIn(f"{self.plan.name}{tail}", desk.said[-1])
            os.rename(f"{self.plan}{tail}.old", f"{self.plan}{tail}")

    def test_a_list_that_is_kept_isn_t_given_of_a_file_that_was_moved(self):
        desk = self.desk()
        self.assertEqual(desk.asked("GET", "/rows?list=cp")[0], 200)
        os.rename(self.plan, f"{self.plan}.old")
        try:
            self.assertEqual(desk.asked("GET", "/rows?list=cp")[0], 503)
        except ConnectionError:
            pass  # the desk has ended
        self.assertEqual(desk.process.wait(desks.PATIENCE), 1)

    def test_a_snapshot_isn_t_of_another_file(self):
        desk = self.desk()
        desk.posted(START)
        os.rename(self.plan, f"{self.plan}.old")
        shutil.copyfile(f"{self.plan}.old", self.plan)
        self.assertEqual(desk.asked("GET", "/snapshot")[0], 503)
        desk.ended()


@unittest.skipIf(desks.why_not(), desks.why_not())
class Journals(desks.Case):
    def refused(self, plan, *words):
        ran = plans.plan("desk", plan, "--program", plans.PROGRAM, "--listen", "127.0.0.1:0", *words)
        self.assertEqual((ran.returncode, ran.stderr.count("\n")), (1, 1), ran.stderr)
        return ran.stderr

    def test_a_journal_of_another_plan(self):
        other = plans.copy_of(plans.of_stream(desks.CENTRE), self.room, "other.db")
        journal = f"{self.plan}.journal"
        desk = self.desk()
        desk.posted(START)
        self.assertIn("another desk uses this file", self.refused(other, "--journal", journal))
        self.end(desk)
        strange = desks.Desk(other)
        self.desks.append(strange)
        strange.posted(COMPLETE)
        self.assertEqual(strange.ended(), 0)
        message = self.refused(other, "--journal", journal)
        self.assertIn("journal of another plan", message)
        self.assertIn(str(self.plan), message)
        desk = self.desk()
        self.assertEqual(desk.posted(COMPLETE)[2], "ok serial 1 status C\n")
        self.end(desk)

    def test_a_plan_that_was_changed_by_hand(self):
        desk = self.desk()
        desk.posted(f"{START} --job 77\n")
        self.end(desk)
        subprocess.run([plans.PROGRAM, "--db", self.plan], input=f"{COMPLETE} --job 78\n".encode(),
                       capture_output=True, check=True)
        self.assertIn("has job 78", self.refused(self.plan))
        desk = self.desk("--journal", self.room / "new")
        self.assertEqual(desk.posted(f"{COMPLETE} --job 78\n")[2], "ok serial 1 status C\n")
        self.end(desk)

    @unittest.skipIf(os.getuid(), "only root can mount a small disk")
    def test_a_disk_that_is_full_at_the_start(self):
        small = self.room / "small"
        small.mkdir()
        if subprocess.run(["mount", "-t", "tmpfs", "-o", "size=64k", "small", small], capture_output=True,
                          check=False).returncode:
            self.skipTest("nothing can be mounted here")
        self.addCleanup(subprocess.run, ["umount", small], check=True)
        with contextlib.suppress(OSError), open(small / "filler", "wb", buffering=0) as filler:
            while filler.write(bytes(4096)):
                pass
        message = self.refused(self.plan, "--journal", small / "journal")
        self.assertIn("its disk is full", message)

    def test_files_are_for_their_owner_alone(self):
        old = os.umask(0o022)
        self.addCleanup(os.umask, old)
        desk = self.desk()
        desk.posted(START)
        for tail in ("", "-wal", "-shm"):
            self.assertEqual(os.stat(f"{self.plan}.journal{tail}").st_mode & 0o777, 0o600, tail)
        self.end(desk)


@unittest.skipIf(desks.why_not(), desks.why_not())
class Still(desks.Case):
    def test_an_opcplan_that_stands_still(self):
        desk = self.desk("--limit", "3")
        desk.posted(START)
        os.kill(desk.open(), signal.SIGSTOP)
        self.assertEqual(desk.posted(COMPLETE, Idempotency_Key="c")[2], "ok serial 1 status C\n")
        self.assertEqual(desk.health()["starts"], 2)
        os.kill(desk.open(), signal.SIGSTOP)
        with closing(desks.raw(desk.port, self.post(desk, START))):
            found = desk.comes(lambda found: found["why"])
            self.assertIn("opcplan has printed nothing for", found["why"])
            self.assertEqual(found["status"], "stopped")
        desk.comes(lambda found: found["status"] == "ok")
        self.end(desk)
        with closing(sqlite3.connect(f"{self.plan}.journal")) as db:
            replies = [reply for (reply,) in db.execute("SELECT reply FROM entry ORDER BY seq")]
        self.assertEqual(replies[:2], ["ok serial 1 status S", "ok serial 1 status C"])

    def test_an_opcplan_that_stands_still_while_its_desk_ends(self):
        desk = self.desk("--limit", "3")
        self.assertEqual(desk.posted(START)[2], "ok serial 1 status S\n")
        os.kill(desk.open(), signal.SIGSTOP)
        self.assertEqual(desk.ended(), 0, desk.said)
        again = self.desk()
        self.assertEqual(again.posted(COMPLETE)[2], "ok serial 1 status C\n")
        self.end(again)

    @staticmethod
    def post(desk, text):
        head = f"POST /statements HTTP/1.0\r\nHost: 127.0.0.1:{desk.port}\r\nX-Opcplan: desk\r\n"
        return f"{head}Content-Length: {len(text)}\r\n\r\n{text}".encode()


if __name__ == "__main__":
    unittest.main()
