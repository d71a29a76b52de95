"""The ends of job logs at a desk: what is kept of each try, how much of it, by whom it is read, and where its files
are."""

import contextlib
import os
import tempfile
import threading
import unittest
from pathlib import Path
from unittest import mock

from support import desks, plans

from opcplan.desk import client, routes
from opcplan.plans import job_logs
from opcplan.plans.log_room import NoRoom, Standing

HOSTILE = ("0", "-1", "1x", "1234567890", "..", "%2e%2e", "..%2f..%2fplan.db", "1%00", "1%2f2", "%31%0a", "1.2",
           "x" * 300)
KIB = 1 << 10


class Kept(unittest.TestCase):
    """The folder by itself."""

    def setUp(self):
        room = tempfile.TemporaryDirectory(prefix="logs-")
        self.addCleanup(room.cleanup)
        self.folder = Path(room.name) / "logs"

    def names(self):
        return sorted(os.listdir(self.folder))

    def test_each_try_has_a_file_and_the_last_word_counts(self):
        logs = job_logs.JobLogs(str(self.folder))
        self.assertIsNone(logs.read(7))
        for attempt, data in ((1, b"one"), (2, b"tw"), (2, b"two")):
            logs.put(7, attempt, data)
        logs.put(8, 1, b"other")
        self.assertEqual((logs.read(7), logs.read(8), logs.read(9)), (b"onetwo", b"other", None))
        self.assertEqual(self.names(), ["000000007.01.log", "000000007.02.log", "000000008.01.log"])
        for path, mode in ((self.folder, 0o700), (self.folder / "000000007.01.log", 0o600)):
            self.assertEqual(path.stat().st_mode & 0o777, mode)

    def test_the_first_try_of_a_new_run_takes_the_tries_of_the_old_one_away(self):
        logs = job_logs.JobLogs(str(self.folder))
        for attempt in (1, 2, 3, 1):
            logs.put(7, attempt, b"%d" % attempt)
        self.assertEqual((logs.read(7), self.names()), (b"1", ["000000007.01.log"]))

    def test_the_oldest_go_where_there_is_no_room(self):
        logs = job_logs.JobLogs(str(self.folder), 1000)
        for serial in range(1, 31):
            logs.put(serial, 1, b"x" * 100)
            logs.room().noted(serial, Standing.OVER)
            os.utime(logs.path_of(serial, 1), (serial, serial))
            self.assertLessEqual(sum(path.stat().st_size for path in self.folder.iterdir()), 1000)
        self.assertEqual(self.names(), [f"0000000{serial}.01.log" for serial in range(21, 31)])
        self.assertIsNone(logs.read(20))
        self.assertEqual(logs.read(30), b"x" * 100)
        # one that begins over a folder knows what is in it, and not yet whose occurrences are over
        logs = job_logs.JobLogs(str(self.folder), 1000)
        self.assertRaises(NoRoom, logs.put, 99, 1, b"y" * 100)
        for serial in range(21, 30):
            logs.room().noted(serial, Standing.OVER)
        logs.put(99, 1, b"y" * 100)
        self.assertEqual(self.names(), [f"0000000{serial}.01.log" for serial in (*range(22, 31), 99)])

    def test_no_more_is_shown_than_so_much(self):
        logs = job_logs.JobLogs(str(self.folder))
        for attempt in (1, 2, 3):
            logs.put(7, attempt, b"%d" % attempt * (100 * KIB))
        self.assertEqual(logs.read(7), (b"1" * 100 * KIB + b"2" * 100 * KIB + b"3" * 100 * KIB)[-256 * KIB:])

    def test_a_disk_that_is_full_leaves_what_was_there(self):
        logs = job_logs.JobLogs(str(self.folder))
        logs.put(7, 1, b"one")
        for name in ("os.replace", "os.open"):
            with mock.patch(name, side_effect=OSError(28, "No space left on device")):
                self.assertRaises(OSError, logs.put, 7, 1, b"two")
            self.assertEqual((logs.read(7), self.names()), (b"one", ["000000007.01.log"]))

    def test_a_link_is_not_followed(self):
        logs = job_logs.JobLogs(str(self.folder))
        self.folder.mkdir()
        other = self.folder.parent / "other"
        other.write_text("other", encoding="ascii")
        (self.folder / "000000007.01.log.part").symlink_to(other)
        self.assertRaises(OSError, logs.put, 7, 1, b"one")
        self.assertEqual(other.read_text(encoding="ascii"), "other")

    def test_many_at_once(self):
        logs = job_logs.JobLogs(str(self.folder))
        all_of_them = [threading.Thread(target=logs.put, args=(7, 1, b"%d" % one * 1000)) for one in range(8)]
        for one in all_of_them:
            one.start()
        for one in all_of_them:
            one.join()
        self.assertIn(logs.read(7), [b"%d" % one * 1000 for one in range(8)])
        self.assertEqual((self.names(), logs.room().logs, logs.room().bytes), (["000000007.01.log"], 1, 1000))


@unittest.skipIf(desks.why_not(), desks.why_not())
class AtADesk(desks.Case):
    @staticmethod
    def act(desk, what, *serials):
        """Has a desk start, complete or reset occurrences of the first day; those of odd serials wait for nothing."""
        for serial in serials:
            told = desk.posted(f"cp-{what} --app APP{serial - 1:02} --ia 2024-01-01/08.{serial - 1:02}")[2]
            assert told.startswith(f"ok serial {serial} status "), told

    def put(self, desk, path, data=b"one\n"):
        """The status of what is put; `said` is the sentence of a refusal."""
        try:
            client.Client(desk.socket).request("PUT", path, data, {"Content-Type": "text/plain"})
        except client.RequestRefused as why:
            self.said = str(why)
            self.assertEqual(self.said.count("\n"), 0)
            return why.status
        return 204

    def got(self, desk, serial):
        """The headers and the text of what is shown."""
        heads, data = client.Client(desk.socket).request("GET", f"/logs/{serial}")
        return heads, data.decode()

    def names(self):
        """The serials and tries of the files that there are."""
        return [name.removesuffix(".log").lstrip("0") for name in sorted(os.listdir(f"{self.plan}.logs"))]

    def test_what_an_agent_gives_is_shown_as_text(self):
        desk = self.desk()
        self.act(desk, "start", 7)
        self.assertEqual(self.put(desk, "/logs/7?try=1", b"<script>\xff\n"), 204)
        self.assertEqual(self.put(desk, "/logs/7?try=2", b"two\n"), 204)
        heads, text = self.got(desk, 7)
        self.assertEqual(text, "<script>\ufffd\ntwo\n")
        self.assertEqual((heads["Content-Type"], heads["X-Content-Type-Options"], heads["Cache-Control"]),
                         ("text/plain; charset=utf-8", "nosniff", "no-store"))
        self.assertEqual(self.got(desk, "000000007")[1], text)
        with contextlib.closing(client.BySocket(desk.socket, 60)) as connection:
            connection.request("GET", "/logs/8")
            answer = connection.getresponse()
            self.assertEqual((answer.status, answer.read()), (204, b""))
        self.end(desk)
        self.assertEqual(sorted(os.listdir(f"{self.plan}.logs")), ["000000007.01.log", "000000007.02.log"])
        desk = self.desk()
        self.assertEqual(self.got(desk, 7)[1], text)
        self.end(desk)

    def test_what_is_no_serial_or_try_makes_no_file(self):
        desk = self.desk()
        for serial in HOSTILE:
            self.assertIn(self.put(desk, f"/logs/{serial}"), (400, 404, 405), serial)
            with self.assertRaises(client.RequestRefused, msg=serial) as caught:
                self.got(desk, serial)
            self.assertIn(caught.exception.status, (400, 404, 405), serial)
        for attempt in ("0", "100", "-1", "x", "", "1/../../x", "%2e"):
            self.assertEqual(self.put(desk, f"/logs/7?try={attempt}"), 400, attempt)
        self.end(desk)
        self.assertFalse(os.path.exists(f"{self.plan}.logs"))

    def test_no_more_is_taken_than_so_much(self):
        desk = self.desk()
        self.act(desk, "start", 7)
        self.assertEqual(self.put(desk, "/logs/7", b"x" * 256 * KIB), 204)
        self.assertEqual(self.put(desk, "/logs/8", b"x" * (256 * KIB + 1)), 413)
        self.assertEqual(self.put(desk, "/logs/8", iter([b"x" * 100 * KIB] * 3)), 413)
        self.assertEqual(len(self.got(desk, 7)[1]), 256 * KIB)
        self.end(desk)
        self.assertEqual(os.listdir(f"{self.plan}.logs"), ["000000007.01.log"])

    def test_only_what_was_started_has_a_log(self):
        desk = self.desk()
        never = "occurrence 7 was never started, so no job of it has a log; nothing was stored"
        self.assertEqual((self.put(desk, "/logs/7"), self.said), (409, never))
        self.act(desk, "start", 7, 9)
        for serial, status in ((7, 204), (8, 409), (9, 204), (999_999_999, 409)):
            self.assertEqual(self.put(desk, f"/logs/{serial}"), status, serial)
        self.act(desk, "complete", 7)
        self.assertEqual(self.put(desk, "/logs/7?try=2"), 204)
        self.end(desk)
        Path(f"{self.plan}.journal").unlink()  # a new one knows nothing of what happened, and the plan does
        desk = self.desk()
        for serial, status in ((7, 204), (8, 409), (9, 204), (11, 409)):
            self.assertEqual(self.put(desk, f"/logs/{serial}"), status, serial)
        self.act(desk, "fail", 9)
        self.act(desk, "reset", 9)
        self.assertEqual(self.put(desk, "/logs/9"), 204)
        self.end(desk)
        self.assertEqual(sorted(os.listdir(f"{self.plan}.logs")), ["000000007.01.log", "000000009.01.log"])

    def test_what_is_over_gives_way(self):
        desk, most = self.desk("--job-logs", "1"), b"x" * 256 * KIB
        self.act(desk, "start", 7, 9, 11, 13, 15, 17)
        for serial in (11, 9, 7, 13):
            self.assertEqual(self.put(desk, f"/logs/{serial}", most), 204)
        self.assertEqual((self.put(desk, "/logs/15", b"one\n"), self.said), (
            507, "the desk has no room for this log: it has 4 logs of jobs, 1,024 KiB in all, and may have 50,000 logs "
            "of 1,024 KiB; those that could give way are of occurrences that aren't over; the agent still has it"))
        self.assertEqual(self.put(desk, "/logs/13", most), 204)  # in the place of its earlier one
        self.act(desk, "complete", 9, 11)
        self.assertEqual(self.put(desk, "/logs/15", most), 204)
        self.assertEqual((self.got(desk, 11)[1], self.put(desk, "/logs/9?try=2", b"")), ("x" * 256 * KIB, 204))
        self.assertEqual(self.put(desk, "/logs/17", most), 204)
        self.act(desk, "fail", 13)
        self.act(desk, "reset", 13)
        self.act(desk, "start", 19)
        self.assertEqual(self.put(desk, "/logs/19", most), 507)  # one that is in error or waits again isn't over
        self.end(desk)
        desk = self.desk("--job-logs", "1")
        self.assertEqual(self.put(desk, "/logs/19", most), 507)
        self.assertEqual(self.names(), ["7.01", "9.02", "13.01", "15.01", "17.01"])
        self.act(desk, "complete", 7)
        self.assertEqual(self.put(desk, "/logs/19", most), 204)
        self.end(desk)
        self.assertEqual(self.names(), ["13.01", "15.01", "17.01", "19.01"])
        for wrong in ("0", "-1", "x", "1.5", "10000000"):
            self.assertIn("is not a number of MiB", plans.plan("desk", self.plan, "--job-logs", wrong).stderr)

    def test_a_folder_that_can_not_be_written_is_reported(self):
        desk = self.desk()
        self.act(desk, "start", 7)
        Path(f"{self.plan}.logs").write_text("no folder", encoding="ascii")
        self.assertEqual(self.put(desk, "/logs/7"), 507)
        self.assertEqual(desk.posted("list cp\n")[0], 200)
        self.end(desk)

    def test_roles(self):
        """Who may look at the plan alone reads no log: what jobs print may be anything."""
        self.assertEqual({(route.method, route.role.name) for route in routes.ROUTES if route.path.startswith("/logs")},
                         {("PUT", "OPERATE"), ("GET", "OPERATE")})


if __name__ == "__main__":
    unittest.main()
