"""./plan page: its words, its files, what it refuses, and the plans of some worked streams."""

import errno
import os
import re
import shutil
import sqlite3
import tempfile
import unittest
from contextlib import closing
from pathlib import Path
from unittest import mock

from support import page_reader as read, plans
from support.page_reader import ask, parts_of

from opcplan.cli import output
from opcplan.errors import Unwritable
from opcplan.plans import sound_rows
from opcplan.rules import moments
from opcplan.webpage import page_data, page_html


WORKED = ["first-days", "monday", "each-status-under-each-action", "pairs-into-history", "deleted-stays-deleted",
          "two-hundred-statements", "bytes-of-no-text", "empty-plan", "empty", "calendar-not-defined"]
TWO_DAYS = plans.stream("monday") + plans.stream("tuesday")


class Words(unittest.TestCase):
    """Words, files, and what is refused."""

    def setUp(self):
        self.folder = tempfile.mkdtemp(prefix="page-")
        self.addCleanup(shutil.rmtree, self.folder)
        self.path = plans.copy_of(plans.of_stream(TWO_DAYS), self.folder)

    def test_the_plan_stays_as_it_was(self):
        before = plans.prints(self.path)
        read.page_of(self.path)
        self.assertEqual(before, plans.prints(self.path))

    def test_a_file_for_the_page(self):
        out, beside = Path(self.folder) / "page.html", os.listdir(self.folder)
        asked = plans.plan("page", self.path, "--now", "2024-01-02/06.00", "-o", out)
        self.assertEqual((asked.returncode, asked.stdout, asked.stderr), (0, "", ""))
        pages = out.read_text(encoding="utf-8"), read.page_of(self.path, "--now", "2024-01-02/06.00")
        # the minute in which a page was made may have passed
        self.assertEqual(*(re.sub(r'"made":[0-9]+', "", page) for page in pages))
        self.assertEqual(sorted(os.listdir(self.folder)), sorted([*beside, "page.html"]))
        self.assertEqual(out.stat().st_mode & 0o777, 0o666 & ~mask())

    def test_a_page_never_takes_a_plan_away(self):
        """Neither the plan that it shows nor any other database, by whatever name, nor a log that stands or would."""
        folder = Path(self.folder)
        os.symlink(self.path, folder / "link.db")
        os.link(self.path, folder / "second.db")
        ask(folder / "other.db", "CREATE TABLE song (title TEXT)")
        (folder / "lone-wal").write_bytes(bytes.fromhex("377f0682") + bytes(60))
        (folder / "lone.journal").write_bytes(bytes.fromhex("d9d505f920a163d7") + bytes(60))
        before = plans.prints(self.path)
        for out in (self.path, f"{self.path}-wal", f"{self.path}-shm", f"{self.path}-journal", folder / "link.db",
                    folder / "link.db-wal", folder / "second.db", folder / "other.db", folder / "other.db-wal",
                    folder / "lone-wal", folder / "lone.journal"):
            for force in ((), ("--force",)):
                asked = plans.plan("page", self.path, "-o", out, *force)
                self.assertEqual((asked.returncode, asked.stdout), (2, ""), out)
                self.assertTrue(asked.stderr.startswith("plan: ") and asked.stderr.count("\n") == 1, asked.stderr)
        self.assertEqual(before, plans.prints(self.path))

    def test_a_file_that_is_there_is_written_over_by_force(self):
        out = Path(self.folder) / "page.html"
        out.write_text("mine\n", encoding="utf-8")
        out.chmod(0o640)
        link = Path(self.folder) / "link.html"
        link.symlink_to(out)
        beside = sorted(os.listdir(self.folder))
        for name in (out, link):
            asked = plans.plan("page", self.path, "-o", name)
            self.assertEqual((asked.returncode, asked.stdout, out.read_text(encoding="utf-8")), (2, "", "mine\n"))
            self.assertIn("--force", asked.stderr)
        asked = plans.plan("page", self.path, "-o", link, "--force")
        self.assertEqual((asked.returncode, asked.stdout, asked.stderr), (0, "", ""))
        self.assertTrue(link.is_symlink() and out.read_text(encoding="utf-8").endswith("</html>\n"))
        self.assertEqual((out.stat().st_mode & 0o777, sorted(os.listdir(self.folder))), (0o640, beside))

    def test_a_page_is_whole_or_not_there(self):
        """Where the disk takes it no more, or refuses the name, what was there stays and nothing else is left."""
        out, beside = Path(self.folder) / "page.html", sorted(os.listdir(self.folder))
        for old, calls in ((None, ["fsync"]), (None, ["fchmod"]), (None, ["link", "replace"]), (b"mine", ["fsync"]),
                           (b"mine", ["fchmod"]), (b"mine", ["replace"])):
            if old:
                out.write_bytes(old)
            full = mock.Mock(side_effect=OSError(errno.ENOSPC, "No space left on device"))
            with mock.patch.multiple(os, **dict.fromkeys(calls, full)), self.assertRaises(Unwritable) as raised:
                output.write(str(out), b"a page", old is not None)
            self.assertIn("No space left", str(raised.exception))
            self.assertEqual(out.read_bytes() if out.exists() else None, old)
            out.unlink(missing_ok=True)
            self.assertEqual(sorted(os.listdir(self.folder)), beside)

    def test_a_page_on_a_file_system_of_single_names(self):
        out = Path(self.folder) / "page.html"
        with mock.patch.object(os, "link", side_effect=PermissionError(errno.EPERM, "Operation not permitted")):
            output.write(str(out), b"a page", False)
        self.assertEqual(out.read_bytes(), b"a page")

    def test_a_file_that_comes_meanwhile_stays(self):
        out = Path(self.folder) / "page.html"
        with mock.patch.object(output, "umask", side_effect=lambda: out.write_bytes(b"mine") and 0o22):
            with self.assertRaises(Unwritable) as raised:
                output.write(str(out), b"a page", False)
        self.assertIn("somebody made this file meanwhile; --force", str(raised.exception))
        self.assertEqual(out.read_bytes(), b"mine")

    def test_where_it_cannot_be_written(self):
        asked = plans.plan("page", self.path, "-o", Path(self.folder) / "no" / "page.html")
        self.assertEqual((asked.returncode, asked.stdout), (1, ""))
        self.assertTrue(asked.stderr.startswith("plan: "))

    def test_what_is_no_plan(self):
        text = Path(self.folder) / "text.db"
        text.write_text("no plan\n", encoding="utf-8")
        empty = Path(self.folder) / "empty.db"
        empty.touch()
        other = Path(self.folder) / "other.db"
        ask(other, "CREATE TABLE song (title TEXT)")
        newer = plans.copy_of(self.path, self.folder, "newer.db")
        with closing(sqlite3.connect(newer)) as db:
            db.execute("UPDATE plan_meta SET version = 7")
            db.commit()
        for path in (Path(self.folder) / "none.db", text, empty, other, newer, self.folder):
            for given in ((path,), (self.path, "--since", path)):
                asked = plans.plan("page", *given)
                self.assertEqual((asked.returncode, asked.stdout), (1, ""), given)
                self.assertTrue(asked.stderr.startswith(f"plan: {path}: "), asked.stderr)

    def test_rows_that_cannot_be(self):
        deletion = "INSERT INTO deletion_row VALUES (9999, 'APP', 28401120, 28401120, NULL, '?')"
        for name, text in (("status.db", "UPDATE cp_row SET status = 'Q'"), ("reason.db", deletion),
                           ("day.db", "UPDATE plan_meta SET plan_end = 99999999999999999")):
            path = plans.copy_of(self.path, self.folder, name)
            with closing(sqlite3.connect(path)) as db:
                db.execute(text)
                db.commit()
            asked = plans.plan("page", path)
            self.assertEqual((asked.returncode, asked.stdout), (1, ""), name)
            self.assertTrue(asked.stderr.startswith(f"plan: {path}: "), asked.stderr)
            self.assertIn("no sound plan", asked.stderr)
            asked = plans.plan("page", self.path, "--since", path)
            self.assertNotIn("Traceback", asked.stderr, name)

    def test_wrong_words(self):
        for given in ((), (self.path, "--from", "x"), (self.path, "--now", "2024-01-01"), (self.path, "--no"),
                      (self.path, "--from", "2024-01-02", "--to", "2024-01-01"), (self.path, "more")):
            asked = plans.plan("page", *given)
            self.assertEqual((asked.returncode, asked.stdout), (2, ""), given)
            self.assertTrue(asked.stderr.startswith("plan: "), asked.stderr)

    def test_help(self):
        asked = plans.plan("page", "--help")
        self.assertEqual((asked.returncode, asked.stderr), (0, ""))
        for word in ("PLAN.db", "--now", "--since", "--from", "--to", "-o"):
            self.assertIn(word, asked.stdout)

    def test_days_that_are_asked_for(self):
        path = plans.of_worked("data-centre-year")
        data = read.data_in(read.page_of(path, "--from", "2024-03-05", "--to", "2024-03-07"))
        wanted = {serial for serial, in ask(path, "SELECT serial FROM ltp_row WHERE date(ia * 60, 'unixepoch') BETWEEN "
                                                  "'2024-03-05' AND '2024-03-07'")}
        self.assertTrue(wanted)
        earlier = {predecessor for _, predecessor in read.pairs_in(data)}
        shown = set(read.serials_in(data))
        self.assertEqual(shown - earlier, wanted - earlier)
        self.assertTrue(wanted <= shown)

    def test_a_clock_outside_the_plan(self):
        data = read.data_in(read.page_of(plans.of_worked("data-centre-year")))
        end = plans.planner_of(plans.stream("data-centre-year")).bounds[2]
        self.assertEqual(data["now"], end)
        self.assertIn("outside this plan", data["note"])

    def test_text_that_looks_like_marks(self):
        bad = "</script><script>alert(1)</script>{{script}}<!--"
        name = "a<b>&\"'{{title}} ?#%41.db"
        path = plans.copy_of(self.path, self.folder, name)
        with closing(sqlite3.connect(path)) as db:
            db.execute("INSERT INTO job VALUES (999999, ?, ?)", (f"{bad}\nmore".encode(), bad))
            db.execute("INSERT INTO application VALUES (?, 1, ?)", (bad, bad))
            db.execute("INSERT INTO cp_row VALUES (99999, ?, 1, 2, ?, 'E')", (bad, bad))
            db.commit()
        # no plan that has such names is opened; the page has to escape them all the same
        with mock.patch.object(sound_rows, "asked", return_value=()):
            page = page_html.page_of(page_data.data_of(path, moments.moment_of("2024-01-02/06.00")))
        self.assertEqual(page.count("</script>"), 2)
        self.assertEqual(page.lower().count("<script"), 2)
        data = read.data_in(page)
        self.assertEqual((data["file"], data["jobs"][-1]), (name, [999999, bad, bad]))
        self.assertIn("a&lt;b&gt;&amp;&quot;&#x27;{{title}} ?#%41.db", page)
        self.assertIn("&lt;/script&gt;", re.search(r"<noscript>(.*?)</noscript>", page, re.S)[1])

    def test_worked_streams(self):
        for name in WORKED:
            with self.subTest(name):
                planner = plans.planner_of(plans.stream(name))
                path = plans.of_worked(name)
                days = [] if planner.bounds is None else ["--from", "1972-01-01", "--to", "2071-12-31"]
                data = read.data_in(read.page_of(path, *days))
                held = parts_of(planner)
                self.assertEqual({row[0]: row for row in read.rows_in(data)},
                                 {serial: row for serial, (row, _) in held.items()} if planner.bounds else {})
                self.assertEqual(read.pairs_in(data), planner.pairs)


def mask():
    """The bits that a new file doesn't get."""
    found = os.umask(0)
    os.umask(found)
    return found


if __name__ == "__main__":
    unittest.main()
