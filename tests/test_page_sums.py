"""page_sums: of a plan whose pages have sums, a page that doesn't match is told, in the file and from its log."""

import importlib.machinery
import importlib.util
import random
import shutil
import sqlite3
import subprocess
import tempfile
import unittest
from contextlib import closing
from pathlib import Path
from unittest import mock

from support import plans

from opcplan.errors import Unreadable
from opcplan.plans import page_sums, plan_file


SQLITE, TURNS = shutil.which("sqlite3"), 150


def put_sums(file):
    """Stock SQLite leaves eight bytes of each page free, and tools/reference/put-sums fills them."""
    target = file.with_suffix(".sums")
    words = [SQLITE, file, ".filectrl reserve_bytes 8", f"VACUUM INTO '{target}'"]
    subprocess.run(words, check=True, capture_output=True)
    subprocess.run([plans.TOP / "tools" / "reference" / "put-sums", target], check=True)
    return target


def tool():
    """tools/reference/put-sums as a module."""
    loader = importlib.machinery.SourceFileLoader("put_sums", str(plans.TOP / "tools" / "reference" / "put-sums"))
    module = importlib.util.module_from_spec(importlib.util.spec_from_loader("put_sums", loader))
    loader.exec_module(module)
    return module


@unittest.skipUnless(SQLITE, "there is no sqlite3")
class PageSums(unittest.TestCase):
    def setUp(self):
        room = tempfile.TemporaryDirectory(prefix="page-sums-")
        self.addCleanup(room.cleanup)
        self.room = Path(room.name)

    def summed(self, name="two-hundred-statements"):
        return put_sums(plans.copy_of(plans.of_worked(name), self.room, f"{name}.db"))

    def assert_refused(self, file):
        with self.assertRaises(Unreadable) as raised, plan_file.opened(file):
            self.fail("it was opened")
        return str(raised.exception)

    def test_sound_sums_are_taken(self):
        file = self.summed()
        before = plans.prints(file)
        with plan_file.opened(file) as plan:
            self.assertTrue(plan.is_created)
        self.assertEqual(plans.prints(file), before)
        self.assertTrue(page_sums.are_in(file))
        self.assertFalse(page_sums.are_in(plans.of_worked("monday")))

    def test_each_bit_that_is_turned_is_reported(self):
        file, chance = self.summed(), random.Random(60)
        data, turned = file.read_bytes(), self.room / "turned.db"
        with mock.patch.object(plan_file, "COARSE", 0):
            for place in [*range(0, 100, 7), 20, *(chance.randrange(len(data)) for _ in range(TURNS))]:
                other = bytearray(data)
                other[place] ^= 1 << chance.randrange(8)
                turned.write_bytes(other)
                with self.subTest(place):
                    found = self.assert_refused(turned)
                    if place >= 4096:
                        self.assertIn(f"page {place // 4096 + 1} doesn't match its sum", found)

    def test_each_subcommand_reports_it(self):
        file = self.summed()
        data = bytearray(file.read_bytes())
        data[-2000] ^= 1
        file.write_bytes(data)
        before = plans.prints(file)
        for words in (["late", file], ["dump", file], ["next-job", file], ["export", file, "--json"], ["page", file],
                      ["why", file, "A", "2024-01-02/08.00"], ["why-day", file, "A", "2024-01-02"]):
            ran = plans.plan(*words)
            self.assertEqual((ran.returncode, ran.stdout), (1, ""), words)
            self.assertRegex(ran.stderr, f"^plan: {file}: page [0-9]+ doesn't match its sum: [^\n]+\n$")
        self.assertEqual(plans.prints(file), before)

    def test_pages_of_each_size_by_the_sums_of_the_tool(self):
        sum_of, chance = tool().sum_of, random.Random(1)
        for size in (512, 4096, 65536):
            head = bytearray(100)
            head[16:18], head[20] = (size % 65535).to_bytes(2, "big"), 8
            texts = [bytes(head) + chance.randbytes(size - 108), *(chance.randbytes(size - 8) for _ in range(4)),
                     b"\xff" * (size - 8), bytes(size - 8)]
            file, pages = self.room / f"{size}.db", [text + sum_of(text) for text in texts]
            with mock.patch.object(page_sums, "MOST_BYTES", 3 * size):
                file.write_bytes(b"".join(pages))
                self.assertIsNone(page_sums.first_wrong(file))
                for number, page in enumerate(pages, 1):
                    for place in (99, size - 9, size - 8, size - 1):
                        other = bytearray(page)
                        other[place] ^= 128
                        file.write_bytes(b"".join([*pages[: number - 1], other, *pages[number:]]))
                        self.assertEqual(page_sums.first_wrong(file), number)
                file.write_bytes(b"".join(pages[:-2]) + pages[-2][: size // 2])
                self.assertEqual(page_sums.first_wrong(file), len(pages) - 1)

    def test_page_of_a_log_that_has_no_sum_is_reported(self):
        file = self.summed()
        with closing(sqlite3.connect(file)) as db:
            db.execute("PRAGMA journal_mode = WAL")
        put = subprocess.run([plans.TOP / "tools" / "reference" / "put-sums", file], check=False)
        self.assertEqual(put.returncode, 0)
        with closing(sqlite3.connect(file)) as db:
            db.execute("PRAGMA wal_autocheckpoint = 0")
            db.execute("UPDATE plan_meta SET max_hours = 77")
            db.commit()
            self.assertIsNone(page_sums.first_wrong(file))
            before = plans.prints(file)
            self.assertIn("doesn't match its sum", self.assert_refused(file))
            self.assertEqual(plans.prints(file), before)

    @unittest.skipUnless(plans.PROGRAM.exists(), "opcplan is not built")
    def test_log_of_a_killed_run(self):
        """Its pages have sums, and the file's own of one that it has anew is looked at by nobody."""
        file, words = self.room / "killed.db", [plans.PROGRAM, "--db", self.room / "killed.db"]
        items = plans.stream("week-of-daily-plans")
        subprocess.run([*words, "--sums"], input=items, check=False, capture_output=True)
        with subprocess.Popen(words, stdin=subprocess.PIPE, stdout=subprocess.PIPE) as ran:
            ran.stdin.write(b"define options --job 900001\nmax_extension_hours = 77\n/*\n")
            ran.stdin.flush()
            self.assertEqual(ran.stdout.readline(), b"ok defined 1\n")
            ran.kill()
        log = Path(f"{file}-wal").read_bytes()
        pages = {int.from_bytes(log[at : at + 4], "big") for at in range(32, len(log), 24 + 4096)} - {0, 1}
        self.assertTrue(pages)
        data = bytearray(file.read_bytes())
        for turned in (False, True):
            data[min(pages) * 4096 - 1] ^= turned
            file.write_bytes(data)
            self.assertEqual(page_sums.first_wrong(file), min(pages) if turned else None)
            with plan_file.opened(file) as plan:
                self.assertEqual(plan.meta["max_hours"], 77)
        ran = subprocess.run(words, input=b"list ltp\n", capture_output=True, check=False)
        self.assertEqual(ran.returncode, 0)

    def test_pages_are_added_up_by_the_piece(self):
        """Not one by one. How long 200 MB take, `tools/soak/seconds` prints."""
        file, pieces = self.room / "long.db", []
        head = bytearray(4096)
        head[16:18], head[20] = b"\x10\x00", 8
        file.write_bytes(bytes(head[:-8]) + tool().sum_of(head[:-8]))
        with open(file, "r+b") as target:
            target.truncate(5 << 20)

        def first_unlike(pages, size):
            pieces.append(len(pages))
            return added_up(pages, size)

        added_up = page_sums.first_unlike
        with mock.patch.multiple(page_sums, first_unlike=first_unlike, MOST_BYTES=2 << 20):
            self.assertIsNone(page_sums.first_wrong(file))
        self.assertEqual(pieces, [2 << 20, 2 << 20, 1 << 20])


if __name__ == "__main__":
    unittest.main()
