"""./plan dump: its stream gives the definitions again, by tools/reference/plain_planner.py and by the program."""

import gzip
import tempfile
import unittest
from pathlib import Path

from support import plans

from opcplan.commands import dump
from opcplan.plans import plan_file


plain = plans.plain
MOST_BYTES = 262_144
DEFINITIONS = "calendar_entry plan_period application run_cycle run_cycle_offset predecessor".split()


def refused(*_):
    raise plain.Refusal(20)


class Definer(plain.Planner):
    """A plain planner that defines, keeps jobs, and plans nothing, so that it takes no time over plans."""

    create = extend = modify_all = modify_one = add = delete = daily = act = days = refused


def after(text):
    """What a stream leaves defined, and what it answers."""
    planner = Definer()
    return planner, plain.run(text, planner)


def defined(planner):
    return planner.defined, planner.options


def dumped(file, *words):
    ran = plans.plan("dump", file, *words)
    assert (ran.returncode, ran.stderr) == (0, ""), ran
    return ran.stdout.encode()


def blocks_of(text):
    """The data of each define, with the words before them."""
    found = []
    for part in text.decode().split("\ndefine ")[1:]:
        line, _, data = part.partition("\n")
        found.append((line, data.partition("/*\n")[0]))
    return found


class Dump(unittest.TestCase):
    def file_of(self, text, planner):
        """The plan of a stream: the program's, or one that has its definitions and jobs alone."""
        if plans.PROGRAM.exists():
            return plans.of_stream(text)
        file = Path(self.room.name) / "written.db"
        file.unlink(missing_ok=True)
        plans.write(planner, file)
        return file

    def setUp(self):
        self.room = tempfile.TemporaryDirectory(prefix="dump-")
        self.addCleanup(self.room.cleanup)

    def test_definitions_of_each_worked_stream_come_again(self):
        for name, _ in plans.plan_rows.streams():
            with self.subTest(name):
                text = plans.stream(name)
                planner, _ = after(text)
                is_used_up = max(planner.jobs, default=0) == dump.GREATEST_JOB
                with plan_file.opened(self.file_of(text, planner)) as plan:
                    if is_used_up:
                        self.assertRaises(dump.Unprintable, dump.stream_of, plan)
                    stream = dump.stream_of(plan, 1 if is_used_up else None).encode()
                again, answers = after(stream)
                self.assertEqual(defined(again), defined(planner))
                self.assertTrue(all(line.startswith("ok defined ") for line in answers), answers)
                self.assertTrue(all(len(data) <= MOST_BYTES for _, data in blocks_of(stream)))

    def test_plan_of_schema_1(self):
        """One that an earlier program made, whose tables have no limits."""
        file = Path(self.room.name) / "first.db"
        file.write_bytes(gzip.decompress((plans.DATA / "schema-1.db.gz").read_bytes()))
        again, _ = after(dumped(file))
        planner, _ = after(plans.stream("two-hundred-statements"))
        self.assertEqual(defined(again), defined(planner))

    def test_each_statement_has_the_next_job_number(self):
        for name in ("data-centre-year", "longest-block", "two-hundred-statements", "empty"):
            text = plans.stream(name)
            planner, _ = after(text)
            file = self.file_of(text, planner)
            for words, first in (((), max(planner.jobs, default=0) + 1), (("--job", 70), 70)):
                numbers = [int(line.split("--job ")[1]) for line, _ in blocks_of(dumped(file, *words))]
                self.assertEqual(numbers, list(range(first, first + len(numbers))), name)

    def test_definitions_of_more_than_one_block_are_parted(self):
        names = [f"A{number:015}" for number in range(33_000)]
        streams, job = [], 0
        for first in range(0, len(names), 11_000):
            job += 1
            records = "".join(f"{name},A,\n" for name in names[first : first + 11_000])
            streams.append(f"define applications --job {job}\n{records}/*\n")
        # one whose run cycles nearly fill a block, between two of one run cycle
        cycle = "{},{},N,DAY,E,1,2024-01-01,,08.00,0,18.00\n"
        for app, count in (("AA", 1), ("BB", 5_000), ("CC", 1)):
            job += 1
            records = "".join(cycle.format(app, f"R{number}") for number in range(count))
            streams.append(f"define run-cycles --job {job}\n{records}/*\n")
        text = "".join(streams).encode()
        planner, answers = after(text)
        self.assertEqual(set(answers), {"ok defined 11000", "ok defined 1"})
        stream = dumped(self.file_of(text, planner))
        again, _ = after(stream)
        self.assertEqual(defined(again), defined(planner))
        kinds = [line.split()[0] for line, _ in blocks_of(stream)]
        self.assertGreaterEqual(kinds.count("applications"), 3)
        self.assertGreaterEqual(kinds.count("run-cycles"), 1)
        self.assertTrue(all(len(data) <= MOST_BYTES for _, data in blocks_of(stream)))

    def test_plan_takes_its_own_dump_and_keeps_its_definitions(self):
        text = plans.stream("data-centre-year")
        planner = plain.Planner()
        plain.run(text, planner)
        stream = dumped(plans.of_stream(text))
        before = planner.copy()
        self.assertEqual(plain.run(stream, planner), ["ok defined 2", "ok defined 3", "ok defined 6", "ok defined 5",
                                                      "ok defined 3", "ok defined 1"])
        self.assertEqual(defined(planner), defined(before))

    @unittest.skipUnless(plans.PROGRAM.exists(), "opcplan is not built")
    def test_program_takes_a_dump_and_dumps_it_again(self):
        rows_of = plans.plan_rows.rows_of
        for name in ("data-centre-year", "definitions-merged", "options-value-by-value", "longest-list"):
            with self.subTest(name):
                first = plans.of_worked(name)
                stream = dumped(first, "--job", 1)
                second = plans.of_stream(stream)
                left, right = rows_of(plans.copy_of(first, self.room.name)), rows_of(second)
                for table in DEFINITIONS:
                    self.assertEqual(left[table], right[table])
                self.assertEqual(left["plan_meta"][0][-2:], right["plan_meta"][0][-2:])
                self.assertEqual(dumped(second, "--job", 1), stream)

    def test_numbers_that_are_none_or_used_up_are_reported(self):
        file = plans.of_worked("first-days")
        for word in ("0", "01", "-1", "x", "", "1000000000"):
            ran = plans.plan("dump", file, "--job", word)
            self.assertEqual((ran.returncode, ran.stdout), (2, ""), word)
        ran = plans.plan("dump", file, "--job", 999_999_999)
        self.assertEqual((ran.returncode, ran.stdout), (1, ""))
        self.assertIn("there is no job number above", ran.stderr)

    def test_what_is_no_plan_is_reported(self):
        nowhere = Path(self.room.name) / "nowhere.db"
        ran = plans.plan("dump", nowhere)
        self.assertEqual((ran.returncode, ran.stdout), (1, ""))
        self.assertEqual(plans.plan("dump").returncode, 2)
        self.assertFalse(nowhere.exists())

    def test_plan_stays_as_it_was(self):
        file = plans.copy_of(plans.of_worked("data-centre-year"), self.room.name)
        before = plans.prints(file)
        dumped(file)
        self.assertEqual(plans.prints(file), before)


if __name__ == "__main__":
    unittest.main()
