"""Each bug of tests/support/planted.py is caught by its test, which runs over a copy of the package with the bug."""

import tempfile
import time
import unittest
from concurrent.futures import ThreadPoolExecutor
from pathlib import Path

from support import planted, TOP

# copies side by side; most of what a test takes is waiting
SIDE_BY_SIDE = 4


class Planted(unittest.TestCase):
    def test_each_bug_is_caught(self):
        begun = time.monotonic()
        with ThreadPoolExecutor(SIDE_BY_SIDE) as pool:
            for bug, why in zip(planted.BUGS, pool.map(planted.why_passed, planted.BUGS)):
                with self.subTest(bug.name):
                    if why == "skipped":
                        print(f"skipped: {bug.name}: {bug.test} can't run here")
                        continue
                    self.assertEqual(why, "", bug.name)
        print(f"{len(planted.BUGS)} bugs in {time.monotonic() - begun:.0f} s")

    def test_a_copy_without_a_bug_passes(self):
        with tempfile.TemporaryDirectory(prefix="planted-") as folder:
            planted.copied(Path(folder))
            ran = planted.run(Path(folder), "test_edit.Edit.test_the_last_interval_of_a_period_in_use_stays")
        self.assertEqual(ran.returncode, 0, ran.stderr)

    def test_a_bug_that_is_none_is_seen(self):
        none = planted.BUGS[-1]._replace(new=planted.BUGS[-1].old)
        self.assertEqual(planted.why_passed(none), f"{none.test} passes")
        self.assertIn("has its text 0 times", planted.why_passed(none._replace(old="no such text")))
        other = planted.BUGS[-1]._replace(shows="something else")
        self.assertIn("doesn't show `something else`", planted.why_passed(other))

    def test_names_and_tests_are_there(self):
        names = [bug.name for bug in planted.BUGS]
        self.assertEqual(len(names), len(set(names)))
        for bug in planted.BUGS:
            module, kind, test = bug.test.split(".")
            lines = (TOP / "tests" / f"{module}.py").read_text(encoding="utf-8").splitlines()
            self.assertEqual(len([line for line in lines if line.startswith(f"class {kind}(")]), 1, bug.name)
            self.assertIn(f"    def {test}(self):", lines, bug.name)


if __name__ == "__main__":
    unittest.main()
