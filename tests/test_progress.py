"""progress: what a command shows of itself at a terminal while it works."""

import io
import os
import pty
import re
import subprocess
import sys
import tempfile
import time
import unittest
from contextlib import redirect_stderr
from pathlib import Path
from unittest import mock

from support import TOP, plans

from opcplan.plans import plan_file, progress


class Terminal(io.StringIO):
    """A text that says that it is a terminal."""

    def isatty(self):
        return True


def shown_of(text):
    """The lines that were shown, one after the other."""
    return [line for line in text.split(progress.CLEAR) if line]


class Shows(unittest.TestCase):
    def shown(self, where, shares=(0.25, 0.5), first=0.0):
        with redirect_stderr(where), mock.patch.object(progress, "FIRST", first):
            with mock.patch.object(progress, "BETWEEN", 0.001), progress.of("works on \x1b[31m") as far:
                for share in shares:
                    time.sleep(0.2)
                    far.at(share)
                    time.sleep(0.2)
        return where.getvalue()

    def test_what_how_far_and_how_long(self):
        text = self.shown(Terminal())
        lines = shown_of(text)
        self.assertRegex(lines[0], r"^works on \\x1b\[31m, for 0 s so far$")
        for share in ("25%", "50%"):
            self.assertTrue([line for line in lines if re.search(f": {share}, about [0-9]+ s more$", line)], lines[-1])
        self.assertTrue(text.endswith(progress.CLEAR))

    def test_share_never_falls_and_is_at_most_all(self):
        far = progress.Progress("x")
        for share, wanted in ((0.3, 0.3), (0.1, 0.3), (7, 1.0)):
            far.at(share)
            self.assertEqual(far.share, wanted)

    def test_rest_goes_by_what_is_done(self):
        far = progress.Progress("x")
        with mock.patch.object(time, "monotonic", return_value=far.began + 30):
            far.at(0.2)
            self.assertEqual(far.line, "x: 20%, about 2 min more")
            far.at(0.9)
            self.assertEqual(far.line, "x: 90%, about 3 s more")

    def test_nothing_where_it_is_quick_or_nobody_looks(self):
        self.assertEqual(self.shown(io.StringIO()), "")
        self.assertEqual(self.shown(Terminal(), first=60), "")

    def test_terminal_that_goes_is_no_error(self):
        where = Terminal()
        where.write = mock.Mock(side_effect=OSError(5, "Input/output error"))
        self.shown(where, (0.5,))
        self.assertGreater(where.write.call_count, 0)

    def test_check_goes_from_nothing_to_all(self):
        shares, at = [], progress.Progress.at
        with mock.patch.object(progress.Progress, "at", lambda far, share: (shares.append(share), at(far, share))):
            with plan_file.opened(plans.of_worked("two-hundred-statements")):
                pass
        self.assertEqual(shares, sorted(shares))
        self.assertLess(shares[0], 0.2)
        self.assertGreater(shares[-1], 0.8)
        self.assertLessEqual(shares[-1], 1)
        self.assertGreater(len(shares), 20)


class AtATerminal(unittest.TestCase):
    """A command whose check takes long, as it is seen at a terminal and where there is none."""

    SLOW = """import sys, time
sys.path[0] = {python!r}
from opcplan.plans import progress, sound_rows
from opcplan.__main__ import run
progress.FIRST, asked = 0.1, sound_rows.asked
def slow(db, version):
    for share in asked(db, version):
        time.sleep(0.03)
        yield share
sound_rows.asked = slow
run(["rows", {plan!r}, "cp"])
"""

    def setUp(self):
        room = tempfile.TemporaryDirectory(prefix="progress-")
        self.addCleanup(room.cleanup)
        self.plan = plans.copy_of(plans.of_worked("two-hundred-statements"), room.name)
        self.words = [sys.executable, "-c", self.SLOW.format(python=str(Path(TOP, "python")), plan=str(self.plan))]

    def test_terminal(self):
        ours, theirs = pty.openpty()
        with subprocess.Popen(self.words, stdout=subprocess.PIPE, stderr=theirs) as ran:
            os.close(theirs)
            out, text = ran.stdout.read(), b""
            while piece := self.piece(ours):
                text += piece
        os.close(ours)
        self.assertEqual(ran.returncode, 0)
        self.assertIn(b"ok rows ", out)
        lines = shown_of(text.decode())
        self.assertTrue(all(line.startswith(f"checks {self.plan}") for line in lines), lines)
        self.assertTrue([line for line in lines if " more" in line], lines)
        self.assertTrue(text.decode().endswith(progress.CLEAR))

    def piece(self, number):
        """What a terminal has to read, nothing once nobody writes to it."""
        try:
            return os.read(number, 1000)
        except OSError:
            return b""

    def test_no_terminal(self):
        ran = subprocess.run(self.words, capture_output=True, check=False)
        self.assertEqual((ran.returncode, ran.stderr), (0, b""))
        self.assertIn(b"ok rows ", ran.stdout)


if __name__ == "__main__":
    unittest.main()
