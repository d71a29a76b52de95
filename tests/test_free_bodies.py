#!/usr/bin/env python3
"""Functions whose clauses leave their bodies free: each kind is found, and the list says which of them stay."""
import shutil
import subprocess
import tempfile
import unittest
from pathlib import Path

TOP = Path(__file__).resolve().parents[1]

CODE = """// A library.

/// Pinned.
pub fn pinned(a: u8) -> u8
    ensures { result ≡ a }
{
    a
}

/// Free.
pub fn free(a: u8) -> u8 {
    a
}

// Of one outcome.
fn is_small(a: u8) -> bool
    ensures { IsTrue result → a < 9 }
{
    a < 9
}

// Of both.
fn is_large(a: u8) -> bool
    ensures { IsTrue result
        ↔ (9 < a) }
{
    a > 9
}

// Of some value alone.
fn some(a: u8) -> Option<u8>
    ensures { IfSome result (λ b. b ≡ a) }
{
    Some(a)
}

// Its error is open.
fn reads(a: u8) -> Result<u8, Fault>
    ensures { IfOk result (λ b. b ≡ a) }
{
    Ok(a)
}

// Its error can only be want of memory.
fn takes(a: u8) -> Result<u8, AllocError>
    ensures { IfOk result (λ b. b ≡ a) }
{
    Ok(a)
}

// A clause over a record.
fn runs(a: u8) -> Result<u8, Fault>
    ensures { Runs (record {
          first = a;
        }) result }
{
    Ok(a)
}

impl Clone for Thing {
    fn clone(&self) -> Thing {
        Thing
    }
}

impl Thing {
    /// Free too.
    pub fn of(&self) -> u8 {
        1
    }
}
"""
FREE = {"free": "no clause", "is_small": "half", "some": "half", "reads": "half", "Thing::of": "no clause"}


class FreeBodies(unittest.TestCase):
    """The tool over a library of its own."""

    def setUp(self) -> None:
        """Makes a folder with the tool, one library and one crate of tests."""
        self.room = Path(tempfile.mkdtemp())
        self.addCleanup(shutil.rmtree, self.room)
        (self.room / "tools/proof").mkdir(parents=True)
        shutil.copy(TOP / "tools/proof/free-bodies", self.room / "tools/proof")
        for crate in ("low", "test_low"):
            (self.room / "crates" / crate / "src").mkdir(parents=True)
            (self.room / "crates" / crate / "src/lib.rt").write_text(CODE)

    def run_over(self, listed: dict[str, str]) -> tuple[int, list[str]]:
        """The status and the lines of the tool over this list."""
        lines = [f"low/lib.rt::{name} | {kind} | a reason" for name, kind in listed.items()]
        (self.room / "tools/proof/free-bodies.txt").write_text("# a list\n\n" + "\n".join(lines) + "\n")
        ran = subprocess.run([self.room / "tools/proof/free-bodies"], capture_output=True, text=True, check=False)
        return ran.returncode, ran.stdout.splitlines()

    def test_finds_each_kind_and_nothing_else(self) -> None:
        """What has no clause and what is half said, outside of tests and of impls of a trait."""
        self.assertEqual(self.run_over(FREE), (0, ["5 passed, 0 failed"]))

    def test_names_what_is_not_listed(self) -> None:
        """Each function that is missing on the list."""
        for name, kind in FREE.items():
            with self.subTest(name):
                status, lines = self.run_over({other: FREE[other] for other in FREE if other != name})
                self.assertEqual(status, 1)
                self.assertIn(f"low/lib.rt::{name}: {kind}", lines[0])
                self.assertEqual(lines[-1], "4 passed, 1 failed")

    def test_names_what_is_no_longer_free(self) -> None:
        """A line of the list that fits nothing, or another kind."""
        for more in ({"pinned": "no clause"}, {"gone": "half"}, {"is_small": "no clause"}):
            with self.subTest(more):
                status, lines = self.run_over({**FREE, **more})
                self.assertEqual(status, 1)
                self.assertIn(f"low/lib.rt::{list(more)[0]}: ", lines[0])

    def test_wants_a_reason(self) -> None:
        """A line without one is refused with its number."""
        (self.room / "tools/proof/free-bodies.txt").write_text("low/lib.rt::free | no clause |\n")
        ran = subprocess.run([self.room / "tools/proof/free-bodies"], capture_output=True, text=True, check=False)
        self.assertEqual((ran.returncode, ran.stderr), (1, "free-bodies.txt:1: a line is PLACE | KIND | REASON\n"))


if __name__ == "__main__":
    unittest.main()
