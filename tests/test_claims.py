"""tools/proof/claims: the tables that it makes of small READMEs, what it reports of those that are wrong, and of lines
that a page quotes."""

import contextlib
import importlib.machinery
import importlib.util
import io
import tempfile
import unittest
from pathlib import Path

from support import plans


def load():
    """The tool as a module."""
    loader = importlib.machinery.SourceFileLoader("claims", str(plans.TOP / "tools" / "proof" / "claims"))
    module = importlib.util.module_from_spec(importlib.util.spec_from_loader("claims", loader))
    loader.exec_module(module)
    return module


claims = load()

DAYS = """# `days`

Days and their order.

**What it promises.** A day is read as it is spelled; see [`more`](../more/README.md) and [a row](data/row.in).

## Claims

| Claim | Contract |
|---|---|
| A day is read exactly where it has the spelling | `Day::from_text` |
| Two days have one order | `before`, law `order`; `Day::from_text` |

## Definitions

| Definition | File | In words | Carried by |
|---|---|---|---|
| spelling of a day | `specs/Day.antt` (`IsDay`) | ten digits | `from_text` |
| day before a day | `specs/Day.antt` (`IsBefore`) | by their numbers | `before` |

## Decisions

| Claim | Contract |
|---|---|
| No claim | `nothing` |
"""
TRIALS = "# `trials`\n\nTries days.\n\n**What it promises.** Nothing.\n\n## Decisions\n\n- None.\n"
PAGE = "# Definitions\n\n## By crate\n\n| Crate | What it defines |\n|---|---|\n| old | row |\n\n## Words\n\nLast.\n"
DAYS_LINK, TRIALS_LINK = ("[`days`](../../crates/days/README.md)", "[`trials`](../../crates/trials/README.md)")

TEST = """mod more;

#[test]
fn example_of_days(rt: HostRuntime) {
    let alloc = rt.alloc();
    // example of days
    // a day
    let day = Day {
        number: 1,
    };

    assert_eq!(rt; day.number(), 1);
    // end of the example
    Ok(())
}
"""
LINES = ["// a day", "let day = Day {", "    number: 1,", "};", "", "assert_eq!(rt; day.number(), 1);"]
SPEC = """-- Days.
use Rattle.std.specs.Prelude.{◌≤◌, ℕ}

-- a run of days
pub record Days (from to : ℕ) : Type 0 where
  -- in order
  pub rising : from ≤ to

  pub each : (n : ℕ) → from ≤ n → n ≤ to
      → IsDay n

pub record Week (from : ℕ) : Type 0 where
  pub days : Days from (from + 6)
"""
CONTRACT = """fn week(from: u32) -> u32
    // before the last week
    requires { from ≤ 93 }
    ensures { Week from
        × (result ≡ from + 6) }
{
    from + 6
}
"""
# what a page has of both: the first line is line 13 of DEFINITIONS.md
QUOTED = """record Days (from to : ℕ) : Type 0 where
  -- in order
  rising : from ≤ to
  each : (n : ℕ) → from ≤ n → n ≤ to
      → IsDay n

record Week (from : ℕ) : Type 0 where
  days : Days from (from + 6)

requires { from ≤ 93 }
ensures { Week from
    × (result ≡ from + 6) }
"""
LIBRARY = "//! Days.\n//!\n//! ```\n//! let day = 2;\n//! ```\n//!\n//! More.\n#![tactic(auto)]\n"


class Trees(unittest.TestCase):
    def setUp(self):
        folder = tempfile.TemporaryDirectory()
        self.addCleanup(folder.cleanup)
        self.top = Path(folder.name)
        self.write("crates.txt", "# NAME: libraries\n# days: none\ndays: jiff\ntrials: days # last\n")
        self.write("crates/days/README.md", DAYS)
        self.write("crates/days/src/day.rt", "impl Day { fn from_text() {} }\nfn before() {}\n")
        self.write("crates/days/proofs/Laws.antt", "order : Order\n")
        self.write("crates/trials/README.md", TRIALS)
        self.write("docs/work/DEFINITIONS.md", PAGE)

    def write(self, name, text):
        path = self.top / name
        path.parent.mkdir(parents=True, exist_ok=True)
        path.write_text(text, encoding="utf-8")

    def text(self, name):
        return (self.top / name).read_text(encoding="utf-8")

    def run_tool(self, *options):
        said = io.StringIO()
        with contextlib.redirect_stdout(said):
            status = claims.main(list(options), self.top)
        return status, said.getvalue()

    def fails(self, text):
        """That a check fails with one line, which has this text."""
        status, said = self.run_tool()
        self.assertEqual(status, 1, said)
        self.assertIn(text, said)
        self.assertEqual(len(said.splitlines()), 2, said)


class Made(Trees):
    def test_page_of_claims(self):
        self.assertEqual(self.run_tool("--write"), (0, "4 passed, 0 failed\n"))
        lines = self.text("docs/work/CLAIMS.md").splitlines()
        self.assertIn("2 claims in 1 crates, from below as `crates.txt` has them:", lines)
        self.assertIn(f"| {DAYS_LINK} | A day is read as it is spelled; see [`more`](../../crates/more/README.md) and "
                      "[a row](../../crates/days/data/row.in). | `Day::from_text`, `before`, `order` |", lines)
        self.assertIn(f"| {TRIALS_LINK} | Tries days. |", lines)

    def test_table_of_definitions(self):
        self.run_tool("--write")
        self.assertEqual(self.text("docs/work/DEFINITIONS.md"),
                         PAGE.replace("| old | row |", f"| {DAYS_LINK} | spelling of a day; day before a day |"))

    def test_what_is_written_passes_the_check(self):
        self.run_tool("--write")
        for options in ([], ["--check"], ["--write"]):
            self.assertEqual(self.run_tool(*options), (0, "4 passed, 0 failed\n"))

    def test_check_writes_nothing(self):
        status, said = self.run_tool("--check")
        self.assertEqual((status, said.splitlines()[-1]), (1, "2 passed, 2 failed"))
        self.assertFalse((self.top / "docs/work/CLAIMS.md").exists())
        self.assertEqual(self.text("docs/work/DEFINITIONS.md"), PAGE)


class Reported(Trees):
    def setUp(self):
        super().setUp()
        self.run_tool("--write")

    def test_readme_that_changed(self):
        self.write("crates/days/README.md", DAYS.replace("as it is spelled", "so"))
        self.fails("docs/work/CLAIMS.md isn't what the READMEs make of it")
        self.write("crates/days/README.md", DAYS.replace("day before a day", "earlier day"))
        self.fails("docs/work/DEFINITIONS.md isn't what the READMEs make of it")

    def test_page_that_changed(self):
        self.write("docs/work/CLAIMS.md", self.text("docs/work/CLAIMS.md").replace("Tries days", "Tests days"))
        self.fails("docs/work/CLAIMS.md isn't what the READMEs make of it")

    def test_contract_that_no_file_names(self):
        self.write("crates/days/src/day.rt", "impl Day { fn from_text() {} }\nfn earlier() {}\n")
        self.fails("days names the contract before, which no file of the crate has")

    def test_claim_without_contract(self):
        self.write("crates/days/README.md", DAYS.replace("`before`, law `order`; `Day::from_text`", "a law"))
        self.fails("days names no contract for the claim: Two days have one order")

    def test_table_of_another_form(self):
        self.write("crates/days/README.md", DAYS.replace("| `Day::from_text` |", "| `Day::from_text` | `before` |"))
        self.fails("days has a row of 3 cells below ## Claims")
        self.write("crates/days/README.md", DAYS.replace("| Claim | Contract |", "| Contract | Claim |", 1))
        self.fails("days needs a table below ## Claims whose columns are Claim, Contract")

    def test_crate_without_readme(self):
        (self.top / "crates/trials/README.md").unlink()
        self.fails("trials has no README.md")

    def test_claims_without_promise(self):
        self.write("crates/days/README.md", DAYS.replace("**What it promises.**", "**Promise.**"))
        self.fails("days needs a paragraph **What it promises.**")

    def test_definitions_without_table(self):
        self.write("docs/work/DEFINITIONS.md", "# Definitions\n")
        self.fails("docs/work/DEFINITIONS.md needs the table: | Crate | What it defines |")

    def test_wrong_words(self):
        with contextlib.redirect_stderr(io.StringIO()) as said:
            self.assertEqual(claims.main(["--writ"], self.top), 2)
        self.assertIn("usage: tools/proof/claims", said.getvalue())


class Examples(Trees):
    def setUp(self):
        super().setUp()
        self.write("crates.txt", "days: jiff\ntrials: days # last\ntest_days: days\n")
        self.write("crates/days/src/lib.rt", LIBRARY)
        self.write("crates/test_days/src/lib.rt", "mod examples;\n")
        self.write("crates/test_days/src/examples.rt", TEST)
        self.write("crates/test_days/README.md", TRIALS.replace("trials", "test_days"))
        self.run_tool("--write")

    def test_both_files_get_the_example(self):
        lines = [f"//! {line}".rstrip() for line in LINES]
        self.assertEqual(self.text("crates/days/src/lib.rt").splitlines(),
                         ["//! Days.", "//!", "//! ```text", *lines, "//! ```", "//!", "//! More.", "#![tactic(auto)]"])
        readme = self.text("crates/days/README.md")
        source = ("The gate runs it. [`test_days/src/examples.rt`](../test_days/src/examples.rt) has the lines "
                  "before it.")
        block = "\n".join(["```rust", *LINES, "```"])
        self.assertIn(f"\n## Example\n\n{source}\n\n{block}\n\n## Claims\n", readme)
        self.assertEqual(self.run_tool("--check"), (0, "6 passed, 0 failed\n"))

    def test_library_without_a_block(self):
        self.write("crates/days/src/lib.rt", "//! Days.\n#![tactic(auto)]\n\nmod day;\n")
        self.fails("days has another example in its src/lib.rt: run tools/proof/claims --write")
        self.run_tool("--write")
        self.assertTrue(self.text("crates/days/src/lib.rt").startswith("//! Days.\n//!\n//! ```text\n//! // a day\n"))
        self.assertTrue(self.text("crates/days/src/lib.rt").endswith("//! ```\n#![tactic(auto)]\n\nmod day;\n"))

    def test_files_that_differ(self):
        for name in ("src/lib.rt", "README.md"):
            text = self.text(f"crates/days/{name}")
            self.write(f"crates/days/{name}", text.replace("number: 1,", "number: 2,"))
            self.fails(f"days has another example in its {name}: run tools/proof/claims --write")
            self.write(f"crates/days/{name}", text)

    def test_test_that_changed(self):
        self.write("crates/test_days/src/examples.rt", TEST.replace("number: 1,", "number: 2,"))
        status, said = self.run_tool("--check")
        self.assertEqual((status, said.splitlines()[-1]), (1, "5 passed, 1 failed"))
        self.run_tool("--write")
        self.assertIn("//!     number: 2,\n", self.text("crates/days/src/lib.rt"))
        self.assertIn("\n    number: 2,\n", self.text("crates/days/README.md"))

    def test_library_without_an_example(self):
        self.write("crates/test_days/src/examples.rt", TEST.replace("// example of days", "// of days"))
        self.fails("days has no example: // example of days, in a test crate")

    def test_example_of_no_library(self):
        self.write("crates/test_days/src/examples.rt", TEST + TEST.replace("example of days", "example of trials"))
        self.fails("trials has an example, and is no library")

    def test_two_examples(self):
        self.write("crates/test_days/src/examples.rt", TEST + TEST)
        self.fails("days has two examples")


class Quotations(Trees):
    def setUp(self):
        super().setUp()
        self.write("crates/days/specs/Days.antt", SPEC)
        self.write("crates/days/src/week.rt", CONTRACT)
        # begins as the contract before does
        self.write("crates/trials/src/week.rt", CONTRACT.replace("+ 6", "+ 5"))
        self.quotes(QUOTED)
        self.run_tool("--write")

    def quotes(self, text, page="docs/work/DEFINITIONS.md", language="antt"):
        """Lets a page quote a text."""
        before = self.text(page).partition("```")[0] if (self.top / page).exists() else "# Page\n\n"
        self.write(page, f"{before}```{language}\n{text}```\n")

    def reports(self, line, why, old, new):
        """That one line of the page is reported if what it quotes is changed so."""
        self.assertEqual(QUOTED.count(old), 1, old)
        self.quotes(QUOTED.replace(old, new))
        self.fails(f"docs/work/DEFINITIONS.md:{line}: {why}")

    def test_lines_of_the_sources_pass(self):
        self.assertTrue(self.text("docs/work/DEFINITIONS.md").splitlines()[12].startswith("record Days"))
        self.assertEqual(self.run_tool("--check"), (0, "5 passed, 0 failed\n"))
        for text in (QUOTED.replace("  -- in order\n", ""), QUOTED.replace("\nreq", "\n    req"),
                     QUOTED.replace("record", "pub record"), "  rising : from ≤ to\n"):
            self.quotes(text)
            self.assertEqual(self.run_tool("--check"), (0, "5 passed, 0 failed\n"), text)

    def test_line_that_no_source_has(self):
        for line, old, new in ((13, "record Days (from to", "record Days (first to"), (14, "in order", "rising"),
                               (15, "from ≤ to\n", "from < to\n"), (17, "→ IsDay n", "→ IsDate n"),
                               (22, "{ from ≤ 93 }", "{ from ≤ 94 }")):
            why = "no spec or contract has this line: "
            self.reports(line, why + QUOTED.replace(old, new).splitlines()[line - 13].strip(), old, new)

    def test_each_such_line_is_reported(self):
        self.quotes(QUOTED.replace("Days", "Dates"))
        status, said = self.run_tool()
        self.assertEqual((status, [line.split(":")[1] for line in said.splitlines()[:-1]]), (1, ["13", "20"]))

    def test_source_that_changed(self):
        self.write("crates/days/specs/Days.antt", SPEC.replace("from + 6", "from + 7"))
        self.fails("docs/work/DEFINITIONS.md:20: no spec or contract has this line: days : Days from (from + 6)")

    def test_line_that_is_left_out(self):
        file = "crates/days/specs/Days.antt"
        self.reports(15, f"{file} goes on otherwise: rising : from ≤ to", "  rising : from ≤ to\n", "")
        self.reports(16, f"{file} goes on: → IsDay n", "      → IsDay n\n", "")
        self.reports(19, f"{file} goes on: days : Days from (from + 6)", "  days : Days from (from + 6)\n", "")
        self.reports(23, "crates/days/src/week.rt goes on: × (result ≡ from + 6) }",
                     "    × (result ≡ from + 6) }\n", "")

    def test_line_of_another_place(self):
        file = "crates/days/specs/Days.antt"
        self.reports(15, f"{file} goes on otherwise: rising : from ≤ to", "  rising : from ≤ to\n",
                     "  days : Days from (from + 6)\n")
        self.reports(21, f"{file} ends", "(from + 6)\n\n", "(from + 6)\n")

    def test_block_after_one_of_another_form(self):
        """A block with a name, as the guide has them, and one that is indented."""
        text = self.text("docs/work/DEFINITIONS.md").replace("```antt", "```text a.in\nline\n```\n\n   ```antt")
        self.write("docs/work/DEFINITIONS.md", text.replace("Days", "Dates"))
        status, said = self.run_tool()
        self.assertEqual((status, [line.split(":")[1] for line in said.splitlines()[:-1]]), (1, ["13", "17", "24"]))

    def test_pages_and_blocks_that_quote(self):
        wrong = "rising : to ≤ from\n"
        for page, language in (("README.md", "antt"), ("docs/DECISIONS.md", "text"), ("docs/work/PROOFS.md", ""),
                               ("docs/rules/PLANS.md", "antt"), ("crates/days/README.md", "antt")):
            before = self.text(page) if (self.top / page).exists() else ""
            self.write(page, before)
            self.quotes(wrong, page, language)
            self.fails(f"{page}:{before.count(chr(10)) + 2}: no spec or contract has this line: {wrong.strip()}")
            self.write(page, before)
        for page, language in (("README.md", "text"), ("docs/work/PROOFS.md", "mermaid"), ("docs/rules/PLANS.md", ""),
                               ("docs/work/KIT.md", "text")):
            self.quotes(wrong, page, language)
            self.assertEqual(self.run_tool("--check"), (0, "5 passed, 0 failed\n"))


if __name__ == "__main__":
    unittest.main()
