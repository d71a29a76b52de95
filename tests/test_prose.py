"""tools/prose: what it finds in small texts, whose counts were made by hand."""

import contextlib
import importlib.machinery
import importlib.util
import io
import subprocess
import tempfile
import unittest
from pathlib import Path

from support import plans

TOOL = plans.TOP / "tools" / "prose"
# one word more than a sentence may have, and as many as it may have
LONG = " ".join(["word"] * 35) + " end."
FITTING = " ".join(["word"] * 34) + " end."


def load():
    """The tool as a module."""
    loader = importlib.machinery.SourceFileLoader("prose", str(TOOL))
    module = importlib.util.module_from_spec(importlib.util.spec_from_loader("prose", loader))
    loader.exec_module(module)
    return module


prose = load()


def found(text, kind):
    """The lines of a page where something of a kind is found."""
    return [finding.line for finding in prose.of_page(Path("page.md"), text) if finding.kind == kind]


class Sentences(unittest.TestCase):
    def of(self, text):
        return [sentence for _, sentence in prose.sentences(text)]

    def test_capital_digit_or_code_begins_a_sentence(self):
        self.assertEqual(self.of("One. Two? 3 three! `four` is one. Five"),
                         ["One.", "Two?", "3 three!", "`four` is one.", "Five"])

    def test_what_ends_no_sentence(self):
        for text in ("a .. b", "wait... and go", "at 06.30 it runs", "e.g. This one", "i.e. `this`", "one. two"):
            self.assertEqual(self.of(text), [text])

    def test_bracket_and_quotation_mark_belong_to_their_sentence(self):
        self.assertEqual(len(self.of('(One.) Two. "Three." Four.')), 4)

    def test_words_are_counted(self):
        for text, count in (("", 0), ("one", 1), ("one - two", 2), ("` + ` = `", 3), ("a, b; c: 4.", 4)):
            self.assertEqual(prose.count_words(text), count, text)


class LongSentences(unittest.TestCase):
    def test_thirty_five_words_are_the_most(self):
        self.assertEqual(found(LONG, "long"), [1])
        self.assertEqual(found(FITTING, "long"), [])

    def test_line_is_that_where_the_sentence_begins(self):
        self.assertEqual(found(f"Short.\nShort. {LONG}\n\n{LONG}\n", "long"), [2, 4])

    def test_lines_of_a_paragraph_make_one_sentence(self):
        self.assertEqual(found(LONG.replace(" word word", " word\nword"), "long"), [1])

    def test_entries_of_a_list_are_apart(self):
        half = " ".join(["word"] * 20)
        self.assertEqual(found(f"{half}\n{half}", "long"), [1])
        self.assertEqual(found(f"- {half}\n- {half}\n", "long"), [])
        self.assertEqual(found(f"1. {half}\n   {half}\n2. {half}\n", "long"), [1])

    def test_tables_headings_and_code_have_none(self):
        self.assertEqual(found(f"| {LONG} | b |\n|---|---|\n| {LONG} | {LONG} |\n", "long"), [])
        self.assertEqual(found(f"# {LONG}\n", "long"), [])
        self.assertEqual(found(f"```text\n{LONG}\n```\n~~~\n{LONG}\n~~~\n", "long"), [])
        self.assertEqual(found(f"<!-- {LONG} -->\n", "long"), [])

    def test_code_span_is_one_word(self):
        self.assertEqual(found(FITTING.replace("word end", "`a b c d` end"), "long"), [])
        self.assertEqual(found(LONG.replace("word end", "`a b c d` end"), "long"), [1])

    def test_link_counts_by_its_text(self):
        self.assertEqual(found(FITTING.replace("word end", "[word](a b c) end"), "long"), [])
        self.assertEqual(found(FITTING.replace("word end", "[a b](c) end"), "long"), [1])


class Words(unittest.TestCase):
    def test_each_entry_of_the_table_finds_its_word(self):
        examples = ("told", "it stands there", "hands each row on", "lets it go", "is held firmly against",
                    "asks the store", "what was answered", "the one in hand", "sees to it", "brings in", "looks up",
                    "a slip", "wants more", "in its midst", "gone for good", "parted by", "asked for its end",
                    "taken back", "untold rows", "common causes", "own indexes", "the outlook",
                    "an edit that has to fail")
        self.assertEqual(len(prose.WORDS), len(examples))
        for text in examples:
            self.assertEqual(found(f"{text}.", "words"), [1], text)

    def test_what_is_no_such_word(self):
        for text in ("standard input", "an understanding", "want of memory", "for good records", "a look-up",
                     "the left hand", "it asks you", "a part of it", "`told`", "slipped", "[a](told.md)"):
            self.assertEqual(found(f"{text}\n", "words"), [], text)

    def test_tables_and_headings_have_words(self):
        self.assertEqual(found("# Told\n\n| told | `told` |\n|---|---|\n| a | told, told |\n", "words"), [1, 3, 5, 5])

    def test_bar_in_code_separates_no_cells(self):
        self.assertEqual(prose.cells(r" a `b|c` | d \| e "), ["a `b|c`", r"d \| e"])

    def test_passive_is_told_once(self):
        for text in ("It is told.", "They were not told.", "It is rightly asked.", "It has been let go."):
            self.assertEqual((found(text, "passives"), found(text, "words")), ([1], []), text)
        for text in ("It is there, told once.", "He told it.", "It is a told thing."):
            self.assertEqual(found(text, "passives"), [], text)


class Pages(unittest.TestCase):
    def test_paragraph_of_more_than_six_lines(self):
        short = "Word. " * 120
        self.assertEqual(found(short.strip(), "paragraphs"), [])
        self.assertEqual(found(f"{short}More.", "paragraphs"), [1])
        self.assertEqual(found(f"A.\n\n- {short}More.\n", "paragraphs"), [3])
        self.assertEqual(found(f"| {short}More. | a |\n", "paragraphs"), [])

    def tree(self, folder, **texts):
        """A tree with pages; two underscores in a name are a slash."""
        for name, text in texts.items():
            page = Path(folder) / (name.replace("__", "/") + ".md")
            page.parent.mkdir(parents=True, exist_ok=True)
            page.write_text(text, encoding="utf-8")
        return Path(folder)

    def test_page_that_no_other_links_to(self):
        with tempfile.TemporaryDirectory() as folder:
            top = self.tree(folder, README="[a](docs/a.md#part)", docs__a="[b](b.md) [a](a.md)", docs__b="`[c](c.md)`",
                            docs__c="[web](https://x/d.md)", docs__d="[d](d.md)\n```\n[e](e.md)\n```\n", docs__e="")
            texts = {page: page.read_text(encoding="utf-8") for page in prose.all_pages(top)}
            self.assertEqual([finding.page.name for finding in prose.orphans(texts, top)], ["d.md", "e.md"])

    def test_pages_of_a_tree(self):
        with tempfile.TemporaryDirectory() as folder:
            top = self.tree(folder, README="", docs__a="", docs__use__b="", crates__x__README="", crates__x__other="",
                            tests__c="")
            self.assertEqual([page.relative_to(top).as_posix() for page in prose.all_pages(top)],
                             ["README.md", "crates/x/README.md", "docs/a.md", "docs/use/b.md"])


class Command(unittest.TestCase):
    def run_over(self, text, *words):
        """The status and what is printed over a tree of one page, which README.md is."""
        with tempfile.TemporaryDirectory() as folder:
            page = Path(folder) / "README.md"
            page.write_text(text, encoding="utf-8")
            with contextlib.redirect_stdout(io.StringIO()) as said:
                status = prose.main(list(words), Path(folder))
            return status, said.getvalue()

    def test_counts_and_total(self):
        status, said = self.run_over(f"{LONG} It is told. It wants it.\n")
        lines = said.split("\n")
        self.assertEqual((status, lines[1].split()), (0, ["README.md", "1", "1", "1", "0", "0"]))
        self.assertEqual(lines[2:], ["1 long, 1 words, 1 passives, 0 paragraphs, 0 orphans: 3 found", ""])

    def test_status_of_check(self):
        for text, words, status in (("Plain.", [], 0), ("Told.", [], 1), ("Told.", ["--long"], 0),
                                    ("Told.", ["--words"], 1), (LONG, ["--words", "--long"], 1)):
            self.assertEqual(self.run_over(text, "--check", *words)[0], status, text)

    def test_option_prints_each_place(self):
        self.assertEqual(self.run_over("A.\n\nIt stands there.\n", "--words")[1],
                         "README.md:3: words: stands (is in, is stored in, appears in): It stands there.\n"
                         "1 words: 1 found\n")

    def test_words_nearby_are_printed(self):
        for many, begun, end in ((3, "a a a ", " b b b."), (80, "a " * 25, " b" * 25 + " ..")):
            shown = dict(prose.avoided("a " * many + "told" + " b" * many + "."))["words"].partition(": ")[2]
            self.assertEqual(shown, f"{begun}told{end}")

    def test_page_that_is_named(self):
        """Of the tree it reads the pages that are named alone, also one that is elsewhere."""
        with tempfile.NamedTemporaryFile("w", suffix=".md", encoding="utf-8") as page:
            page.write("Told.\n")
            page.flush()
            status, said = self.run_over("Told. Told.\n", "--words", page.name)
            self.assertEqual((status, said), (0, f"{Path(page.name).resolve()}:1: words: Told (report, print, return, "
                                                 "say, decode): Told.\n1 words: 1 found\n"))

    def test_page_that_is_not_there(self):
        done = subprocess.run([TOOL, "no-such.md"], capture_output=True, encoding="utf-8", check=False, timeout=60)
        self.assertEqual((done.returncode, done.stdout), (2, ""))
        self.assertIn("no-such.md", done.stderr)
        self.assertEqual(done.stderr.count("\n"), 1)


if __name__ == "__main__":
    unittest.main()
