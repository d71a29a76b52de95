"""The table of statements, beside the pages that have it and the program that answers them."""

import re
import subprocess
import unittest
from pathlib import Path

from support import plans
from opcplan.rules import statement_words, statements

TOP = Path(__file__).resolve().parent.parent
RULES = TOP / "docs" / "rules"
DAY = "2024-01-01"
VALUES = {"job": "7", "app": "A", "name": "A", "from": DAY, "to": DAY, "ia": f"{DAY}/08.00"}


def rows_of(page, first):
    """The rows of the table of a page whose first column has a title: their cells."""
    lines = (RULES / page).read_text(encoding="utf-8").split("\n")
    begin = next(at for at, line in enumerate(lines) if line.startswith(f"| {first} |"))
    found = []
    for line in lines[begin + 2 :]:
        if not line.startswith("|"):
            return found
        found.append([cell.strip() for cell in line.strip("|").split(" | ")])
    return found


def names_in(cell):
    """The statements that a cell names."""
    return {name for name in re.findall("`([a-z-]+)`", cell) if name in statements.KINDS}


class Statements(unittest.TestCase):
    def test_the_page_of_statements_has_each_with_its_options(self):
        seen = {}
        for names, words in rows_of("STATEMENTS.md", "Statement"):
            for name in names_in(names):
                seen[name] = words
        self.assertEqual(seen.keys(), statements.KINDS.keys())
        for name, words in seen.items():
            kind = statements.KINDS[name]
            needed = set(re.findall("`--([a-z]+)`", re.sub(r"\[[^]]*\]|, or .*", "", words)))
            self.assertEqual(needed, set(kind.options), name)
            some = {"define": "KIND", "undefine": "KIND", "list": "WHAT"}.get(name, "FUNCTION")
            self.assertEqual(some in words, bool(kind.words), name)

    def test_the_page_of_refusals_has_who_may_get_each(self):
        for answer, _, asked, *_ in rows_of("REFUSALS.md", "Answer"):
            number = int(re.search("refused ([0-9]+)", answer)[1])
            names = names_in(asked)
            if number > 12 and names and " but " not in asked:
                found = statements.asked_by(number)
                self.assertLessEqual(names, found, answer)
                if "the same" not in asked and "others" not in asked:
                    self.assertEqual(names, set(found), answer)

    def test_the_program_reads_each_and_no_other_options(self):
        """Each statement without a plan is answered something else than refused 10; with an option less, 10."""
        for name, kind in statements.KINDS.items():
            for word, options in kind.by_word or [(kind.words[0] if kind.words else None, kind.options)]:
                given = [f"--{option}={self.value(name, option)}" for option in options]
                whole = " ".join([name, *([word] if word else []), *given])
                self.assertNotEqual(self.answered(whole), "refused 10", whole)
                self.assertIsNotNone(statement_words.read(whole.split())[0], whole)
                for at in range(len(given)):
                    less = " ".join([name, *([word] if word else []), *given[:at], *given[at + 1 :]])
                    self.assertEqual(self.answered(less), "refused 10", less)
                    self.assertIsNone(statement_words.read(less.split())[0], less)

    def test_each_act_changes_a_status_as_the_program_does(self):
        """From each status each act is done, or refused 29, as the table says."""
        ways = {"W": [], "S": ["start"], "E": ["start", "fail"], "C": ["start", "complete"]}
        for before, way in ways.items():
            for word, act in statements.ACTS.items():
                stream = (TOP / "crates" / "test_streams" / "data" / "monday.in").read_text().split("cp-start")[0]
                acts = [*way, word]
                stream += "".join(f"cp-{one} --app LEDGER --ia 2024-01-01/18.00 --job {900 + at}\n"
                                  for at, one in enumerate(acts))
                last = self.run_stream(stream).splitlines()[-1]
                self.assertEqual(last.endswith(f"status {act.after}"), before in act.before, (before, word, last))
                self.assertEqual(last == "refused 29", before not in act.before, (before, word, last))

    def test_an_act_may_change_pairs_as_the_table_says(self):
        """Acts where a nearer predecessor was added meanwhile: those that change pairs are those that may."""
        stream = (TOP / "crates" / "test_streams" / "data" / "monday.in").read_text().split("cp-start")[0]
        steps = ("start LEDGER 18", "complete LEDGER 18", "start REPORT 20", "fail REPORT 20", "add LEDGER 19",
                 "reset REPORT 20", "delete LEDGER 19")
        for job, (word, app, hour) in enumerate(map(str.split, steps), 900):
            stream += f"list dependencies\ncp-{word} --app {app} --ia 2024-01-01/{hour}.00 --job {job}\n"
        said = self.run_stream(stream + "list dependencies\n").splitlines()
        pairs, lists = [], []
        for line in said:
            if line.startswith("ok rows "):
                lists.append(pairs)
            pairs = [] if line.startswith("ok ") else [*pairs, line]
        changed = {step.split()[0] for step, before, after in zip(steps, lists, lists[1:]) if before != after}
        self.assertEqual(len(lists), len(steps) + 1, said)
        self.assertEqual(changed, {act.word for act in statements.ACTS.values() if act.may_change_pairs})
        self.assertEqual({f"cp-{act}" for act in statements.ACTS} - {f"cp-{word}" for word in changed},
                         set(statements.ON_A_STATUS))

    def value(self, name, option):
        return VALUES["ia"] if option == "to" and name.startswith("dp-") else VALUES[option]

    def answered(self, line):
        data = "/*\n" if line.startswith("define") else ""
        return self.run_stream(f"{line}\n{data}").splitlines()[0]

    def run_stream(self, stream):
        ran = subprocess.run([plans.PROGRAM], input=stream, capture_output=True, text=True, check=False)
        return ran.stdout


if __name__ == "__main__":
    unittest.main()
