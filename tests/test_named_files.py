"""What the pages for contributors say of the sources: docs/work/CONTRIBUTING.md names files that are there, and
docs/DECISIONS.md the crates of crates.txt."""

import re
import unittest

from support import plans

CRATES = plans.TOP / "crates"
PARTS = ("src", "specs", "proofs")
# a path in a list, or the name of a file
PATH = re.compile(r"[\w./-]+")


def missing(page, names):
    """The paths that the lists of a page name and that aren't there: for each its line and the path.

    A path begins with the name of a crate, or with a folder at the top. After a crate's path in the same entry one
    that begins with src, specs or proofs is of that crate, and a name alone is in a folder of it."""
    found = []
    for number, line in enumerate(page.splitlines(), 1):
        crate = None
        for path in re.findall(r"`([^`]+)`", line) if line.startswith("- ") else ():
            first, _, rest = path.partition("/")
            if not PATH.fullmatch(path) or re.search("NAME|KIND", path):
                continue
            crate = first if first in names else crate
            if first in names and rest:
                places = [CRATES / path]
            elif crate and first in PARTS and rest:
                places = [CRATES / crate / path]
            elif crate and path.endswith((".rt", ".antt")):
                places = [CRATES / crate / part / path for part in PARTS]
            elif first in ("docs", "tests", "tools", "python"):
                places = [plans.TOP / path]
            else:
                continue
            if not any(list(place.parent.glob(f"{place.name}*")) for place in places):
                found.append((number, path))
    return found


class Named(unittest.TestCase):
    def test_files_of_the_lists_are_there(self):
        names = {path.name for path in CRATES.iterdir()}
        page = (plans.TOP / "docs" / "work" / "CONTRIBUTING.md").read_text(encoding="utf-8")
        self.assertEqual(missing(page, names), [])
        for wrong, path in (("`occurrences/src/reply.rt`, `specs/Reply.antt`", "specs/Reply.antt"),
                            ("`planner_machine/specs/Sounds.antt`", "planner_machine/specs/Sounds.antt"),
                            ("`planner_cli/specs/Requests.antt`, `Stepping.antt`", "Stepping.antt"),
                            ("`python/opcplan/rules/none.py`", "python/opcplan/rules/none.py")):
            self.assertEqual(missing(f"\n- {wrong}: this\n", names), [(2, path)])

    def test_crates_beside_those_of_the_surface(self):
        page = (plans.TOP / "docs" / "DECISIONS.md").read_text(encoding="utf-8")
        table = page.partition("| Crate of the surface | Further crates here |\n|---|---|\n")[2].partition("\n\n")[0]
        further = [name for row in table.splitlines() for name in re.findall(r"`(\w+)`", row.split("|")[2])]
        lines = (plans.TOP / "crates.txt").read_text(encoding="utf-8").splitlines()
        listed = {line.partition(":")[0] for line in lines if not line.startswith(("#", "test_"))}
        self.assertEqual(len(further), len(set(further)))
        self.assertEqual(set(further) - listed, set())
        self.assertEqual(len(listed - set(further)), 13, sorted(listed - set(further)))
        self.assertIn(f"The public surface has 13 crates. Here there are {len(listed)},", page)


if __name__ == "__main__":
    unittest.main()
