"""What README.md and docs/use/RECIPES.md have to type: tools/reference/plain_planner.py answers it so; and what is
wrong is told."""

import os
import re
import subprocess
import tempfile
import unittest
from pathlib import Path

from support import plans

TYPIST = plans.TOP / "tools" / "gate" / "guide-examples"
PLAIN = plans.TOP / "tests" / "support" / "plain_program.py"


def typed(*pages):
    """What tools/gate/guide-examples says of pages where the plain planner is the program."""
    return subprocess.run([TYPIST, *pages, PLAIN], capture_output=True, encoding="utf-8", check=False, timeout=300)


# goes into a folder of its own
APART = '```console\n$ a=1; room=$(mktemp -d); ln -s "$PWD/opcplan" "$room"; cd "$room"\n```\n'


class Pages(unittest.TestCase):
    def of(self, text):
        """What is said of a page with this text."""
        with tempfile.TemporaryDirectory() as folder:
            page = Path(folder) / "page.md"
            page.write_text(text, encoding="utf-8")
            return typed(page)

    def test_plain_planner_answers_the_recipes_so(self):
        done = typed("docs/use/RECIPES.md")
        self.assertEqual((done.returncode, done.stderr), (0, ""), done.stdout)
        self.assertGreater(int(done.stdout.split()[0]), 12)

    def test_plain_planner_answers_the_readme_so(self):
        done = typed("README.md")
        self.assertEqual((done.returncode, done.stdout), (0, "3 passed, 0 failed\n"))

    def test_what_the_readme_does_not_type_is_in_the_makefile(self):
        """Each command of a block that isn't typed is a target of make, whose tools are there and can be run."""
        text = (plans.TOP / "README.md").read_text(encoding="utf-8")
        commands = re.findall(r"^```sh\n(.*?)\n```$", text, re.M | re.S)
        self.assertEqual(commands, ["make test", "make gate"])
        for command in commands:
            done = subprocess.run(command.split() + ["-n"], cwd=plans.TOP, capture_output=True, encoding="utf-8",
                                  check=False, timeout=60)
            self.assertEqual((done.returncode, done.stderr), (0, ""))
            tools = re.findall(r"(?<![\w/.-])(?:tools/gate/|\.ci/)[\w-]+", done.stdout)
            self.assertTrue(tools, command)
            self.assertEqual([tool for tool in tools if not os.access(plans.TOP / tool, os.X_OK)], [])

    def test_picture_of_the_page(self):
        """The README begins with a picture that is there, small, and as wide as tools/browser/page-picture makes it."""
        text = (plans.TOP / "README.md").read_text(encoding="utf-8")
        alt, place = re.search(r"^# opcplan\n\n!\[(.+)\]\((.+)\)$", text, re.M).groups()
        data = (plans.TOP / place).read_bytes()
        self.assertEqual(data[:8], b"\x89PNG\r\n\x1a\n")
        self.assertLess(len(data), 150_000)
        self.assertEqual(int.from_bytes(data[16:20]), 1200)
        self.assertGreater(len(alt), 20)

    def test_block_that_is_not_typed(self):
        done = self.of("```sh\nexit 3\n```\n```console\n$ true\n```\n")
        self.assertEqual((done.returncode, done.stdout), (0, "2 passed, 0 failed\n"))

    def test_pages_that_the_program_names_are_there(self):
        """The texts of the program name pages by their paths from the top; each is there."""
        sources = sorted((plans.TOP / "crates").glob("*/src/*.rt"))
        named = {page for path in sources for page in re.findall(r"\bdocs/[\w/]+\.md\b", path.read_text("utf-8"))}
        self.assertGreater(len(named), 3)
        self.assertEqual([page for page in sorted(named) if not (plans.TOP / page).is_file()], [])

    def test_date_that_is_wrong_is_reported(self):
        row = "\n000000003 LEDGER           G RC       2024-01-0"
        text = (plans.TOP / "README.md").read_text(encoding="utf-8")
        self.assertIn(f"{row}2", text)
        done = self.of(text.replace(f"{row}2", f"{row}3"))
        self.assertEqual(done.returncode, 1)
        self.assertIn("+000000003 LEDGER           G RC       2024-01-02 18.00", done.stdout)
        self.assertTrue(done.stdout.endswith("2 passed, 1 failed\n"))

    def test_refusal_that_is_not_announced_fails(self):
        for tail, status in (("refused 20\n[4]\n", 0), ("refused 20\n", 1), ("[4]\n", 1)):
            done = self.of(f"{APART}```text a.in\ndp-replan --job 1\n```\n```console\n$ ./opcplan < a.in\n{tail}```\n")
            self.assertEqual(done.returncode, status, done.stdout)

    def test_blocks_are_typed_in_one_shell(self):
        done = self.of(f"{APART}```text f\n$a `b` '\\\n```\n```console\n$ cat f; echo $a\n$a `b` '\\\n1\n```\n")
        self.assertEqual((done.returncode, done.stdout), (0, "3 passed, 0 failed\n"))

    def test_what_is_not_run_fails(self):
        done = self.of("```console\n$ exit 0\n```\n```console\n$ true\n```\n")
        self.assertTrue(done.stdout.endswith("1 passed, 2 failed\n"), done.stdout)

    def test_what_is_left_in_the_folder_is_reported(self):
        done = self.of("```console\n$ touch plan.db\n```\n```text a.in\nlist cp\n```\n")
        self.assertIn("leaves a.in, plan.db in the folder where it begins\n1 passed, 1 failed\n", done.stdout)

    def test_program_is_found_through_a_symbolic_link(self):
        with tempfile.TemporaryDirectory() as folder:
            link = Path(folder) / "opcplan"
            link.symlink_to(plans.TOP / "opcplan")
            done = subprocess.run([link, "--help"], cwd=folder, capture_output=True, check=False, timeout=60)
            self.assertEqual((done.returncode, done.stderr), (0, b""))
            self.assertIn(b"--db", done.stdout)

    def test_other_blocks_are_reported(self):
        for block in ("```\nfree\n```\n", "```text\nno name\n```\n", "```text ../up\n```\n",
                      "```console\nno command\n```\n", "```console\n```\n", "```console\n$ true\n"):
            with self.subTest(block):
                self.assertEqual(self.of(block).returncode, 1)


if __name__ == "__main__":
    unittest.main()
