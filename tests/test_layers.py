"""The layers of the package opcplan: what a module imports is in its own package or in one below it."""

import ast
import subprocess
import sys
import unittest

from support import TOP

PACKAGE = TOP / "python" / "opcplan"
# from the lowest to the highest; a module imports from its own layer and from those above it in this table
LAYERS = {
    "errors": "the one hierarchy of errors",
    "rules": "forms, statements, definitions, refusals, words for them; opens no file",
    "plans": "a plan file and its journal, copies, locks, trials over a copy, and what is made of rows",
    "needs": "what of a plan needs a person, from facts of the plan, its journal, agents and machines",
    "acts": "what an operator wants, as a stream with its preview and its inverse",
    "edits": "a change of definitions, as a stream with its preview",
    "cli": "words, output, signals and version of a command",
    "webpage": "the page that shows a plan",
    "desk": "one planner for many callers, and its client",
    "agent": "runs jobs for a desk",
    "watch": "calls somebody when a plan needs it",
    "commands": "the subcommands, a module each with its helpers",
    "library": "what scripts use: a plan that is read, a desk that is asked",
    "__main__": "the command itself",
}
# what opens, makes or runs files and processes
OF_FILES = {"os", "io", "pathlib", "shutil", "sqlite3", "subprocess", "tempfile", "socket", "fcntl"}
# loads each file of tests in a Python that has no package beside its own, as the gate's may be; prints what fails
IMPORTS = """
import importlib, pathlib, sys
sys.modules.update(dict.fromkeys(("aiohttp", "icalendar", "dateutil")))
for path in sorted(pathlib.Path().glob("test_*.py")):
    try:
        importlib.import_module(path.stem)
    except ImportError as error:
        print(f"{path}: {error}")
"""


def modules():
    """Each module of the package, as (layer, path, tree)."""
    for path in sorted(PACKAGE.rglob("*.py")):
        layer = path.relative_to(PACKAGE).parts[0].removesuffix(".py")
        if layer != "__init__":
            yield layer, path, ast.parse(path.read_text(encoding="utf-8"))


def imported(tree):
    """The names that a module imports, with dots, also within functions; of `from a import b` it is `a.b`."""
    for node in ast.walk(tree):
        if isinstance(node, ast.Import):
            yield from ((node.lineno, name.name) for name in node.names)
        elif isinstance(node, ast.ImportFrom):
            module = "." * node.level + (node.module or "")
            yield from ((node.lineno, f"{module}.{name.name}") for name in node.names)


def upward(layer, tree):
    """The lines of imports that go up from a layer, or name no layer."""
    order = list(LAYERS)
    for line, name in imported(tree):
        first, *rest = name.split(".")
        if first == "opcplan" and (rest[0] not in order or order.index(rest[0]) > order.index(layer)):
            yield line, name


class Layers(unittest.TestCase):
    def test_each_package_has_a_layer(self):
        self.assertEqual({layer for layer, _, _ in modules()}, set(LAYERS))

    def test_no_import_goes_up(self):
        found = [f"{path.relative_to(TOP)}:{line}: {name}" for layer, path, tree in modules()
                 for line, name in upward(layer, tree)]
        self.assertEqual(found, [])

    def test_an_import_that_goes_up_is_found(self):
        for text in ("from opcplan.cli import words", "import opcplan.desk.client", "from opcplan import desk",
                     "def f():\n    from opcplan.commands import why", "from opcplan.nowhere import words"):
            self.assertTrue(list(upward("plans", ast.parse(text))), text)
        for text in ("from opcplan.plans import waits", "from opcplan.errors import Unreadable", "import json"):
            self.assertFalse(list(upward("plans", ast.parse(text))), text)

    def test_imports_are_absolute(self):
        found = [f"{path.relative_to(TOP)}:{line}" for _, path, tree in modules() for line, name in imported(tree)
                 if name.startswith(".") or name.split(".")[0] in LAYERS]
        self.assertEqual(found, [])

    def test_rules_know_no_file(self):
        found = [f"{path.relative_to(TOP)}:{line}: {name}" for layer, path, tree in modules() if layer == "rules"
                 for line, name in imported(tree) if name.split(".")[0] in OF_FILES]
        opened = [f"{path.relative_to(TOP)}:{node.lineno}: open" for layer, path, tree in modules()
                  for node in ast.walk(tree) if layer == "rules" and isinstance(node, ast.Name) and node.id == "open"]
        self.assertEqual(found + opened, [])


class Tests(unittest.TestCase):
    def test_each_file_loads_by_python_alone(self):
        ran = subprocess.run([sys.executable, "-c", IMPORTS], cwd=TOP / "tests", text=True, capture_output=True,
                             check=True)
        self.assertEqual(ran.stdout, "")


if __name__ == "__main__":
    unittest.main()
