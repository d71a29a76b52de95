"""The errors of the package: one hierarchy, an exit status each, and one place that prints them."""

import ast
import builtins
import contextlib
import io
import sys
import unittest
from pathlib import Path
from unittest import mock

from support import TOP

from opcplan import __main__ as command
from opcplan import errors
from opcplan.cli import words

PACKAGE = TOP / "python" / "opcplan"
BUILTIN = {name for name, one in vars(builtins).items() if isinstance(one, type) and issubclass(one, BaseException)}
# a signal is no error: `__main__.run` takes it, and the process ends by it
SIGNAL = ("cli/signals.py", "SignalReceived", "BaseException")
SAYS = {"print_message", "print_sentences", "print"}
# what a process is run by: the command itself, and those that make the page and the lists of a desk
MAINS = {"__main__.py", "desk/acts_process.py", "desk/edits_process.py", "desk/needs_process.py",
         "desk/page_process.py", "desk/rows_process.py"}


def trees():
    """Each module of the package, by its path within."""
    for path in sorted(PACKAGE.rglob("*.py")):
        yield path.relative_to(PACKAGE).as_posix(), ast.parse(path.read_text(encoding="utf-8"))


def made_of_builtin(name, tree):
    """The classes of a module that come from an exception of Python itself: module, class, base."""
    return [(name, node.name, ast.unparse(base)) for node in ast.walk(tree) if isinstance(node, ast.ClassDef)
            for base in node.bases if ast.unparse(base) in BUILTIN]


def says_and_ends(tree):
    """The lines on which a message is followed by the end of a function with a status other than 0."""
    for node in ast.walk(tree):
        for field in ("body", "orelse", "finalbody"):
            block = getattr(node, field, None)
            for one, after in zip(block, block[1:]) if isinstance(block, list) else ():
                if is_message(one) and isinstance(after, ast.Return) and is_failure(after.value):
                    yield after.lineno


def is_message(one):
    """Whether a statement prints something on standard error."""
    if not isinstance(one, ast.Expr) or not isinstance(one.value, ast.Call):
        return False
    name = getattr(one.value.func, "attr", getattr(one.value.func, "id", ""))
    return name in SAYS and (name != "print" or "stderr" in ast.unparse(one))


def is_failure(value):
    """Whether a value is an exit status other than 0, as far as can be seen."""
    if isinstance(value, ast.Constant):
        return isinstance(value.value, int) and value.value > 0
    return isinstance(value, (ast.Name, ast.Attribute)) and ast.unparse(value).rpartition(".")[2] in (
        "FAILED", "exit_status")


def answered(error):
    """Status and messages of a command that ends by an error."""
    stderr = io.StringIO()
    with mock.patch.object(command, "main", side_effect=error), contextlib.redirect_stderr(stderr), \
            contextlib.redirect_stdout(io.StringIO()):
        return command.status_of([]), stderr.getvalue()


class Full(io.StringIO):
    """Standard output that takes nothing."""

    def flush(self):
        raise errors.Unwritable("standard output: it can't be written")


class Errors(unittest.TestCase):
    def test_there_is_one_hierarchy(self):
        found = [one for name, tree in trees() for one in made_of_builtin(name, tree)]
        self.assertEqual(sorted(found), [SIGNAL, ("errors.py", "Error", "Exception")])

    def test_one_place_prints_what_is_not_done(self):
        found = [f"{name}:{line}" for name, tree in trees() if name not in MAINS for line in says_and_ends(tree)]
        self.assertEqual(found, [])

    def test_an_error_that_is_printed_elsewhere_is_found(self):
        for text in ("words.print_message('a')\n    return 2", "edit_words.print_sentences(['a'])\n    return "
                     "why.exit_status",
                     "print('a', file=sys.stderr)\n    return FAILED"):
            self.assertEqual(list(says_and_ends(ast.parse(f"def f():\n    {text}"))), [3], text)
        tree = ast.parse("class A(ValueError):\n    pass\nclass B(A):\n    pass")
        self.assertEqual(made_of_builtin("m.py", tree), [("m.py", "A", "ValueError")])

    def test_each_is_printed_once_with_its_status(self):
        class Other(errors.Unreadable):
            exit_status = 8

        found = f"{Path(words.CALLED).name}: it isn't so\n"
        for kind, status in ((errors.Error, 1), (errors.UsageError, 2), (errors.Unreadable, 1),
                             (errors.Unwritable, 1), (errors.LogUnwritable, 1), (Other, 8)):
            self.assertEqual(answered(kind("it isn't so")), (status, found), kind)

    def test_an_error_keeps_its_status_where_output_has_no_reader(self):
        stderr = io.StringIO()
        with mock.patch.object(command, "main", side_effect=errors.UsageError("no")), \
                contextlib.redirect_stderr(stderr), mock.patch.object(sys, "stdout", mock.Mock(
                    flush=mock.Mock(side_effect=BrokenPipeError))):
            self.assertEqual(command.status_of([]), 2)
        with mock.patch.object(command, "main", return_value=0), contextlib.redirect_stderr(stderr), \
                mock.patch.object(sys, "stdout", Full()):
            self.assertEqual(command.status_of([]), 1)
        self.assertEqual(stderr.getvalue(), "plan: no\nplan: standard output: it can't be written\n")


if __name__ == "__main__":
    unittest.main()
