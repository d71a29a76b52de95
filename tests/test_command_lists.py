"""The lists of subcommands that tests and tools go by: each is in them, or among those that have no place there."""

import importlib
import importlib.machinery
import importlib.util
import re
import unittest

from support import TOP

from opcplan import __main__ as command

# what changes a plan or waits for callers isn't printed to a full disk, nor given damaged plans at random
# verbs are one module but for their words: some of them stand for all
NO_PRINTERS = {"edit", "import", "restore", "send", "desk", "log", "agent", "roll", "watch", "start", "complete",
               "fail", "reset", "delete", "rerun", "move", "undo"}
NOT_AT_RANDOM = {"run", "init", "backup", "restore", "send", "desk", "log", "agent", "roll", "watch", "start",
                 "complete", "fail", "reset", "delete", "undo"}


def fuzz_plan():
    """tools/gate/fuzz-plan as a module."""
    path = str(TOP / "tools" / "gate" / "fuzz-plan")
    loader = importlib.machinery.SourceFileLoader("fuzz_plan", path)
    module = importlib.util.module_from_spec(importlib.util.spec_from_loader("fuzz_plan", loader))
    loader.exec_module(module)
    return module


class Lists(unittest.TestCase):
    def test_each_subcommand_is_tried_with_outputs_that_are_full(self):
        tried = set(importlib.import_module("test_ends").PRINTERS) - {"--help"}
        self.assertEqual(tried | NO_PRINTERS, set(command.SUBCOMMANDS))
        self.assertEqual(tried & NO_PRINTERS, set())

    def test_each_subcommand_is_tried_with_plans_that_are_damaged(self):
        tried = set(fuzz_plan().COMMANDS)
        self.assertEqual(tried | NOT_AT_RANDOM, set(command.SUBCOMMANDS))
        self.assertEqual(tried & NOT_AT_RANDOM, set())

    def test_what_a_subcommand_may_be_called_leads_to_one(self):
        self.assertLessEqual(set(command.OTHERWISE.values()), set(command.SUBCOMMANDS))
        self.assertEqual(set(command.OTHERWISE) & set(command.SUBCOMMANDS), set())
        self.assertEqual(set(command.DOES) & {*command.SUBCOMMANDS, *command.OTHERWISE}, set())
        named = [word for text in command.DOES.values() for word in re.findall(r"`\./plan ([a-z-]+)", text)]
        self.assertLessEqual(set(named), set(command.SUBCOMMANDS))
        self.assertGreaterEqual(len(named), len(command.DOES))


if __name__ == "__main__":
    unittest.main()
