"""Words that stand alone where an option takes them: each command names the option, whichever it is."""

import unittest

from support import plans  # the package's folder

from opcplan import __main__
from opcplan.cli import bare_words
from opcplan.errors import UsageError

assert plans
# a word of the form that an option takes, by its metavar, and what stands for the places of a command
WORDS = {"D": "2027-01-05", "D/HH.MM": "2027-01-05/06.00", "DESK": "http://127.0.0.1:7411", "HOST:PORT": "localhost:7"}
PLACES = {"PLAN.db": "plan.db", "STREAM": "x.in", "OUTPUT": "x.out", "NAME": "DEFAULT", "FILE": "copy", "BACKUP": "b",
          "LIST": "cp", "APP": "PAY", "YEAR": "2027", "LOG": "etcd://127.0.0.1:2379/plan", "D": "2027-01-05"}


def cases():
    """Each command and option that takes a day, a moment or an address, with words that lack the option."""
    for name in __main__.SUBCOMMANDS:
        parser = __main__.parser_of(name)
        places = [one for one in parser._actions if not one.option_strings]
        if any(one.nargs not in (None, "?") for one in places):
            continue  # these places take all words, and say themselves what is too much
        typed = [PLACES[one.metavar] for one in places]
        for option in parser._actions:
            if option.option_strings and option.metavar in WORDS and option.dest not in ("last", "source"):
                yield name, option.option_strings[-1], [*typed, WORDS[option.metavar]]


class BareWords(unittest.TestCase):
    def test_each_command_names_the_option_that_a_word_lacks(self):
        found = list(cases())
        self.assertGreater({name for name, _, _ in found}, {"days", "rows", "journal", "export", "page", "late"})
        for name, option, typed in found:
            with self.subTest(name, option=option):
                with self.assertRaises(UsageError) as raised:
                    __main__.parser_of(name).parse_args(typed)
                said, _, rest = str(raised.exception).partition("; ./plan ")
                self.assertEqual(rest, f"{name} --help says more")
                self.assertIn(option, said.replace(",", "").split())

    def test_what_is_proposed_is_taken(self):
        """The words that are proposed have each word that was typed, and are no error any more."""
        for typed in ("plan.db PAY 2027-01-05 2027-01-07", "2027-01-05 plan.db",
                      "plan.db 2027-01-05 PAY --to 2027-01-07", "plan.db --fr 2027-01-01 PAY 2027-01-05",
                      "plan.db --try period=MONTH 2027-01-05"):
            with self.subTest(typed):
                parser = __main__.parser_of("days")
                line = bare_words.Line(parser._actions, typed.split(), lambda word: word == "plan.db")
                text = bare_words.problem("days", line, True)
                words = text.rpartition(": ")[2].split()
                self.assertEqual(sorted({*typed.split()} - {*words}), [], text)
                given = __main__.parser_of("days").parse_args(words[1:])
                self.assertEqual((given.plan, given.app in (None, "PAY")), ("plan.db", True))


if __name__ == "__main__":
    unittest.main()
