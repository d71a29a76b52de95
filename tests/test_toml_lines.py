"""The lines of tables and keys in TOML, which Python's parser doesn't keep: texts with each form that may hide one."""

import random
import tomllib
import unittest

import support  # noqa: F401

from opcplan.rules.toml_lines import Lines

# the number of each line is what is behind its last `#`
TEXT = r'''
a.b = 1                                  # 2
classes."d b" = 2 # not = this           # 3

[who.night]                              # 5
mail = "n@x # \" ["                      # 6
then = ["a", # ] not the end
  # mail = 3
  "b", ["]"]]
  [who . 'a "b"']                        # 10
text = """
[rule]
x = 1 \""" y = 2
z = 3"""                                 # the end of line 11
lit = """"quoted""""                     # 15
raw = \'\'\'
[[rule]]
\\\'\'\'
after = 'a = "'                          # 19
[[rule]]                                 # 20
on = "error"                             # 21
  [[rule]]                               # 22
on = [ { a = 1, b = "]" }, # 23 too
 2 ]
minutes = { a = 1 }                      # 25
[rule.sub]                               # 26
q = 1                                    # 27
[PAY]
environment.A = 1                        # 29
environment.B = 2                        # 30
'''.replace("\\'", "'")
PLACES = {
    ("a", "b"): 2, ("a",): 2, ("a", "b", "c"): 2, ("classes", "d b"): 3, ("who", "night"): 5,
    ("who", "night", "mail"): 6, ("who", "night", "then"): 7,
    ("who", "night", "no"): 5, ("who", 'a "b"'): 10, ("who", 'a "b"', "text"): 11,
    ("who", 'a "b"', "x"): 10, ("who", 'a "b"', "lit"): 15, ("who", 'a "b"', "raw"): 16,
    ("who", 'a "b"', "after"): 19, ("rule", 1): 20, ("rule", 1, "on"): 21, ("rule", 1, "minutes"): 20,
    ("rule", 2): 22, ("rule", 2, "on"): 23, ("rule", 2, "minutes"): 25, ("rule", 2, "sub"): 26,
    ("rule", 2, "sub", "q"): 27, ("rule", 3): None, ("rule",): None, ("PAY", "environment", "A"): 29,
    ("PAY", "environment"): 29, ("PAY", "environment", "B"): 30, ("PAY", "tries"): 28, ("x",): None, ("z",): None,
}
SEEDS = 300


class Places(unittest.TestCase):
    def test_each_form(self):
        tomllib.loads(TEXT)
        for text in (TEXT, TEXT.replace("\n", "\r\n")):
            lines = Lines(text)
            for place, line in PLACES.items():
                self.assertEqual(lines.of(*place), line, place)
        self.assertEqual((lines.told("it's wrong", "rule", 1), lines.told("it's wrong", "x")),
                         ("line 20: it's wrong", "it's wrong"))

    def test_texts_at_random(self):
        """Tables and keys whose lines are known as they are written, between values of all forms."""
        for seed in range(SEEDS):
            some, text, known, table = random.Random(seed), "", {}, ()
            for number in range(some.randrange(1, 12)):
                text += some.choice(("", "\n", "# [a]\n", " \t\n"))
                line = text.count("\n") + 1
                if some.random() < 0.4:
                    table = ("t", number) if some.random() < 0.5 else ("r", 1 + sum(len(one) == 2 and one[0] == "r"
                                                                                     for one in known))
                    text += f"[t.{number}] # ]\n" if table[0] == "t" else "[[r]]\n"
                    table = table if table[0] == "r" else ("t", str(number))
                    known[table] = line
                else:
                    known[*table, f"k{number}"] = line
                    text += f"k{number} = {some.choice(VALUES)}\n"
            with self.subTest(seed):
                tomllib.loads(text)
                lines = Lines(text)
                self.assertEqual({place: lines.of(*place) for place in known}, known, text)

    def test_what_is_no_toml_has_the_lines_before_it(self):
        for text in ("a = 1\n= 2\n", "a = 1\n[", 'a = 1\nb = """', "a = 1\nb = [[", "a = 1\n\0"):
            self.assertEqual(Lines(text).of("a"), 1, text)
        self.assertIsNone(Lines("").of("a"))


VALUES = ("1", "true", '"a # ] b"', "'\"'", '"""\n[t.0]\nk1 = 1\n"""', "'''\n[[r]]\n'''", "[1,\n # ]\n 2]",
          "{ k2 = 1 }", '[{ a = "}" }, { a = "]" }]  # [', "1979-05-27T07:32:00Z", '""', '"\\""', '""""a\\""""',
          "[\n\n]")


if __name__ == "__main__":
    unittest.main()
