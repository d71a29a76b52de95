"""What names an occurrence or a moment to ./plan: each form that is printed somewhere, and no other."""

import argparse
import datetime
import random
import unittest

from support import data_centre, plans
from support.plans import plain

from opcplan.acts.resolver import Meant
from opcplan.cli import words
from opcplan.commands import keys
from opcplan.errors import UsageError
from opcplan.plans import plan_file
from opcplan.rules import moments


FORMS = "%Y-%m-%d/%H.%M", "%Y-%m-%d %H.%M", "%Y-%m-%dT%H:%M", "%Y-%m-%d %H:%M", "%Y-%m-%d/%H:%M", "%Y-%m-%dT%H.%M"
NONE = """2026-07-05 2026-07-05/ 2026-07-05/22 2026-07-05/22.0 2026-07-05/22-00 2026-07-05/24.00 2026-07-05/22.60
    2026-7-05/22.00 2026-07-05//22.00 2026-07-05t22.00 26-07-05/22.00 2026-02-29/22.00 2026-07-05T22:00:00
    2026-07-05T22:00Z 1971-12-31/22.00 2072-01-01/22.00 22.00/2026-07-05 2026-07-05_22.00""".split()


def parser(add):
    """A parser of what a function adds, with an option beside it."""
    made = words.Parser(prog="plan why")
    words.add_plan(made)
    add(made)
    words.add_now(made)
    return made


def read(add, *given):
    """The key that words spell, or None where they are wrong."""
    made = parser(add)
    made.error = lambda _: (_ for _ in ()).throw(SystemExit(2))
    try:
        return made.parse_args(["plan.db", *given]).key
    except (SystemExit, UsageError):
        return None


class Moments(unittest.TestCase):
    def test_each_form_is_read_as_its_moment(self):
        chosen, first = random.Random(3), datetime.datetime(1972, 1, 1)
        for _ in range(300):
            moment = first + datetime.timedelta(minutes=chosen.randrange(100 * 365 * 1440))
            wanted = int((moment - datetime.datetime(1970, 1, 1)).total_seconds()) // 60
            for form in FORMS:
                self.assertEqual(moments.typed_moment(moment.strftime(form)), wanted)
        self.assertEqual(moments.typed_moment("2026-07-05   22.00"), moments.typed_moment("2026-07-05/22.00"))

    def test_no_other_text_is_one(self):
        for text in [*NONE, "", "2026-07-05 22.00 ", " 2026-07-05 22.00", "2026-07-05\n22.00", "２026-07-05 22.00"]:
            self.assertIsNone(moments.typed_moment(text), text)
            with self.assertRaises(argparse.ArgumentTypeError):
                words.moment(text)

    def test_statements_have_their_one_form(self):
        text = datetime.datetime(2026, 7, 5, 22)
        read_by_statements = [form for form in FORMS if moments.moment_of(text.strftime(form)) is not None]
        self.assertEqual(read_by_statements, [FORMS[0]])

    def test_a_day_and_a_time_that_stand_apart_are_one_word(self):
        apart = ["2026-07-05", "22.00", "--now", "2026-07-06", "06:00", "2026-07-07"]
        self.assertEqual(words.joined(apart), ["2026-07-05 22.00", "--now", "2026-07-06 06:00", "2026-07-07"])
        for alone in (["22.00"], ["2026-07-05", "24.00"], ["2026-07-05", "2026-07-05"], ["x", "22.00"], []):
            self.assertEqual(words.joined(alone), alone)


class Keys(unittest.TestCase):
    def test_forms_of_an_occurrence(self):
        wanted = keys.Key(None, "LEDGER", moments.moment_of("2026-07-05/22.00"))
        for form in FORMS:
            text = datetime.datetime(2026, 7, 5, 22).strftime(form)
            for given in (["LEDGER", text], ["ledger", *text.split()], [f"LEDGER {text}"], [f"LEDGER   {text}"],
                          ["LEDGER", "--now", "2026-07-06/06.00", *text.split()]):
                self.assertEqual(read(keys.add_key, *given), wanted, given)
                self.assertEqual(read(keys.add_key_of_day, *given), wanted, given)
        self.assertEqual(read(keys.add_key, "#123", "2026-07-05/22.00").app, "#123")

    def test_forms_of_a_serial(self):
        for given in (["#123"], ["123"], ["000000123"], ["serial", "123"], ["serial 123"], ["#000000123"]):
            for add in (keys.add_key, keys.add_key_of_day):
                self.assertEqual(read(add, *given), keys.Key(123, None, None), given)

    def test_no_other_words_are_a_key(self):
        self.assertIsNone(read(keys.add_key_of_day, "LEDGER"))
        for given in ([], [""], ["#0"], ["0"], ["1234567890"], ["-1"], ["1.5"], ["#12a"], ["serial"],
                      ["#123", "456"], ["1LEDGER", "2026-07-05/22.00"], ["LEDGER", "2026-07-05", "22.00", "more"],
                      ["LEDGER", "2026-02-29 22.00"], ["A" * 17, "2026-07-05/22.00"]):
            for add in (keys.add_key, keys.add_key_of_day):
                self.assertIsNone(read(add, *given), given)

    def test_an_application_with_a_day_or_a_minute_or_neither(self):
        day = moments.day_of("2026-07-05")
        for given, wanted in ((["ledger"], (None, None)), (["LEDGER", "2026-07-05"], (day, None)),
                              (["LEDGER", "22.00"], (None, 1320)), (["LEDGER 22:00"], (None, 1320))):
            self.assertEqual(read(keys.add_key, *given), keys.Key(None, "LEDGER", None, Meant(None, "LEDGER", *wanted)))

    def test_a_day_alone(self):
        wanted = keys.Key(None, "LEDGER", moments.moment_of("2026-07-05/00.00"))
        self.assertEqual(read(keys.add_key_of_day, "LEDGER", "2026-07-05"), wanted)


class Rows(unittest.TestCase):
    def test_each_serial_of_a_plan_leads_to_its_row(self):
        planner = plans.planner_of(data_centre.whole())
        found = [*planner.live(), *(row for row, _ in planner.deleted.values())]
        with plan_file.opened(plans.of_stream(data_centre.whole())) as plan:
            for row in found[::17] + [row for row, _ in planner.deleted.values()]:
                app, ia, rows = keys.rows_of(plan, keys.Key(row[0], None, None))
                self.assertEqual((app, ia, tuple(rows[0])[:5]), (row[1], row[2], row))
                same_key = {other[0] for other in found if other[1:3] == row[1:3]}
                same_key |= {one[0][0] for one in planner.current.values() if one[0][1:3] == row[1:3]}
                self.assertEqual({other.serial for other in rows}, same_key)
            self.assertIsNone(keys.rows_of(plan, keys.Key(planner.issued + 1, None, None)))

    def test_what_is_printed_can_be_pasted(self):
        text = plans.stream("monday") + plans.stream("tuesday")
        path, planner = plans.of_stream(text), plans.planner_of(text)
        for row, _ in planner.current.values():
            listed = next(line for line in planner.list("cp", None) if line.startswith(f"{row[0]:09} "))
            forms = [f"#{row[0]}", listed[:9]], [f"serial {row[0]}".split()], [[row[1], *listed[38:54].split()]]
            asked = [[form] if isinstance(form, str) else form for group in forms for form in group]
            now = ["--now", "2024-01-03", "08.00"]
            answers = {plans.plan("why", path, *given, *now).stdout for given in asked}
            self.assertEqual(len(answers), 1, answers)
            self.assertTrue(answers.pop().startswith(f"{row[1]} {plain.moment_text(row[2])} "))
        day = plans.plan("why-day", path, "#3").stdout
        self.assertTrue(day.startswith("LEDGER on Tuesday 2024-01-02, "), day)

    def test_a_serial_that_is_not_there(self):
        for command in ("why", "why-day"):
            ran = plans.plan(command, plans.of_worked("monday"), "#99")
            issued = plans.planner_of(plans.stream("monday")).issued
            self.assertEqual((ran.returncode, ran.stderr), (1, ""))
            self.assertEqual(ran.stdout, f"No occurrence has the serial 99: the last one is {issued}.\n")
            ran = plans.plan(command, plans.of_worked("first-days"), "99")
            self.assertEqual(ran.stdout, "No occurrence has the serial 99: there is none yet.\n")


if __name__ == "__main__":
    unittest.main()
