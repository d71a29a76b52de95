"""./plan what-if: what it shows against tools/reference/plain_planner.py, before and after; and that the plan stays."""

import contextlib
import os
import re
import tempfile
import unittest
from pathlib import Path

from support import plans

from opcplan.commands import what_if
from opcplan.plans import plan_file, waits

plain = plans.plain
STREAMS = ["week-of-daily-plans", "batch-through-all-sets", "each-list", "data-centre-year", "two-hundred-statements",
           "deadline-named-anew", "least-name-first", "plan-before-its-creation", "definitions-taken-away"]
CUTS = 4
PLACES = {"L": "long-term plan", "W": "current plan, waiting", "S": "current plan, started",
          "E": "current plan, in error", "C": "current plan, complete", "D": "current plan, deleted", "H": "history",
          "o": "deleted by an operator", "w": "withdrawn", "p": "deleted in the current plan"}


def places_of(planner):
    """Each row by serial, with the words for where it stands."""
    found = {serial: (row, "L") for serial, row in planner.planned.items()}
    found |= {serial: (row, status) for serial, (row, status) in planner.current.items()}
    found |= {serial: (row, "H") for serial, row in planner.history.items()}
    found |= {serial: (row, reason.lower()) for serial, (row, reason) in planner.deleted.items()}
    return {serial: (row, PLACES[place]) for serial, (row, place) in found.items()}


def cut(name, share):
    """The first lines of a worked stream, of so many parts of twelve."""
    lines = plans.stream(name).split(b"\n")
    return b"\n".join(lines[: len(lines) * share // 12]) + b"\n"


def table_wanted(before, after):
    """The lines of the table, as tuples of cells."""
    held, wanted = places_of(before), []
    for serial, (row, place) in places_of(after).items():
        old, stood = held.get(serial, (None, "new"))
        if (old, stood) != (row, place):
            due = plain.moment_text(row[3])
            if old and old[3] != row[3]:
                due = f"{plain.moment_text(old[3])}, then {due}"
            if old and old[4] != row[4]:
                due += f" (by {old[4]}, then by {row[4]})"
            wanted.append((row[2], row[1], serial, plain.moment_text(row[2]), stood, place, due))
    return [(str(serial), app, arrives, *rest) for _, app, serial, arrives, *rest in sorted(wanted)]


def table_shown(text):
    lines = text.split("\n")
    heads = [number for number, line in enumerate(lines) if line.split()[:2] == ["serial", "application"]]
    return [tuple(re.split("  +", line.strip())) for line in lines[heads[0] + 1 :] if line] if heads else []


def names_wanted(before, after):
    """The lines on definitions."""
    lines = []
    for kind in plain.RECORDS:
        held, now = before.defined[kind], after.defined[kind]
        for said, names in (("new", now.keys() - held.keys()), ("gone", held.keys() - now.keys()),
                            ("changed", {name for name in now.keys() & held.keys() if now[name] != held[name]})):
            if names:
                lines.append(f"  {kind.replace('-', ' ')} {said}: {', '.join(sorted(names))}")
    return sorted(lines)


def names_shown(text):
    """The lines on definitions, with the names of those that are changed behind their heading: each name stands there
    once, with its changes behind and below it."""
    names = re.findall("^  [a-z ]+ (?:new|gone): .*", text, re.M)
    for heading, lines in re.findall("^(  [a-z ]+ changed:)\n((?:    .*\n?)+)", text, re.M):
        names.append(f"{heading} {', '.join(re.findall('^    ([A-Z0-9@#$]+): ', lines, re.M))}")
    return sorted(names)


def lines_with_answers(text):
    """The number of each line that gets an answer, by the plain planner's reading."""
    lines, found = enumerate(plain.lines_of(text), 1), []
    for number, (line, _) in lines:
        has_data = plain.first_word(line[:1024]) == b"define"
        if has_data or not plain.is_skipped(line):
            found.append(number)
        if has_data:
            next((data for _, (data, _) in lines if data == b"/*"), None)
    return found


# the same occurrence named by another run cycle, with the same deadline
NAMED_OTHERWISE = [
    b"""define periods --job 1
DAY,A,2024-01-01,1
/*
define applications --job 2
A,A,
/*
define run-cycles --job 3
A,LATER,N,DAY,3,1,2024-01-01,,08.00,0,18.00
/*
ltp-create --from 2024-01-01 --to 2024-01-03 --job 4
""",
    b"""define run-cycles --job 5
A,LATER,N,DAY,3,1,2024-01-01,,08.00,0,18.00
A,EARLY,N,DAY,3,1,2024-01-02,,08.00,0,18.00
/*
ltp-modify-all --job 6
""",
]


@unittest.skipUnless(plans.PROGRAM.exists(), "opcplan is not built")
class WhatIf(unittest.TestCase):
    def setUp(self):
        room = tempfile.TemporaryDirectory(prefix="what-if-test-")
        self.addCleanup(room.cleanup)
        self.room = Path(room.name)

    def tried(self, file, text, *words):
        stream = self.room / "stream.in"
        stream.write_bytes(text)
        return plans.plan("what-if", file, stream, "--program", plans.PROGRAM, *words)

    def test_differences_are_the_planners(self):
        shown = 0
        for name in STREAMS:
            items = plans.plan_rows.items_of(plans.stream(name))
            for cut in sorted({1 + number * len(items) // CUTS for number in range(CUTS)} & set(range(1, len(items)))):
                with self.subTest(name, cut=cut):
                    first, rest = b"".join(items[:cut]), b"".join(items[cut:])
                    before = plans.planner_of(first)
                    after = before.copy()
                    answers = plain.run(rest, after)
                    ran = self.tried(plans.of_stream(first), rest)
                    self.assertEqual(ran.returncode, 1 if plain.status_of(answers) else 0, ran)
                    table = table_wanted(before, after)
                    self.assertEqual(table_shown(ran.stdout), table)
                    self.assertEqual(names_shown(ran.stdout), names_wanted(before, after))
                    self.assertEqual(f"Occurrences: {len(table)}\n" in ran.stdout, bool(table))
                    shown += len(table)
        self.assertGreater(shown, 1000)

    def test_occurrences_that_are_named_otherwise_are_shown(self):
        before = plans.planner_of(NAMED_OTHERWISE[0])
        after = before.copy()
        plain.run(NAMED_OTHERWISE[1], after)
        ran = self.tried(plans.of_stream(NAMED_OTHERWISE[0]), NAMED_OTHERWISE[1])
        self.assertEqual(table_shown(ran.stdout), table_wanted(before, after))
        self.assertEqual(ran.stdout.count("(by LATER, then by EARLY)"), 2)

    def test_refusals_stand_with_their_lines(self):
        for name in ("data-centre-year", "each-list", "lines-and-data", "data-after-no-statement", "long-lines",
                     "data-without-end", "values-by-their-texts"):
            text = plans.stream(name)
            answers = [line for line in plain.run(text, plain.Planner()) if line.startswith(("ok ", "refused "))]
            refused = sum(reply.startswith("refused ") for reply in answers)
            ran = self.tried(plans.of_worked("empty"), text)
            shown = re.findall(r"^line ([0-9]+): .*\n    (refused .*)$", ran.stdout, re.M)
            wanted = [(str(number), reply) for number, reply in zip(lines_with_answers(text), answers)
                      if reply.startswith("refused ")]
            self.assertEqual(shown, wanted, name)
            self.assertTrue(ran.stdout.startswith(f"{len(answers) - refused} accepted, {refused} refused\n"))

    def test_bounds_and_options_are_shown(self):
        base = plans.of_worked("first-days")
        ran = self.tried(base, b"ltp-create --from 2024-01-01 --to 2024-01-31 --job 50\n"
                               b"dp-extend --to 2024-01-03/06.00 --job 51\n"
                               b"define options --job 52\ndefault_calendar = \"OTHER\"\nmax_extension_hours = 24\n/*\n")
        self.assertEqual(ran.returncode, 0)
        for line in ("  the long-term plan begins on 2024-01-01", "  the long-term plan goes to 2024-01-31",
                     "  the current plan ends at 2024-01-03 06.00", "  the default calendar: DEFAULT, then OTHER",
                     "  the most hours of one daily plan: 504, then 24"):
            self.assertIn(f"{line}\n", ran.stdout)
        ran = self.tried(plans.of_worked("monday"), b"dp-extend --to 2024-01-04/00.00 --job 50\n"
                                                    b"ltp-extend --to 2024-02-29 --job 51\n")
        for line in ("  the long-term plan goes to 2024-01-31, then 2024-02-29",
                     "  the current plan ends at 2024-01-02 00.00, then 2024-01-04 00.00"):
            self.assertIn(f"{line}\n", ran.stdout)
        self.assertNotIn("begins on", ran.stdout)

    def test_nothing_different_is_said(self):
        ran = self.tried(plans.of_worked("monday"), b"list cp\n* nothing\n")
        self.assertEqual((ran.returncode, ran.stderr), (0, ""))
        self.assertIn("Nothing would be different", ran.stdout)

    def test_plan_stays_as_it_was_and_nothing_is_left(self):
        file = plans.copy_of(plans.of_worked("monday"), self.room)
        text = plans.stream("tuesday")
        stream = self.room / "stream.in"
        stream.write_bytes(text)
        before = plans.prints(file)
        ran = plans.plan("what-if", file, stream, "--program", plans.PROGRAM)
        self.assertIn("-> history", ran.stdout)
        self.assertEqual(plans.prints(file), before)

    def test_stream_may_come_from_standard_input(self):
        file = plans.of_worked("monday")
        text = plans.stream("tuesday").decode()
        ran = plans.plan("what-if", file, "-", "--program", plans.PROGRAM, text=text)
        self.assertEqual((ran.returncode, ran.stdout), (1, self.tried(file, text.encode()).stdout))

    def test_what_cannot_be_tried_is_reported(self):
        file, stream = plans.of_worked("monday"), self.room / "stream.in"
        stream.write_bytes(b"list cp\n")
        for words in ((file, self.room / "nowhere.in"), (self.room / "nowhere.db", stream), (stream, stream),
                      (file, stream, "--program", self.room / "nowhere"), (file, stream, "--program", stream)):
            ran = plans.plan("what-if", *words)
            self.assertEqual((ran.returncode, ran.stdout), (1, ""), words)
            self.assertTrue(ran.stderr.startswith("plan: "), ran.stderr)
        for words in ((), (file,), (file, stream, "more"), (file, stream, "--db", "x")):
            self.assertEqual(plans.plan("what-if", *words).returncode, 2, words)

    def test_planner_that_ends_in_a_fault_is_reported(self):
        program = self.room / "faulty"
        program.write_text("#!/bin/sh\necho ok rows 0\necho fault 41\nexit 8\n")
        os.chmod(program, 0o755)
        stream = self.room / "stream.in"
        stream.write_bytes(b"list cp\nlist ltp\n")
        ran = plans.plan("what-if", plans.of_worked("monday"), stream, "--program", program)
        self.assertEqual(ran.returncode, 1)
        self.assertTrue(ran.stdout.startswith("1 accepted, 0 refused\n"))
        self.assertIn("\nfault 41: ", ran.stdout)
        self.assertIn("status 8", ran.stderr)


class ChangedRows(unittest.TestCase):
    """What is asked of both plans alone is what differs between all rows of the one and of the other."""

    def check(self, before, after):
        with contextlib.ExitStack() as files:
            old, new = (files.enter_context(plan_file.opened(plans.of_stream(text))) for text in (before, after))
            held, rows = ({row.serial: row for row in waits.rows_where(plan, "1")} for plan in (old, new))
            wanted = [(held.get(serial), row) for serial, row in rows.items() if held.get(serial) != row]
            wanted.sort(key=lambda pair: (pair[1].ia, pair[1].app, pair[1].serial))
            self.assertEqual(what_if.changed_rows(old, new), wanted)
            self.assertEqual(what_if.changed_rows(old, new), wanted, "nothing is left of the first time")
            return {(old.place if old else "", new.place) for old, new in wanted}

    def test_streams_that_go_on(self):
        seen = set()
        for name in ("week-of-daily-plans", "batch-through-all-sets", "two-hundred-statements"):
            for share in range(0, 12, 3):
                for more in (2, 3):
                    with self.subTest(name, share=share, more=more):
                        seen |= self.check(cut(name, share), cut(name, min(12, share + more)))
            seen |= self.check(b"", plans.stream(name))
        self.assertGreater(len(seen), 15, seen)


if __name__ == "__main__":
    unittest.main()
