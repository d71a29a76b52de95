"""./plan ready: what may be started, by the plain planner, in each of its forms."""

import contextlib
import copy
import io
import json
import subprocess
import tempfile
import unittest

from support import data_centre, plans
from support.plans import plain

from opcplan.cli import words
from opcplan.commands import ready
from opcplan.rules import moments


NAMES = "week-of-daily-plans statuses-carried predecessor-fails-and-goes added-before-between-and-after".split()


def asked(path, *given):
    """What `./plan ready` answers here: its status, what it prints, and what it tells."""
    parser = words.Parser(prog="plan ready")
    ready.add_words(parser)
    out, stderr = io.StringIO(), io.StringIO()
    with contextlib.redirect_stdout(out), contextlib.redirect_stderr(stderr):
        status = ready.run(parser.parse_args([str(path), *given]))
    return status, out.getvalue(), stderr.getvalue()


def ready_rows(planner, now):
    """The rows that wait, have arrived, and of which each predecessor is complete, the earliest deadline first."""
    complete = {serial for serial, (_, status) in planner.current.items() if status == "C"} | set(planner.history)
    found = [row for row, status in planner.current.values() if status == "W" and row[2] <= now and
             all(last in complete for first, last in planner.pairs if first == row[0])]
    return sorted(found, key=lambda row: (row[3], row[2], row[1], row[0]))


def texts():
    """Worked streams, cut behind two thirds of their lines, and the night of the centre."""
    for name in NAMES:
        lines = plans.stream(name).split(b"\n")
        yield b"\n".join(lines[: len(lines) * 2 // 3]) + b"\n"
    yield data_centre.whole()


class Ready(unittest.TestCase):
    def test_rows_are_those_of_the_planner(self):
        seen = set()
        for text in texts():
            planner, path = plans.planner_of(text), plans.of_stream(text)
            waiting = sorted({row[2] for row, status in planner.current.values() if status == "W"})
            for now in waiting[:: max(1, len(waiting) // 2)]:
                for at in (now - 1, now):
                    rows = ready_rows(planner, at)
                    wanted = [(row[1], plain.moment_text(row[2], "/"), str(row[0])) for row in rows]
                    moment = ["--now", plain.moment_text(at, "/")]
                    status, shown, _ = asked(path, *moment)
                    self.assertEqual([tuple(line.split(" ")) for line in shown.splitlines()], wanted)
                    self.assertEqual(status, 0 if wanted else 1)
                    shown = asked(path, *moment, "-0")[1]
                    self.assertEqual(shown, "".join(part + "\0" for one in wanted for part in one))
                    stderr = [json.loads(line) for line in asked(path, *moment, "--json")[1].splitlines()]
                    self.assertEqual([(one["application"], one["ia"], str(one["serial"])) for one in stderr], wanted)
                    self.assertEqual([(one["due"], one["run_cycle"], one["added"]) for one in stderr],
                                     [(plain.moment_text(row[3], "T").replace(".", ":"), row[4], row[4] is None)
                                      for row in rows])
                    seen.add(min(len(wanted), 2))
        self.assertEqual(seen, {0, 1, 2})

    def test_what_is_ready_can_be_started_and_no_other(self):
        text, now = data_centre.whole(), moments.moment_of(data_centre.NOW)
        planner, lines = plans.planner_of(text), asked(plans.of_stream(text), "--now", data_centre.NOW)[1].splitlines()
        found = {int(line.split(" ")[2]) for line in lines}
        arrived = [row for row, status in planner.current.values() if status == "W" and row[2] <= now]
        self.assertTrue(0 < len(found) < len(arrived))
        others = [row for row in arrived if row[0] not in found]
        for row in [row for row in arrived if row[0] in found][:2] + others[:2]:
            tried = copy.deepcopy(planner)
            statement = f"cp-start --app {row[1]} --ia {plain.moment_text(row[2], '/')} --job 99999\n"
            reply = "".join(plain.run(statement.encode(), tried))
            self.assertEqual(f"ok serial {row[0]} status S" in reply, row[0] in found, reply)

    def test_one_application(self):
        path = plans.of_stream(data_centre.whole())
        every = asked(path, "--now", data_centre.NOW)[1].splitlines()
        app = every[0].split(" ")[0]
        wanted = [line for line in every if line.split(" ")[0] == app]
        self.assertEqual(asked(path, "--now", data_centre.NOW, "--app", app)[1].splitlines(), wanted)
        self.assertEqual(asked(path, "--now", data_centre.NOW, "--app", "NOBODY")[:2], (1, ""))

    def test_xargs_takes_it(self):
        with tempfile.TemporaryDirectory(prefix="ready-") as room:
            path = plans.copy_of(plans.of_stream(data_centre.whole()), room)
            before = plans.prints(path)
            shown = plans.plan("ready", path, "--now", data_centre.NOW, "-0").stdout
            self.assertEqual(plans.prints(path), before)
        words = ["xargs", "-0", "-n", "3", "echo"]
        ran = subprocess.run(words, input=shown, capture_output=True, text=True, check=True)
        self.assertEqual(ran.stdout, asked(plans.of_stream(data_centre.whole()), "--now", data_centre.NOW)[1])

    def test_a_moment_outside_of_the_plan_is_said(self):
        self.assertIn("--now sets the moment", asked(plans.of_worked("monday"), "--now", "2030-01-01/00.00")[2])
        status, shown, stderr = asked(plans.of_worked("first-days"))
        self.assertEqual((status, shown), (1, ""))
        self.assertIn("there is no long-term plan yet", stderr)


if __name__ == "__main__":
    unittest.main()
