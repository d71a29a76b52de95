"""Bugs that are planted in what runs at night: a night gets other calls than those that were worked out by hand."""

import contextlib
import unittest
from unittest import mock

from support.nights import planted
import test_nights_needs as nights

from opcplan.watch import state

# by bug the night that has to catch it
NIGHTS = {
    "error_before_the_last_try": (nights.Errors, "test_tries_that_mend_themselves_call_nobody"),
    "one_failure_is_all": (nights.Errors, "test_a_second_failure_between_two_looks_is_a_second_need"),
    "call_for_each_follower": (nights.Late, "test_one_call_for_a_chain"),
    "chain_is_named_by_its_head": (nights.Late, "test_one_call_for_a_chain"),
    "end_is_near_although_roll_ran": (nights.Errors, "test_tries_that_mend_themselves_call_nobody"),
    "unknown_end_is_forgotten": (nights.Unknown, "test_a_runner_that_is_killed"),
    "nobody_starts_it": (nights.Unstarted, "test_no_file"),
    "stopped_roll_is_quiet": (nights.Ends, "test_roll_is_stopped"),
    "never_over": (nights.Machines, "test_a_disk_that_is_full"),
    "worse_each_time": (nights.Machines, "test_a_disk_that_is_full"),
    "told_to_nobody_else": (nights.TwoAtOnce, "test_two_jobs_fail_in_one_minute"),
}


class Planted(nights.Case):
    def test_each_is_caught(self):
        self.assertEqual(set(NIGHTS), {*planted.IN_THE_DESK, *planted.IN_THE_WATCH})
        for bug, (cls, name) in NIGHTS.items():
            with self.subTest(bug), self.assertRaises(nights.OtherCalls), self.planted(bug) as plants:
                self.run_night(cls, name, plants)

    @contextlib.contextmanager
    def planted(self, bug):
        """A context with a bug in the watch, or the bugs that the desk gets."""
        with mock.patch.object(state.State, "take", state.State.take):
            if bug in planted.IN_THE_WATCH:
                planted.IN_THE_WATCH[bug]()
            yield (bug,) if bug in planted.IN_THE_DESK else ()

    def run_night(self, cls, name, plants):
        """Runs the night of a test."""
        case = cls(name)
        case.saved, case.plants = self.saved, plants
        try:
            getattr(case, name)()
        finally:
            case.doCleanups()


if __name__ == "__main__":
    unittest.main()
