"""The list of what needs a person in every interleaving of small worlds: jobs end, fail, are tried again and hang, a
runner is killed, a program is missing, the agent goes and comes back. A list that breaks a promise has to be caught."""

import unittest
from unittest import mock

from support.needs_worlds import InvariantViolated, Kind, explored

from opcplan.needs import faults
from opcplan.needs.chains import Chains
from opcplan.needs.faults import Faults
from opcplan.needs.occurrences import Occurrences
from opcplan.plans.run_keys import RunKey

MOST = 40_000  # states of all worlds together, which stay small
PAIR, CHAIN, JOIN, FORK = ((2, 1),), ((2, 1), (3, 2)), ((3, 1), (3, 2)), ((2, 1), (3, 1))
WORLDS = {
    "a chain": Kind((3, 4, 5), CHAIN),
    "a chain that is late": Kind((1, 2, 3), CHAIN, ticks=5),
    "two before one": Kind((1, 2, 1), JOIN),
    "two behind one": Kind((1, 2, 3), FORK, ticks=5),
    "one of two that is tried again": Kind((2, 3, 1), JOIN, ticks=3, again=1),
    "a job that fails": Kind((2, 3), PAIR, fails=2),
    "a job that is tried again": Kind((2, 2), PAIR, again=2),
    "a failure at the head of a late chain": Kind((1, 2, 3), CHAIN, fails=1),
    "a runner that is killed": Kind((2, 2), PAIR, kills=1, fails=1),
    "a program that is missing": Kind((2, 2), PAIR, blocks=2),
    "an agent that goes": Kind((2, 2), PAIR, again=1, goes=2),
    "two faults at once": Kind((1, 2, 2), JOIN, ticks=3, fails=1, blocks=1),
}


class States(unittest.TestCase):
    def test_every_interleaving_of_small_worlds(self):
        total = 0
        for name, kind in WORLDS.items():
            count = explored(kind)
            self.assertGreater(count, 100, name)
            print(f"{name}: {count:,} states")
            total += count
        print(f"{total:,} states of {len(WORLDS)} worlds")
        self.assertLess(total, MOST)


# what is wrong in place of what is right, and a world that shows it
MUTANTS = {
    "a name of the row alone": (Faults, "name", lambda self, kind, place: f"{kind}:{self.rows[place].serial}",
                                "a job that fails"),
    "a try that mends itself is listed": (faults.run_keys, "of_text", lambda text: RunKey("etl-1", None),
                                          "a job that is tried again"),
    "a try that never comes isn't listed": (faults, "AGAIN", 1000, "an agent that goes"),
    "each late row is a head": (Occurrences, "head", lambda self, place: place,
                                "a failure at the head of a late chain"),
    "a chain named by its first late row": (Chains, "first_late", lambda self, serial: serial, "a chain that is late"),
    "a chain that has any predecessor": (Chains, "was_open", lambda self, serial, moment: True, "a chain that is late"),
    "a head that isn't late before one that is": (Chains, "heads", lambda self, faulty: self.model.roots,
                                                  "one of two that is tried again"),
    "a head of a chain is a chain": (Occurrences, "named", lambda self: {
        self.rows[head].serial: [head] for head in self.late_chains}, "two behind one"),
    "a late row behind a fault is listed": (Occurrences, "grouped", lambda self, places: {
        self.head(place): [place] for place in places}, "a failure at the head of a late chain"),
    "ready since it arrived": (Faults, "ready_since", lambda self, place: self.rows[place].ia, "a chain"),
    "ready at once": (faults, "START", 0, "a chain"),
    "an agent that is gone explains nothing": (Faults, "of_gone", lambda self, change, place: None,
                                               "an agent that goes"),
    "an agent is never gone": (faults, "gone", lambda facts: (), "an agent that goes"),
    "what an agent doesn't know": (Faults, "started", lambda self, place: None, "a runner that is killed"),
}


class Mutants(unittest.TestCase):
    def test_each_is_caught(self):
        for name, (owner, attribute, wrong, world) in MUTANTS.items():
            with self.subTest(name), mock.patch.object(owner, attribute, wrong), \
                    self.assertRaises(InvariantViolated):
                explored(WORLDS[world])

    def test_a_wait_that_begins_before_the_agent_came_back_is_caught(self):
        def made(self, chains):
            begun(self, chains)
            self.open_since = 0

        begun = Faults.__init__
        with mock.patch.object(Faults, "__init__", made), self.assertRaises(InvariantViolated):
            explored(WORLDS["an agent that goes"])


if __name__ == "__main__":
    unittest.main()
