"""What several desks over one log decide, all of it together, in every interleaving of small worlds: callers go over
with their keys while an entry is answered differently, a machine is replaced by a copy, reports are removed, the log is
trimmed, and moved to another opcplan.

tests/test_desk_states.py, test_view_states.py, test_key_states.py and test_digest_states.py ask more of each part. Each
state of a world is met once. What lacks a rule has to be caught: the mutants."""

import unittest

from support.exploration import InvariantViolated
from support.shared_worlds import explored, Kind, Left, Rules, walked

from opcplan.desk import digests, keys, state
from opcplan.desk.digests import Start
from opcplan.desk.log_view import LogView
from opcplan.desk.shared_log import SharedLog

MOST_STATES = 30_000  # of all worlds together
K, L, NONE = ("K",), ("L",), (None,)
# C answers the first entry differently, and nobody knows it yet
ODD = ("another program changes C's", "caller 0 sends", "A appends", "A answers", "A's journal")
DIFFERS = (*ODD, "B takes", "B answers", "B's journal", "C takes", "C answers", "C's journal")
# all have published that, and C has stopped
STOPS = (*DIFFERS, "C reads the", "A reads the", "B reads the", "C reads the")
WORLDS = {
    "a caller goes over": Kind(2, (K,), Left(overs=1)),
    "the answer to an append is lost": Kind(2, (K,), Left(losses=1)),
    "two callers go over": Kind(2, (K, L), Left(overs=2), (
        "caller 0 sends K to A", "A appends", "caller 0 gives", "caller 1 sends L to B", "caller 1 gives",
        "A answers", "A's journal", "A reads the", "B takes", "B answers", "B's journal", "B reads the")),
    "an entry is answered differently": Kind(3, (NONE,), Left(odd=1, fresh=1), ODD),
    "one against one": Kind(2, (K, L), Left(odd=1, overs=1), (
        "another program changes B's", *ODD[1:], "B takes", "B answers", "B's journal", "caller 1 sends L to A")),
    "a report is removed": Kind(3, (NONE,), Left(odd=1, forgets=1, fresh=1), DIFFERS),
    "a report is removed, and a desk is killed": Kind(3, (K,), Left(odd=1, forgets=1, kills=1), STOPS),
    "a machine is replaced before all have published": Kind(3, (K,), Left(odd=1, overs=1, copies=1, lost=1), (
        *ODD[:3], "caller 0 gives", *DIFFERS[3:], "C reads the", "C's machine")),
    "a machine is replaced": Kind(3, (K, L), Left(odd=1, overs=1, copies=1, lost=1), (
        *ODD[:3], "caller 0 gives", *DIFFERS[3:], "C reads the", "A reads the", "B reads the", "C reads the",
        "C's machine", "a copy of A is made by /s", "D begins", "caller 1 sends L to D")),
    "a machine is replaced by a copy without a mark": Kind(3, (K,), Left(odd=1, plain=1, lost=1), (
        *STOPS, "a copy of C is made by hand", "C's machine")),
    "a copy, and a caller goes over": Kind(2, (K,), Left(overs=1, copies=1, lost=1), (
        "caller 0 sends", "A appends", "caller 0 gives", "A answers", "A's journal", "a copy of A is made by /s")),
    "a trim, and a copy": Kind(2, (K, (None, None)), Left(overs=1, copies=1, lost=1, trims=1), (
        "caller 1 sends None to A", "A appends", "caller 0 sends K to A", "A appends", "caller 0 gives",
        "caller 1 sends None to A", "A appends", *["A answers"] * 3, "A's journal", *["B takes", "B answers"] * 3,
        "B's journal", "A reads the", "B reads the", "a copy of A is made by /s")),
    "another opcplan": Kind(2, (K,), Left(moves=1, kills=1)),
    "a desk alone": Kind(1, (("K", "L", "M"),), Left(kills=1, copies=1)),
}
# for walks
LARGER = Kind(3, (("K", None, "L"), ("M", "N"), (None, "P")), Left(
    odd=1, overs=3, losses=2, kills=3, downs=1, lost=1, copies=1, plain=1, forgets=2, trims=2, moves=1, fresh=3))


class HeldAppends(SharedLog):
    """A desk that is held still appends what waits."""

    def check_on(self):
        pass


class HeldAnswers(SharedLog):
    """A desk gives a fresh answer whatever it read."""

    def may_answer(self, is_confirmed):
        return True


class NotAgain(SharedLog):
    """A desk that published its last entry doesn't look whether that is still there."""

    def is_published(self, report):
        return report.position > 0 and self.desks is not None and self.desk_id not in self.desks.reports or (
            super().is_published(report))


class OnlyWhenAsked(keys.Keys):
    """A desk looks a key up when a caller comes, and not again before it appends."""

    def used(self, batch):
        return {}


class TakesAll(LogView):
    """A desk takes entries of any opcplan."""

    def read(self, head, entries, least):
        super().read(head, entries, least)
        return [one for one in entries if one.seq > self.given]


class Restless(state.State):
    """A copy is made while statements are in flight."""

    def rest(self):
        return super().rest()._replace(is_exact=True)


def trimmed_without_keys(wanted, positions, young):
    return keys.trimmed_to(wanted, positions, None)


def by_position(mark, plan):
    """A copy without a mark begins with the digest that most desks have at its entry."""
    return digests.begun_with(mark, plan) or Start(plan.position, "o" * plan.position)


class States(unittest.TestCase):
    def test_every_interleaving_of_small_worlds(self):
        total = 0
        for name, kind in WORLDS.items():
            count = explored(kind)
            self.assertGreater(count, 1, name)
            print(f"{name}: {count:,} states")
            total += count
        print(f"{total:,} states of {len(WORLDS)} worlds")
        self.assertLess(total, MOST_STATES)

    def test_walks_at_random_through_a_larger_world(self):
        for seed in range(30):
            self.assertGreater(walked(LARGER, seed), 5)


class Mutants(unittest.TestCase):
    """Desks that lack a rule are caught."""

    def caught(self, name, shows, **mutant):
        with self.assertRaises(InvariantViolated) as caught:
            explored(WORLDS[name]._replace(rules=Rules(**mutant)))
        self.assertIn(shows, str(caught.exception).split("\n", 1)[0], mutant)

    def test_what_a_desk_that_is_not_on_does(self):
        self.caught("one against one", "A appends ('L',), and is held", shared=HeldAppends)
        self.caught("an entry is answered differently", "fresh answer that is wrong", shared=HeldAnswers)

    def test_what_is_published(self):
        self.caught("a report is removed", "is held, and not", shared=NotAgain)

    def test_keys(self):
        self.caught("a caller goes over", "a key is done twice", known=OnlyWhenAsked)
        self.caught("a copy, and a caller goes over", "a key is done twice", reads_keys=False)
        self.caught("a trim, and a copy", "a key is done twice", trimmed_to=trimmed_without_keys)

    def test_the_log(self):
        self.caught("another opcplan", "which another version answers", view=TakesAll)

    def test_copies(self):
        self.caught("a desk alone", "a copy says", core=Restless)
        self.caught("a machine is replaced by a copy without a mark", "goes on from digest", begun_with=by_position)


if __name__ == "__main__":
    unittest.main()
