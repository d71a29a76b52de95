"""What several desks over one log decide by digests, in every interleaving of small worlds: one desk answers an entry
differently, while desks are killed, lag, lose their machines, or begin with a copy.

Each state of a world is met once. What lacks one of the rules of `opcplan.desk.digests` has to be caught: the
mutants."""

import unittest

from support.digest_worlds import explored, Kind, Left, Rules, walked
from support.exploration import InvariantViolated

from opcplan.desk import digests
from opcplan.desk.digests import Digests, HELD, ON, Published, Start, STOPPED, Verdict
from opcplan.plans.copy_mark import CopyMark

MOST_STATES = 20_000  # of all worlds together
# C answers entry 2 differently, and nobody knows it yet
DIFFERS = ("A appends", "A answers", "A's journal", "B takes", "B answers", "B's journal", "another program changes C",
           "C takes", "C answers", "C's journal")
# all have published that, and C has stopped
STOPS = (*DIFFERS, "C reads", "A reads", "B reads", "C reads")
# the same of a further entry, also with D
FURTHER = ("A appends", "A answers", "A's journal", *(
    f"{name}{what}" for name in "BCD" for what in (" takes", " answers", "'s journal")))
WORLDS = {
    "a desk that answers differently": Kind(3, Left(kills=1, fresh=1)),
    "its machine is replaced": Kind(3, Left(entries=2, lost=1, copies=1), (*STOPS, "C's machine")),
    "its machine is replaced by a copy without a mark": Kind(3, Left(lost=1, plain=1), (
        *STOPS, "a copy of C is made by hand", "C's machine")),
    "it begins anew": Kind(3, Left(entries=2, copies=1, anew=1, kills=1), STOPS),
    "it is started again, and another desk is lost": Kind(3, Left(lost=1, forgets=1, kills=1, fresh=1), (
        *STOPS, "B's machine")),
    "one of three is away": Kind(3, Left(kills=1), ("B is killed", "another program changes C", "A appends")),
    "it was copied before anybody knew": Kind(3, Left(copies=1, lost=1), (*DIFFERS, "a copy of C is made by /s")),
    "two against two": Kind(3, Left(copies=1), (*DIFFERS, "a copy of C is made by /s", "D begins"),
                            grows=True),
    "two against two, later": Kind(3, Left(entries=3, copies=1), (
        *DIFFERS, "a copy of C is made by /s", "D begins", *FURTHER, *FURTHER), grows=True),
    "it was copied when it was further than others": Kind(3, Left(entries=2, copies=1, downs=2), (
        "another program changes C", *("C appends", "C answers") * 2, "C's journal", "a copy of C is made by /s",
        *(f"{name}{what}" for name in "AB"
          for what in (" takes", " answers", "'s journal", "'s opcplan can't", " reads")), "C reads"), grows=True),
    "it is behind": Kind(3, Left(entries=4, downs=1), (
        "A appends", "A answers", "A's journal", "another program changes C", "C takes", "C answers", "C's journal",
        "C reads", "C's opcplan can't", *("A appends", "A answers") * 3, "A's journal", *("B takes", "B answers") * 4,
        "B's journal")),
    "one against one, which is behind": Kind(2, Left(entries=4, copies=1, downs=1), (
        "another program changes A", *("A appends", "A answers") * 4, "A's journal", *("B takes", "B answers") * 2,
        "B's journal", "B reads", "B's opcplan can't", "a copy of A is made by /s"), grows=True),
    "one against one": Kind(2, Left(distrusts=1, kills=1), ("another program changes B",)),
    "one against one, and a copy": Kind(2, Left(distrusts=1, backups=1, lost=1), (
        "A appends", "another program changes B", "B takes", "B answers", "B's journal", "B reads")),
    "a fresh answer that is confirmed": Kind(3, Left(fresh=1), ("another program changes C", "A appends"), Rules(
        confirms=True), strict=True),
    "a desk that lags": Kind(2, Left(entries=3, downs=1), ("another program changes A", "B's opcplan can't")),
    "a journal that is pruned": Kind(2, Left(entries=2, kills=1, prunes=1), (
        "A appends", "A answers", "A's journal", "B takes", "B answers", "B's journal", "A is killed",
        "A's journal is pruned", "A starts", "another program changes B")),
}
# for walks
LARGER = Kind(3, Left(entries=6, kills=3, downs=1, lost=1, copies=1, backups=1, plain=1, forgets=1, distrusts=1, anew=1,
                      prunes=1, fresh=3))


class TiesStop(Digests):
    """As version 1.0: a desk stops if as many desks answered differently as answered alike."""

    def judged(self, own, others):
        found = super().judged(own, others)
        return found._replace(kind=STOPPED) if found.kind == HELD else found


class AwayIsAlike(Digests):
    """A plan that hasn't answered the entry isn't counted."""

    def votes_at(self, entry, own, others):
        return super().votes_at(entry, own, [one for one in others if max(one.digests, default=0) >= entry])


class CopiesVote(Digests):
    """A copy that was made after the entry has a vote."""

    def votes_at(self, entry, own, others):
        since, self.since = self.since, 0
        try:
            return super().votes_at(entry, own, [one._replace(since=0) for one in others])
        finally:
            self.since = since


class StoppedVote(Digests):
    """A desk that stopped keeps its vote."""

    def published(self, own, others):
        return super().published(own, others)._replace(stopped=0)


class LastOnly(Digests):
    """A report has the last digests alone."""

    def published(self, own, others):
        return super().published(own, ())


class WithoutLast(Digests):
    """A report lacks the entry that another desk published last."""

    def published(self, own, others):
        return super().published(own, [one._replace(digests={}) for one in others])


class WithoutEntry(WithoutLast):
    """The same, and a report of a desk that is held lacks the entry at which it is."""

    def steps(self):
        return set()


class NotEarlier(Digests):
    """A desk compares only entries of which it has digests itself."""

    def judged(self, own, others):
        return super().judged(dict(own), {name: one._replace(digests={
            seq: digest for seq, digest in one.digests.items() if seq in own}) for name, one in others.items()})


class CopiesOfStopped(Digests):
    """A copy of a desk that stopped goes on."""

    def judged(self, own, others):
        return super().judged(own, {name: one for name, one in others.items() if not one.stopped})


class NotDistrusted(Digests):
    """A desk counts its own vote though it was taken away."""

    def votes_at(self, entry, own, others):
        self.has_vote = True
        return super().votes_at(entry, own, others)


class Half(Digests):
    """Half of the votes are enough to go on."""

    def judged(self, own, others):
        found = super().judged(own, others)
        return Verdict() if found.kind == HELD else found


def by_position(mark, plan):
    """A copy without a mark begins with the digest that most desks have at its entry."""
    return digests.begun_with(mark, plan) or Start(plan.position, "o" * plan.position)


class States(unittest.TestCase):
    def test_every_interleaving_of_small_worlds(self):
        total = 0
        for name, kind in WORLDS.items():
            count = explored(kind)
            self.assertGreater(count, 1, name)
            print(f"{name}: {count:,} states")
            total += count
        print(f"{total:,} states of {len(WORLDS)} worlds")
        self.assertLess(total, MOST_STATES)

    def test_walks_at_random_through_a_larger_world(self):
        for seed in range(100):
            self.assertGreater(walked(LARGER, seed), 5)


class Mutants(unittest.TestCase):
    """Desks that lack a rule are caught."""

    def caught(self, name, shows, **mutant):
        with self.assertRaises(InvariantViolated) as caught:
            explored(WORLDS[name]._replace(rules=WORLDS[name].rules._replace(**mutant)))
        self.assertIn(shows, str(caught.exception).split("\n", 1)[0], mutant)

    def test_votes(self):
        self.caught("one of three is away", "A stops at entry 2, and a majority is like it", decides=TiesStop)
        self.caught("one against one, and a copy", "A stops at entry 2, and a majority is like it", decides=AwayIsAlike)
        self.caught("two against two", "is held, and not on", decides=CopiesVote)
        self.caught("one against one", "is on, and not held", decides=Half)
        self.caught("one against one", "is held, and not stopped", decides=NotDistrusted)

    def test_what_a_report_has(self):
        self.caught("it is started again, and another desk is lost", "is held, and not on", decides=StoppedVote)
        self.caught("two against two, later", "C is held, and not stopped", decides=LastOnly)
        self.caught("it is behind", "C is on, and not stopped", decides=WithoutLast)
        # then neither the desk that is further back, nor a copy of the other one, has an entry to compare
        self.caught("one against one, which is behind", "is on, and not held: open at entry 2", decides=WithoutEntry)

    def test_copies(self):
        self.caught("it was copied when it was further than others", "D is on, and not stopped",
                    decides=CopiesOfStopped)
        self.caught("one against one, which is behind", "D is on, and not held", decides=NotEarlier)
        self.caught("its machine is replaced by a copy without a mark", "goes on from digest", begun_with=by_position)

    def test_a_stop_stays(self):
        self.caught("it is started again, and another desk is lost", "A is held, and not on", keeps_stop=False)

    def test_a_fresh_answer(self):
        self.caught("a desk that answers differently", "fresh answer that is wrong", compares=False)
        with self.assertRaisesRegex(InvariantViolated, "fresh answer that is wrong"):
            explored(WORLDS["a fresh answer that is confirmed"]._replace(rules=Rules()))


class Parts(unittest.TestCase):
    """By hand."""

    def test_the_first_entry_is_found_step_by_step(self):
        """Two desks differ from entry 5 on, and publish the last digest alone."""
        own, theirs = ({seq: ("a" if seq < 5 else name) + str(seq) for seq in range(40)} for name in "bc")
        found, other = Digests(0), Digests(0)
        found.most = other.most = 1
        said = other.published(theirs, ())
        seen = []
        for _ in range(10):
            verdict = found.judge(own, {"o": said})
            seen.append((verdict.kind, verdict.entry, verdict.is_exact))
            own_said = found.published(own, [said])
            other.judge(theirs, {"f": own_said})
            said = other.published(theirs, [own_said])
        self.assertEqual(seen[0], (HELD, 39, False))
        self.assertEqual(seen[-1], (HELD, 5, True))
        self.assertEqual([entry for _, entry, _ in seen], sorted((entry for _, entry, _ in seen), reverse=True))

    def test_a_stop_is_final(self):
        found = Digests(0, 3)
        self.assertEqual(found.judge({1: "a"}, {"o": Published({1: "a"}, 0)}), Verdict(STOPPED, 3))
        self.assertEqual(found.published({1: "a", 3: "b"}, ()), Published({1: "a", 3: "b"}, 0, 3))

    def test_who_is_needed(self):
        others = [Published({7: "a", 9: "b"}, 4)]
        self.assertEqual(Digests(2).needed(others), {2, 4, 7, 9})
        self.assertEqual(Digests(2).judge({7: "a", 9: "b"}, {"o": others[0]}).kind, ON)

    def test_what_a_plan_begins_with(self):
        plan = digests.PlanFacts("log", 3, "base", 5, 10, False)
        for mark, wanted in ((None, None), (CopyMark("log", 5, 10, "d"), Start(5, "d")),
                             (CopyMark("log", 6, 10, "d"), Start(6, "d")), (CopyMark("log", 4, 10, "d"), None),
                             (CopyMark("log", 5, 9, "d"), None), (CopyMark("other", 5, 10, "d"), None)):
            self.assertEqual(digests.begun_with(mark, plan), wanted, mark)
        self.assertEqual(digests.begun_with(None, plan._replace(is_base=True)), Start(3, "base"))


if __name__ == "__main__":
    unittest.main()
