"""The state of a desk in every interleaving of small worlds: two callers with three statements, a reader, a subscriber
and somebody who looks at the plan, while opcplan, the desk and the disk fail and answers are lost.

Each state of a world is met once. A desk that lacks one of the promises has to be caught: those of `Mutants` are as
desks once were."""

import dataclasses
import unittest

from support.desk_worlds import explored, InvariantViolated, Kind, QUESTION, Stream, walked

from opcplan.desk import state

MOST = 100_000  # states of all worlds together, which stay small
TWO = (Stream("K", ("a", "b")),), (Stream("L", ("a",)),)
WORLDS = {
    "a planner that ends": Kind(TWO, looks=1, planner_ends=1, planner_stops=1),
    "a desk that is killed": Kind(TWO, desk_ends=1, planner_ends=1, answers_lost=1),
    "a plan that is looked at": Kind(((Stream("K", ("a", "b")),),), looks=1, planner_ends=2, planner_stops=1,
                                     desk_ends=1),
    "a disk that is full": Kind(TWO, disk_fails=1, answers_lost=1),
    "a reader": Kind(TWO, readers=1, planner_ends=1),
    "a subscriber": Kind(TWO, subscribers=1),
    "a subscriber of a desk that is killed": Kind(((Stream("K", ("a", "b")),),), subscribers=1, desk_ends=1,
                                                  planner_ends=1),
    "a subscriber, and few entries in memory": Kind(((Stream("K", ("a", "b", "c")),),), subscribers=1, most_recent=1),
    "a copy": Kind(TWO, copies=1, planner_ends=1),
    "a copy while opcplan can't be started": Kind(((Stream("K", ("a", "b")),),), copies=1, planner_ends=1,
                                                  planner_stops=1, desk_ends=1),
    "a key for two streams": Kind(((Stream("K", ("a",)),), (Stream("K", ("a", "b")),)), desk_ends=1, disk_fails=1),
    "a key at another place": Kind(((Stream("K", (QUESTION, "a")),), (Stream("K", ("b",)),)), desk_ends=1),
    "a key for another stream later": Kind(((Stream("K", ("a",)), Stream("K", ("a", "b"))),), desk_ends=1,
                                           answers_lost=1, disk_fails=1),
}
# for walks: three callers, the last two of whom share a key
LARGER = Kind((
    (Stream("K", ("a", "b", QUESTION, "c")), Stream("L", ("d", "a"))), (Stream("M", ("b", "e")), Stream("M", ("b",))),
    (Stream("M", ("b", "e")), Stream("N", (QUESTION, "f", "a")), Stream("N", ("f",)))),
    readers=4, subscribers=1, looks=3, planner_ends=4, planner_stops=2, desk_ends=3, disk_fails=3, answers_lost=4,
    copies=3, most_recent=2)


class Ahead(state.State):
    """A position as a desk once began with it: that of the last entry which the log has, answered or not."""

    def __init__(self, life, position, chain=None, pending=()):
        super().__init__(life, position, chain, pending)
        self.position = self.changed = self.durable

    def replied(self, reply):
        item, answered = self.flight.popleft(), None
        if state.is_change(item):
            answered = dataclasses.replace(item.entry, reply=reply)
            self.position = max(self.position, answered.seq)
            if reply.startswith("ok"):
                self.changed = self.position
            self.recent.append(answered)
            self.chains.append(self.chain)
        return [state.Answer(item, reply, answered, self.tag, self.position), *self.sends()]

    def broken(self):
        return ""


class NamedAhead(Ahead):
    """A tag as a desk once began with it."""

    def __init__(self, life, position, chain=None, pending=()):
        super().__init__(life, position, chain, pending)
        self.position = position


class Overlooked(state.State):
    """Who reads behind an entry gets what the journal has, and not the replies on their way there."""

    def due(self, last, most):
        return state.Read(last, self.position) if last < self.position else []


class Forgetful(state.State):
    """Memory drops entries whose replies the journal doesn't have yet."""

    def trim(self):
        over = max(0, len(self.recent) - self.most_recent)
        del self.recent[:over]
        del self.chains[:over]
        self.recent_from += over

    def broken(self):
        return ""


class Restless(state.State):
    """A copy is made while statements are in flight."""

    def rest(self):
        return super().rest()._replace(is_exact=True)


class RestlessMeanwhile(state.State):
    """A copy is begun at rest, and statements are sent while it is made."""

    def copied(self, before):
        return before


class ByPlace(state.State):
    """Of streams under one key each statement is compared with that of the same place alone."""

    def claim(self, who, key, stream, stored):
        super().claim(who, key, stream, None)
        self.claims[who, key] = self.claims[who, key]._replace(stream=stream)
        return True

    def release(self, who, key):
        self.claims.pop((who, key), None)


class Overtaking(state.State):
    """A change goes to opcplan while a question in front of it isn't answered."""

    def sends(self):
        found = []
        while self.is_open and self.line:
            self.flight.append(self.line.popleft())
            found.append(state.Send(self.flight[-1]))
        return found


class States(unittest.TestCase):
    def test_every_interleaving_of_small_worlds(self):
        total = 0
        for name, kind in WORLDS.items():
            count = explored(kind)
            self.assertGreater(count, 100, name)
            print(f"{name}: {count:,} states")
            total += count
        print(f"{total:,} states of {len(WORLDS)} worlds")
        self.assertLess(total, MOST)

    def test_walks_at_random_through_a_larger_world(self):
        for seed in range(100):
            self.assertGreater(walked(LARGER, seed), 50)


class Mutants(unittest.TestCase):
    """A state as it once was is caught in the world that it is about."""

    def caught(self, kind_of_state, name):
        with self.assertRaises(InvariantViolated) as caught:
            explored(WORLDS[name], kind_of_state)
        return str(caught.exception)

    def test_a_position_ahead_of_its_content(self):
        self.assertIn("position", self.caught(Ahead, "a desk that is killed"))
        self.assertIn("life-2 named", self.caught(NamedAhead, "a plan that is looked at"))

    def test_answered_entries_that_are_on_their_way_to_the_journal(self):
        self.assertIn("subscriber", self.caught(Overlooked, "a subscriber"))

    def test_entries_that_memory_drops_too_early(self):
        self.assertIn("subscriber", self.caught(Forgetful, "a subscriber, and few entries in memory"))

    def test_a_copy_that_is_ahead_of_its_position(self):
        for name in ("a copy", "a copy while opcplan can't be started"):
            for mutant in (Restless, RestlessMeanwhile):
                self.assertIn("a copy says entry", self.caught(mutant, name))

    def test_a_key_for_two_streams(self):
        for name in ("a key for two streams", "a key at another place", "a key for another stream later"):
            self.assertIn("K stands for", self.caught(ByPlace, name))

    def test_a_change_that_overtakes_a_question(self):
        self.assertIn("a list of", self.caught(Overtaking, "a reader"))


if __name__ == "__main__":
    unittest.main()
