"""The state of a watch in every interleaving of small worlds: what is the case changes, several calls are under way,
the watch is killed between any two steps, calls fail and answers are lost, time passes and people acknowledge. A watch
that lacks one of the promises has to be caught."""

import json
import random
import unittest

from support.watch_worlds import InvariantViolated, Kind, World, explored, walked

from opcplan.watch import state
from opcplan.watch.heart import Heart
from opcplan.watch.rulebook import Heartbeat
from opcplan.watch.state import Found, Looked, Route, State

MOST = 50_000  # states of all worlds together, which stay small
WORLDS = {
    "something comes and goes": Kind(changes=3),
    "a watch that is killed": Kind(worst=0, changes=2, kills=2),
    "calls that fail": Kind(worst=0, changes=4, fails=2),
    "answers that are lost": Kind(changes=2, lost=2),
    "all of it": Kind(worst=0, changes=2, kills=1, fails=1, lost=1),
    "what can't be looked at": Kind(worst=0, changes=2, blind=1, kills=1),
    "two things": Kind(keys=2, worst=0, changes=2, kills=1),
    "two who are called": Kind(targets=2, worst=0, changes=2, fails=1),
    "two who are called, and a kill": Kind(targets=2, worst=0, changes=1, kills=1, lost=1),
    "somebody after the first": Kind(has_then=True, changes=2, fails=1, late=1),
    "somebody after the first, and a kill": Kind(has_then=True, worst=0, changes=1, fails=1, late=1, kills=1),
    "who has to acknowledge": Kind(has_then=True, acknowledge=True, worst=0, changes=2, late=1, acks=1),
    "who has to acknowledge, and a kill": Kind(has_then=True, acknowledge=True, worst=0, changes=1, late=1, acks=1,
                                               kills=1),
}
LARGER = Kind(keys=3, targets=2, worst=3, has_then=True, changes=25, blind=4, kills=6, fails=8, lost=5, late=4, acks=3)
TRIES = 60  # more than any watch that gives up would make


class States(unittest.TestCase):
    def test_every_interleaving_of_small_worlds(self):
        total = 0
        for name, kind in WORLDS.items():
            count = explored(kind)
            self.assertGreater(count, 100, name)
            print(f"{name}: {count:,} states")
            total += count
        print(f"{total:,} states of {len(WORLDS)} worlds")
        self.assertLess(total, MOST)

    def test_walks_at_random_through_a_larger_world(self):
        for seed in range(20):
            with self.subTest(seed):
                walked(LARGER, random.Random(seed))


class Forgetful(State):
    """A call that fails isn't sent again."""

    def failed(self, target, steady, why=""):
        self.sent(target)


class Rash(State):
    """A new id each time that a call is sent."""

    def due(self, steady):
        found = super().due(steady)
        self.count += len(found)
        self.calls |= {one.target: one._replace(id=f"{self.life}-{self.count}") for one in found}
        return [self.calls[one.target] for one in found]


class Blind(State):
    """What can't be looked at is over."""

    def take(self, now, rule, targets, looked):
        super().take(now, rule, targets, looked or Looked(()))


class Merged(State):
    """Of all that a target hasn't heard of one thing only the last is told."""

    def note(self, key, event, kind, now, targets, more=""):
        for target in targets:
            pending = self.pending.setdefault(target, {})
            for other in [other for other in pending if other[0] == key]:
                del pending[other]
        super().note(key, event, kind, now, targets, more)


class Gathered(State):
    """A call takes what is alike from anywhere in the line."""

    def formed(self, target):
        pending = self.pending[target]
        first = next(iter(pending.values()))
        self.pending[target] = dict(sorted(pending.items(), key=lambda one: one[1].kind != first.kind))
        return super().formed(target)


class Loud(State):
    """What got better and worse again is told again."""

    def take(self, now, rule, targets, looked):
        for one in looked.found if looked else ():
            if one.key in self.events and one.level < self.events[one.key].level:
                self.events[one.key] = state.dataclasses.replace(self.events[one.key], level=one.level)
        super().take(now, rule, targets, looked)


class Lonely(State):
    """Nobody comes after a target."""

    def pass_on(self, name, target, now):
        pass


class Hasty(State):
    """What a target hasn't heard goes on at once."""

    def tick(self, now, steady):
        self.routes = {target: route._replace(seconds=0.0) for target, route in self.routes.items()}
        super().tick(now, steady)


class Deaf(State):
    """What people acknowledge counts for nothing."""

    def acknowledge(self, call):
        return True


class Content(State):
    """Who has to acknowledge needs only hear."""

    def tick(self, now, steady):
        self.routes = {target: route._replace(acknowledge=False) for target, route in self.routes.items()}
        super().tick(now, steady)


class Crowded(State):
    """Who is being called is called once more."""

    def begun(self, target):
        pass


class Weary(State):
    """A call is dropped after twenty tries."""

    def failed(self, target, steady, why=""):
        super().failed(target, steady, why)
        if self.fails[target] >= 20:
            self.sent(target)


class Stuck(State):
    """A target that fails is tried no more until the watch begins anew."""

    def failed(self, target, steady, why=""):
        super().failed(target, steady, why)
        self.in_flight.add(target)


class Unkept(World):
    """A driver that sends before it keeps."""

    def keep(self):
        if self.phase == "keep-sent" and self.watch.count:
            super().keep()
        self.watch.is_changed = False


class Unnoted(World):
    """A driver that doesn't keep what it sent."""

    def end(self, call, how):
        super().end(call, how)
        self.phase, self.watch.is_changed = "due", False


class Unheard(World):
    """A driver that drops what was acknowledged before it keeps that."""

    def keep_ack(self):
        self.drop_ack()


def keep_on_trying(cls):
    """Asks that a target that never answers is tried again and again, after pauses of ten minutes at most, and gets the
    call in the end, as it was."""
    watch, now = cls(), 0.0
    watch.settle({"r": ("a",)}, {"a": Route()})
    watch.take(0, "r", ("a",), Looked((Found("x", 0, "x"),)))
    first = None
    for count in range(TRIES):
        due = watch.due(now)
        if len(due) != 1 or first not in (None, due[0]):
            raise InvariantViolated(f"try {count + 1}: {due}")
        (first,) = due
        watch.begun("a")
        watch.failed("a", now)
        now = watch.next_try()
        if now is None or not 0 < now <= (count + 1) * state.LONGEST_PAUSE:
            raise InvariantViolated(f"try {count + 2} is at {now}")
    if watch.due(now) != [first]:
        raise InvariantViolated("it was given up")


class Mutants(unittest.TestCase):
    def test_each_is_caught(self):
        later = {"has_then": True, "worst": 0}
        for cls, kind in (
            (Forgetful, Kind(fails=1)), (Rash, Kind(lost=1, kills=1)), (Blind, Kind(blind=1)),
            (Merged, Kind(worst=0, changes=5)), (Loud, Kind(changes=4)),
            (Gathered, Kind(keys=2, worst=0, changes=4, fails=2)), (Lonely, Kind(acknowledge=True, late=1, **later)),
            (Hasty, Kind(changes=1, fails=1, **later)),
            (Deaf, Kind(acknowledge=True, changes=1, late=1, acks=1, **later)),
            (Content, Kind(acknowledge=True, changes=1, late=1, **later)), (Stuck, Kind(changes=1, fails=1)),
        ):
            with self.subTest(cls.__name__), self.assertRaises(InvariantViolated):
                explored(kind, cls)

    def test_a_target_that_is_called_twice_at_once_is_caught(self):
        with self.assertRaises(InvariantViolated):
            explored(Kind(changes=2), Crowded)

    def test_a_driver_that_does_not_keep_before_it_sends_is_caught(self):
        with self.assertRaises(InvariantViolated):
            explored(Kind(worst=0, changes=2, kills=1), world=Unkept)

    def test_a_driver_that_does_not_keep_what_it_sent_is_caught(self):
        with self.assertRaises(InvariantViolated):
            explored(Kind(changes=1, kills=1), world=Unnoted)

    def test_a_driver_that_drops_an_acknowledgement_before_it_keeps_it_is_caught(self):
        with self.assertRaises(InvariantViolated):
            explored(Kind(has_then=True, acknowledge=True, worst=0, changes=1, late=1, acks=1, kills=1), world=Unheard)

    def test_a_watch_that_gives_up_is_caught(self):
        keep_on_trying(State)
        for cls in (Weary, Stuck, Forgetful):
            with self.subTest(cls.__name__), self.assertRaises((InvariantViolated, TypeError)):
                keep_on_trying(cls)


class Routes(unittest.TestCase):
    """Who is called after whom, worked by hand."""

    def watch(self, **routes):
        found = State()
        found.settle({"r": tuple(routes)[:1]}, routes)
        found.take(0, "r", tuple(routes)[:1], Looked((Found("x", 0, "x"),)))
        found.tick(0, 0)
        return found

    def tell(self, watch, target, steady=0.0):
        (call,) = (one for one in watch.due(steady) if one.target == target)
        watch.begun(target)
        watch.sent(target)
        return call

    def test_a_chain_of_three_each_in_its_time(self):
        watch = self.watch(a=Route(("b",), 300), b=Route(("c",), 600), c=Route())
        for steady, due in ((299, ["a"]), (300, ["a", "b"]), (899, ["a", "b"]), (900, ["a", "b", "c"])):
            watch.tick(0, steady)
            self.assertEqual([call.target for call in watch.due(steady)], due, steady)
        self.assertEqual(watch.calls["b"].mentions[0].text, "x; a wasn't reached in 5 min")
        self.assertEqual(watch.calls["c"].mentions[0].text, "x; b wasn't reached in 10 min")

    def test_two_who_come_after_each_other(self):
        watch = self.watch(a=Route(("b",), 60), b=Route(("a",), 60))
        for steady in range(0, 600, 60):
            watch.tick(0, steady)
        self.assertEqual([call.target for call in watch.due(600)], ["a", "b"])
        self.assertEqual([len(watch.unheard(name)) for name in "ab"], [1, 1])

    def test_what_a_restart_keeps_of_the_time(self):
        watch = self.watch(a=Route(("b",), 600), b=Route())
        watch.due(0)
        watch.tick(0, 400)
        routes = watch.routes
        watch = state.of_kept(json.loads(json.dumps(watch.kept())))
        watch.settle({"r": ("a",)}, routes)
        for steady, due in ((7, ["a"]), (206, ["a"]), (207, ["a", "b"])):
            watch.tick(0, steady)  # the steady clock of another boot
            self.assertEqual([call.target for call in watch.due(steady)], due, steady)

    def test_an_acknowledgement_ends_it_until_it_gets_worse(self):
        watch = self.watch(a=Route(("b",), 300, True), b=Route())
        call = self.tell(watch, "a")
        watch.tick(0, 200)
        self.assertTrue(watch.acknowledge(call.id))
        self.assertFalse(watch.acknowledge("000000000000-9"))
        watch.tick(0, 9000)
        self.assertEqual(watch.due(9000), [])
        watch.take(0, "r", ("a",), Looked((Found("x", 1, "worse"),)))
        watch.tick(0, 9000)
        self.tell(watch, "a", 9000)
        watch.tick(0, 9299)
        self.assertEqual(watch.due(9299), [])
        watch.tick(0, 9300)
        (call,) = watch.due(9300)
        self.assertEqual((call.target, call.kind, call.mentions[0].text),
                         ("b", "new", "worse; a hasn't acknowledged it in 5 min"))
        watch.take(0, "r", ("a",), Looked(()))
        watch.begun("b")
        watch.sent("b")
        self.assertEqual([(one.target, one.kind) for one in watch.due(9300)], [("a", "over"), ("b", "over")])
        self.assertFalse(watch.acknowledge(call.id))

    def test_what_is_over_goes_on_to_nobody(self):
        watch = self.watch(a=Route(("b",), 300), b=Route())
        watch.due(0)
        watch.take(0, "r", ("a",), Looked(()))
        watch.tick(0, 9000)
        self.assertEqual([call.target for call in watch.due(9000)], ["a"])

    def test_what_nobody_heard(self):
        """Since when, and whether anybody at all heard: worked by hand."""
        watch = State()
        watch.settle({"r": ("a", "b")}, {"a": Route(), "b": Route()})
        watch.take(0, "r", ("a", "b"), Looked((Found("x", 0, "x"),)))
        watch.tick(0, 10)
        for target in "ab":
            watch.due(10)
            watch.begun(target)
            watch.failed(target, 10, f"{target} hangs")
        watch.tick(0, 40)
        self.assertEqual([tuple(one) for one in watch.undelivered()],
                         [(watch.calls["a"].id, "a", 30, 1, "a hangs", ("x",), 30, 0),
                          (watch.calls["b"].id, "b", 30, 1, "b hangs", ("x",), 30, 0)])
        watch.begun("a")
        watch.sent("a")
        watch.tick(0, 50)
        self.assertEqual([tuple(one)[1:] for one in watch.undelivered()], [("b", 40, 1, "b hangs", ("x",), None, 0)])

    def test_who_is_called_by_other_rules_hears_of_what_is_there(self):
        watch = self.watch(a=Route())
        self.tell(watch, "a")
        watch.settle({"r": ("a", "c")}, {"a": Route(), "c": Route()})
        watch.take(0, "r", ("a", "c"), Looked((Found("x", 0, "x"),)))
        self.assertEqual([(call.target, call.kind) for call in watch.due(0)], [("c", "new")])


class Hearts(unittest.TestCase):
    """Heartbeats, worked by hand: each five minutes while a desk answers and nothing waits unheard for as long."""

    def setUp(self):
        self.heart = Heart((Heartbeat("dead", 5.0),))

    def due(self, steady, unheard=0.0, busy=()):
        return self.heart.due(steady, unheard, busy) == ["dead"]

    def test_none_without_a_desk(self):
        self.assertEqual((self.due(0), self.heart.next_at(0, ())), (False, None))
        self.heart.polled(True)
        self.assertEqual((self.due(0), self.heart.next_at(0, ())), (True, 0))
        self.heart.polled(False)
        self.assertFalse(self.due(0))

    def test_one_in_five_minutes_from_its_begin(self):
        self.heart.polled(True)
        self.heart.ended("dead", 14, 10, True)
        self.assertEqual((self.due(309.9), self.due(310)), (False, True))

    def test_what_fails_is_tried_again_soon(self):
        self.heart.polled(True)
        for end, pause in ((15, 10), (40, 20), (75, 40), (130, 80), (225, 160), (400, 300), (800, 300)):
            self.heart.ended("dead", end, end - 15, False)
            self.assertEqual(self.heart.next_at(0, ()), end + pause)
        self.heart.ended("dead", 1015, 1000, True)
        self.assertEqual(self.heart.next_at(0, ()), 1300)

    def test_none_while_a_call_is_unheard_or_under_way(self):
        self.heart.polled(True)
        self.assertEqual((self.due(0, 299.9), self.due(0, 300), self.heart.next_at(300, ())), (True, False, None))
        self.assertEqual((self.due(0, busy={"dead"}), self.heart.next_at(0, {"dead"})), (False, None))


class Kept(unittest.TestCase):
    def test_pauses_grow_up_to_ten_minutes(self):
        pauses = [state.pause_of(count) for count in range(1, 12)]
        self.assertEqual(pauses, [10, 20, 40, 80, 160, 320, 600, 600, 600, 600, 600])

    def test_a_target_that_fails_or_hangs_holds_up_no_other(self):
        watch = State()
        watch.take(0, "r", ("a", "b", "c"), Looked((Found("x", 0, "x"),)))
        self.assertEqual([call.target for call in watch.due(0)], ["a", "b", "c"])
        for target in "abc":
            watch.begun(target)
        self.assertEqual((watch.due(999), watch.next_try()), ([], None))
        watch.failed("a", 60)
        watch.sent("c")
        self.assertEqual((watch.due(69.9), watch.next_try()), ([], 70))
        self.assertEqual([call.target for call in watch.due(70)], ["a"])
        watch.begun("a")
        watch.failed("a", 75)
        self.assertEqual((watch.due(94.9), [call.target for call in watch.due(95)]), ([], ["a"]))

    def test_what_is_kept_is_read_back(self):
        watch = State()
        watch.take(1.5, "r", ("a", "b"), Looked((Found("x", 0, "é"), Found("y", 2, "y"))))
        watch.settle({"r": ("a", "b")}, {"a": Route(("b",)), "b": Route()})
        watch.tick(2, 10)
        watch.due(10)
        watch.begun("a")
        watch.sent("a")
        watch.tick(2, 25)
        again = state.of_kept(json.loads(json.dumps(watch.kept())))
        self.assertEqual(json.dumps(again.kept()), json.dumps(watch.kept()))
        self.assertEqual(again.due(25), watch.due(25))
        self.assertEqual((again.asked, again.waits["b"], again.events), (watch.asked, watch.waits["b"], watch.events))

    def test_what_isnt_kept_so_is_refused(self):
        good = State().kept()
        for kept in (None, [], {}, {**good, "version": 1}, {**good, "events": []}, {**good, "calls": {"a": 1}},
                     {**good, "pending": {"a": [[1, 2]]}}, {**good, "count": "x"}, {**good, "asked": [1]},
                     {**good, "waits": {"a": [[1]]}}, {**good, "owed": 1}, {**good, "events": {"a": {"rule": "r"}}}):
            with self.subTest(kept), self.assertRaises(state.InvalidState):
                state.of_kept(kept)

    def test_other_rules_drop_what_nobody_asks_for(self):
        watch = State()
        watch.take(0, "r", ("a", "b"), Looked((Found("r:x", 0, "x"),)))
        watch.take(0, "s", ("b",), Looked((Found("s:x", 0, "x"),)))
        watch.due(0)
        watch.settle({"r": ("b",)}, {"b": Route()})
        self.assertEqual(watch.events["r:x"].to, ("b",))
        self.assertEqual((sorted(watch.events), sorted(watch.pending), sorted(watch.calls)), (["r:x"], ["b"], ["b"]))

    def test_what_isnt_whole_is_not_over(self):
        watch = State()
        watch.take(0, "r", ("a",), Looked((Found("x", 0, "x"),)))
        watch.take(1, "r", ("a",), Looked((), is_whole=False))
        self.assertEqual(sorted(watch.events), ["x"])

    def test_what_opens_nothing_goes_on_with_what_is_open(self):
        watch = State()
        watch.take(0, "r", ("a",), Looked((Found("x", 1, "late", opens=False),)))
        self.assertEqual((watch.events, watch.due(0)), ({}, []))
        watch.take(1, "r", ("a",), Looked((Found("x", 0, "at risk"),)))
        watch.take(2, "r", ("a",), Looked((Found("x", 1, "late", opens=False),)))
        self.assertEqual([one.text for one in watch.due(2)[0].mentions], ["late"])


if __name__ == "__main__":
    unittest.main()
