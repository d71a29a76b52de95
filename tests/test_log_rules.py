"""By which rules desks share a log, in every interleaving of small worlds: desks that hear of the log late, apply
entries, append, end and are replaced by desks of later rules or of another opcplan, while the log is moved. What lacks
one of the conditions of `opcplan.desk.versions` has to be caught: the mutants. Then two desks over etcd, one of earlier
rules."""

import unittest
from collections import deque
from typing import NamedTuple
from unittest import mock

from support import TOP, desks, machines, plans
from support.logs import COMPLETE, START, Case, numbered

from opcplan.desk import versions

P1, P2, P3, Q2 = (versions.text_of(printed, rules) for printed, rules in (("P 1\nsum p", 1), ("P 1\nsum p", 2),
                                                                         ("P 1\nsum p", 3), ("Q 2\nsum q", 2)))
MOST_ENTRIES, MOST_MOVES = 2, 3


class InvariantViolated(Exception):
    """What a world shows that must not be."""


class Desk(NamedTuple):
    """A desk with the entries up to `given`, and what it last heard of the log: its end, and how often it was moved."""

    own: str
    is_up: bool = False
    given: int = 0
    last: int = 0
    moves: int = 0


class World(NamedTuple):
    """The log: who appended each entry, and from which entry on it was moved to what; and the desks."""

    log: tuple
    moved: tuple
    desks: tuple

    def said(self, moves=None):
        """What the log says from each entry on, after so many moves; later ones at the same entry replace earlier."""
        return dict(self.moved if moves is None else self.moved[:moves + 1])

    def put(self, place, desk):
        return self._replace(desks=self.desks[:place] + (desk,) + self.desks[place + 1 :])


class Kind(NamedTuple):
    """A kind of world: the desks at first, what each may be replaced by, and to what the log may be moved."""

    desks: tuple
    later: tuple
    moves: tuple
    is_by_moves: bool = True  # whether an append fails if the log was moved


KINDS = {
    "to later rules": Kind((P1, P1), (P2,), (P2,)),
    "to later rules twice": Kind((P1,), (P2, P3), (P2, P3)),
    "to another opcplan": Kind((P2, P2), (Q2,), (Q2,)),
    "to another opcplan and later rules": Kind((P1, P1), (Q2,), (Q2,)),
    "back to an earlier one": Kind((P2, P3), (), (P3, P2)),
}


def steps(world, kind):
    for place, desk in enumerate(world.desks):
        newest = max(world.said())
        if not desk.is_up:
            if not versions.why_not_started(world.said(), desk.given + 1, desk.own, "LOG", "PROGRAM"):
                yield world.put(place, desk._replace(is_up=True, last=len(world.log), moves=len(world.moved) - 1))
            elif desk.given == len(world.log) and world.said()[newest] == desk.own:
                raise InvariantViolated("a desk that the log needs doesn't start")
        else:
            yield from progress(world, kind, place, desk)
            yield world.put(place, desk._replace(is_up=False))
        if not desk.is_up:  # it begins with a copy
            yield from (world.put(place, desk._replace(given=one.given)) for one in world.desks)
        for own in kind.later:
            if own != desk.own and versions.rules_of(own) >= versions.rules_of(desk.own):
                yield world.put(place, Desk(own, False, desk.given))
    for own in kind.moves:
        now = world.said()[max(world.said())]
        if now != own and len(world.moved) <= MOST_MOVES and not versions.why_not_moved(now, own):
            yield world._replace(moved=(*world.moved, (len(world.log) + 1, own)))


def progress(world, kind, place, desk):
    """What a desk that runs does: it hears of the log, applies the next entry, or appends one."""
    said, heard = world.said(desk.moves), (len(world.log), len(world.moved) - 1)
    if (desk.last, desk.moves) != heard:
        yield world.put(place, desk._replace(last=heard[0], moves=heard[1]))
    waits = versions.held(said, desk.given, desk.last, desk.own)
    is_level = (desk.given, desk.last, desk.moves) == (len(world.log), *heard)
    if is_level and waits and world.said()[max(world.said())] == desk.own:
        raise InvariantViolated(f"a desk waits that the log needs: {waits}")
    if desk.given < desk.last:
        theirs = versions.version_at(said, desk.given + 1)
        if versions.can_answer(theirs, desk.own):
            wrong = versions.printed_of(world.log[desk.given]) != versions.printed_of(desk.own)
            if wrong or versions.rules_of(world.log[desk.given]) > versions.rules_of(desk.own):
                raise InvariantViolated("a desk applies what it can't answer")
            yield world.put(place, desk._replace(given=desk.given + 1))
    elif not waits and len(world.log) < MOST_ENTRIES and desk.last == len(world.log) and (
            desk.moves == heard[1] or not kind.is_by_moves):
        seq = len(world.log) + 1
        if versions.version_at(world.said(), seq) != desk.own:
            raise InvariantViolated("an entry is appended by rules, or for an opcplan, that the log doesn't say")
        yield world._replace(log=(*world.log, desk.own)).put(place, desk._replace(given=seq, last=seq))


def explored(kind):
    """How many states a kind of world has."""
    first = World((), ((1, min(kind.desks)),), tuple(map(Desk, kind.desks)))
    seen, left = {first}, deque([first])
    while left:
        for one in steps(left.popleft(), kind):
            rules = [versions.rules_of(each) for each in one.log]
            if rules != sorted(rules):
                raise InvariantViolated("an entry by earlier rules comes after one by later rules")
            if one not in seen:
                seen.add(one)
                left.append(one)
    return len(seen)


class Worlds(unittest.TestCase):
    def test_every_interleaving_of_small_worlds(self):
        for name, kind in KINDS.items():
            count = explored(kind)
            print(f"{name}: {count:,} states")
            self.assertGreater(count, 50, name)

    def caught(self, name, **how):
        with self.assertRaises(InvariantViolated) as caught:
            explored(KINDS[name]._replace(**how))
        return str(caught.exception)

    def test_what_lacks_a_condition_is_caught(self):
        appended = "an entry is appended by rules, or for an opcplan, that the log doesn't say"
        for name in list(KINDS)[:4]:
            self.assertEqual(self.caught(name, is_by_moves=False), appended)
        with mock.patch.object(versions, "can_append", versions.can_answer), \
                mock.patch.object(versions, "why_not_started", lambda *_: ""):
            self.assertEqual(self.caught("to later rules"), appended)
        with mock.patch.object(versions, "can_answer", lambda theirs, own: versions.printed_of(theirs) == own):
            self.assertIn("a desk that the log needs doesn't start", self.caught("to later rules"))
        with mock.patch.object(versions, "can_answer", lambda *_: True):
            for name in ("to later rules", "to another opcplan"):
                self.assertEqual(self.caught(name), "a desk applies what it can't answer")
        with mock.patch.object(versions, "why_not_moved", lambda *_: ""):
            self.assertIn("an entry by earlier rules", self.caught("back to an earlier one"))


class Sentences(unittest.TestCase):
    def test_what_a_log_says(self):
        self.assertEqual((P1, P2), ("P 1\nsum p", "P 1\nsum p\nlog rules 2"))
        self.assertEqual([versions.rules_of(one) for one in (P1, P2, P3)], [1, 2, 3])
        self.assertEqual({versions.printed_of(one) for one in (P1, P2, P3)}, {P1})

    def test_each_refusal_says_what_to_do(self):
        earlier, move = "desks of an earlier version share this log", "`./plan log LOG --version --program PROGRAM`"
        need = "LOG: entries from 5 on need"
        for said, first, own, wanted in (
            ({1: P1}, 5, P2, f"LOG: {earlier} by log rules 1, and this one has log rules 2, with which they could do a "
             f"change twice. Once each machine has this version, run {move}: they accept no change from then on. Then "
             "end each of them once it has all entries, and start this one in its place"),
            ({1: P3}, 5, P2, f"{need} P 1 with log rules 3, and PROGRAM is P 1 with log rules 2. Start the desk with "
             "the later version of ./plan that has these rules"),
            ({1: Q2}, 5, P2, f"{need} Q 2, and PROGRAM is P 1. Start the desk with the program that they need. Or, "
             f"once each machine has the new one, move the log to it: {move}"),
            ({1: Q2, 8: P2}, 5, P2, f"{need} Q 2, and PROGRAM is P 1. Start the desk with the older program "
             "(--program) until it has entry 7, or take another desk's plan with --from"),
            ({1: P1, 8: P2}, 5, P2, ""), ({1: P2}, 5, P2, ""), ({1: P2, 8: P3}, 5, P2, ""),
        ):
            self.assertEqual(versions.why_not_started(said, first, own, "LOG", "PROGRAM"), wanted)
        need = "entries from 5 on need"
        for said, head, own, wanted in (
            ({1: P1, 5: P2}, 4, P1, f"{need} P 1 with log rules 2, and this desk runs P 1 with log rules 1; end it, "
             "and start the version of ./plan that has these rules"),
            ({1: P2, 5: "P 1\nsum r\nlog rules 2"}, 4, P2, f"{need} P 1 built from other sources, and this desk runs P "
             "1; start it again with the program that they need"),
            ({1: P1}, 9, P2, ""), ({1: P2}, 4, P2, ""),
        ):
            self.assertEqual(versions.held(said, 4, head, own), wanted)
        self.assertEqual(versions.why_not_moved(P3, P2), "the log has log rules 3, and this ./plan has log rules 2; "
                         "move it with the later version of ./plan")


@unittest.skipIf(machines.why_not(), machines.why_not())
class OverEtcd(Case):
    EARLIER = (desks.python(), TOP / "tests" / "support" / "changed_plan.py", "earlier-rules")

    def test_a_desk_of_earlier_rules_and_one_of_these(self):
        earlier = self.desk("a", command=self.EARLIER)
        self.assertEqual(earlier.posted(START, Idempotency_Key="k")[2], "ok serial 1 status S\n")
        self.assertIn("log rules 1, and this one has log rules 2", self.refused("b"))
        moved = plans.plan("log", self.log, "--version", "--program", plans.PROGRAM)
        self.assertEqual(moved.returncode, 0, moved.stderr)
        self.assertIn("from entry 2 on, opcplan", moved.stdout)
        self.assertIn("with log rules 2 answers the log", moved.stdout)
        self.assertIn("with log rules 2", earlier.comes(lambda found: found.get("status") == "stopped")["why"])
        self.assertEqual(earlier.posted(COMPLETE, Idempotency_Key="c")[0], 503)
        first = self.desk("b")  # while the earlier one still runs
        self.assertEqual(first.posted(START, Idempotency_Key="k")[2], "ok serial 1 status S\n")
        self.assertEqual(first.posted(COMPLETE, Idempotency_Key="c")[2], "ok serial 1 status C\n")
        self.assertEqual(earlier.health()["position"], 1)
        self.end(earlier)
        self.assertIn("with log rules 2", self.refused("a", command=self.EARLIER))
        second = self.desk("a")
        self.caught_up(second, 2)
        self.assertEqual(second.posted(COMPLETE, Idempotency_Key="c")[2], "ok serial 1 status C\n")
        self.end(first, second)
        self.assert_plans("ab", numbered(START, COMPLETE))


if __name__ == "__main__":
    unittest.main()
