"""A watch that begins, anew with its stored state or without one, in every order of small worlds: an occurrence comes
in error and is reset, an agent, a desk or the whole machine goes and comes back, a receiver can't be reached, and the
watch is away meanwhile.

What always holds, as of each poll that a desk answers:

- What is in error then was called, once. What came and went while the watch was away isn't called.
- An agent was called about if it hasn't contacted its desk for 5 minutes as that desk counts; never if it was gone for
  less while desks ran, whoever was away.
- A desk that a watch has seen away for 5 minutes was called about; never one that was away for less.
- A call that isn't delivered is over only once it is delivered, however often the watch begins anew.

A watch that lacks one of these has to be caught."""

import collections
import contextlib
import copy
import io
import json
import unittest
from unittest import mock

from support.watch_worlds import InvariantViolated, copied

from opcplan.needs import machines, need
from opcplan.needs.facts import Agent, Undelivered
from opcplan.plans import actual
from opcplan.rules import moments
from opcplan.watch import calls, conditions, driver, polls, rulebook, sightings
from opcplan.watch.sightings import Sightings
from opcplan.watch.workers import Inline

GONE = 300.0  # seconds
PASSES = 200.0  # seconds after each step, with LAPSE less than GONE, and twice as much is more
# by what a target heard last of an event what it may hear next
AFTER = {None: ("new", "over"), "new": ("worse", "over"), "worse": ("worse", "over"), "over": ("new",)}
BEGIN = moments.moment_of("2026-01-01/12.00") * 60.0
RULES = rulebook.of_text("""
[who.first]
command = ["first"]
[who.second]
command = ["second"]
[[rule]]
on = ["error", "agent", "desk"]
name = "plan"
call = "first"
[[rule]]
on = "call"
call = "second"
""")
SEEN_OF, SINCE = sightings.seen_of, sightings.since
GIVEN = driver.Settings("desk", "rules", "/nowhere/state")


class Watch(driver.Watch):
    """A watch that stores its state in a world."""

    def __init__(self, world):
        super().__init__(GIVEN, RULES, None, lambda: world.now, steady=lambda: world.now, crew=Inline(),
                         deliver=lambda *given: self.world.deliver(*given))
        self.world = world

    def keep(self):
        self.world.disk = self.state.kept(), self.sightings.kept()
        self.state.is_changed = False

    def load(self):
        if self.world.disk is not None:
            kept = json.loads(json.dumps(self.world.disk))
            with mock.patch.object(driver, "stored", lambda _: (driver.of_kept(kept[0]), Sightings.of_kept(kept[1]))):
                super().load()

    def ask(self, desk):
        return self.world.answer(self.report)


class World:
    """All that there is: what runs, since when the desk does, when the agent last contacted it, how long it hasn't
    while desks ran, since when the desk is away and since when this watch knows that, what is in error, whether `first`
    can be reached; and what the targets heard."""

    def __init__(self, watch=Watch):
        self.cls, self.now, self.disk = watch, BEGIN, None
        self.desk, self.agent, self.is_reached, self.error = True, True, True, 0
        self.errors = 0  # how many there were
        self.begun = self.contact = BEGIN
        self.gone, self.away, self.known_away = 0.0, 0.0, 0.0
        self.reported = ()
        self.heard, self.delivered = [], frozenset()
        self.seen = frozenset()  # the errors that a poll has found since the state of the watch was made
        self.watch = None
        self.start()
        self.look()

    def next(self):
        found = copy.copy(self)
        found.heard = list(self.heard)
        if self.watch is not None:
            found.watch = self.cls(found)
            found.watch.state, found.watch.report = copied(self.watch.state), self.watch.report
            found.watch.sightings = copy.copy(self.watch.sightings)  # a look makes new tables
        return found

    # What the desk answers, and what targets hear.

    def answer(self, report):
        if not self.desk:
            return "no answer"
        found = json.loads(report)["undelivered"]
        self.reported = tuple(Undelivered(one["id"], one["target"], actual.moment(one["since"]), one["tries"],
                                          one["why"]) for one in found)
        now, age = actual.moment(self.now), self.now - max(self.contact, self.begun)
        listed = [] if not self.error else [need.Need(f"error:7:{self.error}", "error", 0, now, "in error", "do it",
                                                      serial=7, apps=("PAY",))]
        listed += machines.of_agents([Agent("batch", now - int(age // 60))], {}, now)
        listed += machines.of_calls(self.reported, now)
        looks = 0 if self.contact < self.begun else 1 + int(self.contact - self.begun)
        return {"position": 3, "now": moments.moment_word(now), "plan_end": None, "followers": {}, "is_whole": True,
                "needs": [one.values() for one in listed], "agents": {"batch": {"looks": looks, "age": age}},
                "etcd": [], "trouble": ""}

    def deliver(self, target, call, _):
        if target.name == "first" and not self.is_reached:
            raise calls.Undelivered("no answer")
        self.delivered |= {call.id}
        self.heard += [(target.name, one.kind, one.key) for one in call.mentions]

    # What happens.

    def start(self):
        self.watch, self.known_away = self.cls(self), 0.0
        self.watch.load()

    def toggle_watch(self):
        if self.watch is not None:
            self.watch = None
        else:
            self.start()

    def start_afresh(self):
        """The watch begins without a state; the targets hear all from the begin."""
        self.disk, self.heard, self.seen = None, [], frozenset()
        self.start()

    def toggle_desk(self):
        self.desk, self.begun, self.reported = not self.desk, self.now, ()

    def toggle_agent(self):
        self.agent = not self.agent

    def toggle_error(self):
        self.errors += not self.error
        self.error = 0 if self.error else self.errors

    def toggle_receiver(self):
        self.is_reached = not self.is_reached

    def toggle_machine(self):
        """The machine goes down, or is booted: then the agent contacts its desk after the first poll."""
        self.toggle_desk()
        self.toggle_watch()
        self.agent = self.desk

    def nothing(self):
        """Nothing happens."""

    def pass_time(self):
        """Time passes, in which the agent contacts its desk if both run."""
        self.now += PASSES
        if self.desk:
            self.gone, self.away = 0.0 if self.agent else self.gone + PASSES, 0.0
            self.contact = self.now if self.agent else self.contact
        else:
            self.away += PASSES
            self.known_away += PASSES if self.watch is not None else 0.0

    def look(self):
        if self.watch is not None:
            self.watch.step()
            self.check()

    def after(self, step):
        found = self.next()
        getattr(found, step)()
        found.look()
        found.pass_time()
        found.look()
        return found

    # What has to hold.

    def last(self, target, key):
        """How a target heard last that something is; None if it never did."""
        return next((kind for name, kind, of in reversed(self.heard) if (name, of) == (target, key)), None)

    def is_told(self, target, key):
        return self.last(target, key) not in (None, "over")

    def ask(self, is_good, what):
        if not is_good:
            raise InvariantViolated(f"{what}: {self.heard}")

    def check(self):
        """Asks after a poll what has to hold."""
        self.ask_once()
        is_heard = "first" not in self.watch.state.calls
        if is_heard:
            self.check_desk()
        if not self.desk:
            return
        self.known_away = 0.0
        self.seen |= {self.error} - {0}
        if is_heard:
            self.check_errors()
            self.check_agent()
        self.check_calls()

    def ask_once(self):
        """Asks that each event is new once until it is over, and over once. One that is over before its call comes is
        only told to be over."""
        last = {}
        for target, kind, key in self.heard:
            before = last.get((target, key))
            self.ask(kind in AFTER[before], f"{key} is {kind} after {before}")
            last[target, key] = kind

    def check_errors(self):
        for number in range(1, self.errors + 1):
            key, is_now = f"plan:error:7:{number}", number == self.error
            self.ask(self.is_told("first", key) == is_now, f"{key} is the case: {is_now}")
            news = self.heard.count(("first", "new", key))
            self.ask(news <= (number in self.seen), f"{key} is new {news} times")

    def check_agent(self):
        is_told = self.is_told("first", "plan:agent:batch")
        self.ask(is_told or self.now - max(self.contact, self.begun) < GONE, "an agent is gone, and nobody is called")
        self.ask(not is_told or self.gone >= GONE, f"an agent is gone for {self.gone:g} s of its desk")

    def check_desk(self):
        is_told = self.is_told("first", "plan:desk:desk")
        self.ask(is_told or self.known_away < GONE or self.desk, "a desk is away, and nobody is called")
        self.ask(not is_told or self.away >= GONE and not self.desk, f"a desk is away for {self.away:g} s")

    def check_calls(self):
        for target, kind, key in self.heard:
            if (target, kind) == ("second", "over"):
                name = key.rpartition(":")[2]
                self.ask(name in self.delivered, f"{key} is over, and it isn't delivered")


def explored(steps, depth, watch=Watch):
    """Goes through every order of so many steps; how many there are."""
    count, left = 0, collections.deque([(World(watch), 0)])
    while left:
        world, done = left.popleft()
        for step in steps:
            if (step == "start_afresh" and world.watch is not None) or \
                    step == "toggle_machine" and (world.watch is None) == world.desk:
                continue
            count += 1
            try:
                found = world.after(step)
            except InvariantViolated as why:
                raise InvariantViolated(f"{getattr(world, 'path', ())} {step}: {why}") from None
            found.path = (*getattr(world, "path", ()), step)
            if done + 1 < depth:
                left.append((found, done + 1))
    return count


WORLDS = {
    "machines and agents": (("nothing", "toggle_agent", "toggle_desk", "toggle_watch", "toggle_machine"), 5),
    "a watch with no stored state": (("nothing", "toggle_agent", "toggle_error", "toggle_watch", "start_afresh"), 4),
    "an error that comes and goes": (("nothing", "toggle_error", "toggle_desk", "toggle_watch"), 4),
    "who can't be reached": (("nothing", "toggle_error", "toggle_receiver", "toggle_watch"), 5),
}
AGENTS, AFRESH, _, CALLS = WORLDS.values()


class Silent(Watch):
    """It reports no call before it has looked once."""

    def load(self):
        super().load()
        self.report = polls.report_of(self.name, (), 0)


class Forgetful(Watch):
    """How often a call was tried in vain isn't stored."""

    def load(self):
        super().load()
        self.state.tries.clear()
        self.report = self.report_at(self.clock())


def begins_now(before, contacts, now, passed):
    """An agent that a watch doesn't know counts from the watch's begin."""
    return SEEN_OF(now if before is None else before, contacts, now, passed)


def goes_on(before, contacts, now, passed):
    """An agent's time goes on while no desk runs."""
    return SEEN_OF(before, contacts, now, 0.0)


def all_counts(before, now_away, now, lost, lasted):
    """A desk's time goes on while no watch runs."""
    return SINCE(before, now_away, now, 0.0, lasted)


def jumps(one, now):
    """Since when a call isn't delivered is counted anew in each report, from the last tick."""
    return now - one.seconds


class Begins(unittest.TestCase):
    def setUp(self):
        held = contextlib.ExitStack()
        self.addCleanup(held.close)
        held.enter_context(contextlib.redirect_stderr(io.StringIO()))

    def test_every_order_of_small_worlds(self):
        for name, (steps, depth) in WORLDS.items():
            with self.subTest(name):
                print(f"{name}: {explored(steps, depth):,} steps")

    def test_each_bug_is_caught(self):
        for watch in (Silent, Forgetful):
            with self.subTest(watch.__doc__), self.assertRaises(InvariantViolated):
                explored(*CALLS, watch)
        for world, module, name, bug in (
            (AFRESH, sightings, "seen_of", begins_now), (AGENTS, sightings, "seen_of", goes_on),
            (AGENTS, sightings, "since", all_counts), (CALLS, polls, "begin_of", jumps),
        ):
            with self.subTest(bug.__doc__), self.assertRaises(InvariantViolated), \
                    mock.patch.object(module, name, bug):
                explored(*world)


class Answers(unittest.TestCase):
    """What a watch that begins takes from a desk's answer, worked by hand: it is 12.00, and the watch begins."""

    def looked(self, status, kind, before=None):
        seen = Sightings() if before is None else Sightings.of_kept(before)
        seen.take(BEGIN, {"a": status})
        found = conditions.looked(rulebook.Rule("r", (kind,), ()), conditions.Seen(status, seen, {}), BEGIN)
        return {one.key: one.level for one in found.found}

    def status(self, need_name, since, **more):
        kind = need_name.partition(":")[0]
        one = need.Need(need_name, kind, 0, moments.moment_of(f"2026-01-01/{since}"), "text", "do it")
        return {"position": 3, "now": "2026-01-01/12.00", "plan_end": None, "followers": {}, "is_whole": True,
                "needs": [one.values()], "agents": {}, "etcd": [], "trouble": "", **more}

    def test_a_node_of_etcd(self):
        """It hasn't answered for 10 minutes: twice as long as 5."""
        away = [{"endpoint": "e1", "answers": False, "why": "refused"}]
        self.assertEqual(self.looked(self.status("etcd:e1", "11.50", etcd=away), "etcd"), {"r:etcd:e1": 1})
        self.assertEqual(self.looked(self.status("etcd:e2", "11.50", etcd=away), "etcd"), {})

    def test_a_desk_that_accepts_no_change(self):
        for since, found in (("11.56", {}), ("11.55", {"r:desk:a": 0}), ("11.40", {"r:desk:a": 2})):
            self.assertEqual(self.looked(self.status("desk:main", since, trouble="full"), "desk"), found)

    def test_agents(self):
        """The least of the ages of several desks counts; a desk that runs for less counts no more than that."""
        for contacts, before, passed, seen in (
            ([(3, 400.0)], None, 0.0, 400.0), ([(0, 400.0)], None, 0.0, 400.0),
            ([(0, 9000.0), (3, 20.0)], None, 0.0, 20.0),
            ([(3, 400.0)], 500.0, 100.0, 400.0),  # by the desk, and not as the last look had it
            ([(7, 900.0)], 900.0, 600.0, 900.0),
            ([(0, 50.0)], 700.0, 600.0, 150.0),  # 100 s at the last look, and 50 s of the desk's 550 s later
            ([(0, 50.0), (0, 250.0)], 700.0, 600.0, 350.0),
            ([(3, 10.0)], -50.0, 30.0, 0.0),  # a clock that was set back
        ):
            found = sightings.seen_of(None if before is None else BEGIN - before,
                                      [sightings.Contact(*one) for one in contacts], BEGIN, passed)
            self.assertEqual(BEGIN - found, seen, (contacts, before, passed))


if __name__ == "__main__":
    unittest.main()
