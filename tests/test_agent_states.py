"""The state of an agent in every interleaving of small worlds: jobs that run, people who act besides, an agent, a
runner and a desk that are killed, answers that are lost or come late, other desks of the same log.

Each state of a world is met once; from each in which the agent rests, all has to come to its end. An agent that lacks
one of the promises has to be caught: those of `Mutants` are as agents once were, or as they must not become."""

import dataclasses
import unittest
from unittest import mock

from support.agent_worlds import ANY, explored, InvariantViolated, Kind, walked, World

from opcplan.agent import known_plan, state
from opcplan.agent.known_plan import Latest
from opcplan.agent.record import Record

MOST = 150_000  # states of all worlds together, which stay small
TRIES = 3  # of a look, in a small world
AGAIN = ("fail", "reset", "start")
WORLDS = {
    "a job": Kind(),
    "a job that waits for another one": Kind(rows=2, agent_ends=1, lost=1),
    "an agent that is killed": Kind(agent_ends=2, fails=1),
    "people who start it anew": Kind(acts=AGAIN, fails=1),
    "people who start it before": Kind(acts=("start", "fail", "reset"), agent_ends=1),
    "people who delete it": Kind(acts=("delete",), late=1, agent_ends=1),
    "answers that are lost": Kind(lost=2, away=1, agent_ends=1),
    "answers that are lost, and people": Kind(lost=1, acts=("fail", "reset")),
    "a statement that comes late": Kind(late=1, acts=("start", "fail", "reset")),
    "a desk that is killed": Kind(desk_ends=1, lost=1, agent_ends=1),
    "a desk that is killed, and people": Kind(desk_ends=1, acts=("fail",)),
    "another desk of the log": Kind(others=2, lost=1),
    "a desk that joined its log": Kind(joined=1, agent_ends=1, acts=("fail",)),
    "old jobs that are answered again": Kind(olds=1, acts=("fail",)),
    "a runner that is killed": Kind(runner_ends=1, acts=("fail", "reset")),
    "a second try": Kind(tries=2, fails=2),
    "three tries, and an agent that is killed": Kind(tries=3, fails=3, agent_ends=1),
    "tries whose answers are lost": Kind(tries=2, fails=2, lost=2),
    "a step of a try that comes late": Kind(tries=2, fails=1, late=1, agent_ends=1),
    "tries, and people": Kind(tries=2, fails=1, acts=("fail", "reset")),
    "tries, and people who mend it": Kind(tries=2, fails=1, acts=("reset", "start")),
    "tries, and a desk that is killed": Kind(tries=2, fails=1, desk_ends=1),
    "tries, and another desk of the log": Kind(tries=2, fails=1, others=1),
    "tries, and a desk that joined its log": Kind(tries=2, fails=1, joined=1, agent_ends=1),
    "tries of one job at a time": Kind(tries=2, fails=1, rows=2, most=1, is_chained=False),
    "a class": Kind(rows=2, is_chained=False, class_most=1),
    "a class, and another agent": Kind(rows=2, is_chained=False, class_most=1, acts=("start", "complete")),
    "a class, and a start that comes late": Kind(rows=2, is_chained=False, class_most=1, acts=("start",), late=1),
    "a class, tries and people": Kind(rows=2, is_chained=False, class_most=1, tries=2, fails=1, acts=("start",)),
    "another agent's jobs": Kind(rows=2, is_chained=False, elsewhere=1, acts=("start",)),
}


# for walks: all of it together, and two occurrences
LARGER = Kind(rows=2, tries=2, acts=("fail", "reset", "start", "complete"), olds=1, fails=1, agent_ends=2, desk_ends=1,
              others=1, lost=2, away=2, late=1)


# worlds that are gone through once more with agents that know entries from before they began
FURTHER = ("three tries, and an agent that is killed", "tries, and another desk of the log",
           "tries, and a desk that joined its log")


def small(back=0):
    """A context in which a look asks again a few times, and an agent that begins knows few entries."""
    return mock.patch.multiple(state, TRIES=TRIES, BACK=back)


class States(unittest.TestCase):
    def test_agents_that_know_what_was_before(self):
        with small(2):
            for name in FURTHER:
                self.assertGreater(explored(WORLDS[name]), 40, name)

    def test_every_interleaving_of_small_worlds(self):
        total = 0
        with small():
            for name, kind in WORLDS.items():
                count = explored(kind)
                self.assertGreater(count, 40, name)
                print(f"{name}: {count:,} states")
                total += count
        print(f"{total:,} states of {len(WORLDS)} worlds")
        self.assertLess(total, MOST)

    def test_walks_at_random_through_a_larger_world(self):
        for seed in range(25):
            walked(LARGER, seed)


class Unconditional(state.State):
    """Statements are sent whatever the plan is by now."""

    def send(self, one, act, key):
        self.command = state.Send(one, act, key, ANY)


class Early(state.State):
    """A record is given up before its start is answered."""

    def claimed(self, is_free):
        one = self.command.record
        if is_free and self.status_of(one) != "W" and not self.is_ours(one):
            self.command = state.Forget(one, "it is another's")
        else:
            super().claimed(is_free)


class Hesitant(state.State):
    """A record that doesn't say when the job began is as one that does: nothing is known of the job."""

    def seen(self, one, has_runner, is_rested=True):
        if one.began is None and not has_runner and self.is_ours(one):
            self.lose(one, "left no end")
        else:
            super().seen(one, has_runner, is_rested)


class Hasty(state.State):
    """What is known of a run is decided by a desk that is behind it."""

    def wait(self, one):
        if one.ended is not None:
            self.report(one, True)
        else:
            self.command = state.Forget(one, "it is another's")


class Trusting(state.State):
    """Whatever answer there is to a start, the job begins."""

    def answered(self, answer):
        command = self.command
        super().answered(answer)
        if command.act == "start" and answer.reply.endswith(" S"):
            self.command = state.Run(command.record)


class Unread(state.State):
    """Whose start it is goes by the status alone."""

    def is_ours(self, one):
        return self.status_of(one) == "S"


class Once(known_plan.KnownPlan):
    """Each start behind another one counts for nothing, as if it were an old answer."""

    def take_latest(self, one):
        before = dict(self.latest)
        super().take_latest(one)
        for serial, known in before.items():
            if known.status == "S" and self.latest.get(serial, Latest("", None)).status == "S":
                self.latest[serial] = known

    def settle(self):
        self.sure = {}


class Settled(state.State):
    """An agent that takes the first start it hears of for the one in force."""

    def __init__(self, records=()):
        super().__init__(records)
        self.plan = Once()


class Single(state.State):
    """A try that failed is the last one."""

    def try_again(self, one, is_rested):
        self.command = state.Forget(one, "it is in error")


class Restless(state.State):
    """A pause counts for nothing."""

    def try_again(self, one, is_rested):
        super().try_again(one, True)


class Careless(state.State):
    """Whatever failure is in force, it is reset."""

    def is_given(self, one, status, key):
        return self.status_of(one) == status


class Uncounted(state.State):
    """What is tried again is tried as the first time."""

    def renewed(self):
        one = self.command.record
        self.command = state.Again(dataclasses.replace(one, key=f"{one.key}x", attempt=1))
        super().renewed()


class Crowded(state.State):
    """A start that a class limits is sent whatever the plan is by now."""

    def send(self, one, act, key):
        super().send(one, act, key)
        if act == "start":
            self.command = self.command._replace(tag=ANY)


class Lonely(state.State):
    """Of a class what others started counts for nothing."""

    def started(self):
        return {"db": sum(self.is_ours(one) is True for one in self.records.values())}


class Greedy(state.State):
    """Whatever is ready is begun, also what others have the jobs of."""

    def may_begin(self, app):
        return not self.is_full(app)


class Mutants(unittest.TestCase):
    """An agent that lacks a promise is caught in the world that it is about."""

    def caught(self, kind_of_state, name):
        with small(), self.assertRaises(InvariantViolated) as caught:
            explored(WORLDS[name], kind_of_state)
        return str(caught.exception)

    def test_an_end_that_is_reported_of_another_start(self):
        self.assertIn("was in force", self.caught(Unconditional, "people who start it anew"))
        self.assertIn("was in force", self.caught(Unread, "people who start it anew"))

    def test_a_start_that_comes_late(self):
        self.assertIn("nobody has it", self.caught(Early, "a statement that comes late"))

    def test_a_job_that_never_began(self):
        self.assertIn("a record is left", self.caught(Hesitant, "an agent that is killed"))

    def test_a_desk_that_is_behind(self):
        self.assertIn("is never told", self.caught(Hasty, "a desk that is killed"))

    def test_an_answer_that_was_given_before(self):
        self.assertIn("isn't started", self.caught(Trusting, "answers that are lost, and people"))

    def test_an_old_answer(self):
        self.assertIn("is never told", self.caught(Settled, "old jobs that are answered again"))

    def test_tries(self):
        with mock.patch.object(Record, "is_tried_again", property(lambda one: not one.is_good)):
            self.assertRegex(self.caught(state.State, "a second try"), "there are 2 tries|whether another try follows")
        with mock.patch.object(Record, "end_key", property(lambda one: f"{one.start_key}-end")):
            self.assertIn("doesn't say whether another try follows", self.caught(state.State, "a second try"))
        self.assertIn("is never tried again", self.caught(Single, "a second try"))
        self.assertIn("within its pause", self.caught(Restless, "a second try"))
        self.assertRegex(self.caught(Careless, "tries, and people who mend it"), "was in force|no try before it")
        self.assertRegex(self.caught(Uncounted, "a second try"), "tries|no try")

    def test_classes_and_other_agents(self):
        self.assertIn("its class is full", self.caught(Crowded, "a class, and another agent"))
        self.assertIn("its class is full", self.caught(Lonely, "a class, and another agent"))
        self.assertIn("is another agent's", self.caught(Greedy, "another agent's jobs"))

    def test_a_journal_that_lacks_what_was_answered_last(self):
        with mock.patch.object(World, "answered", lambda world: world.log[: max(0, world.served - 1)]):
            self.assertRegex(self.caught(state.State, "people who start it before"), "left|never|no end|nobody")


if __name__ == "__main__":
    unittest.main()
