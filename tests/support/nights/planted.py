"""Bugs that are planted in what runs at night, by their names: what each changes, in the desk's process or in that of
the watch. Each has to be caught by a night of tests/test_nights_planted.py."""

import dataclasses

from opcplan.needs import chains, faults, horizon, occurrences
from opcplan.watch import state


def error_before_the_last_try():
    """A try that failed is an error, although another one follows."""
    of_text = faults.run_keys.of_text

    def found(text):
        known = of_text(text)
        return known and known._replace(pause=None)

    faults.run_keys.of_text = found


def one_failure_is_all():
    """A need of an occurrence is named by its serial alone."""
    faults.Faults.name = lambda self, kind, place: f"{kind}:{self.rows[place].serial}:0"


def call_for_each_follower():
    """What waits for something late is a need of its own."""
    occurrences.Occurrences.grouped = lambda self, places: {place: [place] for place in places
                                                            if place not in self.faults}


def chain_is_named_by_its_head():
    """A chain is another one once its head is complete."""
    chains.Chains.first_late = lambda self, serial: serial


def end_is_near_although_roll_ran():
    """The current plan ends soon by its end alone."""
    horizon.missed_since = lambda facts: facts.now if facts.ends.plan_end - facts.now < horizon.DAY * 3 // 2 else None


def unknown_end_is_forgotten():
    """What is started goes on."""
    faults.Faults.started = lambda self, place: None


def nobody_starts_it():
    """What is ready waits for long."""
    faults.START = 10 ** 6


def stopped_roll_is_quiet():
    """What stops `roll` is a need once the plan has ended."""
    of_facts = horizon.of_facts
    horizon.of_facts = lambda facts: (one for one in of_facts(facts)
                                      if one.kind != "roll" or facts.ends.plan_end <= facts.now)


def never_over():
    """What is over stays in the watch's state."""
    take = state.State.take
    state.State.take = lambda self, now, rule, targets, looked: take(
        self, now, rule, targets, looked and looked._replace(is_whole=False))


def worse_each_time():
    """What a look finds again is worse."""
    take = state.State.take

    def taken(self, now, rule, targets, looked):
        self.events = {key: dataclasses.replace(one, level=-1) for key, one in self.events.items()}
        take(self, now, rule, targets, looked)

    state.State.take = taken


def told_to_nobody_else():
    """Of two things that a rule finds in one look the first is told."""
    take = state.State.take
    state.State.take = lambda self, now, rule, targets, looked: take(
        self, now, rule, targets, looked and looked._replace(found=looked.found[:1]))


# by name: changes modules of the desk's process
IN_THE_DESK = {one.__name__: one for one in (
    error_before_the_last_try, one_failure_is_all, call_for_each_follower, chain_is_named_by_its_head,
    end_is_near_although_roll_ran, unknown_end_is_forgotten, nobody_starts_it, stopped_roll_is_quiet)}
# by name: changes modules of the watch's process, which are put back behind the night
IN_THE_WATCH = {one.__name__: one for one in (never_over, worse_each_time, told_to_nobody_else)}
