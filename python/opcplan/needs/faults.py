"""Which occurrences have a fault of their own: in error with no try left, started with an end that nobody knows, ready
and not started. No I/O."""

import fnmatch
from collections.abc import Iterator
from typing import NamedTuple

from opcplan.needs.chains import Chains
from opcplan.needs.facts import PLACE, ROOM, Agent, Change, Facts, Idle
from opcplan.plans import run_keys
from opcplan.rules import moments

# minutes after which what is ready has to be started, what failed and is tried again has to have begun again, and an
# agent that doesn't contact its desk counts as gone
START, AGAIN, GONE = 5, 5, 5
NO_CHANGE = Change(0, "", 0)


class Fault(NamedTuple):
    """The fault of an occurrence: its kind, its name, since when, and what is to be said of it behind its name. Without
    a text another need, of this name, counts the occurrence."""

    kind: str
    name: str
    since: int
    text: str = ""


def gone(facts: Facts) -> tuple[Agent, ...]:
    """The agents that don't contact the desk any more."""
    return tuple(one for one in facts.live.agents if facts.now - one.last >= GONE)


def of_chains(chains: Chains) -> dict[int, Fault]:
    """By place the rows that have a fault of their own, or that the need of an agent counts."""
    found = {}
    faults = Faults(chains)
    for place, state in enumerate(chains.model.states):
        one = faults.error(place) if state == "E" else faults.started(place) if state == "S" else \
            faults.unstarted(place) if state == "R" else None
        if one is not None:
            found[place] = one
    return found


class Faults:
    """Finds faults of rows."""

    def __init__(self, chains: Chains) -> None:
        self.facts, self.rows = chains.facts, chains.rows
        self.now, self.live = self.facts.now, self.facts.live
        self.gone = gone(self.facts)
        self.here = tuple(one for one in self.live.agents if one not in self.gone)
        self.done_before: dict[int, int] = {}  # by serial when the last one that it waited for ended
        for successor, predecessor in self.facts.done_pairs:
            if known := self.facts.done.get(predecessor):
                self.done_before[successor] = max(known.ended + known.shift, self.done_before.get(successor, 0))
        # from here on a start may be expected: the desk accepts it, an agent is there, and what waits is known
        self.open_since = self.latest(self.live.accepts_since, self.facts.freed, *(one.since for one in self.here))

    def latest(self, *moments: int) -> int:
        """The latest of some moments; one that hasn't come, because the clock was set back since, says nothing."""
        return max((one for one in moments if one <= self.now), default=0)

    def change(self, place: int) -> Change:
        """The entry that gave a row its status, if it is known, else NO_CHANGE."""
        row = self.rows[place]
        found = self.facts.changes.get(row.serial, NO_CHANGE)
        return found if found.status == row.place else NO_CHANGE

    def name(self, kind: str, place: int) -> str:
        """The name of the need of a row."""
        return f"{kind}:{self.rows[place].serial}:{self.change(place).seq}"

    def of_gone(self, change: Change, place: int) -> Fault | None:
        """The Fault that the need of an agent counts, if an agent made a change and is gone."""
        key = run_keys.of_text(change.key)
        for agent in self.gone:
            if key is not None and (key.agent in (agent.name, agent.own) or not self.here):
                return Fault("agent", f"agent:{agent.name}", agent.last)
        return None

    def error(self, place: int) -> Fault | None:
        """The fault of a row in error, None as long as another try follows."""
        change = self.change(place)
        row, key = self.rows[place], run_keys.of_text(change.key)
        if key is None or key.pause is None:
            return Fault("error", self.name("error", place), change.at or row.deadline, "is in error")
        due = change.at + -(-key.pause // 60)
        is_waiting = any(idle.why == ROOM for one in self.here for idle in one.idle.values())
        if self.now < max(due, self.open_since) + AGAIN or is_waiting:
            return None
        text = f"is in error, and its next try, due {moments.moment_text(due)}, doesn't begin"
        return self.of_gone(change, place) or Fault("error", self.name("error", place), due, text)

    def started(self, place: int) -> Fault | None:
        """The fault of a row that is started: its end isn't known."""
        serial, change = self.rows[place].serial, self.change(place)
        for agent in self.here:
            if serial in agent.unknown:
                text = f"is started, and its end isn't known: {agent.unknown[serial]}"
                return Fault("unknown", self.name("unknown", place), change.at or agent.last, text)
        return self.of_gone(change, place)

    def unstarted(self, place: int) -> Fault | None:
        """The fault of a row that is ready: nobody starts it."""
        row, since = self.rows[place], self.ready_since(place)
        reasons = list(self.reasons(row.serial))
        is_early = self.now - max(since, self.open_since) < START
        if not self.facts.is_told or self.live.trouble or is_early or any(one.why == ROOM for one in reasons):
            return None
        counts = self.gone if not self.here else [agent for agent in self.gone for one in reasons
                                                  if one.why == PLACE and matches(agent.own or agent.name, one.where)]
        if counts:
            return Fault("agent", f"agent:{counts[0].name}", counts[0].last)
        why = self.why(reasons)
        text = f"has been ready since {moments.moment_text(since)}, and isn't started{f': {why}' if why else ''}"
        return Fault("unstarted", self.name("unstarted", place), since, text)

    def reasons(self, serial: int) -> Iterator[Idle]:
        """Why the agents that are there don't start a row."""
        for agent in self.here:
            if serial in agent.idle:
                yield agent.idle[serial]

    def why(self, reasons: list[Idle]) -> str:
        """Why nobody starts a row, in words; empty if nothing is known."""
        others = sorted({one.text for one in reasons if one.why != PLACE})
        if others or not reasons:
            return "; ".join(others) or ("" if self.live.agents else "no agent is known here")
        return f"none of the agents that are there may run it; `where` in jobs.toml names {reasons[0].where}"

    def ready_since(self, place: int) -> int:
        """Since when a row is ready: it has arrived, is in the current plan, waits for nothing, and wasn't reset
        later."""
        row = self.rows[place]
        known = [one for one in self.facts.extensions if one.to > row.ia]
        by_plan = min(known, key=lambda one: (one.to, one.at)).at if known else 0
        entered = self.facts.added.get(row.serial, by_plan if row.cycle is not None else 0)
        arrived = row.ia if self.facts.jump is None else self.facts.jump.passed(row.ia)
        return self.latest(arrived, self.change(place).at, self.done_before.get(row.serial, 0), entered)


def matches(name: str, pattern: str) -> bool:
    """Whether the name of an agent matches a pattern of `where`."""
    return fnmatch.fnmatchcase(name, pattern)
