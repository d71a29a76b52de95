"""Chains of occurrences: which row is at the head of what is late, and which name a chain keeps. No I/O.

A chain that is late keeps its name while its head moves on: it is named by the row that was late first. A row x that is
late belongs to the chain of a row p, if x waited for p, also through others, when x became late, and p was late before.
If one of its rows is deleted, it may get another name."""

import itertools
from collections import defaultdict
from collections.abc import Container, Iterable
from typing import NamedTuple

from opcplan.needs.facts import Facts
from opcplan.plans import row_model
from opcplan.plans.row_model import MOST_HELD, RANK, Model


# so many rows of a chain, those that were late first, decide its name
MOST_NAMED = 100


class Key(NamedTuple):
    """By what rows that are late are ordered: the one that was late first comes first."""

    deadline: int
    serial: int


class Chains:
    """The chains of facts, and the model of their rows."""

    def __init__(self, facts: Facts) -> None:
        self.facts, self.rows = facts, facts.rows
        self.model: Model = row_model.of_waits(facts.rows, facts.pairs, facts.now)
        self.keys = {serial: Key(one.deadline, serial) for serial, one in facts.done.items()}
        self.keys |= {row.serial: Key(row.deadline, row.serial) for row in facts.rows}
        self.first_before: dict[int, int] = {}  # what late_before has found
        self.before: dict[int, list[int]] = defaultdict(list)  # by serial, with those that are complete
        for successor, predecessor in (*facts.pairs, *facts.done_pairs):
            self.before[successor].append(predecessor)

    def heads(self, faulty: Container[int]) -> dict[int, int]:
        """By place of a row that waits the place at which its waiting begins. If there are several, it is one of those
        that are `faulty`, else the one that was late first, else the worst as in row_model."""
        model, rows = self.model, self.rows

        def rank(place: int) -> tuple[int, ...]:
            if place not in faulty and model.is_late[place]:
                return 1, *Key(rows[place].deadline, rows[place].serial)
            return 0 if place in faulty else 2, RANK[model.states[place]], rows[place].deadline, place

        return row_model.worst_roots(model, rank)

    def waiting(self, place: int) -> set[int]:
        """The places of the rows that wait for a row, also through others; cut soon after MOST_HELD."""
        return row_model.reached(place, self.model.behind, MOST_HELD)

    def in_order(self, places: Iterable[int]) -> list[int]:
        """Places by the deadlines of their rows."""
        return sorted(places, key=lambda place: Key(self.rows[place].deadline, self.rows[place].serial))

    def name(self, places: Iterable[int]) -> int:
        """The serial by which the chain of late rows is named, of places in the order of their deadlines."""
        found = {self.first_late(self.rows[place].serial) for place in itertools.islice(places, MOST_NAMED)}
        return min(found, key=lambda serial: self.key(serial) or Key(0, serial))

    def first_late(self, serial: int) -> int:
        """The serial of the row by which a late row's chain is named."""
        while (found := self.late_before(serial)) != serial:
            serial = found
        return serial

    def late_before(self, serial: int) -> int:
        """The serial of the row that was late first of those for which a late row waited when it became late, with
        itself."""
        if (known := self.first_before.get(serial)) is not None:
            return known
        own = found = self.keys[serial]
        seen, left = {serial}, [serial]
        while left:
            for other in self.before.get(left.pop(), ()):
                key = None if other in seen else self.keys.get(other)
                if key is None or not self.was_open(other, own.deadline):
                    continue
                seen.add(other)
                left.append(other)
                if key < found:
                    found = key
        self.first_before[serial] = found.serial
        return found.serial

    def key(self, serial: int) -> Key | None:
        """The Key of a row or of a complete one that is known, else None."""
        return self.keys.get(serial)

    def was_open(self, serial: int, moment: int) -> bool:
        """Whether a row wasn't complete yet after a moment."""
        done = self.facts.done.get(serial)
        return done is None or done.ended > moment


def grouped(heads: Iterable[tuple[int, int]]) -> dict[int, list[int]]:
    """The places of each group by its head, of pairs of a place and its head."""
    found: dict[int, list[int]] = defaultdict(list)
    for place, head in heads:
        found[head].append(place)
    return dict(found)
