"""Which logs of jobs a desk stores, in every interleaving of a small world: occurrences that are started, end, fail,
are set back and deleted; agents who send the ends of logs; a desk that is killed between any two steps, or that
doesn't know yet what happened last.

Each state is met once. What lacks a rule of `opcplan.plans.log_room` has to be caught: the mutants."""

import copy
import unittest
from collections import deque
from typing import NamedTuple

import support  # noqa: F401  # it finds the package

from opcplan.plans.log_room import Log, LogRoom, NoRoom, Standing, standing_of

SERIALS, SIZES = (1, 2, 3), (1, 2)
TRIES = {1: (1, 2), 2: (1,), 3: (1,)}
FIRST = ("S", "SC", "W")
MOST_LOGS, MOST_BYTES = 2, 3
# what may happen to an occurrence, and how often in all; here even a complete one may be set back
NEXT = {"W": "SD", "S": "CEWD", "E": "WD", "C": "W", "D": ""}
MOST_CHANGES, MOST_PUTS = 2, 3


class InvariantViolated(Exception):
    """What a world shows that must not be."""


class World(NamedTuple):
    """One state of all that there is: the statuses that each occurrence got, the files with their sizes, the one that
    was written first first, what was heard of which occurrence, the last one last; and what the desk knows."""

    statuses: tuple
    files: tuple
    heard: tuple
    changes: int
    puts: int
    room: tuple

    def standing(self, serial):
        return standing_of(self.statuses[serial - 1])

    def news(self, serial):
        """What was heard of last comes last."""
        return (*(one for one in self.heard if one != serial), serial)


def frozen(room):
    """A LogRoom as something that can be compared, with the order of what gives way."""
    return tuple(tuple((serial, tuple(sorted(tries.items()))) for serial, tries in held.items())
                 for held in (room.open, room.over)) + (tuple(room.doubtful), room.logs, room.bytes)


def thawed(kind, found):
    """The LogRoom of that."""
    room = kind(MOST_LOGS, MOST_BYTES)
    room.open, room.over = ({serial: dict(tries) for serial, tries in held} for held in found[:2])
    room.doubtful, room.logs, room.bytes = dict.fromkeys(found[2]), *found[3:]
    return room


def begun(kind, files):
    """The LogRoom of a desk that begins over files."""
    room = kind(MOST_LOGS, MOST_BYTES)
    for log, size in files:
        room.stored(log, size)
    return room


def steps(world, kind):
    yield world._replace(room=frozen(begun(kind, world.files)), heard=tuple(
        dict.fromkeys(log.serial for log, _ in reversed(world.files)))[::-1])
    if world.changes < MOST_CHANGES:
        for serial in SERIALS:
            for status in NEXT[world.statuses[serial - 1][-1]]:
                found = list(world.statuses)
                found[serial - 1] += status
                room = thawed(kind, world.room)
                room.changed(serial)
                yield world._replace(statuses=tuple(found), room=frozen(room), changes=world.changes + 1,
                                     heard=world.news(serial))
    if world.puts < MOST_PUTS:
        for serial in SERIALS:
            if world.standing(serial) is not Standing.NEVER:
                for attempt in TRIES[serial]:
                    for size in SIZES:
                        for is_level in (True, False):
                            yield from puts(world, kind, Log(serial, attempt), size, is_level)


def puts(world, kind, log, size, is_level):
    """A log comes, and the desk is killed after each step of storing it, or isn't. `is_level`: it finds out before what
    is over."""
    room, files = thawed(kind, world.room), list(world.files)
    if is_level:
        for one in [*room.doubtful]:
            room.noted(one, world.standing(one))
    before = world._replace(puts=world.puts + 1)
    try:
        gone = room.gives_way(*log, size)
    except NoRoom:
        stay = [held for one, held in files if (one.attempt < log.attempt if one.serial == log.serial else
                                                world.standing(one.serial) is not Standing.OVER)]
        if is_level and len(stay) < MOST_LOGS and sum(stay) + size <= MOST_BYTES:
            raise InvariantViolated("a log is refused though others could give way") from None
        yield before._replace(room=frozen(room))
        return
    others = list(dict.fromkeys(one.serial for one in gone if one.serial != log.serial))
    over = [one for one in world.heard if one != log.serial and world.standing(one) is Standing.OVER
            and any(one == each.serial for each, _ in files)]
    if any(world.standing(one) is not Standing.OVER for one in others):
        raise InvariantViolated("a log gives way whose occurrence isn't over")
    if is_level and others != over[: len(others)]:
        raise InvariantViolated("another occurrence would have had to give way first")
    if {one.serial for one, _ in files if one not in gone} & set(others):
        raise InvariantViolated("a part of an occurrence's logs gives way")
    for one in gone:
        if one != log:
            files = [(each, held) for each, held in files if each != one]
            room.removed(one)
            yield before._replace(files=tuple(files), room=frozen(begun(kind, files)), heard=heard_of(files))
    files = [(each, held) for each, held in files if each != log] + [(log, size)]
    room.stored(log, size)
    yield before._replace(files=tuple(files), room=frozen(room), heard=world.news(log.serial))


def heard_of(files):
    """What a desk that begins knows of the order: when files were written."""
    return tuple(dict.fromkeys(log.serial for log, _ in reversed(files)))[::-1]


def check(world):
    """Asks what has to hold in each state."""
    sizes = dict(world.files)
    if len(sizes) > MOST_LOGS or sum(sizes.values()) > MOST_BYTES:
        raise InvariantViolated("there are more logs, or more bytes, than may be")
    if any(world.standing(log.serial) is Standing.NEVER for log in sizes):
        raise InvariantViolated("a log is of an occurrence that was never started")
    known = {Log(serial, attempt): size for held in world.room[:2] for serial, tries in held for attempt, size in tries}
    if known != sizes or world.room[3:] != (len(sizes), sum(sizes.values())):
        raise InvariantViolated("the desk knows of other logs than there are")


def explored(kind=LogRoom):
    """How many states the world has."""
    first = World(FIRST, (), (), 0, 0, frozen(kind(MOST_LOGS, MOST_BYTES)))
    seen, left = {first}, deque([first])
    while left:
        for one in steps(left.popleft(), kind):
            if one not in seen:
                check(one)
                seen.add(one)
                left.append(one)
    return len(seen)


class NothingChanges(LogRoom):
    """What was over stays over."""

    def changed(self, serial):
        if serial not in self.over:
            super().changed(serial)


class OnlyBytes(LogRoom):
    """How many logs there are doesn't count."""

    def fits(self, logs, freed, size):
        return self.bytes - freed + size <= self.most_bytes


class OldNotCounted(LogRoom):
    """What is replaced is counted as if it were there."""

    def removed(self, log):
        before = self.bytes
        super().removed(log)
        self.bytes = before


class FailedIsOver(LogRoom):
    """An occurrence in error gives way too."""

    def noted(self, serial, standing):
        super().noted(serial, Standing.OVER)


class LastFirst(LogRoom):
    """What was over last gives way first."""

    def gives_way(self, serial, attempt, size):
        self.over = dict(reversed(self.over.items()))
        return super().gives_way(serial, attempt, size)


class OneTry(LogRoom):
    """Of an occurrence with two logs one gives way."""

    def gives_way(self, serial, attempt, size):
        found = copy.copy(self)
        found.over = {other: dict(list(tries.items())[:1]) for other, tries in self.over.items()}
        return LogRoom.gives_way(found, serial, attempt, size)


class Worlds(unittest.TestCase):
    def test_every_interleaving_of_a_small_world(self):
        count = explored()
        print(f"{count:,} states")
        self.assertGreater(count, 3_000)

    def test_what_lacks_a_rule_is_caught(self):
        for mutant, wanted in (
            (NothingChanges, "a log gives way whose occurrence isn't over"), (OnlyBytes, "there are more logs"),
            (OldNotCounted, "the desk knows of other logs"),
            (FailedIsOver, "a log gives way whose occurrence isn't over"),
            (LastFirst, "another occurrence would have had to give way first"),
            (OneTry, "a log is refused though others could give way"),
        ):
            with self.subTest(mutant.__name__), self.assertRaises(InvariantViolated) as caught:
                explored(mutant)
            self.assertIn(wanted, str(caught.exception))


class Standings(unittest.TestCase):
    def test_by_the_statuses_that_an_occurrence_got(self):
        for statuses, wanted in (("", "NEVER"), ("W", "NEVER"), ("WD", "NEVER"), ("S", "OPEN"), ("SE", "OPEN"),
                                 ("SEW", "OPEN"), ("SC", "OVER"), ("SED", "OVER"), ("C", "OVER"), ("SCW", "OPEN"),
                                 ("SCWS", "OPEN")):
            self.assertEqual(standing_of(statuses).name, wanted, statuses)


if __name__ == "__main__":
    unittest.main()
