"""What a desk sees of a shared log, in every interleaving of small worlds: others append, news of the head is lost or
late, answers of etcd come after later ones, the journal can't be written, and the log is trimmed or gone.

Each state of a world is met once. What lacks one of the rules of `opcplan.desk.log_view` has to be caught: the
mutants."""

import unittest
from typing import NamedTuple

from support import exploration
from support.exploration import InvariantViolated

from opcplan.desk.log import LogAdvanced
from opcplan.desk.log_entries import Head
from opcplan.desk.log_view import LogView
from opcplan.plans.entry import Entry

MOST_STATES = 100_000  # of all worlds together
ENTRIES = [Entry(seq, "2024-01-01T00:00:00.000Z", "me", None, seq, b"") for seq in range(1, 9)]
OLD, NEW = "v1", "v2"


class Kind(NamedTuple):
    """How often what may happen may happen, and what the desk runs."""

    others: int = 2  # entries that others append
    own: int = 1  # entries that the desk appends
    lost_news: int = 0
    lost_answers: int = 0  # to reads and to appends
    full: int = 0  # the journal can't be written
    trims: int = 0
    moves: int = 0  # of the log to another version
    resets: int = 0  # etcd loses its last entry
    view: type = LogView


class Asked(NamedTuple):
    """A request to etcd, made when the plan had entry `least`, after a head; and etcd's answer, or None."""

    least: int
    head: int
    answer: tuple | None = None


class World(NamedTuple):
    """A state of the log and of one desk: `given`, `head`, `moves`, `versions`, `has_news` and `lost` are those of its
    view."""

    left: Kind
    last: int = 0
    first: int = 1
    moved: int = 0  # the entry from which on the log says another version, or 0
    given: int = 0
    head: Head = Head(0, 0)
    moves: int = 0
    versions: tuple = ((1, OLD),)
    has_news: bool = False
    lost: str = ""
    news: tuple = ()  # heads on their way to the desk
    reading: Asked | None = None
    appending: Asked | None = None
    polling: Asked | None = None
    was_reset: bool = False

    @property
    def now(self):
        """The head of the log."""
        return Head(self.last, int(bool(self.moved)))

    def spent(self, name):
        """The same after something happened once more."""
        return self._replace(left=self.left._replace(**{name: getattr(self.left, name) - 1}))

    def view(self):
        """The desk's view."""
        found = self.left.view("plan.db", self.given, self.head, dict(self.versions), OLD)
        found.moves, found.has_news, found.lost = self.moves, self.has_news, self.lost
        return found

    def seen(self, view):
        """The same after the view has changed."""
        return self._replace(given=view.given, head=view.head, moves=view.moves, has_news=view.has_news,
                             lost=view.lost, versions=tuple(view.versions.items()))


def steps(world):
    """Each state that may come next, with what happens."""
    yield from steps_of_etcd(world)
    yield from steps_of_reads(world)
    yield from steps_of_appends(world)
    yield from steps_of_news(world)


def steps_of_etcd(world):
    if world.left.others and not world.was_reset:
        yield "somebody appends", told(world.spent("others")._replace(last=world.last + 1))
    if world.left.trims and world.first < world.last:
        yield "the log is trimmed", world.spent("trims")._replace(first=world.last)
    if world.left.moves:
        yield "the log is moved", told(world.spent("moves")._replace(moved=world.last + 1))
    if world.left.resets and world.last:
        yield "etcd loses an entry", world.spent("resets")._replace(last=world.last - 1, was_reset=True, news=())


def told(world):
    """News of the head is on its way."""
    return world._replace(news=(*world.news[-1:], world.now))


def steps_of_reads(world):
    busy = world.reading or world.appending
    if not busy and world.has_news and not world.lost:
        yield "the desk reads", world._replace(reading=Asked(world.given, world.given))
    elif world.reading and world.reading.answer is None:
        begin = max(world.first, world.reading.head)  # a batch may begin before the next entry
        entries = tuple(ENTRIES[max(begin, 1) - 1 : min(world.last, begin + 1)])
        yield "etcd answers the read", world._replace(reading=world.reading._replace(answer=(world.now, entries)))
        if world.left.lost_answers:
            yield "the read gets no answer", world.spent("lost_answers")._replace(reading=None)
    elif world.reading:
        yield from hears(world)


def hears(world):
    """The desk hears the answer to a read, and stores what it takes."""
    view, (head, entries) = world.view(), world.reading.answer
    if head.moves != view.moves:
        view.knows({1: OLD, world.moved: NEW}, head.moves)
    taken = view.read(head, entries, world.reading.least)
    numbers = [one.seq for one in taken]
    if numbers != list(range(world.given + 1, world.given + 1 + len(numbers))):
        raise InvariantViolated(f"the desk takes entries {numbers} after entry {world.given}")
    found = world.seen(view)._replace(reading=None)
    if taken and world.left.full:
        yield "the journal can't be written", found.spent("full")
    if taken:
        if world.moved and numbers[-1] >= world.moved:
            raise InvariantViolated(f"the desk takes entry {numbers[-1]} of another version")
        view.kept(numbers[-1])
    yield f"the desk takes {numbers}", found.seen(view)


def steps_of_appends(world):
    busy = world.reading or world.appending
    if not busy and world.left.own and not world.lost and not world.view().held:
        try:
            world.view().check_level()
        except LogAdvanced:
            return
        yield "the desk appends", world.spent("own")._replace(appending=Asked(world.given, world.head.last))
    elif world.appending and world.appending.answer is None:
        yield from appended(world, world.appending)
    elif world.appending:
        (is_done, head), view = world.appending.answer, world.view()
        found = world._replace(appending=None)
        if not is_done:
            view.refused(head)
            yield "the append was refused", found.seen(view)
            return
        if world.left.full:
            view.unkept()
            yield "the journal can't have the append", found.spent("full").seen(view)
        view = world.view()
        view.kept(world.appending.head + 1)
        view.notice(Head(world.appending.head + 1, world.head.moves))
        yield "the append was done", found.seen(view)


def appended(world, asked):
    """Etcd gets an append: it is done if the head is as the desk knows it."""
    if world.now == Head(asked.head, world.head.moves):
        if world.given != world.last:
            raise InvariantViolated(f"entry {world.last + 1} is appended by a desk that has {world.given}")
        after = told(world._replace(last=world.last + 1))
        yield "etcd appends", after._replace(appending=asked._replace(answer=(True, after.now)))
        if world.left.lost_answers:
            yield "the append is done, and gets no answer", after.spent("lost_answers")._replace(appending=None)
    else:
        yield "etcd refuses", world._replace(appending=asked._replace(answer=(False, world.now)))


def steps_of_news(world):
    for place, head in enumerate(world.news):
        view = world.view()
        view.notice(head)
        yield f"the desk hears of {head.last}", world.seen(view)._replace(
            news=world.news[:place] + world.news[place + 1 :])
        if world.left.lost_news:
            yield "news is lost", world.spent("lost_news")._replace(news=world.news[:place] + world.news[place + 1 :])
    if world.polling is None and world.head != world.now:
        yield "the desk asks for the head", world._replace(polling=Asked(world.given, 0))
    elif world.polling and world.polling.answer is None:
        yield "etcd gives the head", world._replace(polling=world.polling._replace(answer=(world.now,)))
    elif world.polling:
        view = world.view()
        view.notice(world.polling.answer[0], world.polling.least)
        yield "the desk hears the head", world.seen(view)._replace(polling=None)


def check(world):
    """Asks all that has to hold of a state. Raises InvariantViolated."""
    if world.lost and not world.was_reset and world.given + 1 >= world.first:
        raise InvariantViolated(f"the desk has entry {world.given} and says: {world.lost}")
    if world.reading or world.appending or world.polling or world.news or world.lost or world.head != world.now:
        return
    if world.has_news or world.given == world.last or world.was_reset:
        return
    if not (world.moved and world.given + 1 >= world.moved):
        raise InvariantViolated(f"the desk has entry {world.given} of {world.last}, and doesn't read")


def explored(kind):
    """How many states a world has. Raises InvariantViolated, with how it comes to that."""
    return exploration.explored(World(kind), steps, check)


WORLDS = {
    "two desks append": Kind(),
    "news is lost": Kind(lost_news=2),
    "answers are lost": Kind(own=2, others=1, lost_answers=2),
    "a full journal": Kind(full=2, own=2),
    "a trim": Kind(trims=1, lost_news=1),
    "another version": Kind(moves=1),
    "etcd is restored": Kind(resets=1),
}


class LeastIsLate(LogView):
    """An answer is compared with what the plan has when it comes."""

    def notice(self, head, least=0):
        return super().notice(head, self.given if least else 0)

    def read(self, head, entries, least):
        return super().read(head, entries, self.given)


class NewsEnds(LogView):
    """Once a read has nothing more, nothing more is there, whatever was heard meanwhile."""

    def read(self, head, entries, least):
        found = super().read(head, entries, least)
        self.has_news = bool(found)
        return found


class GapsPass(LogView):
    """What is left of the log follows on what the plan has."""

    def read(self, head, entries, least):
        self.notice(head, least)
        return [one for one in entries if one.seq > self.given]


class NotLevel(LogView):
    """A desk appends after an entry of which it heard."""

    def check_level(self):
        pass


class TakesAll(LogView):
    """A desk takes entries of any version."""

    def read(self, head, entries, least):
        super().read(head, entries, least)
        return [one for one in entries if one.seq > self.given]


class States(unittest.TestCase):
    def test_every_interleaving_of_small_worlds(self):
        total = 0
        for name, kind in WORLDS.items():
            count = explored(kind)
            self.assertGreater(count, 100, name)
            print(f"{name}: {count:,} states")
            total += count
        print(f"{total:,} states of {len(WORLDS)} worlds")
        self.assertLess(total, MOST_STATES)


class Mutants(unittest.TestCase):
    """Desks that lack a rule are caught."""

    def caught(self, view, name, shows):
        with self.assertRaises(InvariantViolated) as caught:
            explored(WORLDS[name]._replace(view=view))
        self.assertIn(shows, str(caught.exception).split("\n", 1)[0])

    def test_views_that_lack_a_rule(self):
        self.caught(LeastIsLate, "two desks append", "etcd's data were changed")
        self.caught(NewsEnds, "two desks append", "and doesn't read")
        self.caught(GapsPass, "a trim", "the desk takes entries")
        self.caught(NotLevel, "two desks append", "is appended by a desk that has")
        self.caught(TakesAll, "another version", "of another version")


if __name__ == "__main__":
    unittest.main()
