"""What a watch knows and decides, without I/O: looks go in, and calls come out, at most one for each target at a time.
There is no clock here, no file and no network. Moments that are printed are in seconds since 1970; how long something
waits is counted by a steady clock, which nobody sets.

What always holds if the caller stores the state before it begins a call and after it knows how the call ended
(tests/test_watch_states.py checks it in each state of small worlds, with a stop between any two steps):

- Each target hears of each event that was noted for it. The last that it hears is how the event is: there, worse, or
  over.
- A target hears of one event once, again only when it got worse, and once more when it is over.
- A call is delivered twice, under one id, only if its answer was lost, or if the watch stopped between the call and its
  note. It is never lost: a call that isn't known to be delivered is sent again, without end.
- What can't be looked at is neither new nor over.
- An event goes on to those after a target if the target hasn't heard of it in its time, or has to acknowledge it and
  didn't; not once it is over, and not once somebody acknowledged it. From then on they hear of it like any target."""

import dataclasses
import itertools
import secrets
from collections.abc import Collection, Iterable, Mapping, Sequence
from typing import Any, NamedTuple

from opcplan.errors import Unreadable
from opcplan.plans.waits import length_text

NEW, WORSE, OVER = "new", "worse", "over"
# the most mentions in one call
MOST_TOGETHER = 50
# seconds until a target is tried again: after the first failure, and at most
SHORTEST_PAUSE, LONGEST_PAUSE = 10.0, 600.0
VERSION = 2
# an event as it was at one time: its key, and since when it is there
Name = tuple[str, float]


class Found(NamedTuple):
    """Something that a rule found: the key of its event, how bad it is, and a sentence. If `opens` is false, it counts
    only for an event that is there already. `first` says what to do first."""

    key: str
    level: int
    text: str
    opens: bool = True
    first: str = ""


class Looked(NamedTuple):
    """What a rule found. If `is_whole` is false, there may be more than it lists. `kept` has the keys of events that
    aren't over, although they aren't listed: something that is listed counts them."""

    found: tuple[Found, ...]
    is_whole: bool = True
    kept: frozenset[str] = frozenset()


class Route(NamedTuple):
    """Who is called after a target, after how many seconds in which the target didn't hear of something; and whether
    hearing is enough, or it has to acknowledge."""

    then: tuple[str, ...] = ()
    seconds: float = 600.0
    acknowledge: bool = False


@dataclasses.dataclass(frozen=True)
class Event:
    """An event: its rule, how bad it was at worst, a sentence, since when, in seconds since 1970, and what to do first;
    whom it is noted for, who heard of it, and whether somebody acknowledged it as it is."""

    rule: str
    level: int
    text: str
    since: float
    first: str = ""
    to: tuple[str, ...] = ()
    heard: tuple[str, ...] = ()
    is_acknowledged: bool = False


class Mention(NamedTuple):
    """News of an event for a target: its kind (NEW, WORSE or OVER), how bad the event is, a sentence, since when it is
    there, and when this was found, in seconds since 1970; and what to do first."""

    key: str
    rule: str
    kind: str
    level: int
    text: str
    since: float
    at: float
    first: str = ""

    @property
    def name(self) -> Name:
        """The name of its event."""
        return self.key, self.since


class Call(NamedTuple):
    """What is sent to a target at once: mentions of one rule and one kind. It keeps its id when it is sent again."""

    id: str
    target: str
    mentions: tuple[Mention, ...]

    @property
    def rule(self) -> str:
        """The name of the rule."""
        return self.mentions[0].rule

    @property
    def kind(self) -> str:
        """NEW, WORSE or OVER."""
        return self.mentions[0].kind


class Undelivered(NamedTuple):
    """What a target hasn't heard: the id of the call that is tried (empty if none is formed yet), for how many seconds,
    after how many tries that failed, why the last one failed, and the sentences. `unheard_seconds` says for how long
    the oldest of it has been heard by nobody at all, None if each was heard by somebody. `at` is when the first of it
    was found, in seconds since 1970."""

    id: str
    target: str
    seconds: float
    tries: int
    why: str
    texts: tuple[str, ...]
    unheard_seconds: float | None
    at: float


class InvalidState(Unreadable):
    """Why a stored state can't be read."""


class State:
    """The state of a watch. `is_changed` says that it has to be stored again."""

    def __init__(self) -> None:
        self.life, self.count = secrets.token_hex(6), 0
        self.events: dict[str, Event] = {}
        self.pending: dict[str, dict[Name, Mention]] = {}  # by target, in their order
        self.calls: dict[str, Call] = {}  # by target: the call that may have been sent, and isn't known to be delivered
        self.asked: dict[str, tuple[Name, ...]] = {}  # by the id of a call that was delivered, its events
        self.waits: dict[str, dict[Name, float]] = {}  # by target: for how many seconds it hasn't heard of something
        self.owed: dict[str, dict[Name, float]] = {}  # and for how many it hasn't done all that it has to
        self.tries: dict[str, tuple[int, str]] = {}  # by target: how often its call was tried in vain, and why the last
        # what isn't stored
        self.routes: dict[str, Route] = {}
        self.in_flight: set[str] = set()
        self.fails: dict[str, int] = {}  # by target: how often its call was tried in vain by this watch
        self.rests: dict[str, float] = {}  # a target isn't tried before this moment of the steady clock
        self.at: float | None = None  # the last moment of the steady clock
        self.is_changed = False

    # What is looked at.

    def settle(self, rules: Mapping[str, Sequence[str]], routes: Mapping[str, Route]) -> None:
        """Takes the rules with the targets of each, and the routes of all targets, and drops what belongs to no rule or
        target any more."""
        self.routes = dict(routes)
        self.events = {key: dataclasses.replace(one, to=tuple(name for name in one.to if name in routes))
                       for key, one in self.events.items() if one.rule in rules}
        self.pending = {target: mentions for target, mentions in self.pending.items() if target in routes}
        self.calls = {target: call for target, call in self.calls.items() if target in routes}
        self.tries = {target: one for target, one in self.tries.items() if target in routes}

    def take(self, now: float, rule: str, targets: Sequence[str], looked: Looked | None) -> None:
        """Takes what a rule found at a moment, None if what it is about couldn't be seen."""
        if looked is None:
            return
        for one in looked.found:
            known = self.events.get(one.key)
            if known is not None and one.level > known.level:
                worse = dataclasses.replace(known, level=one.level, text=one.text, first=one.first,
                                            is_acknowledged=False)
                self.note(one.key, worse, WORSE, now, known.to)
            if known is not None and (others := [target for target in targets if target not in known.to]):
                self.note(one.key, self.events[one.key], NEW, now, others)  # other rules than before
        for one in looked.found:
            if one.key not in self.events and one.opens:
                self.note(one.key, Event(rule, one.level, one.text, now, one.first), NEW, now, targets)
        left = {one.key for one in looked.found} | looked.kept
        for key in [key for key, one in self.events.items() if one.rule == rule and key not in left]:
            if looked.is_whole:
                self.note(key, self.events[key], OVER, now, self.events[key].to)
                del self.events[key]

    def note(self, key: str, event: Event, kind: str, now: float, targets: Iterable[str], more: str = "") -> None:
        """Notes that an event is there, got worse, or is over, for each target, with `more` behind its sentence. It
        replaces what a target hasn't heard yet."""
        targets = tuple(targets)
        self.events[key] = dataclasses.replace(event, to=tuple(dict.fromkeys((*event.to, *targets))))
        for target in targets:
            pending = self.pending.setdefault(target, {})
            before = pending.pop((key, event.since), None)
            is_unheard = before is not None and before.kind == NEW and kind == WORSE
            news = NEW if is_unheard else kind
            pending[key, event.since] = Mention(key, event.rule, news, event.level, f"{event.text}{more}", event.since,
                                                now, event.first)
        self.is_changed = True

    # Who is called.

    def due(self, steady: float) -> list[Call]:
        """The calls that are due at a moment of the steady clock, one for each target that isn't being called. The
        caller stores the state before it begins them."""
        found = []
        for target in sorted(self.calls.keys() | self.pending.keys()):
            if target not in self.in_flight and self.rests.get(target, steady) <= steady:
                if target not in self.calls and self.pending.get(target):
                    self.calls[target] = self.formed(target)
                if target in self.calls:
                    found.append(self.calls[target])
        return found

    def formed(self, target: str) -> Call:
        """The next call of a target: its first mention, and those after it of the same rule and kind. Mentions stay in
        their order, because the last one of an event says how it is."""
        pending = self.pending[target]
        first = next(iter(pending.values()))
        alike = itertools.takewhile(lambda one: (one.rule, one.kind) == (first.rule, first.kind), pending.values())
        found = list(itertools.islice(alike, MOST_TOGETHER))
        for one in found:
            del pending[one.name]
        self.count += 1
        self.is_changed = True
        return Call(f"{self.life}-{self.count}", target, tuple(found))

    def begun(self, target: str) -> None:
        """Notes that the call of a target is being made."""
        self.in_flight.add(target)

    def sent(self, target: str) -> None:
        """Notes that the call of a target was delivered."""
        self.in_flight.discard(target)
        call = self.calls.pop(target)
        for one in call.mentions:
            event = self.open(one.name)
            if event is not None and target not in event.heard:
                self.events[one.key] = dataclasses.replace(event, heard=(*event.heard, target))
        self.asked[call.id] = tuple(one.name for one in call.mentions)
        self.asked = {name: events for name, events in self.asked.items() if any(map(self.open, events))}
        self.fails.pop(target, None)
        self.tries.pop(target, None)
        self.rests.pop(target, None)
        self.is_changed = True

    def failed(self, target: str, steady: float, why: str = "") -> None:
        """Notes that the call of a target isn't known to be delivered, at the moment at which it ended. It is sent
        again, after a pause that grows."""
        self.in_flight.discard(target)
        self.fails[target] = self.fails.get(target, 0) + 1
        self.tries[target] = self.tries.get(target, (0, ""))[0] + 1, why
        self.rests[target] = steady + pause_of(self.fails[target])

    def next_try(self) -> float | None:
        """When the next call is due by the steady clock, or None if none waits that isn't being made."""
        waiting = {*self.calls, *(target for target, mentions in self.pending.items() if mentions)} - self.in_flight
        return min((self.rests.get(target, 0.0) for target in waiting), default=None)

    # Who else is called.

    def tick(self, now: float, steady: float) -> None:
        """Takes how late it is by the steady clock. What a target hasn't heard or acknowledged in its time goes on to
        those after it."""
        passed, self.at = 0.0 if self.at is None else max(0.0, steady - self.at), steady
        for target, route in self.routes.items():
            unheard = self.unheard(target)
            self.waits[target] = aged(self.waits.get(target, {}), unheard, passed)
            names = [(key, event.since) for key, event in self.events.items() if target in event.to
                     and not event.is_acknowledged and (route.acknowledge or (key, event.since) in unheard)]
            self.owed[target] = aged(self.owed.get(target, {}), names, passed)
            for name, seconds in self.owed[target].items():
                if seconds >= route.seconds:
                    self.pass_on(name, target, now)

    def pass_on(self, name: Name, target: str, now: float) -> None:
        """Notes an event for those after a target who don't hear of it yet."""
        event, route = self.events[name[0]], self.routes[target]
        others = [other for other in route.then if other not in event.to]
        how = "wasn't reached" if name in self.unheard(target) else "hasn't acknowledged it"
        if others:
            self.note(name[0], event, NEW, now, others, f"; {target} {how} in {length_text(int(route.seconds / 60))}")

    def unheard(self, target: str) -> list[Name]:
        """The events of which a target hasn't heard how they are."""
        call = self.calls.get(target)
        return [*(one.name for one in (call.mentions if call else ())), *self.pending.get(target, {})]

    def open(self, name: Name) -> Event | None:
        """The event of a name, None if it is over."""
        event = self.events.get(name[0])
        return event if event is not None and event.since == name[1] else None

    def acknowledge(self, call: str) -> bool:
        """Notes that somebody acknowledged the call of an id: its events go on to nobody until they get worse. False if
        none of them is there any more, or there is no such call."""
        known = self.asked | {one.id: tuple(mention.name for mention in one.mentions) for one in self.calls.values()}
        names = [name for name in known.get(call, ()) if self.open(name)]
        for name in names:
            self.events[name[0]] = dataclasses.replace(self.events[name[0]], is_acknowledged=True)
            for owed in self.owed.values():
                owed.pop(name, None)
        self.is_changed = self.is_changed or bool(names)
        return bool(names)

    def undelivered(self) -> list[Undelivered]:
        """What targets haven't heard, since the last tick."""
        found = []
        for target, waits in sorted(self.waits.items()):
            call = self.calls.get(target)
            mentions = [*(call.mentions if call else ()), *self.pending.get(target, {}).values()]
            if not waits or not mentions:
                continue
            events = {name: self.open(name) for name in waits}
            alone = [waits[name] for name, event in events.items() if event is not None and not event.heard]
            tries, why = self.tries.get(target, (0, ""))
            found.append(Undelivered(
                call.id if call else "", target, max(waits.values()), tries, why, tuple(one.text for one in mentions),
                max(alone, default=None), min(one.at for one in mentions)))
        return found

    # What is kept.

    def kept(self) -> dict[str, Any]:
        """All that has to be stored, as JSON has it."""
        return {
            "version": VERSION, "life": self.life, "count": self.count,
            "events": {key: dataclasses.asdict(one) for key, one in self.events.items()},
            "pending": {target: list(mentions.values()) for target, mentions in self.pending.items()},
            "calls": {target: [call.id, call.mentions] for target, call in self.calls.items()},
            "asked": self.asked, "tries": self.tries,
            "waits": kept_ages(self.waits), "owed": kept_ages(self.owed),
        }


def pause_of(fails: int) -> float:
    """The seconds until a target is tried again after so many failures."""
    return min(SHORTEST_PAUSE * 2.0 ** min(fails - 1, 20), LONGEST_PAUSE)


def aged(before: Mapping[Name, float], names: Collection[Name], passed: float) -> dict[Name, float]:
    """For how many seconds each of some events has been there, if it is so many seconds after `before`."""
    return {name: before[name] + passed if name in before else 0.0 for name in names}


def kept_ages(ages: Mapping[str, Mapping[Name, float]]) -> dict[str, list[list[Any]]]:
    """Ages as JSON has them."""
    return {target: [[*name, age] for name, age in found.items()] for target, found in ages.items() if found}


def of_kept(kept: Any) -> State:
    """The State that was stored so. Raises InvalidState."""
    found = State()
    try:
        if kept["version"] != VERSION:
            raise InvalidState(f"it was stored in another form, version {kept['version']}")
        found.life, found.count = str(kept["life"]), int(kept["count"])
        found.events = {key: event_of(one) for key, one in kept["events"].items()}
        for target, mentions in kept["pending"].items():
            found.pending[target] = {one.name: one for one in map(mention_of, mentions)}
        for target, (name, mentions) in kept["calls"].items():
            found.calls[target] = Call(str(name), target, tuple(map(mention_of, mentions)))
        for name, events in kept["asked"].items():
            found.asked[name] = tuple((str(key), float(since)) for key, since in events)
        for target, (count, why) in kept.get("tries", {}).items():
            found.tries[target] = int(count), str(why)
        for ages, part in ((found.waits, kept["waits"]), (found.owed, kept["owed"])):
            for target, listed in part.items():
                ages[target] = {(str(key), float(since)): float(age) for key, since, age in listed}
    except (KeyError, TypeError, ValueError, AttributeError):
        raise InvalidState("this isn't the state of a watch") from None
    return found


def event_of(fields: Mapping[str, Any]) -> Event:
    """The Event that was stored so. Raises ValueError and TypeError."""
    found = Event(**fields)
    return dataclasses.replace(found, to=tuple(map(str, found.to)), heard=tuple(map(str, found.heard)))


def mention_of(fields: Sequence[Any]) -> Mention:
    """The Mention that was stored so. Raises ValueError and TypeError."""
    key, rule, kind, level, text, since, at, first = fields
    return Mention(str(key), str(rule), str(kind), int(level), str(text), float(since), float(at), str(first))
