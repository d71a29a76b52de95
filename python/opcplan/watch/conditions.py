"""What the rules of a watch find in what it has seen: a rule chooses kinds of needs (`opcplan.needs`). No I/O.

The needs of a plan are those that its desk lists. A watch itself finds desks, agents and nodes of etcd that don't
answer, because it may know several desks, and disks of its own machine."""

import fnmatch
from collections.abc import Iterable, Iterator, Mapping, Sequence
from typing import Any, NamedTuple

from opcplan.needs import machines, need
from opcplan.needs.facts import Away, Disk
from opcplan.needs.need import KINDS, Need
from opcplan.plans import actual
from opcplan.rules import moments
from opcplan.watch.rulebook import Rule
from opcplan.watch.sightings import Sightings
from opcplan.watch.state import Found, Looked

# the kinds that a watch finds itself
OWN = ("desk", "agent", "etcd")
# a chain is first at risk and then late, under one name
CHAINS = ("risk", "late")


class Seen(NamedTuple):
    """What a watch saw: a desk's answer to `GET /status` (None if no desk answered), who answered when, and by path how
    much of a disk is used, in percent, or why that isn't known."""

    status: Mapping[str, Any] | None
    sightings: Sightings
    disks: Mapping[str, float | str]


def looked(rule: Rule, seen: Seen, now: float, known: Iterable[str] = ()) -> Looked | None:
    """What a rule finds at a moment, in seconds since 1970, with the keys of events that are known; None if nothing
    that it is about can be seen."""
    found = [*own(rule, seen, now)]
    if rule.path:
        return Looked(tuple(found))
    if seen.status is None:
        return Looked(tuple(found), rule.kinds == ("desk",)) if "desk" in rule.kinds else None
    listed = needs_of(seen.status)
    found += [one for one in (of_need(rule, each, seen.status) for each in listed if each.kind not in OWN) if one]
    found += shared_agents(rule, listed, found)
    kept = frozenset(key for key in known if is_counted(name_of(rule, key), seen.status, listed))
    return Looked(tuple(found), bool(seen.status["is_whole"]), kept)


def needs_of(status: Mapping[str, Any]) -> Sequence[Need]:
    """The needs that a desk lists. Raises KeyError, TypeError and ValueError."""
    return [need.of_values(one) for one in status["needs"]]


def of_plan(looked: Looked | None, plan: str) -> Looked | None:
    """What a rule found, with the name of the plan in what to do first."""
    if looked is None:
        return None
    return looked._replace(found=tuple(one._replace(first=one.first.replace("{plan}", plan)) for one in looked.found))


def matches(name: str, patterns: tuple[str, ...]) -> bool:
    """Whether a name matches one of some patterns."""
    return any(fnmatch.fnmatchcase(name, one) for one in patterns)


def key_of(rule: Rule, one: Need) -> str:
    """The key of the event that a need is to a rule: the name of the need, after that of the rule unless the rule is
    named by its kind."""
    return one.name if one.name.startswith(f"{rule.name}:") else f"{rule.name}:{one.name}"


def name_of(rule: Rule, key: str) -> str:
    """The name of the need whose event has a key."""
    rest = key.removeprefix(f"{rule.name}:")
    return rest if rest.partition(":")[0] in KINDS else key


def found_of(rule: Rule, one: Need, level: int, opens: bool = True) -> Found:
    """What a need is to a rule."""
    return Found(key_of(rule, one), level, one.text, opens, one.advice)


# What a desk lists.


def of_need(rule: Rule, one: Need, status: Mapping[str, Any]) -> Found | None:
    """What a need is to a rule, None if it is nothing to it."""
    is_chain = one.kind in CHAINS and any(kind in rule.kinds for kind in CHAINS)
    if not is_chain and one.kind not in rule.kinds or one.apps and not any(matches(app, rule.apps) for app in one.apps):
        return None
    opens = one.kind in rule.kinds and is_due(rule, one, status)
    is_only_risk = one.kind == "late" and "late" not in rule.kinds
    return found_of(rule, one, min(one.level, 1) if is_only_risk else one.level, opens)


def is_due(rule: Rule, one: Need, status: Mapping[str, Any]) -> bool:
    """Whether a need has lasted for the minutes of a rule, and is about an end within its hours or days."""
    now = need.moment_of(status["now"])
    # a clock that was set back says nothing of how long a need has lasted, so it is called at once
    if one.since is not None and 0 <= now - one.since < rule.minutes_of(one.kind):
        return False
    if one.kind in ("plan-end", "roll") and rule.hours and status["plan_end"]:
        return need.moment_of(status["plan_end"]) - now <= rule.hours * 60
    if one.kind in ("definitions", "long-term-end") and rule.days:
        day = moments.day_of(one.name.rpartition(":")[2])
        return day is None or day - now // moments.DAY <= rule.days
    return True


def is_counted(name: str, status: Mapping[str, Any], listed: Sequence[Need]) -> bool:
    """Whether a need that isn't listed is counted by one that is: a chain may become part of another one, and the need
    of an agent that is gone counts what that agent should start or report."""
    kind, _, about = name.partition(":")
    serial = about.partition(":")[0]
    counts = str(status["followers"].get(serial, ""))
    if kind == "late":
        return bool(counts) or any(one.kind in CHAINS and str(one.serial) == serial for one in listed)
    return kind in ("error", "unstarted", "unknown") and counts.startswith("agent:")


# What a watch finds itself.


def own(rule: Rule, seen: Seen, now: float) -> Iterator[Found]:
    """The desks, agents, nodes of etcd and disks that a rule finds."""
    sightings, status = seen.sightings, seen.status
    listed = {} if status is None else {one.name: one for one in needs_of(status) if one.kind == "agent"}
    last = {"desk": sightings.desks}
    if status is not None:
        last |= {"agent": sightings.agents, "etcd": sightings.members}
    for kind in (kind for kind in OWN if kind in rule.kinds and kind in last):
        for name, at in sorted(last[kind].items()):
            minutes, unit = (now - at) / 60, rule.minutes_of(kind)
            if minutes >= unit and now > at and (kind != "agent" or matches(name, rule.names)):
                one = machines.of_away(kind, Away(name, actual.moment(at), sightings.why.get(name, "")), minutes, unit)
                yield found_of(rule, listed.get(one.name, one), one.level)
    if rule.path:
        for one in machines.of_disk(Disk(rule.path, seen.disks[rule.path]), rule.percent):
            yield found_of(rule, one, one.level)


def shared_agents(rule: Rule, listed: Sequence[Need], found: Sequence[Found]) -> Iterator[Found]:
    """The agents that share a user, which only a desk tells apart."""
    keys = {one.key for one in found}
    for one in listed:
        name = one.name.partition(":")[2]
        if one.kind == "agent" and "agent" in rule.kinds and "/" in name and matches(name, rule.names) \
                and key_of(rule, one) not in keys:
            yield found_of(rule, one, one.level)
