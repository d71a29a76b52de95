"""What of desks, agents, nodes of etcd, disks and calls needs a person. No I/O."""

from collections import Counter
from collections.abc import Iterable, Iterator, Mapping

from opcplan.needs import need
from opcplan.needs.facts import Agent, Away, Disk, Undelivered
from opcplan.needs.faults import GONE
from opcplan.needs.need import Need
from opcplan.plans.waits import length_text

# percent of a disk; minutes for which a call isn't delivered
FULL, UNDELIVERED = 90.0, 5
NO_ANSWER = {"agent": "hasn't contacted its desk", "desk": "hasn't answered, or accepts no change,",
             "etcd": "hasn't answered"}


def of_agents(agents: Iterable[Agent], counts: Mapping[str, int], now: int) -> Iterator[Need]:
    """The agents that are gone, each with what its need counts; and those with wrong settings."""
    for one in agents:
        if now - one.last >= GONE:
            waiting = counts.get(one.name, 0)
            more = f"; {waiting:,} of what it should start or report {'waits' if waiting == 1 else 'wait'}" \
                if waiting else ""
            found = of_away("agent", Away(one.name, one.last), now - one.last)
            yield found._replace(text=f"{found.text}{more}", waiting=waiting)
        elif one.trouble:
            since = now if one.trouble_since is None else one.trouble_since
            yield need.of_kind("settings", one.name, 0, since, f"the agent {one.name}: {one.trouble}")


def of_away(kind: str, one: Away, minutes: float, unit: float = GONE) -> Need:
    """The need of something that hasn't answered for some minutes. It is worse each time that the time doubles, from
    `unit` minutes on."""
    why = f": {one.why}" if one.why else ""
    text = f"the {kind} {one.name} {NO_ANSWER[kind]} for {length_text(max(0, int(minutes)))}{why}"
    return need.of_kind(kind, one.name, need.doublings(minutes, max(unit, 1)), one.since, text)


def of_nodes(nodes: Iterable[Away], now: int) -> Iterator[Need]:
    """Those of some nodes of etcd that haven't answered for a while."""
    for one in nodes:
        if now - one.since >= GONE:
            yield of_away("etcd", one, now - one.since)


def of_disk(one: Disk, percent: float = FULL) -> Iterator[Need]:
    """That a disk is full to some percent, or that this isn't known."""
    if isinstance(one.used, str):
        yield need.of_kind("disk", one.path, 0, one.since, f"{one.path}: it can't be examined: {one.used}")
    elif one.used >= percent:
        level = need.doublings(max(100 - percent, 0.1), max(100 - one.used, 0.1))
        yield need.of_kind("disk", one.path, level, one.since, f"the disk of {one.path} is full to {one.used:.1f}%")


def of_calls(calls: Iterable[Undelivered], now: int) -> Iterator[Need]:
    """The calls that nobody got."""
    for one in calls:
        if now - one.since >= UNDELIVERED:
            text = f"a call to {one.target} isn't delivered after {length_text(now - one.since)} and {one.tries:,} " \
                f"{'try' if one.tries == 1 else 'tries'}: {one.why}"
            yield need.of_kind("call", one.id, need.doublings(now - one.since, UNDELIVERED), one.since, text)


def counts_of(followers: Mapping[int, str]) -> dict[str, int]:
    """By the name of an agent how many occurrences its need counts."""
    return dict(Counter(name.partition(":")[2] for name in followers.values() if name.startswith("agent:")))
