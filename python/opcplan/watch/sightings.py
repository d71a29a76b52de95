"""Who answered when: desks, and as desks report them, nodes of etcd and agents. No I/O.

What always holds, also for a watch that begins anew (tests/test_watch_begins.py checks it in every order of small
worlds): time counts only if somebody saw in it that something doesn't answer.

- For an agent that is its desk, which counts from the agent's last contact, or from its own start. While no desk runs,
  an agent's time doesn't go on.
- For a desk that can't be reached it is the watch. Of the time between two watches LAPSE counts at most.
- A desk that answers says itself for how long it has accepted no change, and for how long a node hasn't answered."""

from collections.abc import Iterable, Mapping, Sequence
from typing import Any, NamedTuple, Self

from opcplan.needs import need

# seconds; systemd starts a watch again sooner
LAPSE = 60.0


class Contact(NamedTuple):
    """What a desk says of an agent: how often the agent contacted it since the desk's start, and how many seconds ago
    it last did; if it never did, the seconds since that start."""

    looks: int
    age: float


class Sightings:
    """Since when somebody doesn't answer, by the clock of the watch. `is_anew` says that the next look is the first one
    of a watch that goes on from a stored state."""

    def __init__(self) -> None:
        self.at: float | None = None  # of the last look
        self.is_anew = False
        self.desks: dict[str, float] = {}  # that don't answer
        self.members: dict[str, float] = {}  # nodes of etcd that don't answer
        self.agents: dict[str, float] = {}  # when each was seen last
        self.why: dict[str, str] = {}  # why something doesn't answer

    def take(self, now: float, answers: Mapping[str, Mapping[str, Any] | str]) -> None:
        """Takes the desks' answers at a moment, by their names, or why there is none. A desk that answers and takes no
        change counts as one that doesn't answer."""
        passed = 0.0 if self.at is None else max(0.0, now - self.at)
        lost = max(0.0, passed - LAPSE) if self.is_anew else 0.0
        self.at, self.is_anew, self.why = now, False, {}
        good = {name: one for name, one in answers.items() if not isinstance(one, str)}
        bad = {name: one if isinstance(one, str) else str(one["trouble"]) for name, one in answers.items()
               if isinstance(one, str) or one.get("trouble")}
        lasted = {name: max(lasted_of([one], "desk").values(), default=0.0) for name, one in good.items()}
        self.desks = since(self.desks, bad, now, lost, lasted)
        self.why.update(bad)
        if not good:
            self.agents = {name: min(seen + passed, now) for name, seen in self.agents.items()}
            return
        members = [one for answer in good.values() for one in answer.get("etcd", [])]
        away = {str(one["endpoint"]): str(one.get("why") or "") for one in members if not one["answers"]}
        self.members = since(self.members, away, now, lost, lasted_of(good.values(), "etcd"))
        self.why.update(away)
        contacts: dict[str, list[Contact]] = {}
        for answer in good.values():
            for agent, one in answer.get("agents", {}).items():
                contacts.setdefault(agent, []).append(Contact(int(one["looks"]), float(one["age"])))
        self.agents = {agent: seen_of(self.agents.get(agent), found, now, passed) for agent, found in contacts.items()}

    def kept(self) -> dict[str, Any]:
        """All that has to be stored, as JSON has it."""
        return {"at": self.at, "desks": self.desks, "members": self.members, "agents": self.agents}

    @classmethod
    def of_kept(cls, kept: Mapping[str, Any]) -> Self:
        """The Sightings that were stored so. Raises KeyError, TypeError, ValueError and AttributeError."""
        found = cls()
        found.is_anew = True
        found.at = None if kept["at"] is None else float(kept["at"])
        for name in ("desks", "members", "agents"):
            setattr(found, name, {str(one): float(moment) for one, moment in kept[name].items()})
        return found


def since(before: Mapping[str, float], now_away: Mapping[str, str], now: float, lost: float,
          lasted: Mapping[str, float]) -> dict[str, float]:
    """Since when each of those in `now_away` doesn't answer, if so many seconds count for nothing, and a desk says for
    how many seconds some of them haven't."""
    return {name: min(before.get(name, now) + lost, now - lasted.get(name, 0.0)) for name in now_away}


def lasted_of(answers: Iterable[Mapping[str, Any]], kind: str) -> dict[str, float]:
    """For how many seconds something hasn't answered, by its name, of which desks list a need of a kind."""
    found: dict[str, float] = {}
    for answer in answers:
        now = need.moment_of(answer["now"])
        for one in (need.of_values(one) for one in answer["needs"] if one["kind"] == kind):
            name, begun = one.name.partition(":")[2], now if one.since is None else one.since
            found[name] = max(found.get(name, 0.0), 60.0 * (now - begun))
    return found


def seen_of(before: float | None, contacts: Sequence[Contact], now: float, passed: float) -> float:
    """When an agent was seen last, from when that was at the last look, so many seconds ago, or None if nobody knew
    it. Of the time since that look only so much counts as a desk has run."""
    if before is None:
        return now - min(one.age for one in contacts)
    unknown = passed - max(min(passed, one.age) for one in contacts)
    return min(now, max([before + unknown, *(now - one.age for one in contacts if one.looks)]))
