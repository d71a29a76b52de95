"""The agents that use a desk, by the names under which they authenticate, and when each last contacted it.

A caller counts as an agent once it has sent a statement under a key of the form that agents make. An agent sends
`GET /health` even while it has nothing to do, so that request counts. Another program that sends it under the name of
an agent is taken for that agent. Agents that share such a name are told apart by the names that they give themselves in
`X-Opcplan-Agent`."""

import time
from collections import Counter
from collections.abc import Callable, Iterable
from typing import NamedTuple

from opcplan.plans import run_keys

# seconds without contact after which an agent that comes back has been away
BREAK = 300.0
# the most callers that are told apart by the names that they give themselves
MOST = 1000


class Caller(NamedTuple):
    """An agent: the name under which it authenticates, and the one that it gives itself, empty if it gives none."""

    who: str
    own: str = ""


class Contact(NamedTuple):
    """How many seconds ago an agent last contacted the desk, and since how many seconds it does so without a break."""

    age: float
    span: float


class Agents:
    """The agents of a desk. `known` has the names in its journal; `clock` returns monotonic seconds."""

    def __init__(self, known: Iterable[str], clock: Callable[[], float] = time.monotonic) -> None:
        self.names, self.clock, self.begun = set(known), clock, clock()
        self.looks: Counter[str] = Counter()  # since the start of the desk, of all callers
        self.last: dict[Caller, float] = {}
        self.since: dict[Caller, float] = {}

    def looked(self, who: str, own: str = "") -> None:
        """Notes that a caller sent `GET /health`, or a report."""
        self.looks[who] += 1
        now = self.clock()
        one = Caller(who, own if Caller(who, own) in self.last or len(self.last) < MOST else "")
        if one not in self.last or now - self.last[one] >= BREAK:
            self.since[one] = now
        self.last[one] = now

    def sent(self, who: str, key: str | None) -> None:
        """Notes that a caller sent statements under a key."""
        if run_keys.of_text(key) is not None:
            self.names.add(who)

    def values(self) -> dict[str, dict[str, float]]:
        """By name: how often an agent contacted the desk since its start, and how many seconds ago it last did. If it
        never did, these are the seconds since the start."""
        contacts = self.contacts()
        return {name: {"looks": self.looks[name], "age": round(min(
            contact.age for one, contact in contacts.items() if one.who == name), 3)} for name in sorted(self.names)}

    def contacts(self) -> dict[Caller, Contact]:
        """The Contact of each agent. If agents under a name give themselves names, callers that give none don't
        count."""
        now = self.clock()
        named = {one.who for one in self.last if one.own}
        known = {one for one in self.last if one.who in self.names and (one.own or one.who not in named)}
        known |= {Caller(name) for name in self.names - {one.who for one in known}}
        return {one: Contact(now - self.last.get(one, self.begun), now - self.since.get(one, self.begun))
                for one in sorted(known)}
