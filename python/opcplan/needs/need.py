"""A need: one thing of a plan about which a person has to do something. No I/O.

One list of needs is shown, and no other: by `./plan watch`, `GET /status`, `GET /metrics`, `./plan status`, `./plan
roll`, `./plan page` and the live page. `found.of_facts` makes it from `facts.Facts`. What always holds
(tests/test_needs_states.py checks it in each state of small worlds):

- A plan in which all goes on by itself has no needs.
- Each fault makes exactly one need, and what only waits for a need is counted in it, and never listed.
- A need keeps its name as long as its cause is there, and isn't listed any more when that is over.
- A second fault has another name, also of the same occurrence: names come from the entry of the journal that made
  them.

A name is the kind and what it is about, with colons between:

| Name | What it is about |
|---|---|
| `error:SERIAL:SEQ` | an occurrence in error, by entry SEQ of the journal (0 without a journal) |
| `unstarted:SERIAL:SEQ` | one that is ready; SEQ is the entry that reset it last, 0 if none did |
| `unknown:SERIAL:SEQ` | one that is started, by entry SEQ |
| `late:SERIAL` | a chain that is late or at risk; SERIAL is the one that was late first |
| `roll:END`, `plan-end:END` | the current plan, by the moment at which it ends |
| `long-term-end:DAY` | the long-term plan, by its last day |
| `definitions:KIND:NAME..` | a period, calendar or run cycle |
| `settings:AGENT`, `agent:AGENT`, `desk:DESK`, `etcd:NODE`, `disk:PATH` | an agent's jobs.toml, an agent, .. |
| `call:ID` | a call that wasn't delivered |
"""

import math
from collections.abc import Mapping
from typing import Any, NamedTuple

from opcplan.rules import moments, printable

# by kind, in the order in which they are listed: what to do first; {plan} is the name of the plan
KINDS: dict[str, str] = {
    "error": "read the end of its job's log, remove the cause, and send `cp-reset` to run it again, or `cp-complete` "
             "if its work is done",
    "unknown": "read the end of its job's log; send `cp-complete` if the job did its work, else `cp-fail` and "
               "`cp-reset`",
    "unstarted": "remove what is named here; `./plan why` says what an occurrence waits for",
    "late": "see with `./plan why` what it waits for, and whether its job hangs",
    "desk": "see with `systemctl status opcplan-desk@{plan}` on its machine whether it runs, and why not",
    "agent": "see with `systemctl status opcplan-agent@{plan}` on its machine whether it runs, and why not",
    "roll": "remove what stops it; systemd then runs it again within ten minutes",
    "plan-end": "see with `journalctl -u opcplan-roll@{plan}` why the plan wasn't extended, and run `./plan roll`",
    "call": "call by another way, and correct the receiver; `./plan watch --try` shows what would be sent",
    "disk": "remove what isn't needed there; `./plan journal --prune` removes old entries and logs",
    "etcd": "see on its machine with `systemctl status etcd` whether it runs; the desks need most of the nodes",
    "settings": "correct the file; until then the agent goes on with the settings that it had",
    "risk": "see with `./plan why` which chain decides when it ends",
    "long-term-end": "see with `journalctl -u opcplan-roll@{plan}` why the plan wasn't extended, and send `ltp-extend`",
    "definitions": "add what is missing with the command that is named here",
}
# a level above that of all that isn't over: what was to be kept from happening has happened
WORST = 9
# how many applications of one need are named
MOST_APPS = 200
# how many needs JSON has, the worst first, and how many rows that they count
MOST, MOST_FOLLOWERS = 2000, 20_000


class Need(NamedTuple):
    """One thing that needs a person. `level` goes up by one each time that it gets twice as bad, or when a deadline
    passes. `since` is the moment since when it holds, None if that isn't known. `advice` is what to do first.

    Of a need of occurrences: the application, input arrival and serial of the one that it is about; `waiting` counts
    those that wait for it, `late` those of all of these that are late; `apps` are its own application and those of the
    late ones and of those at risk that it counts."""

    name: str
    kind: str
    level: int
    since: int | None
    text: str
    advice: str
    app: str | None = None
    ia: int | None = None
    serial: int | None = None
    waiting: int = 0
    late: int = 0
    apps: tuple[str, ...] = ()

    def of_plan(self, plan: str) -> "Need":
        """The same with the name of the plan in what to do first."""
        return self._replace(advice=self.advice.replace("{plan}", plan))

    def values(self) -> dict[str, Any]:
        """The need as JSON has it, in `GET /status` too."""
        return {**self._asdict(), "since": None if self.since is None else moments.moment_word(self.since),
                "ia": None if self.ia is None else moments.moment_word(self.ia), "apps": list(self.apps)}


class Found(NamedTuple):
    """All needs in their order; and by serial the name of the need that counts an occurrence which is late or at
    risk, and isn't listed itself."""

    needs: tuple[Need, ...]
    followers: Mapping[int, str] = {}

    def cut(self) -> "Found":
        """The worst needs, and what they count."""
        if len(self.needs) <= MOST and len(self.followers) <= MOST_FOLLOWERS:
            return self
        needs = self.needs[:MOST]
        names = {one.name for one in needs}
        followers = [(serial, name) for serial, name in self.followers.items() if name in names]
        return Found(needs, dict(followers[:MOST_FOLLOWERS]))

    def values(self) -> dict[str, Any]:
        """The list as JSON has it, in `GET /status` and in the page; `is_whole` says whether it has all needs."""
        listed = self.cut()
        return {"needs": [one.values() for one in listed.needs],
                "followers": {str(serial): name for serial, name in listed.followers.items()},
                "is_whole": len(self.needs) <= MOST}


def of_values(found: Mapping[str, Any]) -> Need:
    """The Need that JSON has. Raises KeyError, TypeError and ValueError."""
    since, ia = (None if found[name] is None else moment_of(found[name]) for name in ("since", "ia"))
    if found["kind"] not in KINDS:
        raise ValueError(found["kind"])
    return Need(
        str(found["name"]), found["kind"], int(found["level"]), since, str(found["text"]), str(found["advice"]),
        None if found["app"] is None else str(found["app"]), ia,
        None if found["serial"] is None else int(found["serial"]), int(found["waiting"]), int(found["late"]),
        tuple(map(str, found["apps"])))


def moment_of(text: str) -> int:
    """The moment of a desk's text. Raises ValueError."""
    found = moments.moment_of(text)
    if found is None:
        raise ValueError(text)
    return found


def of_kind(kind: str, about: object, level: int, since: int | None, text: str) -> Need:
    """A need that is about no occurrence."""
    return Need(f"{kind}:{about}", kind, level, since, printable.fit(text), KINDS[kind])


def doublings(value: float, unit: float) -> int:
    """How often a unit can be doubled without exceeding a value, at most WORST; 0 if the value is less."""
    return min(WORST, int(math.log2(value / unit))) if unit > 0 and value >= unit else 0


def in_order(needs: list[Need]) -> tuple[Need, ...]:
    """Needs in their order: those about what has ended first, then by kind, the worst of a kind first."""
    kinds = list(KINDS)
    return tuple(sorted(needs, key=lambda one: (one.level <= WORST, kinds.index(one.kind), -one.level, one.since or 0,
                                                one.name)))
