"""Small worlds of a current plan, an agent and an operator: rows that wait for each other, jobs that end, fail, are
tried again or hang, a runner that is killed, a program that is missing, an agent that goes and comes back. Each step
that may come next is a state of its own. In each state the list of needs is compared with the faults that the world
made itself, and along each step with the list before it."""

from collections import deque
from typing import NamedTuple

from opcplan.needs import found
from opcplan.needs.facts import PROGRAM, Agent, Change, Done, Facts, Idle, Live
from opcplan.plans.waits import Row

AGENT, RUN = "etl-1", "agent-etl-1-" + "0a" * 12
# a step of the clock, in minutes: longer than what anything may take that goes on by itself; the pause of a try
TICK, PAUSE = 6, 6


class InvariantViolated(Exception):
    """What a world shows that must not be."""


class Kind(NamedTuple):
    """A small world: by row the tick of its deadline, pairs (successor, predecessor) of rows, how far the clock goes,
    and how often something happens: a job fails at last, or fails and is tried again; a runner is killed; a program is
    missing; the agent goes."""

    deadlines: tuple
    pairs: tuple = ()
    ticks: int = 4
    fails: int = 0
    again: int = 0
    kills: int = 0
    blocks: int = 0
    goes: int = 0


class Status(NamedTuple):
    """The status of a row: a letter, the entry that gave it, when, and the key of that entry."""

    status: str = "W"
    seq: int = 0
    at: int = 0
    key: str | None = None


class World(NamedTuple):
    """One state of all that there is; rows have the serials 1, 2 and so on."""

    kind: Kind
    left: Kind
    rows: tuple
    now: int = 0
    seq: int = 0
    missing: frozenset = frozenset()
    lost: frozenset = frozenset()
    away: int | None = None  # since when the agent is away
    back: int = 0  # since when it is there

    # What is the case.

    def serials(self, status):
        return [serial for serial, one in enumerate(self.rows, 1) if one.status == status]

    def deadline(self, serial):
        return self.kind.deadlines[serial - 1] * TICK

    def before(self, serial):
        return [first for later, first in self.kind.pairs if later == serial]

    def is_open(self, serial):
        return self.rows[serial - 1].status in "WSE"

    def is_ready(self, serial):
        return self.rows[serial - 1].status == "W" and not any(map(self.is_open, self.before(serial)))

    def ready_since(self, serial):
        ends = [self.rows[first - 1].at for first in self.before(serial)]
        return max([self.rows[serial - 1].at, *ends])

    def due(self, one):
        """When a try is due, or could begin."""
        return max(one.at + PAUSE, self.back, self.freed())

    def freed(self):
        return max((one.at for one in self.rows if one.status == "D"), default=0)

    def is_late(self, serial):
        return self.is_open(serial) and self.deadline(serial) < self.now

    def roots(self, serial):
        """Where the waiting of a row begins."""
        waits = [first for first in self.before(serial) if self.is_open(first)]
        if self.rows[serial - 1].status != "W" or not waits:
            return {serial}
        return set().union(*map(self.roots, waits))

    def is_due_again(self, serial):
        one = self.rows[serial - 1]
        return one.status == "E" and "-again" in (one.key or "") and self.now >= one.at + PAUSE

    def urgent(self):
        """What the agent does before the clock goes on."""
        if self.away is not None:
            return []
        return [serial for serial in range(1, len(self.rows) + 1)
                if self.is_due_again(serial) or self.is_ready(serial) and serial not in self.missing]

    # What may come next.

    def put(self, serial, status, key=None, **more):
        rows = list(self.rows)
        rows[serial - 1] = Status(status, self.seq + 1, self.now, key)
        return self._replace(rows=tuple(rows), seq=self.seq + 1, lost=self.lost - {serial}, **more)

    def spent(self, name):
        return {"left": self.left._replace(**{name: getattr(self.left, name) - 1})}

    def steps(self):
        urgent = self.urgent()
        for serial in urgent:
            world = self.put(serial, "W", f"{RUN}.1-reset") if self.is_due_again(serial) else self
            yield world.put(serial, "S", RUN)
        if not urgent and self.now < self.kind.ticks * TICK:
            yield self._replace(now=self.now + TICK)
        for serial in self.serials("S"):
            yield from self.ends(serial)
        for serial in self.serials("E"):
            yield self.put(serial, "W")
            yield self.put(serial, "D")
        for serial in self.missing:
            yield self._replace(missing=self.missing - {serial})
        if self.left.blocks:
            for serial in self.serials("W"):
                if serial not in self.missing:
                    yield self._replace(missing=self.missing | {serial}, **self.spent("blocks"))
        if self.away is not None:
            yield self._replace(away=None, back=self.now)
        elif self.left.goes:
            yield self._replace(away=self.now, **self.spent("goes"))

    def ends(self, serial):
        """How a run may end."""
        if serial in self.lost:
            yield self.put(serial, "C")  # by the operator
            yield self.put(serial, "E")
        elif self.away is None:
            yield self.put(serial, "C", f"{RUN}-end")
            if self.left.fails:
                yield self.put(serial, "E", f"{RUN}-end", **self.spent("fails"))
            if self.left.again:
                yield self.put(serial, "E", f"{RUN}-again{PAUSE * 60}", **self.spent("again"))
            if self.left.kills:
                yield self._replace(lost=self.lost | {serial}, **self.spent("kills"))

    # What is listed.

    def facts(self):
        rows = [Row(serial, f"A{serial}", 0, self.deadline(serial), "RC", one.status)
                for serial, one in enumerate(self.rows, 1) if one.status in "WSE"]
        pairs = [pair for pair in self.kind.pairs if all(map(self.is_open, pair))]
        done = {serial: Done(self.deadline(serial), one.at) for serial, one in enumerate(self.rows, 1)
                if one.status == "C"}
        changes = {row.serial: Change(one.seq, one.status, one.at, one.key) for row in rows
                   if (one := self.rows[row.serial - 1]).seq}
        idle = {serial: Idle(PROGRAM, "no such file") for serial in self.missing if self.is_ready(serial)}
        agent = Agent("batch", self.now if self.away is None else self.away, self.back, AGENT, idle,
                      {serial: "its runner left no end" for serial in self.lost})
        done_pairs = [pair for pair in self.kind.pairs if pair[1] in done]
        return Facts(self.now, True, rows, pairs, done, done_pairs, changes, freed=self.freed(),
                     live=Live(agents=(agent,)))

    def found(self):
        return found.of_facts(self.facts())

    def faults(self):
        """The faults that the world has now, as (kind, serial, entry), without chains that are late; and the rows that
        an agent's absence explains."""
        is_gone = self.away is not None and self.now - self.away >= TICK
        known, hidden = {("agent", "batch")} if is_gone else set(), set()
        for serial, one in enumerate(self.rows, 1):
            is_again = "-again" in (one.key or "")
            if one.status == "E" and not is_again:
                known.add(("error", serial, one.seq))
            elif one.status == "E" and is_gone and self.now >= self.due(one) + TICK:
                hidden.add(serial)
            elif one.status == "S" and is_gone and one.key:
                hidden.add(serial)
            elif one.status == "S" and serial in self.lost:
                known.add(("unknown", serial, one.seq))
            elif self.is_ready(serial) and self.now >= max(self.ready_since(serial), self.back, self.freed()) + TICK:
                if is_gone:
                    hidden.add(serial)
                else:
                    known.add(("unstarted", serial, one.seq))
        return known, hidden

    # What has to hold.

    def check(self):
        listed = self.found()
        faults, hidden = self.faults()
        names = [one.name for one in listed.needs]
        if len(set(names)) < len(names):
            raise InvariantViolated(f"{self}: a name comes twice: {names}")
        wanted = {":".join(map(str, one)) for one in faults}
        if {name for name in names if not name.startswith("late:")} != wanted:
            raise InvariantViolated(f"{self}: {sorted(wanted)} is the case, and {names} is listed")
        self.check_late(listed, {one[1] for one in faults} | hidden)
        return listed, faults

    def check_late(self, listed, faulty):
        """Asks that each late row that no fault explains is counted once, and the others in no chain."""
        names = {one.name for one in listed.needs}
        chains = {one.name: {one.serial} for one in listed.needs if one.kind == "late"}
        for serial, name in listed.followers.items():
            if name not in names:
                raise InvariantViolated(f"{self}: {serial} is counted by {name}, which isn't listed")
            if name in chains:
                chains[name].add(serial)
        late = {serial for serial in range(1, len(self.rows) + 1) if self.is_late(serial)}
        explained = {serial for serial in late if self.roots(serial) & faulty or serial in faulty}
        counted = [serial for serials in chains.values() for serial in serials]
        if sorted(counted) != sorted(late - explained):
            raise InvariantViolated(f"{self}: {late - explained} are late, and {chains} are listed")
        for name, serials in chains.items():
            self.check_chain(name, serials, late - explained)
        for serial in late - faulty:
            behind = {later for later in late - explained if self.roots(later) == {serial}}
            if self.roots(serial) == {serial} and behind and not any(behind <= counts for counts in chains.values()):
                raise InvariantViolated(f"{self}: {behind} wait for {serial} alone, in chains {chains}")

    def behind(self, serial):
        """All that a row waited or waits for, and itself."""
        return {serial}.union(*map(self.behind, self.before(serial)))

    def check_chain(self, name, serials, late):
        """Asks of the late rows that a chain counts that they belong together, and to what is late at their head."""
        heads = [serial for serial in serials if self.roots(serial) == {serial}]
        apart = {(one, other) for one in heads for other in heads if not self.behind(one) & self.behind(other)}
        linked = {min(serials)}
        for _ in serials:
            linked |= {one for one in serials if any(self.behind(one) & self.behind(other) for other in linked)}
        if apart or linked != serials:
            raise InvariantViolated(f"{self}: {name} counts what has nothing in common: {serials}")
        at_head = set.union(*map(self.roots, serials)) & late
        if at_head and not at_head & serials:
            raise InvariantViolated(f"{self}: {name} isn't the chain of {at_head}, which are late too: {serials}")


def check_step(world, seen, later, after):
    """Asks of two lists with their faults, one step apart, that what is still the case has kept its name, and what is
    new has another. A chain of which a row was deleted may get a new name."""
    listed, faults = seen
    after, known = after
    before, now = ({one.name for one in found.needs} for found in (listed, after))
    gone, new = ({":".join(map(str, one)) for one in ones} for ones in (faults - known, known - faults))
    if gone & now or new & before:
        raise InvariantViolated(f"{later}: {gone} is over, {new} is new, and the list has {now} after {before}")
    is_cut = later.serials("D") != world.serials("D")
    for one in after.needs:
        if one.kind == "late" and not is_cut:
            counts = {one.serial, *(serial for serial, name in after.followers.items() if name == one.name)}
            were = {name_at(listed, serial) for serial in counts if world.is_late(serial)} - {None}
            if were and all(name.startswith("late:") for name in were) and one.name not in before:
                raise InvariantViolated(f"{later}: {one.name} is new, and it counts what {were} counted before")
            if not were and one.name not in {f"late:{serial}" for serial in counts}:
                raise InvariantViolated(f"{later}: {one.name} is new, and named by a row that it doesn't count")


def name_at(listed, serial):
    """The name of the need that counts a row."""
    own = (one.name for one in listed.needs if one.serial == serial)
    return listed.followers.get(serial) or next(own, None)


def explored(kind):
    """Meets each state of a world, and checks each and each step; how many there are. What is listed doesn't depend on
    what may still happen: it is made once of those that differ in that alone."""
    first = World(kind, kind, (Status(),) * len(kind.deadlines))
    lists = {}
    met, left = {first: listed(lists, first)}, deque([first])
    while left:
        world = left.popleft()
        seen = met[world]
        for later in world.steps():
            after = met.get(later)
            if after is None:
                after = met[later] = listed(lists, later)
                left.append(later)
            check_step(world, seen, later, after)
    return len(met)


def listed(lists, world):
    """What a checked world lists, and its faults; `lists` has those that were made."""
    name = world._replace(left=None)
    if name not in lists:
        lists[name] = world.check()
    return lists[name]
