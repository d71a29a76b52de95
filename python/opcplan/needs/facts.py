"""The facts from which needs are found. Moments are minutes since 1970-01-01 by the plan's local clock. No I/O."""

from collections.abc import Mapping, Sequence
from typing import NamedTuple

from opcplan.plans.forecast import Expected
from opcplan.plans.waits import Row
from opcplan.rules.horizons import Shortfall


class Change(NamedTuple):
    """The last change of an occurrence's status, by the journal: the number of its entry, the status, when, and the key
    under which it was sent."""

    seq: int
    status: str
    at: int
    key: str | None = None


# why an agent doesn't start an occurrence that is ready: all its places are taken, another agent has to run it, its
# program is missing or can't be run, the desk refuses the start
ROOM, PLACE, PROGRAM, REFUSED = "room", "place", "program", "refused"


class Idle(NamedTuple):
    """Why an agent doesn't start an occurrence: one of ROOM, PLACE, PROGRAM, REFUSED, and a sentence. With PLACE, the
    pattern for the names of the agents that may run it."""

    why: str
    text: str
    where: str = ""


class Agent(NamedTuple):
    """An agent: the name by which its desk knows it, when it last contacted the desk, and since when it does so without
    a longer break; and what it reported: the name that it gives itself, why it doesn't start what is ready, and of runs
    whose end isn't known what is known, both by serial; what is wrong with its settings, and since when."""

    name: str
    last: int
    since: int = 0
    own: str = ""
    idle: Mapping[int, Idle] = {}
    unknown: Mapping[int, str] = {}
    trouble: str = ""
    trouble_since: int | None = None


DONE, STOPPED, FAILED = "done", "stopped", "failed"


class Roll(NamedTuple):
    """What `roll` reported last: when; how it ended (DONE, STOPPED by --stop-on, or FAILED) and since when it ends so;
    why, with the occurrences that stop it; when the current plan ended after it; and its rule: how many minutes ahead
    the plan has to reach, how many days of the long-term plan have to be left, and after how many minutes it runs
    again."""

    at: int
    outcome: str
    since: int
    why: str
    end: int
    ahead: int
    reserve: int
    every: int


class Away(NamedTuple):
    """Something that doesn't answer, or accepts no change: its name, since when, and why."""

    name: str
    since: int
    why: str = ""


class Disk(NamedTuple):
    """A disk, by a path on it: how much of it is used, in percent, or why that isn't known; and since when it has been
    so full."""

    path: str
    used: float | str
    since: int | None = None


class Undelivered(NamedTuple):
    """A call that isn't known to be delivered: its id, whom it was for, since when it is tried, how often it was tried,
    and why the last try failed."""

    id: str
    target: str
    since: int
    tries: int
    why: str


class Live(NamedTuple):
    """What is in neither the plan nor its journal: since when the desk accepts changes without a break (0: it always
    did); the desk itself if it accepts none now; the agents; what `roll` reported; calls, nodes of etcd that don't
    answer, and disks; and the name of the plan."""

    accepts_since: int = 0
    trouble: Away | None = None
    agents: tuple[Agent, ...] = ()
    roll: Roll | None = None
    undelivered: tuple[Undelivered, ...] = ()
    nodes: tuple[Away, ...] = ()
    disks: tuple[Disk, ...] = ()
    plan: str = "NAME"


class Ends(NamedTuple):
    """How far a plan reaches: the first day of the long-term plan, its last day, and the end of the current plan."""

    first_day: int
    last_day: int
    plan_end: int


class Extension(NamedTuple):
    """An extension of the current plan, by the journal: when it was made, up to which moment, and whether `roll` made
    it."""

    at: int
    to: int
    is_by_roll: bool = False


class Done(NamedTuple):
    """A complete occurrence: its deadline, and when it ended, by the journal; and how many minutes later that is by the
    clock as it is now (`Jump`)."""

    deadline: int
    ended: int
    shift: int = 0


class Jump(NamedTuple):
    """The last change of the local clock between winter and summer, within a day: the minute at which it was changed,
    and to which."""

    before: int
    after: int

    def passed(self, moment: int) -> int:
        """A moment of the plan, as so many minutes before now as have passed since the clock first showed it."""
        return moment + self.after - self.before if moment < self.before else max(moment, self.after)


class Facts(NamedTuple):
    """All facts at a moment.

    The times of `changes` are by the clock as it is now, so that differences to `now` are minutes that passed; `jump`
    says if the clock was changed not long ago.

    `rows` are the unfinished rows of the current plan by input arrival, and `pairs` are (successor, predecessor) among
    their serials. `done` has by serial complete rows that ended not long ago, and `done_pairs` are pairs whose
    predecessor is one of them and whose successor is any. `changes` has by serial the last change of unfinished rows.
    `extensions` are the last ones of the current plan, the latest first. `added` has by serial when a row was added to
    the current plan by hand. `freed` is when rows were last deleted or planned anew, so that others may wait for less.
    Without a journal (`is_told` is false) all of these are empty, and nobody knows since when
    something is ready. `usual` has by serial the usual deadline of rows that were added by hand, by which they count:
    the rules make them due a day after they arrive."""

    now: int
    is_told: bool = False
    rows: Sequence[Row] = ()
    pairs: Sequence[tuple[int, int]] = ()
    done: Mapping[int, Done] = {}
    done_pairs: Sequence[tuple[int, int]] = ()
    changes: Mapping[int, Change] = {}
    extensions: Sequence[Extension] = ()
    added: Mapping[int, int] = {}
    freed: int = 0
    expected: Mapping[int, Expected] = {}
    ends: Ends | None = None
    shortfalls: Sequence[Shortfall] = ()
    live: Live = Live()
    jump: Jump | None = None
    usual: Mapping[int, int] = {}

    def by_usual(self) -> "Facts":
        """The same with the usual deadlines in place of those that the rules give."""
        if not self.usual:
            return self
        return self._replace(rows=[row._replace(deadline=self.usual.get(row.serial, row.deadline))
                                   for row in self.rows])
