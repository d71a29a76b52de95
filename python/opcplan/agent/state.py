"""What an agent knows and decides, without I/O. It gives one command at a time as `command`, and gets the outcome of
each by a call. There is no clock here, no file, no process and no desk.

What always holds (tests/test_agent_states.py checks it in each state of small worlds):

- A job begins only once the desk has accepted its start under the key of its record, and never twice under one key.
- If a job began and has an end in its record, that end is reported, once, as it was. But if the occurrence got another
  status meanwhile, nothing is reported to the desk.
- An end is sent on the condition that the plan is as it is known here. If somebody changed it in between, the agent
  looks again. If the plan changes at each of TRIES tries, the end is sent without the condition.
- No record is deleted before the desk has answered its start. So no start is done later that nobody waits for.
- Nothing is decided about a job that began while the desk lacks the entry of its start. That may happen for a while
  after a desk was started again, or with another desk of its log.
- A try follows another one only once the desk has accepted a failure and a reset, both under keys of its record, while
  that failure is in force and its pause is over.
- An occurrence gets no more tries than its record allows. The next try may be another agent's; that agent counts on
  from the key of the reset. A failure in force is followed by the next try as long as there is one.
- The start of an application with a class is accepted only if fewer occurrences of that class are started than its
  limit, whoever started them. It is sent on the condition that the plan is as it is known here.
- No job begins of an application whose jobs other agents run."""

import dataclasses
from collections import Counter, deque
from collections.abc import Iterable, Mapping, Sequence, Set
from typing import NamedTuple

from opcplan.agent import record
from opcplan.agent.known_plan import ALL, STATUS, Entry, KnownPlan, NOTHING, Pair, Row
from opcplan.agent.record import Record
from opcplan.errors import Error

WORDS = {"S": "started", "E": "in error", "C": "complete", "D": "deleted", "W": "waiting"}
LEFT = ("Send `cp-complete` if the job did its work; else send `cp-fail` and `cp-reset` to have it run again. Until "
        "then the agent changes nothing.")
UNKNOWN = "the desk's journal doesn't go back to its start, so it isn't known who started it"
# how often one look starts again because the plan changed meanwhile
TRIES = 9
# how many entries of the journal an agent fetches at its start at least: they say which tries others made
BACK = 1000


class DeskBehind(Error):
    """Why nothing is decided for now: the desk lacks entries that the agent knows, or the plan keeps changing."""


class Rules(NamedTuple):
    """What jobs.toml says of applications: those whose jobs other agents run, the class of each that has one, and how
    many occurrences of a class may be started at once."""

    elsewhere: Set[str] = frozenset()
    classes: Mapping[str, str] = {}
    limits: Mapping[str, int] = {}


class AskStanding(NamedTuple):
    """Command: get the position of the desk."""


class AskPairs(NamedTuple):
    """Command: get from the desk what waits for what."""


class AskRows(NamedTuple):
    """Command: get from the desk the rows of the current plan."""


class AskEntries(NamedTuple):
    """Command: get from the desk all entries after a position."""

    since: int


class Look(NamedTuple):
    """Command: check whether a runner has the log of a serial, and then read its record."""

    serial: int


class Prepare(NamedTuple):
    """Command: make a new record for a try of a row, at a position, and take the lock of its log; do nothing if the row
    has no job here."""

    row: Row
    after: int
    attempt: int = 1


class Claim(NamedTuple):
    """Command: take the lock of a record's log."""

    record: Record


class Send(NamedTuple):
    """Command: send a statement on the occurrence of a record under a key; if there is a tag, on the condition that the
    plan is in the state that the tag names."""

    record: Record
    act: str
    key: str
    tag: str


class Run(NamedTuple):
    """Command: start a runner for the job of a record, with the log and its lock."""

    record: Record


class Again(NamedTuple):
    """Command: replace the record of a try that failed by that of the next try."""

    record: Record


class Forget(NamedTuple):
    """Command: delete a record, and print the reason; after a refusal the occurrence pauses for a while."""

    record: Record
    why: str
    is_refused: bool = False


Command = AskStanding | AskPairs | AskRows | AskEntries | Look | Prepare | Claim | Send | Run | Again | Forget


class Counted(NamedTuple):
    """How many occurrences of each class are started, at a position of a log."""

    life: str
    position: int | None
    started: Mapping[str, int]


@dataclasses.dataclass
class Fetched:
    """The parts of the desk's plan that have come, until all are there."""

    pairs: tuple[Pair, ...] | None = None
    pairs_at: int = 0
    rows: dict[int, Row] | None = None
    rows_at: int = 0
    is_whole: bool = False  # whether the whole journal is requested, because its end was empty
    tries: int = dataclasses.field(default_factory=lambda: TRIES)


class State:
    """The state of an agent that found these records. If a call raises DeskBehind, the look is over."""

    def __init__(self, records: Iterable[Record] = ()) -> None:
        self.plan = KnownPlan()
        self.life = ""  # the name of the log to which the position belongs
        self.records = {one.serial: one for one in records}  # of runs whose end isn't reported yet
        self.lost: dict[int, str] = {}  # by serial what is known of runs whose outcome nobody knows
        self.keys: set[str] = set()  # keys of the runs' starts, ends and resets that the desk has
        self.messages: list[str] = []
        self.said: set[str] = set()
        self.command: Command | None = None
        self.fetched: Fetched | None = None
        self.left: deque[int] = deque()  # serials of runs that this look has yet to see
        self.offered: deque[int] | None = None  # serials of rows that were ready, None if not looked for yet
        self.now = self.most = self.tries = 0
        self.stood = 0  # the position that the desk answered last
        self.is_quick = False  # whether only entries are fetched, to decide about a run again
        self.is_undone = False  # whether the desk refused a start because the plan had changed
        self.rules = Rules()
        self.counted: Counted | None = None

    @property
    def running(self) -> int:
        """How many jobs run."""
        return sum(one.ended is None and serial not in self.lost for serial, one in self.records.items())

    def look(self, now: int, most: int, rules: Rules = Rules()) -> None:
        """Begins a look: at the desk's plan, at each run, and at what is ready at `now`, as long as fewer than `most`
        jobs run and as the rules allow it."""
        self.now, self.most, self.tries, self.rules = now, most, TRIES, rules
        self.is_undone, self.counted = False, None
        self.left, self.offered = deque(self.records), None
        self.refresh()

    # What the desk answers about its plan.

    def refresh(self) -> None:
        """Begins to fetch what changed."""
        self.fetched, self.is_quick = None, False
        self.command = AskStanding()

    def standing(self, position: int, life: str) -> None:
        """Takes the position of the desk, and the name of its log. Raises DeskBehind."""
        plan = self.plan
        if self.fetched is not None:
            self.stands(position, life)
            return
        if plan.position is not None and life and life == self.life and position < plan.position:
            # another desk of the same log, which lacks entries
            raise DeskBehind(f"this desk lacks entries up to {plan.position}, which the agent knows")
        if plan.position is None or life != self.life or position < plan.position:
            plan.begin(min([max(0, position - BACK), *(one.after for one in self.records.values())]))
            self.keys.clear()
        self.life, self.stood = life, position
        if plan.position is None:
            self.fetch_all()
        elif position > plan.position or plan.stale != NOTHING:
            self.command = AskEntries(plan.position)
        else:
            self.go_on()

    def stands(self, position: int, life: str) -> None:
        """Takes the position of a desk whose journal was empty there. Raises DeskBehind if its rows were further."""
        assert self.fetched is not None
        if life != self.life or position < self.fetched.rows_at:
            raise DeskBehind("this desk was started again meanwhile, and lacks entries")
        self.command = AskEntries(0)

    def fetch_all(self) -> None:
        """Begins to fetch pairs and rows of one state of the plan."""
        self.fetched = Fetched()
        self.command = AskPairs()

    def pairs(self, pairs: Iterable[Pair], position: int) -> None:
        """Takes what waits for what, at a position."""
        assert self.fetched is not None
        self.fetched.pairs, self.fetched.pairs_at = tuple(pairs), position
        self.command = AskRows()

    def rows(self, rows: Iterable[Row], position: int) -> None:
        """Takes the rows of the current plan, at a position. Raises DeskBehind."""
        fetched, known = self.fetched, self.plan.position
        assert fetched is not None
        if known is not None and position < known:
            raise DeskBehind(f"this desk lacks entries up to {known}, which the agent knows")
        fetched.rows, fetched.rows_at = {row.serial: row for row in rows}, position
        last = self.plan.last
        self.command = AskEntries(last if fetched.pairs is None else min(last, fetched.pairs_at))

    def entries(self, entries: Sequence[Entry]) -> None:
        """Takes the entries after the requested position, as far as the desk has them. Raises DeskBehind."""
        if self.fetched is None:
            self.follow(entries)
            return
        fetched = self.fetched
        assert fetched.rows is not None
        if self.plan.last < fetched.rows_at and not any(one.seq > self.plan.last for one in entries):
            if not fetched.is_whole:
                fetched.is_whole, self.command = True, AskStanding()
                return
            if not entries:
                self.plan.skip(fetched.rows_at)  # the journal was begun anew, or by a desk that joined its log
        known = [one for one in entries if one.seq <= fetched.rows_at]
        if fetched.pairs is not None and any(one.changes_pairs for one in known if one.seq > fetched.pairs_at):
            fetched.tries -= 1
            if fetched.tries:
                self.command = AskPairs()
                return
            self.plan.stale, fetched.pairs = ALL, None  # the plan keeps changing
        self.take_fetched(fetched, fetched.rows, known)

    def take_fetched(self, fetched: Fetched, rows: dict[int, Row], entries: Sequence[Entry]) -> None:
        """Takes the parts of one state of the plan, and the entries up to that state. Raises DeskBehind."""
        last, is_broken, stale = self.plan.last, self.note_gap(entries, fetched.rows_at), self.plan.stale
        for one in entries:
            if one.seq > last:
                self.note(one)
                self.plan.take_latest(one)
        self.plan.take_rows(rows, fetched.rows_at)
        if fetched.pairs is not None:
            self.plan.take_pairs(fetched.pairs)
        elif is_broken or stale == ALL:
            self.plan.stale = ALL
        self.go_on()

    def follow(self, entries: Sequence[Entry]) -> None:
        """Applies the entries that came since; if they don't say all, fetches rows or pairs again. Raises
        DeskBehind."""
        assert self.plan.position is not None
        if entries:
            self.note_gap(entries, entries[-1].seq)
        for one in entries:
            self.note(one)
            self.plan.take(one)
        if self.is_quick and not entries:  # the desk lacks entries on which its answer was based
            self.skip()
        elif self.is_quick and not self.plan.sure:
            self.go_on()
        elif not self.is_quick and (self.plan.stale == ALL or self.stood > self.plan.position):
            self.fetch_all()
        elif self.plan.stale != NOTHING:
            self.fetched = Fetched()
            self.command = AskRows()
        else:
            self.go_on()

    def note_gap(self, entries: Sequence[Entry], upto: int) -> bool:
        """Whether entries are missing after what is known. Raises DeskBehind if they don't go up to a position."""
        last = self.plan.last
        behind = [one.seq for one in entries if one.seq > last]
        if upto > last and (not behind or behind[-1] < upto):
            raise DeskBehind(f"this desk lacks entries up to {upto}")
        if not behind or behind[0] == last + 1:
            return False
        self.plan.skip(behind[0] - 1)  # a desk that joined its log later
        return True

    def note(self, one: Entry) -> None:
        """Notes that the desk has the start of a try, its end, or the reset after it."""
        found = STATUS.fullmatch(one.reply)
        run = self.records.get(int(found[1])) if found else None
        if run is not None and run.is_end_key(one.key):
            self.keys.add(run.end_key)
        elif run is not None and one.key is not None and one.key in (run.start_key, run.reset_key):
            self.keys.add(one.key)

    # What becomes of a run.

    def go_on(self) -> None:
        """Looks at the next run, or if there is none, at what is ready."""
        self.fetched, self.stood = None, 0
        while self.left and self.left[0] not in self.records:
            self.left.popleft()
        self.command = Look(self.left[0]) if self.left else self.next_ready()

    def skip(self) -> None:
        """Leaves the current run until the next look."""
        if self.left:
            self.left.popleft()
        self.tries, self.is_undone = TRIES, False
        self.go_on()

    def seen(self, one: Record, has_runner: bool, is_rested: bool = True) -> None:
        """Takes the record of a run, which was read after the check whether a runner has its log, and whether the pause
        after its try is over."""
        self.records[one.serial] = one
        if one.ended is None and has_runner:
            self.skip()
        elif one.began is None and one.serial in self.lost and self.status_of(one) == "S":
            self.skip()
        elif one.began is None:  # the runner notes on the disk that a job begins, before it does, so nothing began
            self.command = Claim(one)
        elif self.is_start_ahead(one):
            self.wait(one)
        elif one.ended is not None:
            self.report(one, is_rested)
        else:
            self.see_broken(one)

    def see_broken(self, one: Record) -> None:
        """Decides about a job that began, and whose end nobody will report."""
        if self.is_ours(one) is False:
            self.command = Forget(one, f"it left no end, and is {self.status_text(one)} by now")
        else:
            self.lose(one, f"was started by an agent here: its job began at {one.began} and left no end")

    def is_start_ahead(self, one: Record) -> bool:
        """Whether the entry that started a job comes after what is known of the desk's journal."""
        return one.start_key not in self.keys and one.after >= self.plan.since

    def wait(self, one: Record) -> None:
        """Reports once that a run waits for the desk."""
        self.say(f"{one.name}: the desk lacks the entry that started it; the agent waits for that entry")
        self.skip()

    def lose(self, one: Record, what: str) -> None:
        """Reports once that nobody knows the outcome of a run."""
        self.lost[one.serial] = what
        self.say(f"{one.name} {what}. {LEFT}")
        self.skip()

    def say(self, text: str) -> None:
        """Puts a message among those to print, unless it was there before."""
        if text not in self.said:
            self.said.add(text)
            self.messages.append(text)

    def status_of(self, one: Record) -> str:
        """The status of a run's occurrence, empty if the current plan doesn't have it."""
        row = self.plan.rows.get(one.serial)
        return row.status if row else ""

    def status_text(self, one: Record) -> str:
        """The same in words."""
        return WORDS.get(self.status_of(one), "no longer in the current plan")

    def is_ours(self, one: Record) -> bool | None:
        """Whether an occurrence is started, and by this run; None if it isn't known by which."""
        if self.status_of(one) != "S":
            return False
        latest = self.plan.latest.get(one.serial)
        if latest is None and one.after < self.plan.since:
            return None
        return latest is not None and (latest.status, latest.key) == ("S", one.start_key)

    def is_given(self, one: Record, status: str, key: str | None) -> bool:
        """Whether an occurrence has a status that the entry of a key gave it."""
        latest = self.plan.latest.get(one.serial)
        return self.status_of(one) == status and latest is not None and (latest.status, latest.key) == (status, key)

    def is_failed(self, one: Record) -> bool:
        """Whether an occurrence is in error by the end of this try."""
        latest = self.plan.latest.get(one.serial)
        return latest is not None and one.is_end_key(latest.key) and self.is_given(one, "E", latest.key)

    def report(self, one: Record, is_rested: bool) -> None:
        """Reports how a job ended, and decides what follows."""
        how = f"ended: {one.ended_text}"
        is_ours = self.is_ours(one)
        if one.end_key in self.keys and one.is_tried_again:
            self.try_again(one, is_rested)
        elif one.end_key in self.keys:
            self.command = Forget(one, f"{how}; it is {self.status_text(one)}")
        elif is_ours:
            self.send(one, "complete" if one.is_good else "fail", one.end_key)
        elif is_ours is None:
            self.lose(one, f"ended: {one.ended_text}; {UNKNOWN}")
        else:
            is_now = f"it is {self.status_text(one)} by now"
            self.command = Forget(one, f"{how}; the agent doesn't report this to the desk, because {is_now}")

    def try_again(self, one: Record, is_rested: bool) -> None:
        """After a try whose failure the desk knows: sends the reset for the next try, once the pause is over and that
        try can begin at once."""
        assert self.plan.position is not None
        if self.is_given(one, "W", one.reset_key):
            self.command = Again(one.next_try(self.plan.position))
        elif one.reset_key in self.keys or not self.is_failed(one):
            how = f"ended: {one.ended_text}; the agent doesn't try again"
            self.command = Forget(one, f"{how}, because it is {self.status_text(one)} by now, and not by this agent")
        elif is_rested and self.running < self.most and not self.is_full(one.app):
            self.send(one, "reset", one.reset_key)
        else:
            self.skip()

    def send(self, one: Record, act: str, key: str) -> None:
        """Sends a statement on the condition that the plan is as it is known here. A start without a class needs no
        condition; any other statement loses it once the plan has changed at each try."""
        is_start = act == "start"
        is_free = one.app not in self.rules.classes if is_start else self.tries <= 0
        self.command = Send(one, act, key, "" if is_free or not self.life else f"{self.life}-{self.plan.position}")

    def claimed(self, is_free: bool) -> None:
        """Takes whether the lock of a log was free; else a runner has it. A start that may have been sent is sent
        again, even if it can't be accepted any more: so it is answered now, and isn't done later."""
        assert isinstance(self.command, Claim)
        one = self.command.record
        if not is_free:
            self.skip()
        elif self.is_ours(one):
            self.command = Run(one)
        elif not self.is_full(one.app):
            self.send(one, "start", one.start_key)
        elif self.is_undone:  # an earlier copy of the start is refused too: the plan has changed since
            self.command = Forget(one, "its class has no room now; the agent starts it later")
        else:
            self.skip()

    def changed(self) -> None:
        """The desk did nothing, because the plan isn't as it was known here: looks and decides again."""
        assert isinstance(self.command, Send)
        one, self.is_undone = self.command.record, self.command.act == "start"
        if self.is_undone and self.tries <= 0:
            self.command = Forget(one, "the plan keeps changing; the agent starts it later")
        else:
            self.look_again(one)

    def look_again(self, one: Record) -> None:
        """Fetches what changed, and then looks at a run again."""
        assert self.plan.position is not None
        if not self.left or self.left[0] != one.serial:
            self.left.appendleft(one.serial)
        self.tries -= 1
        self.fetched, self.is_quick = None, True
        self.command = AskEntries(self.plan.position)

    def answered(self, answer: Entry) -> None:
        """Takes the desk's answer to a statement."""
        assert isinstance(self.command, Send)
        one, act, known = self.command.record, self.command.act, self.plan.position or 0
        found = STATUS.fullmatch(answer.reply)
        if answer.seq == known + 1:
            self.note(answer)
            self.plan.take(answer)
            self.plan.settle()
        if act == "start":
            self.start_answered(one, answer, known)
        elif found and one.is_tried_again and answer.seq <= known + 1:
            self.note(answer)
            self.report_failed_try(one, act)
            self.report(one, False)
        elif found and one.is_tried_again:  # others came between
            self.look_again(one)
        else:
            is_reported = f"it is {WORDS[found[2]]}" if found else f"the desk answers `{answer.reply}`"
            self.command = Forget(one, f"ended: {one.ended_text}; {is_reported}")

    def report_failed_try(self, one: Record, act: str) -> None:
        """Reports that a try failed, and that another one follows."""
        if act == "fail":
            self.messages.append(f"{one.name}: ended: {one.ended_text}; it is in error, {one.try_text}; the agent "
                                 f"tries again after {one.pause:g} seconds")

    def start_answered(self, one: Record, answer: Entry, known: int) -> None:
        """Takes the desk's answer to a start."""
        found = STATUS.fullmatch(answer.reply)
        if not found or int(found[1]) != one.serial:
            self.command = Forget(one, f"not started: the desk answers `{answer.reply}`", True)
        elif answer.seq <= known and self.is_ours(one) is None:
            self.lose(one, f"is started, and {UNKNOWN}")
        elif answer.seq <= known:
            self.command = Forget(one, f"was started before, and is {self.status_text(one)} by now")
        elif answer.seq == known + 1:
            self.command = Run(one)
        else:  # others came between
            self.look_again(one)

    def begun(self) -> None:
        """A runner has the job."""
        self.skip()

    def forgotten(self) -> None:
        """The record is deleted."""
        assert isinstance(self.command, Forget)
        one = self.command.record
        self.records.pop(one.serial, None)
        self.lost.pop(one.serial, None)
        self.keys -= {one.start_key, one.end_key, one.reset_key}
        self.skip()

    def renewed(self) -> None:
        """The record of the next try is on the disk."""
        assert isinstance(self.command, Again)
        one = self.command.record
        old = self.records[one.serial]
        self.keys -= {old.start_key, old.end_key, old.reset_key}
        self.records[one.serial] = one
        self.command = Claim(one)

    # What is ready.

    def next_ready(self) -> Command | None:
        """The command that prepares the next job, or None if the look is over."""
        if self.offered is None:
            self.offered = deque(row.serial for row in self.plan.ready(self.now))
        while self.offered and self.running < self.most:
            serial = self.offered.popleft()
            if serial not in self.records and self.plan.is_ready(serial) and self.may_begin(self.plan.rows[serial].app):
                assert self.plan.position is not None
                latest = self.plan.latest.get(serial)
                return Prepare(self.plan.rows[serial], self.plan.position, record.try_after(latest and latest.key))
        return None

    def may_begin(self, app: str) -> bool:
        """Whether this agent runs an application's jobs, and its class has room."""
        return app not in self.rules.elsewhere and not self.is_full(app)

    def is_full(self, app: str) -> bool:
        """Whether an application's class has no room."""
        name = self.rules.classes.get(app)
        return name is not None and self.started().get(name, 0) >= self.rules.limits[name]

    def started(self) -> Mapping[str, int]:
        """How many occurrences of each class are started, by what is known of the plan."""
        where, classes = (self.life, self.plan.position), self.rules.classes
        if self.counted is None or self.counted[:2] != where:
            found = Counter(classes[row.app] for row in self.plan.rows.values()
                            if row.status == "S" and row.app in classes)
            self.counted = Counted(*where, found)
        return self.counted.started

    def prepared(self, one: Record | None) -> None:
        """Takes the new record, which is on the disk, or None if the row has no job here."""
        if one is None:
            self.go_on()
            return
        self.records[one.serial] = one
        self.send(one, "start", one.start_key)
