"""The current plan as an agent knows it: rows, what they wait for, and which entry gave each its status. No I/O."""

import functools
import re
from collections.abc import Iterable, Mapping
from typing import Any, NamedTuple

from opcplan.cli import words
from opcplan.plans import entry
from opcplan.rules import moments, statements

STATUS = re.compile(statements.CHANGED)
IN_THE_WAY = "WSE"
moment_of = functools.lru_cache(10_000)(moments.moment_of)
# what has to be fetched again: nothing, the rows, or rows and pairs
NOTHING, STATUSES, ALL = range(3)


class Row(NamedTuple):
    """An occurrence of the current plan."""

    serial: int
    app: str
    ia: str  # as statements have it
    arrival: int
    deadline: int
    status: str

    @property
    def name(self) -> str:
        """The occurrence as messages name it."""
        return f"{self.app} {self.ia} (serial {self.serial})"


class Pair(NamedTuple):
    """An occurrence, and one that it waits for."""

    successor: int
    predecessor: int


class Entry(NamedTuple):
    """An entry of the desk's journal, which is also the answer to a statement."""

    seq: int
    statement: str
    job: int
    reply: str
    key: str | None

    @property
    def changes_pairs(self) -> bool:
        """Whether it may have changed more than the status of one row."""
        return self.reply.startswith("ok") and self.statement.split(" ", 1)[0] not in statements.ON_A_STATUS

    @property
    def is_old(self) -> bool:
        """Whether it may be an old answer: the desk answers a caller's own job number again as it once did."""
        return self.job < entry.FIRST_JOB


class Latest(NamedTuple):
    """The status that the last entry on an occurrence gave it, and the key of that entry."""

    status: str
    key: str | None


class KnownPlan:
    """The current plan at a position of the desk's journal, None if it isn't known yet. Entries up to `since` aren't
    known."""

    def __init__(self) -> None:
        self.position: int | None = None
        self.since = 0
        self.stale = NOTHING
        self.rows: dict[int, Row] = {}
        self.before: dict[int, tuple[int, ...]] = {}
        self.latest: dict[int, Latest] = {}
        self.sure: dict[int, Latest | None] = {}  # `latest` before entries that may be old answers

    @property
    def last(self) -> int:
        """The last entry that isn't requested any more."""
        return max(self.since, self.position or 0)

    def begin(self, since: int) -> None:
        """Drops what is known; entries after a position will follow."""
        self.position, self.since, self.stale = None, since, NOTHING
        self.latest, self.sure = {}, {}

    def skip(self, seq: int) -> None:
        """The journal lacks the entries up to `seq`, so it isn't known which entry gave a row its status."""
        self.since, self.stale = seq, ALL
        self.latest.clear()
        self.sure.clear()

    def take(self, one: Entry) -> None:
        """Applies the next entry."""
        self.take_latest(one)
        self.position = one.seq
        found = STATUS.fullmatch(one.reply)
        row = self.rows.get(int(found[1])) if found else None
        if one.changes_pairs:
            self.stale = ALL
        elif found and (row is None or one.is_old):
            self.stale = max(self.stale, STATUSES)
        if found and row and not one.is_old:
            self.rows[row.serial] = row._replace(status=found[2])

    def take_latest(self, one: Entry) -> None:
        """Notes the entry that gave an occurrence its status. An old answer doesn't start what is started."""
        found = STATUS.fullmatch(one.reply)
        if not found:
            return
        serial, status = int(found[1]), found[2]
        known = self.latest.get(serial)
        if one.is_old:
            self.sure.setdefault(serial, known)
        if not one.is_old or known is None or (status, known.status) != ("S", "S"):
            self.latest[serial] = Latest(status, one.key)

    def settle(self) -> None:
        """Undoes what the rows don't show: it came from an old answer to a caller's own job number."""
        for serial, known in self.sure.items():
            row, found = self.rows.get(serial), self.latest.get(serial)
            if row and found and row.status != found.status:
                del self.latest[serial]
                if known:
                    self.latest[serial] = known
        self.sure = {}

    def take_rows(self, rows: Mapping[int, Row], position: int) -> None:
        """Sets the rows, at a position up to which all entries are known."""
        self.rows, self.position, self.stale = dict(rows), position, NOTHING
        self.settle()

    def take_pairs(self, pairs: Iterable[Pair]) -> None:
        """Sets which occurrence waits for which."""
        found: dict[int, list[int]] = {}
        for one in pairs:
            found.setdefault(one.successor, []).append(one.predecessor)
        self.before = {serial: tuple(others) for serial, others in found.items()}

    def ready(self, now: int) -> list[Row]:
        """The rows that are ready at a moment, the earliest deadline first."""
        found = [row for row in self.rows.values() if row.arrival <= now and self.is_ready(row.serial)]
        return sorted(found, key=lambda row: (row.deadline, row.ia, row.app))

    def is_ready(self, serial: int) -> bool:
        """Whether a row waits, and all that it waits for is complete."""
        row = self.rows.get(serial)
        others = map(self.rows.get, self.before.get(serial, ()))
        return row is not None and row.status == "W" and not any(one and one.status in IN_THE_WAY for one in others)


def row_of(fields: Any) -> Row | None:
    """The row of decoded JSON, or None if no plan can have such a row."""
    try:
        serial, app, ia, status = (fields[name] for name in ("serial", "app", "ia", "status"))
        arrival, deadline = moment_of(ia), moment_of(fields["deadline"])
        is_row = isinstance(serial, int) and 1 <= serial <= 999_999_999 and words.NAME.fullmatch(app)
    except (KeyError, TypeError):
        return None
    if not is_row or arrival is None or deadline is None or status not in tuple("WSECD"):
        return None
    return Row(serial, app, ia, arrival, deadline, status)


def entry_of(fields: Any) -> Entry:
    """The entry of decoded JSON. Raises KeyError and TypeError."""
    seq, statement, job, reply = (fields[name] for name in ("seq", "statement", "job", "reply"))
    if not (isinstance(seq, int) and isinstance(job, int) and isinstance(statement, str) and isinstance(reply, str)):
        raise TypeError
    return Entry(seq, statement, job, reply, fields["key"])


def pair_of(fields: Any) -> Pair:
    """The pair of decoded JSON. Raises KeyError and TypeError."""
    return Pair(fields["successor"], fields["predecessor"])
