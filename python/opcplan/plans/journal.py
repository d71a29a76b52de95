"""The journal of a desk: who asked what, when, and what it was answered; and when what happened, which a plan doesn't
keep. It is a SQLite file beside the plan."""

import array
import bisect
import contextlib
import os
import re
import sqlite3
import time
from collections.abc import Iterable, Iterator, Set
from typing import NamedTuple

from opcplan.errors import LogUnwritable, Unreadable
from opcplan.plans import chain, entry, journal_plan, plan_file, tempfiles
from opcplan.plans.entry import Entry
from opcplan.plans.plan_file import Plan

SCHEMA = """
CREATE TABLE entry (
    seq INTEGER PRIMARY KEY, at TEXT NOT NULL, who TEXT NOT NULL, key TEXT, job INTEGER NOT NULL, text NOT NULL,
    reply TEXT, stream TEXT, digest TEXT);
CREATE UNIQUE INDEX entry_by_key ON entry (who, key) WHERE key IS NOT NULL;
CREATE INDEX entry_by_job ON entry (job);
CREATE INDEX entry_unanswered ON entry (seq) WHERE reply IS NULL;
CREATE TABLE happened (
    serial INTEGER NOT NULL, app TEXT NOT NULL, ia TEXT NOT NULL, status TEXT NOT NULL, at TEXT NOT NULL,
    seq INTEGER PRIMARY KEY);
CREATE INDEX happened_by_serial ON happened (serial);
PRAGMA user_version = 1;
"""
# of a log that is shared: what LogStart has
BEGUN = """CREATE TABLE begun (log TEXT NOT NULL, seq INTEGER NOT NULL, jobs INTEGER NOT NULL, digest TEXT, plan TEXT,
    since INTEGER, stopped INTEGER, former TEXT)"""
# columns that journals of earlier programs lack
LATER = {"entry": {"stream": "TEXT", "digest": "TEXT"},
         "begun": {"digest": "TEXT", "plan": "TEXT", "since": "INTEGER", "stopped": "INTEGER", "former": "TEXT"}}
COLUMNS = "seq, at, who, key, job, text, reply, stream"
STATUS = re.compile(r"ok serial ([0-9]+) status ([WSECD])")
# the serials of a plan that have a status, in order; what is in the history is complete
PLACES = {status: f"SELECT serial FROM cp_row WHERE status = '{status}' ORDER BY serial" for status in "SE"} | {
    "C": "SELECT serial FROM cp_row WHERE status = 'C' UNION SELECT serial FROM history_row ORDER BY serial"}
TAIL = ".journal"
NO_END = 1 << 62
# seconds for which a key stands for its first entry
WEEK = 7 * 24 * 3600
# a disk with less room is full, in bytes: SQLite's logs take so much at once
LEAST_ROOM = 1 << 16
NEW_JOURNAL = ("If that was intended, begin a new journal: give --journal a file that doesn't exist yet. Keys and "
               "times of the old journal stay in it")
# how long a plan may be written to before it is opened, in seconds
PATIENCE = 30


class StatusChange(NamedTuple):
    """What happened to an occurrence: its serial, application, input arrival, new status, when, by which entry."""

    serial: int
    app: str
    ia: str
    status: str
    at: str
    seq: int


class PlanIdentity(NamedTuple):
    """The plan of a journal: where it was, which file, and the jobs that the journal doesn't have."""

    path: str
    device: int
    inode: int
    jobs: set[int]


class JournalReply(NamedTuple):
    """What an entry was answered, as the journal keeps it; `digest` is that of the log up to the entry, where it is
    known."""

    seq: int
    reply: str
    digest: str | None


class LogStart(NamedTuple):
    """From where on a journal keeps a log that several desks share: which log, behind which entry, how many jobs the
    plan had then, and the digest of the log up to that entry, where it is known. The id of the plan among those of the
    log, None in a journal of version 1.0; the entry after which the plan answers by itself; the entry at which its desk
    stopped permanently, or 0; and the id that the plan had before, if it had one."""

    log: str
    seq: int
    jobs: int
    digest: str | None
    plan: str | None
    since: int
    stopped: int
    former: str | None


class Journal:
    """The journal in a file; `floor` is a position that entries stand behind at least. One thread writes it, by `put`
    and `keep_replies`. Each entry is on the disk then, but with `is_copy`: what a power cut takes of one whose log
    stands elsewhere is read there again."""

    def __init__(self, path: str, floor: int = 0, is_copy: bool = False) -> None:
        self.path, self.floor = path, floor
        self.before: Set[int] | None = None
        # serials of a plan that had these statuses when a desk began over it, in order
        self.had = {status: array.array("q") for status in "SEC"}
        try:
            self.db = sqlite3.connect(path, isolation_level=None, check_same_thread=False)
            self.db.execute("PRAGMA journal_mode = WAL")
            self.db.execute(f"PRAGMA synchronous = {'NORMAL' if is_copy else 'FULL'}")
            self.make_tables()
            # another thread may write meanwhile: what is read is what is on the disk
            self.reader = sqlite3.connect(path, isolation_level=None)
        except sqlite3.Error as error:
            raise Unreadable(f"{path}: it can't be opened as a journal: {fault_text(error, path)}") from None

    def make_tables(self) -> None:
        """Makes the tables in a new file. Raises Unreadable where it is another one's."""
        (version,) = self.db.execute("PRAGMA user_version").fetchone()
        names = {name for (name,) in self.db.execute("SELECT name FROM sqlite_schema WHERE type = 'table'")}
        if not names:
            self.db.executescript(f"BEGIN IMMEDIATE;{SCHEMA}COMMIT;")
        elif version != 1 or not {"entry", "happened"} <= names:
            raise Unreadable(f"{self.path}: it is a database, but not the journal of a desk")
        for table, later in LATER.items():
            columns = {name for _, name, *_ in self.db.execute(f"PRAGMA table_info({table})")}
            for name, kind in later.items():
                if columns and name not in columns:
                    self.db.execute(f"ALTER TABLE {table} ADD COLUMN {name} {kind}")

    def position(self) -> int:
        """The number of the last entry, at least the floor."""
        (last,) = self.reader.execute("SELECT max(seq) FROM entry").fetchone()
        return max(last or 0, self.floor)

    def put(self, entries: Iterable[Entry], replies: Iterable[JournalReply] = ()) -> None:
        """Keeps Entries under their numbers, and replies, all or nothing. One that stands there stays, and has to be
        the same. Raises LogUnwritable."""
        with self.transaction():
            for one in entries:
                put = self.db.execute("""INSERT INTO entry (seq, at, who, key, job, text, stream)
                    VALUES (?, ?, ?, ?, ?, ?, ?) ON CONFLICT (seq) DO NOTHING""",
                                      (one.seq, one.at, one.who, self.free_key(one), one.job, stored(one.text),
                                       one.stream))
                if not put.rowcount and not self.has(one):
                    raise LogUnwritable(f"entry {one.seq} of the journal {self.path} isn't that of the log")
            self.put_replies(replies)

    def free_key(self, one: Entry) -> str | None:
        """An Entry's key, taken from an entry that is so old that its key is free; None where another one keeps it: the
        first entry of the key for a week, or one that came later."""
        row = self.db.execute("SELECT seq, at FROM entry WHERE who = ? AND key = ? AND seq <> ?",
                              (one.who, one.key, one.seq)).fetchone()
        if row is None:
            return one.key
        if row[0] > one.seq or row[1] > entry.moment_before(one.at, WEEK):
            return None
        self.db.execute("UPDATE entry SET key = NULL WHERE seq = ?", (row[0],))
        return one.key

    def has(self, one: Entry) -> bool:
        """Whether an Entry's text stands under its number."""
        row = self.db.execute("SELECT text FROM entry WHERE seq = ?", (one.seq,)).fetchone()
        return bool(row == (stored(one.text),))

    def begun(self) -> LogStart | None:
        """From where on it keeps a log that several desks share, or None."""
        if not self.db.execute("PRAGMA table_info(begun)").fetchall():
            return None
        row = self.db.execute("""SELECT log, seq, jobs, digest, plan, coalesce(since, seq), coalesce(stopped, 0), former
            FROM begun""").fetchone()
        return None if row is None else LogStart(*row)

    def begin(self, log_id: str, seq: int, jobs: int, digest: str, plan: str) -> None:
        """Keeps which log the plan shares from an entry on, whose digest is that, under a new id. What another plan
        answered to later entries goes. Raises LogUnwritable."""
        known = self.begun()
        with self.transaction():
            self.db.execute("DELETE FROM entry WHERE seq > ?", (seq,))
            self.db.execute("DELETE FROM happened WHERE seq > ?", (seq,))
            self.db.execute("DROP TABLE IF EXISTS begun")
            self.db.execute("DROP TABLE IF EXISTS of_plan")
            self.db.execute(BEGUN)
            self.db.execute("INSERT INTO begun VALUES (?, ?, ?, ?, ?, ?, 0, ?)",
                            (log_id, seq, jobs, digest, plan, seq, known and known.plan))
        self.floor = seq

    def name_plan(self, plan: str, former: str, digest: str | None) -> None:
        """Keeps what a journal of version 1.0 lacks: the plan's id, that by which version 1.0 named it, and the digest
        with which the journal begins. Raises LogUnwritable."""
        with self.transaction():
            self.db.execute("UPDATE begun SET plan = ?, former = ?, since = seq, stopped = 0, digest = ?",
                            (plan, former, digest))

    def stop(self, seq: int) -> None:
        """Keeps at which entry the desk stopped permanently. Raises LogUnwritable."""
        with self.transaction():
            self.db.execute("UPDATE begun SET stopped = ?", (seq,))

    def keep_replies(self, replies: Iterable[JournalReply]) -> None:
        """Keeps what entries were answered. Raises LogUnwritable."""
        with self.transaction():
            self.put_replies(replies)

    def put_replies(self, replies: Iterable[JournalReply]) -> None:
        """The same within a transaction."""
        for seq, reply, digest in replies:
            self.db.execute("UPDATE entry SET reply = ?, digest = ? WHERE seq = ?", (reply, digest, seq))
            if found := STATUS.fullmatch(reply):
                self.keep_status(seq, int(found.group(1)), found.group(2))

    def keep_status(self, seq: int, serial: int, status: str) -> None:
        """Keeps when an occurrence got a status, where that isn't a job which was answered before."""
        at, job, text = self.db.execute("SELECT at, job, text FROM entry WHERE seq = ?", (seq,)).fetchone()
        if self.db.execute("SELECT 1 FROM entry WHERE job = ? AND seq < ?", (job, seq)).fetchone():
            return
        if job < entry.FIRST_JOB and job in self.jobs_before():
            return
        named = options(text)
        self.db.execute("INSERT OR REPLACE INTO happened VALUES (?, ?, ?, ?, ?, ?)",
                        (serial, named["app"], named["ia"], status, at, seq))

    def jobs_before(self) -> Set[int]:
        """The jobs that the plan had when a desk began, and that the journal doesn't have: those that were pruned
        too."""
        if self.before is None:
            known = self.of_plan()
            self.before = known.jobs if known else set()
        return self.before

    @contextlib.contextmanager
    def transaction(self) -> Iterator[None]:
        """A context that is done whole and synced, or not at all. Raises LogUnwritable."""
        try:
            self.db.execute("BEGIN IMMEDIATE")
            yield
            self.db.execute("COMMIT")
        except (sqlite3.Error, LogUnwritable) as error:
            with contextlib.suppress(sqlite3.Error):
                self.db.execute("ROLLBACK")
            if isinstance(error, LogUnwritable):
                raise
            raise LogUnwritable(f"the journal {self.path} can't be written: {fault_text(error, self.path)}") from None

    def entries(self, since: int = 0, most: int = -1, upto: int = NO_END) -> list[Entry]:
        """At most so many Entries behind a position, and up to another one, in their order, that are answered."""
        asked = f"SELECT {COLUMNS} FROM entry WHERE seq > ? AND seq <= ? AND reply IS NOT NULL ORDER BY seq LIMIT ?"
        return [entry_of(row) for row in self.reader.execute(asked, (since, upto, most)).fetchall()]

    def every(self) -> Iterator[Entry]:
        """All Entries, by and by, those without a reply too."""
        since = -1
        while found := self.reader.execute(f"SELECT {COLUMNS} FROM entry WHERE seq > ? ORDER BY seq LIMIT 1000",
                                           (since,)).fetchall():
            since = found[-1][0]
            yield from map(entry_of, found)

    def unanswered(self) -> list[Entry]:
        """The Entries from the first one on whose reply isn't kept, in their order."""
        asked = f"""SELECT {COLUMNS} FROM entry WHERE seq >= (SELECT min(seq) FROM entry WHERE reply IS NULL)
            ORDER BY seq"""
        return [entry_of(row) for row in self.reader.execute(asked).fetchall()]

    def stream_of(self, who: str, key: str) -> str | None:
        """The digest of the stream that a caller's key stands for, or None where it stands for none that is known."""
        row = self.reader.execute("""SELECT stream FROM entry WHERE who = ? AND (key = ? OR key > ? AND key < ?)
            AND stream IS NOT NULL LIMIT 1""", (who, key, f"{key}#", f"{key}$")).fetchone()
        return None if row is None else str(row[0])

    def lacks_upto(self, begins: int, last: int) -> int:
        """The entry after which the journal has all entries up to `last`: `begins`, or `last` if there are gaps."""
        (count,) = self.reader.execute("SELECT count(*) FROM entry WHERE seq > ? AND seq <= ?",
                                       (begins, last)).fetchone()
        return begins if count == last - begins else last

    def first(self) -> int:
        """The number of the first entry, one behind the position where there is none."""
        first: int | None
        (first,) = self.reader.execute("SELECT min(seq) FROM entry").fetchone()
        return self.position() + 1 if first is None else first

    def digest_at(self, seq: int, base: int, begin: str | None) -> str | None:
        """The digest of the log up to an entry, where that of the entry `base` is `begin`; None where it isn't known.
        Entries get theirs which an earlier program kept without. Raises LogUnwritable."""
        if seq == base:
            return begin
        row = self.reader.execute("""SELECT seq, digest FROM entry WHERE seq <= ? AND seq > ? AND digest IS NOT NULL
            ORDER BY seq DESC LIMIT 1""", (seq, base)).fetchone()
        last: int
        digest: str | None
        last, digest = row or (base, begin)
        found = []
        for one in self.entries(last, -1, seq):
            if digest is None or one.seq != last + 1:
                return None
            last, digest = one.seq, chain.chained(digest, one)
            found.append((digest, one.seq))
        if found:
            with self.transaction():
                self.db.executemany("UPDATE entry SET digest = ? WHERE seq = ?", found)
        return digest if last == seq else None

    def digests(self, most: int, upto: int = NO_END) -> dict[int, str]:
        """The last digests that are kept, up to an entry, by the numbers of their entries."""
        asked = "SELECT seq, digest FROM entry WHERE digest IS NOT NULL AND seq <= ? ORDER BY seq DESC LIMIT ?"
        return dict(self.reader.execute(asked, (upto, most)).fetchall())

    def digests_at(self, seqs: Iterable[int]) -> dict[int, str]:
        """The digests that are kept at these entries, by their numbers."""
        asked = "SELECT seq, digest FROM entry WHERE seq = ? AND digest IS NOT NULL"
        return dict(row for seq in seqs for row in self.reader.execute(asked, (seq,)))

    def find(self, who: str, key: str) -> Entry | None:
        """The Entry of a caller's key, or None."""
        row = self.reader.execute(f"SELECT {COLUMNS} FROM entry WHERE who = ? AND key = ?", (who, key)).fetchone()
        return None if row is None else entry_of(row)

    def agents(self, most: int = 100_000) -> set[str]:
        """Who of the last so many entries sent one under a key of the form that agents make."""
        asked = """SELECT DISTINCT who FROM entry WHERE seq > (SELECT max(seq) FROM entry) - ?
            AND (key GLOB ? OR key GLOB ?)"""
        of_run = "[0-9a-f]" * 24 + "*"
        return {who for (who,) in self.db.execute(asked, (most, f"agent-{of_run}", f"agent-*-{of_run}"))}

    def last_kept(self, most: int = 1, upto: int = NO_END) -> list[Entry]:
        """The last Entries whose job the plan keeps with its reply, up to a position, the last one first."""
        asked = f"""SELECT {COLUMNS} FROM entry WHERE reply IS NOT NULL AND reply NOT LIKE 'refused 10%'
            AND reply NOT LIKE 'refused 11%' AND reply NOT LIKE 'refused 12%' AND seq <= ?
            ORDER BY seq DESC LIMIT ?"""
        return [entry_of(row) for row in self.reader.execute(asked, (upto, most)).fetchall()]

    def jobs(self) -> set[int]:
        """The job numbers of all entries."""
        return {number for (number,) in self.reader.execute("SELECT job FROM entry")}

    def of_plan(self) -> PlanIdentity | None:
        """The PlanIdentity that is noted, or None."""
        if self.db.execute("SELECT 1 FROM sqlite_schema WHERE name = 'of_plan'").fetchone() is None:
            return None
        row = self.db.execute("SELECT path, device, inode, jobs FROM of_plan").fetchone()
        return None if row is None else PlanIdentity(row[0], row[1], row[2], journal_plan.numbers_of(row[3]))

    def note_plan(self, path: str, device: int, inode: int, jobs: str) -> None:
        """Notes whose journal it is. Raises LogUnwritable."""
        with self.transaction():
            self.db.execute(journal_plan.TABLE)
            self.db.execute("DELETE FROM of_plan")
            self.db.execute("INSERT INTO of_plan VALUES (?, ?, ?, ?)", (path, device, inode, jobs))
        self.before = None

    def note_statuses(self, plan: Plan) -> None:
        """Notes which occurrences of a plan were started: the journal may be younger than that."""
        for status, text in PLACES.items():
            self.had[status] = array.array("q", (serial for (serial,) in plan.db.execute(text)))

    def statuses(self, serial: int) -> str:
        """The statuses that an occurrence got, in order: what the plan had when the desk began, then what happened."""
        had = [status for status, serials in self.had.items()
               if serials[(place := bisect.bisect_left(serials, serial)) : place + 1] == array.array("q", [serial])]
        asked = "SELECT status FROM happened WHERE serial = ? ORDER BY seq"
        return "".join([*had, *(status for (status,) in self.reader.execute(asked, (serial,)))])

    def happened(self) -> list[StatusChange]:
        """What happened, in its order."""
        found = self.reader.execute("SELECT serial, app, ia, status, at, seq FROM happened ORDER BY seq").fetchall()
        for serial, app, ia, status, at, seq in found:
            texts = (app, ia, status, at)
            if not (isinstance(serial, int) and all(isinstance(one, str) for one in texts) and entry.is_moment(at)):
                raise sqlite3.DatabaseError(f"no desk writes what `happened` has for entry {seq}")
        return [StatusChange(*row) for row in found]

    def close(self) -> None:
        """Leaves all in one file."""
        self.reader.close()
        with contextlib.suppress(sqlite3.Error):
            self.db.execute("PRAGMA wal_checkpoint(TRUNCATE)")
        self.db.close()


def fault_text(error: sqlite3.Error, path: str) -> str:
    """What a fault of SQLite over a file means: of a full disk it says `disk I/O error` too."""
    with contextlib.suppress(OSError):
        room = os.statvfs(os.path.dirname(os.path.abspath(path)))
        if room.f_bavail * room.f_frsize < LEAST_ROOM:
            return "its disk is full"
    return str(error)


def entry_of(row: tuple[int, str, str, str | None, int, str | bytes, str | None, str | None]) -> Entry:
    """The Entry of a row. Raises DatabaseError where no desk wrote it."""
    seq, at, who, key, job, text, reply, stream = row
    texts = [at, who, *(one for one in (key, reply, stream) if one is not None)]
    if not (all(isinstance(one, str) for one in texts) and entry.is_moment(at) and isinstance(job, int)
            and isinstance(text, (str, bytes))):
        raise sqlite3.DatabaseError(f"no desk writes what entry {seq} has")
    return Entry(seq, at, who, key, job, text.encode() if isinstance(text, str) else text, reply, stream)


def stored(text: bytes) -> str | bytes:
    """A text as it is kept: as text where it is one."""
    try:
        return text if b"\0" in text else text.decode("utf-8")
    except UnicodeDecodeError:
        return text


def options(text: str | bytes) -> dict[str, str]:
    """The options of a statement's line by name."""
    line = text.encode() if isinstance(text, str) else text
    given = line.split(b"\n", 1)[0].decode("ascii").replace("=", " ").split()
    return {name[2:]: value for name, value in zip(given, given[1:]) if name.startswith("--")}


@contextlib.contextmanager
def opened(path: str) -> Iterator[Journal]:
    """A Journal to read: a private copy, which goes when the context ends. Raises Unreadable."""
    if os.path.exists(path) and not os.path.isfile(path):
        raise Unreadable(f"{path}: it is not a file")
    if not os.path.exists(path) or not os.path.getsize(path):
        raise Unreadable(f"{path}: there is no such journal")
    with tempfiles.folder("journal-") as folder:
        copy = os.path.join(folder, "journal")
        try:
            plan_file.check_room(os.path.realpath(path), folder)
            plan_file.copied(os.path.realpath(path), copy)
        except (OSError, Unreadable) as error:
            raise Unreadable(f"{path}: it can't be read: {error}") from None
        try:
            journal = Journal(copy)
        except Unreadable as error:
            raise Unreadable(str(error).replace(copy, path)) from None
        with contextlib.closing(journal):
            try:
                yield journal
            except sqlite3.Error as error:
                raise Unreadable(f"{path}: it can't be read as a journal: {error}") from None


def beside(plan: str) -> str:
    """The path of the usual journal of a plan."""
    return os.path.realpath(plan) + TAIL


def for_desk(path: str, plan: str) -> Journal:
    """The Journal of a desk over a plan: it goes on behind what either has. Raises Unreadable where the plan is older
    than the journal."""
    with at_rest(plan) as held:
        journal = Journal(path, position_of(held))
        with contextlib.ExitStack() as left:
            left.callback(journal.close)
            last = next(iter(journal.last_kept()), None)
            if last and held.db.execute("SELECT 1 FROM job WHERE number = ?", (last.job,)).fetchone() is None:
                raise Unreadable(
                    f"{path}: it belongs to a later state of {plan}, which lacks job {last.job}. Run the journal over "
                    f"the plan: `./plan journal {plan} --journal {path} --stream | ./opcplan --db {plan}`. Or begin a "
                    "new journal: give --journal a file that doesn't exist yet")
            try:
                journal_plan.check(journal, held)
            except journal_plan.JournalMismatch as why:
                raise Unreadable(f"{why}. {NEW_JOURNAL}" if str(why).startswith(plan) else str(why)) from None
            journal.note_statuses(held)
            left.pop_all()
    return journal


def position_of(held: Plan) -> int:
    """How far a plan has a log by itself: the entry of the greatest number that a desk gave."""
    return position_in(held.db)


def position_in(db: sqlite3.Connection) -> int:
    """The same of a plan's database."""
    asked = "SELECT max(number) FROM job WHERE number BETWEEN ? AND ?"
    greatest: int | None
    (greatest,) = db.execute(asked, (entry.FIRST_JOB, entry.LAST_JOB)).fetchone()
    return greatest - entry.FIRST_JOB + 1 if greatest else 0


@contextlib.contextmanager
def at_rest(plan: str) -> Iterator[Plan]:
    """A Plan of the file; where the opcplan of a killed desk still writes, it is waited for. Raises Unreadable."""
    with contextlib.ExitStack() as files:
        until = time.monotonic() + PATIENCE
        while True:
            try:
                held = files.enter_context(plan_file.opened(plan))
                break
            except Unreadable as error:
                if not str(error).endswith("try again") or time.monotonic() > until:
                    raise
        yield held
