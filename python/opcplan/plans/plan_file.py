"""A plan's file, read without touching it.

A reader that has the file open as a database makes `opcplan` end with fault 50, SQLite leaves files beside a file that
it only reads, and a file without its log is an older plan. So the file and its log are copied and the copy is read
(`opened`), or the file is read as bytes that nobody changes, if nothing is in its log, and the answer counts only if
nobody has changed them (`answer`). Each subcommand reads by these two alone.

A file is checked before anything of it is shown, and again once it has changed (`kept_checks`). Where opcplan opens a
copy anyway, it checks the plan, and this package doesn't (`by_program`)."""

import contextlib
import os
import shutil
import sqlite3
import stat
import time
from collections.abc import Callable, Iterator
from typing import NamedTuple, TypeVar

from opcplan.errors import Error, Unreadable
from opcplan.plans import kept_checks, page_sums, progress, sound_pairs, sound_rows, table_checks, tempfiles

T = TypeVar("T")  # what is made of a plan

VERSIONS = (1, 2)  # of the tables, those that are read
BEGIN = b"SQLite format 3\0"
TRIES = 5
# a journal can name any other file, which SQLite then takes away: it is never copied
JOURNAL = "-journal"
TAILS = ("", "-wal", JOURNAL)
# a log of so many bytes has no page, whatever they are
MOST_WITHOUT_PAGES = 32 + 24
# a change that comes this soon after another one may leave the file's time as it was, or, where times are whole
# seconds, that soon
COARSE, WHOLE_SECONDS = 0.02, 2.0
SECOND = 1_000_000_000
# of what a check takes, how much the rows take by themselves; the rest is for pairs
ROWS_SHARE = 0.6
# of a file its head, which has the counter of changes, and of a log
OF_HEAD = 100
# KiB of pages that SQLite holds: a check looks up each row in the indexes of its table, here and there
HELD_PAGES = 24_000


class Stamp(NamedTuple):
    """What tells one state of a file from another: its tail, size in bytes, times of the last change of its bytes and
    of whatever is known about it in ns, inode, device. The second of the times can't be set by a program."""

    tail: str
    size: int
    changed: int
    inode: int
    device: int
    touched: int


class State(NamedTuple):
    """What a file and its log are at a moment in ns: their stamps, and how each begins."""

    stamps: tuple[Stamp, ...]
    heads: tuple[str, ...]
    moment: int

    @property
    def written(self) -> float:
        """When the file or its log was written last, in seconds."""
        return max(seen.changed for seen in self.stamps) / 1e9

    @property
    def is_settled(self) -> bool:
        """Whether any change after the moment shows in the stamps: the last one is older than times are exact."""
        return all(seen.touched + granule(seen) <= self.moment and seen.changed + granule(seen) <= self.moment
                   for seen in self.stamps)

    @property
    def has_log(self) -> bool:
        """Whether the log may have a page."""
        return any(seen.tail == TAILS[1] and seen.size > MOST_WITHOUT_PAGES for seen in self.stamps)

    @property
    def text(self) -> str:
        """The same in words, without the moment."""
        return f"{[tuple(seen) for seen in self.stamps]} {list(self.heads)}"


class Checking(NamedTuple):
    """What a plan's check is about: the private copy, the state of the file that it is a copy of, the result that is
    kept once it is found sound (None: none is), and whether it was."""

    copy: str
    state: State
    kept: kept_checks.StoredResult | None
    is_sound: bool


class Plan:
    """A plan that is read; `written` is when its file or log was written last, in seconds. Without a `checking` nobody
    asks whether it is sound."""

    def __init__(self, path: str, db: sqlite3.Connection, written: float, checking: Checking | None = None) -> None:
        self.path = path
        self.db = db
        self.written = written
        self.checking = checking
        self.meta = meta_of(db)
        self.is_created = bool(self.meta["created"])
        self.version: int = self.meta["version"]


@contextlib.contextmanager
def opened(path: str | os.PathLike[str], is_own: bool = False, by_program: bool = False) -> Iterator[Plan]:
    """A Plan of a private copy of the file, which goes when the context ends. Raises Unreadable, also for what is found
    later. The rows of a file of this command's `own`, which opcplan alone has written or is going to check, aren't
    checked. With `by_program` they aren't checked here: whoever asks has opcplan open a copy, and says what came of it
    by `check` or `found_sound` before anything of the plan is shown."""
    path = os.fspath(path)
    real = place_of(path)
    with tempfiles.folder("plan-") as folder:
        copy = os.path.join(folder, "plan.db")
        try:
            check_begin(real)
            check_room(real, folder)
            state = copied_as(real, copy)
        except OSError as error:
            raise Unreadable(f"{path}: it can't be read: {error.strerror or error}") from None
        except Unreadable as error:
            raise Unreadable(f"{path}: {error}") from None
        if os.path.getsize(copy) == 0:
            raise Unreadable(f"{path}: it is empty, so it is not a plan")
        with reading(path), contextlib.closing(sqlite3.connect(copy, isolation_level=None)) as db:
            prepare(db)
            yield Plan(path, db, state.written) if is_own else checked(path, db, copy, state, by_program)


def answer(path: str | os.PathLike[str], make: Callable[[Plan], T]) -> T:
    """What is made of a Plan, by something that leaves nothing else behind. Where the file was checked before and
    nothing is in its log, it is read as it is; if it changes meanwhile, the answer is made again, of a copy. Raises
    Unreadable."""
    path = os.fspath(path)
    real = place_of(path)
    state = kept_state(real)
    if state is not None and not state.has_log:
        try:
            with reading(path), contextlib.closing(connected(real)) as db:
                prepare(db)
                made = make(Plan(path, db, state.written))
        except Exception:
            if is_still(real, state):
                raise
        else:
            if is_still(real, state):
                return made
    with opened(path) as plan:
        return make(plan)


def place_of(path: str) -> str:
    """Where a file is, links followed. Raises Unreadable."""
    if not os.path.exists(path):
        raise Unreadable(f"{path}: there is no such file")
    if not os.path.isfile(path):
        raise Unreadable(f"{path}: it is not a file")
    return os.path.realpath(path)


def connected(path: str) -> sqlite3.Connection:
    """A file as bytes that nobody changes: SQLite takes no lock then, looks for no log, and leaves nothing behind."""
    name = "".join(f"%{byte:02x}" for byte in os.fsencode(path))
    return sqlite3.connect(f"file:{name}?mode=ro&immutable=1", uri=True, isolation_level=None)


@contextlib.contextmanager
def reading(path: str) -> Iterator[None]:
    """A context of which each error of reading a plan is raised as Unreadable, with the path."""
    try:
        yield
    except (NotAPlan, sound_rows.Unsound) as error:
        raise Unreadable(f"{path}: {error}") from None
    except sqlite3.Error as error:
        raise Unreadable(f"{path}: it can't be read as a plan: {error}") from error
    except UnicodeDecodeError as error:  # SQLite told a name that is no text
        text = error.object.decode("utf-8", "surrogateescape")
        raise Unreadable(f"{path}: it can't be read as a plan: {text}") from None


def check_begin(path: str) -> None:
    """Asks that a file begins as a database does, before it is copied; an empty one is told of later."""
    with open(path, "rb") as file:
        if file.read(len(BEGIN)) not in (BEGIN, b""):
            raise Unreadable("it can't be read as a plan: it is not a database")


def is_database(path: str) -> bool:
    """Whether a path is a file that begins as a database does."""
    if not os.path.isfile(path):
        return False
    try:
        with open(path, "rb") as file:
            return file.read(len(BEGIN)) == BEGIN
    except OSError:
        return False


def check_room(path: str, folder: str) -> None:
    """Asks that there is room for a private copy of a file and its log, which is told before it is filled."""
    wanted, free = sum(seen.size for seen in stamps(path)), shutil.disk_usage(folder).free
    if wanted > free:
        where = os.path.dirname(folder)
        raise Unreadable(f"a private copy of it needs {wanted:,} bytes, but {where} has only {free:,} free")


class NotAPlan(Error):
    """Why a database is no plan that is read here."""


def prepare(db: sqlite3.Connection) -> None:
    """Sets how a database is read."""
    db.row_factory = sqlite3.Row
    db.execute("PRAGMA trusted_schema = OFF")
    db.execute("PRAGMA synchronous = OFF")  # nobody needs the copy later
    db.execute(f"PRAGMA cache_size = -{HELD_PAGES}")


def checked(path: str, db: sqlite3.Connection, copy: str, state: State, by_program: bool = False) -> Plan:
    """The Plan of a copy of a file that was in a state. It is checked, unless it was found sound in that state, or
    opcplan checks it; what is found is kept, if a later change of the file would show."""
    real = os.path.realpath(path)
    kept = None if tempfiles.is_held(real) else kept_checks.of_file(real, state.text)
    if kept is not None and kept_checks.is_there(kept):
        return Plan(path, db, state.written, Checking(copy, state, kept, True))
    checking = Checking(copy, state, kept, False)
    if by_program:
        try:
            return Plan(path, db, state.written, checking)
        except (Error, sqlite3.Error):
            ask_sums(db, copy)  # which say better what is damaged
            raise
    with progress.of(f"checks {path}") as far:
        ask_sums(db, copy)
        plan = Plan(path, db, state.written, checking)
        ask_rows(plan, copy, far)
    keep(plan)
    return plan


def ask_rows(plan: Plan, copy: str, far: progress.Progress) -> None:
    """Asks that the tables of a plan, of which there is a private copy, are undamaged, and that its rows are sound.
    Raises Unsound."""
    count = len(sound_rows.RULES)
    with table_checks.TableChecks(copy, plan.db.interrupt) as tables:
        begun = 1  # of so many tables the rows are asked for
        try:
            tables.begin(begun)
            for done in sound_rows.asked(plan.db, plan.version):
                far.at(done * ROWS_SHARE)
                tables.begin(begun := min(begun + 1, count))
            for done in sound_pairs.asked(plan.db, plan.version):
                far.at(ROWS_SHARE + done * (1 - ROWS_SHARE))
        except Exception:
            tables.wait(begun)
            raise
        tables.wait(count)


def check(plan: Plan) -> None:
    """Checks a plan that opcplan didn't take, or that it was not asked of: whoever gets no sentence here may go on.
    Raises NotAPlan and Unsound."""
    if plan.checking is None or is_sound(plan):
        return
    with progress.of(f"checks {plan.path}") as far:
        ask_sums(plan.db, plan.checking.copy)
        ask_rows(plan, plan.checking.copy, far)
    keep(plan)


def found_sound(plan: Plan) -> None:
    """Notes that opcplan opened a copy of a plan, so its rows are sound. What opcplan doesn't read is asked here: that
    indexes say the same as the tables. Raises Unsound."""
    if not is_sound(plan):
        sound_rows.ask_tables(plan.db)
        keep(plan)


def is_sound(plan: Plan) -> bool:
    """Whether it is known that a plan is sound."""
    return plan.checking is not None and plan.checking.is_sound


def check_sums(plan: Plan) -> None:
    """Asks that each page of a plan matches its sum, where pages have one. Raises NotAPlan."""
    if plan.checking is not None:
        with progress.of(f"checks the pages of {plan.path}"):
            ask_sums(plan.db, plan.checking.copy)


def keep(plan: Plan) -> None:
    """Notes that a plan was found sound, and keeps that, if a later change of its file would show."""
    if plan.checking is None:
        return
    plan.checking = plan.checking._replace(is_sound=True)
    if plan.checking.kept is not None and plan.checking.state.is_settled:
        kept_checks.put(plan.checking.kept)


def kept_state(path: str) -> State | None:
    """The state in which a file is, if it was found sound in it, or None."""
    with contextlib.suppress(OSError):
        state = state_of(path)
        kept = kept_checks.of_file(path, state.text)
        return state if kept is not None and kept_checks.is_there(kept) else None
    return None


def is_still(path: str, state: State) -> bool:
    """Whether a file and its log are in a state that they were in."""
    with contextlib.suppress(OSError):
        return tuple(stamps(path)) == state.stamps
    return False


def ask_sums(db: sqlite3.Connection, copy: str) -> None:
    """Asks that each page matches its sum, where pages have one. What stands in the log goes into the copy before."""
    if not page_sums.are_in(copy):
        return
    db.execute("PRAGMA wal_checkpoint(TRUNCATE)").fetchall()
    page = page_sums.first_wrong(copy)
    if page is not None:
        raise NotAPlan(f"page {page} doesn't match its sum: it is damaged, or another program than opcplan wrote it")


def meta_of(db: sqlite3.Connection) -> sqlite3.Row:
    """The one row of plan_meta, of a database that has a plan's tables in a version that is read here."""
    found = {row["name"] for row in db.execute("SELECT name FROM sqlite_schema WHERE type = 'table' AND rootpage > 0")}
    if "plan_meta" not in found:
        raise NotAPlan("it is a database, but not a plan: it has no table plan_meta")
    rows: list[sqlite3.Row] = db.execute("SELECT * FROM plan_meta LIMIT 2").fetchall()
    if len(rows) != 1 or "version" not in rows[0].keys():
        raise NotAPlan("it is not a plan: its table plan_meta isn't that of a plan")
    if rows[0]["version"] not in VERSIONS:
        read = " and ".join(map(str, VERSIONS))
        raise NotAPlan(f"its tables have version {rows[0]['version']}, but this ./plan reads version {read}")
    lacked = [table for table in sound_rows.RULES if table not in found]
    if lacked:
        raise NotAPlan(f"it is not a plan: it has no table {lacked[0]}")
    sound_rows.ask_form(db, rows[0]["version"])
    return rows[0]


def copied(path: str, copy: str) -> float:
    """Copies the file and its log where neither changes meanwhile, and answers when they were written last."""
    return copied_as(path, copy).written


def copied_as(path: str, copy: str) -> State:
    """The same, and answers the state that was copied."""
    for tried in range(TRIES):
        time.sleep(COARSE * (2**tried - 1))
        before = state_of(path)
        if is_fresh(before):
            time.sleep(COARSE)
            before = state_of(path)
        if has_journal(path):
            continue
        try:
            for tail in ("", "-wal"):
                take(path + tail, copy + tail)
        except FileNotFoundError:  # the log went while it was copied
            if not os.path.exists(path):
                raise
            continue
        if is_still(path, before):
            return before
    if has_journal(path):
        reason = "another program is writing to the plan, or was stopped while it wrote. opcplan can't open it either"
        raise Unreadable(f"{os.path.basename(path)}{JOURNAL} is beside it: {reason}")
    raise Unreadable("another program kept writing to it; try again")


def take(source: str, target: str) -> None:
    """Copies a file that may be missing."""
    with contextlib.suppress(FileNotFoundError):
        os.remove(target)
    try:
        mode = os.stat(source).st_mode
    except FileNotFoundError:
        return
    if not stat.S_ISREG(mode):
        raise Unreadable(f"{os.path.basename(source)} beside it is not a file")
    shutil.copyfile(source, target)


def state_of(path: str) -> State:
    """The state of a file and of what stands beside it, as of now."""
    moment = time.time_ns()
    found = stamps(path)
    return State(tuple(found), tuple(head_of(path + seen.tail) for seen in found), moment)


def stamps(path: str) -> list[Stamp]:
    """Size, times and place of the file and of what stands beside it."""
    found = []
    for tail in TAILS:
        with contextlib.suppress(FileNotFoundError):
            seen = os.stat(path + tail)
            found.append(Stamp(tail, seen.st_size, seen.st_mtime_ns, seen.st_ino, seen.st_dev, seen.st_ctime_ns))
    return found


def head_of(path: str) -> str:
    """How a file begins, in digits; nothing of what is no file."""
    if not os.path.isfile(path):
        return ""
    with contextlib.suppress(FileNotFoundError), open(path, "rb") as file:
        return file.read(OF_HEAD).hex()
    return ""


def granule(seen: Stamp) -> int:
    """How far apart two changes are at least, in ns, of which the times differ."""
    is_whole = not (seen.changed % SECOND or seen.touched % SECOND)
    return int((WHOLE_SECONDS if is_whole else COARSE) * SECOND)


def has_journal(path: str) -> bool:
    """Whether a journal stands beside the file by which SQLite would go back: its first byte isn't 0."""
    if not os.path.isfile(path + JOURNAL):
        return os.path.exists(path + JOURNAL)
    with contextlib.suppress(FileNotFoundError), open(path + JOURNAL, "rb") as file:
        return file.read(1) > b"\0"
    return False


def is_fresh(state: State) -> bool:
    """Whether the newest change is so young that another one might not show."""
    return any(0 <= state.moment - at < COARSE * SECOND for seen in state.stamps for at in (seen.changed, seen.touched))
