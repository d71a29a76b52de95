"""The start of a desk over a log in etcd: which entry its plan has, and whether plan and log belong together."""

import contextlib
import hashlib
import os
import secrets
import time
from collections.abc import AsyncIterator, Iterator, Set

from opcplan.desk import log
from opcplan.desk.digests import begun_with, PlanFacts, Start
from opcplan.desk.etcd import Etcd, EtcdError, EtcdUnreachable
from opcplan.desk.etcd_log import EtcdLog, name_of, new_name
from opcplan.desk.keys import Keys, young_since
from opcplan.desk.log_words import Access, Where
from opcplan.desk.store import State, Store
from opcplan.desk.versions import CannotJoin, version_of, why_not_started
from opcplan.errors import LogUnwritable, Unreadable
from opcplan.plans import chain, copy_mark, entry, journal, journal_plan, sound_rows
from opcplan.plans.plan_file import Plan

OTHER_JOURNAL = "this is the journal of another log; move it away, or name another journal with --journal"
NEW_FILE = "take another desk's plan: move {0} away, and start this desk with --from http://OTHERDESK"
CHANGED_ETCD = "etcd's data were changed or restored"
NO_DIGEST = ("{0} has entry {1} of the log and no digest of its answers: no desk and no `./plan backup` made this "
             "copy, or it was changed since. To go on, {2}")


@contextlib.asynccontextmanager
async def opened(where: Where, access: Access) -> AsyncIterator[Store]:
    """The Store of a log. Raises CannotJoin if etcd doesn't answer, or refuses a request."""
    async with Etcd(where.endpoints, access) as etcd:
        try:
            yield Store(etcd, where)
        except (EtcdUnreachable, EtcdError) as why:
            refused = "etcd refuses the request: " if isinstance(why, EtcdError) else ""
            raise CannotJoin(f"{where}: {refused}{why}") from None


async def joined(store: Store, plan: str, path: str, program: str) -> EtcdLog:
    """The log in etcd for a desk over a plan, with a journal at `path`. Raises CannotJoin, Unreadable, EtcdUnreachable
    and EtcdError."""
    version = version_of(program)
    with contextlib.ExitStack() as files, contextlib.ExitStack() as left:
        try:
            held = files.enter_context(journal.at_rest(plan))
        except Unreadable as why:
            raise CannotJoin(f"{why}. If that can't be mended, {NEW_FILE.format(plan)}") from None
        try:
            known = await store.state()
            record = journal_of(path, left)
            state = known or await made(store, held, record, version)
            given = await Joining(store, state, held, record).applied()
        except LogUnwritable as why:
            raise CannotJoin(str(why)) from None
        first = next((one.seq for one in record.unanswered() if one.seq <= given), given + 1)
        if wrong := why_not_started(state.versions, first, version, str(store.where), program):
            raise CannotJoin(wrong)
        found = EtcdLog(await keys_of(store, state, record, given), record, store, state, given, version, plan)
        if found.chain_at(first - 1) is None:
            raise CannotJoin(NO_DIGEST.format(plan, first - 1, NEW_FILE.format(plan)))
        with no_other_writer(store):
            found.judge(await store.desks())  # so that a desk that is held says so from the start
            await found.report()  # so that it has its vote before anybody sees an answer of it, or has a copy
        record.note_statuses(held)
        left.pop_all()
    return found


async def keys_of(store: Store, state: State, record: journal.Journal, given: int) -> Keys:
    """The keys of the entries up to `given`: those that the journal lacks are read from the log, and what desks of
    version 1.0 kept of them too. Raises CannotJoin, EtcdUnreachable and EtcdError."""
    begun, found = record.begun(), Keys(record)
    last = record.lacks_upto(begun.seq if begun else 0, given)
    with no_other_writer(store):
        first = await store.first_since(max(state.first, state.base + 1), last, young_since(time.time()))
        async for one in store.entries(first, last):
            found.learn([one])
        for (who, key), holder in (await store.old_keys()).items():
            found.learn_holder(who, key, holder)
    return found


@contextlib.contextmanager
def no_other_writer(store: Store) -> Iterator[None]:
    """A context that reads what desks write. Raises CannotJoin if it is something else."""
    try:
        yield
    except (KeyError, TypeError, ValueError) as error:
        raise CannotJoin(f"{store.where}: etcd has something below {store.root} that no desk writes: {error!r}; end "
                         "the program that writes there, and start the desk again") from None


def journal_of(path: str, left: contextlib.ExitStack) -> journal.Journal:
    """The Journal at a path. `left` closes it, and deletes it if it was made here."""
    if not os.path.exists(path) or not os.path.getsize(path):
        left.callback(remove, path)
    record = journal.Journal(path, is_copy=True)
    left.callback(record.close)
    return record


async def made(store: Store, held: Plan, record: journal.Journal, version: str) -> State:
    """Makes a log for a plan without a desk's job numbers; its State. Raises CannotJoin."""
    position = journal.position_of(held)
    if position or record.position():
        what = f"{held.path} has job numbers of a log, up to {entry.number_of(position)}" if position else (
            f"{record.path} is the journal of a log")
        raise CannotJoin(f"{store.where}: there is no such log in etcd, and {what}. Name the right log. If it is lost, "
                         "or the plan had a desk of its own, end all its desks and begin a log from the file with the "
                         f"most entries: `./plan log {store.where} --begin {held.path}`")
    await begun(store, held, 0, version)
    if (state := await store.state()) is None:
        raise CannotJoin(f"{store.where}: the new log was removed from etcd at once; end the program that removes "
                         "it, and start the desk again")
    return state


async def begun(store: Store, held: Plan, position: int, version: str) -> bool:
    """Makes a log after a plan's entry `position` unless there is one; whether it did."""
    return await store.create(secrets.token_hex(8), position, content_sum(held), version, entry.moment_now())


class Joining:
    """A plan and its journal, which are to continue with a log."""

    def __init__(self, store: Store, state: State, held: Plan, record: journal.Journal) -> None:
        self.where, self.store, self.state, self.held, self.record = store.where, store, state, held, record
        self.jobs = copy_mark.jobs_of(held)
        self.position = journal.position_of(held)

    async def applied(self) -> int:
        """Checks that plan, journal and log belong together; the last entry that the plan has. Raises CannotJoin."""
        known, last = self.record.begun(), next(iter(self.record.last_kept()), None)
        own = known if known is not None and known.log == self.state.id else None
        has_last = last is None or journal_plan.written(self.job(last.job)) == last.text
        is_level = own is not None and self.jobs >= own.jobs and has_last
        await self.check_text()
        begin = self.by_file() if own is None or not is_level else Start(max(self.record.position(), own.seq), "")
        found = begin.seq
        if own is None and not (has_last and self.record.position() <= found):
            raise CannotJoin(f"{self.record.path}: {OTHER_JOURNAL}")
        self.check_end(found)
        # without a journal of the log the last entry has to be there, so that it can be compared
        if self.state.first > (found + 1 if is_level or found == self.state.base else found):
            raise CannotJoin(f"{self.where}: the log is trimmed up to entry {self.state.first - 1}, and the last entry "
                             f"of {self.held.path} is {found}. To go on, {NEW_FILE.format(self.held.path)}")
        if own is None or not is_level:
            self.record.begin(self.state.id, found, self.jobs, begin.digest, new_name())
        elif own.plan is None:
            self.complete(own)
        await self.check_jobs(found)
        return found

    def complete(self, own: journal.LogStart) -> None:
        """Has a journal of version 1.0 keep what it lacks. Raises LogUnwritable."""
        digest = self.base_digest if own.seq == self.state.base else own.digest
        self.record.name_plan(new_name(), name_of(self.held.path), digest)

    async def check_jobs(self, upto: int) -> None:
        """Checks that the plan has the jobs of its journal, as they were answered, and otherwise only those that the
        log has after the journal. Raises CannotJoin."""
        try:
            journal_plan.check(self.record, self.held, frozenset(), upto)
        except journal_plan.JournalMismatch:
            try:
                journal_plan.check(self.record, self.held, await self.jobs_behind(), upto)
            except journal_plan.JournalMismatch as why:
                raise CannotJoin(f"{why}. To go on, {NEW_FILE.format(self.held.path)}") from None

    async def jobs_behind(self) -> Set[int]:
        """The job numbers of the log's entries that the journal doesn't have. Raises EtcdUnreachable and EtcdError."""
        found: set[int] = set()
        last = max(0, self.record.position() - log.MOST_TOGETHER)
        while batches := (await self.store.read(last)).batches:
            found |= {one.job for batch in batches for one in batch.entries}
            last = batches[-1].last
        return found

    @property
    def base_digest(self) -> str:
        """The digest with which the log begins."""
        return chain.chain_of(self.state.id, self.state.base)

    def by_file(self) -> Start:
        """What the desk begins with, by the plan's file alone. Raises CannotJoin."""
        is_base = self.position <= self.state.base and content_sum(self.held) == self.state.base_sum
        found = begun_with(copy_mark.of(self.held), PlanFacts(
            self.state.id, self.state.base, self.base_digest, self.position, self.jobs, is_base))
        if found is not None:
            return found
        if self.position > self.state.base:
            self.check_end(self.position)
            raise CannotJoin(NO_DIGEST.format(self.held.path, self.position, NEW_FILE.format(self.held.path)))
        raise CannotJoin(f"{self.where}: the log doesn't belong to {self.held.path}, which is another plan, or is "
                         f"older than the log. To go on, {NEW_FILE.format(self.held.path)}")

    async def check_text(self) -> None:
        """Checks that the plan's last job with a desk's number is the one in the log, if the log still has it. Raises
        CannotJoin."""
        seq, number = self.position, entry.number_of(self.position)
        batch = await self.store.holding(seq) if max(self.state.base + 1, self.state.first) <= seq else None
        text = journal_plan.written(self.job(number))
        if batch is not None and batch.entries[seq - batch.entries[0].seq].text != text:
            raise CannotJoin(f"{self.where}: entry {seq} differs from job {number} of {self.held.path}: the log is "
                             f"another plan's, or {CHANGED_ETCD}. Name the log of this plan; or, to go on with the "
                             f"plan of this log, {NEW_FILE.format(self.held.path)}")

    def check_end(self, found: int) -> None:
        """Checks that the log has all entries of the plan. Raises CannotJoin."""
        if found > self.state.head.last:
            raise CannotJoin(f"{self.where}: the log ends with entry {self.state.head.last}, and {self.held.path} has "
                             f"entry {found}: {CHANGED_ETCD}. End all desks of the plan, and begin a log with a new "
                             "name from the file with the most entries: `./plan log etcd://../NEWNAME --begin "
                             "PLAN.db`")

    def job(self, number: int) -> bytes | None:
        """The text of a kept job, or None."""
        row = self.held.db.execute("SELECT body FROM job WHERE number = ?", (number,)).fetchone()
        return None if row is None else bytes(row[0])


def remove(path: str) -> None:
    """Deletes a file, if it exists."""
    with contextlib.suppress(FileNotFoundError):
        os.remove(path)


def content_sum(held: Plan) -> str:
    """The SHA-256 of all rows of a plan, in hexadecimal."""
    found = hashlib.sha256()
    for table, keys in sound_rows.KEYS.items():
        found.update(table.encode())
        for row in held.db.execute(f"SELECT * FROM {table} ORDER BY {', '.join(keys)}"):
            found.update(repr(tuple(row)).encode())
    return found.hexdigest()
