"""The log that several desks share. It is in etcd, and a desk may append to it if it knows all that is there."""

import asyncio
import contextlib
import hashlib
import os
import secrets
import socket
import time
from collections.abc import Callable, Collection, Mapping, Sequence
from typing import Any

from opcplan.desk import digests, log
from opcplan.desk.digests import Digests
from opcplan.desk.etcd import EtcdError, EtcdUnreachable, EXHAUSTED, Member
from opcplan.desk.keys import Keys, young_since
from opcplan.desk.log_entries import Head
from opcplan.desk.log_view import LogView
from opcplan.desk.published import Desks, Report
from opcplan.desk.shared_log import DeskNotOn, SharedLog
from opcplan.desk.store import Appended, head_of, State, Store
from opcplan.errors import LogUnwritable
from opcplan.plans import entry
from opcplan.plans.journal import Journal, JournalReply

# seconds between two requests for the head if no news of it comes, and between two looks at the nodes
POLL, LOOK = 0.5, 5.0
REST = 0.1
# seconds without news of the head until the desk reports that; one node that doesn't answer takes two of them
SILENT = 4.0
# what a desk reports of itself counts for a week at least: it is reported again after a day
DAY = 24 * 3600
# a desk publishes its digests after at least so many entries and so many seconds
EVERY, REPORT = 16, 2.0


class EtcdLog(log.Log):
    """The log under a name in etcd. The plan at `path` has its entries up to `given`; `version` is this desk's
    opcplan, and `keys` knows the keys of all these entries."""

    is_shared = True

    def __init__(self, keys: Keys, journal: Journal, store: Store, stands: State, given: int, version: str,
                 path: str) -> None:
        super().__init__(journal)
        self.keys, self.store, self.state, self.version = keys, store, stands, version
        self.path = os.path.realpath(path)
        begun = journal.begun()
        assert begun is not None and begun.plan is not None  # `bootstrap.joined` has kept it
        self.begun, self.begins, self.desk_id = begun, begun.seq, begun.plan
        self.view = LogView(self.path, given, stands.head, stands.versions, version)
        self.digests, self.is_stop_kept = Digests(begun.since, begun.stopped), bool(begun.stopped)
        self.shared = SharedLog(begun.plan, self.view, keys, self.digests, self.own_digests)
        self.shared.former = begun.former
        # batches are read whole: the first one may begin before the next entry
        self.read_behind = max(0, given - log.MOST_TOGETHER + 1)
        self.heard = time.monotonic()
        self.away = self.full = ""
        self.members: list[Member] = []
        self.reported: float | None = None  # when, by the monotonic clock
        self.tasks: list[asyncio.Task[None]] = []
        self.on_news: Callable[[], None] = lambda: None
        self.on_stop: Callable[[str], None] = lambda why: None
        self.answered: Callable[[], Mapping[int, str]] = dict

    @property
    def life(self) -> str:
        return self.state.id

    @property
    def given(self) -> int:
        return self.view.given

    @property
    def trouble(self) -> str:
        silent = time.monotonic() - self.heard
        unheard = f"etcd hasn't answered for {silent:.0f} s" if silent > SILENT else ""
        return self.lost or self.view.held or self.divided or self.away or unheard or self.full or self.unwritten

    @property
    def lost(self) -> str:
        """Why nothing more of the log can be read, or nothing."""
        return self.view.lost

    @property
    def head(self) -> Head:
        """The last entry of the log, as far as the desk knows."""
        return self.view.head

    def chain_at(self, position: int) -> str | None:
        return self.journal.digest_at(position, self.begins, self.begun.digest)

    def start(self, on_news: Callable[[], None], on_stop: Callable[[str], None],
              answered: Callable[[], Mapping[int, str]]) -> None:
        self.on_news, self.on_stop, self.answered = on_news, on_stop, answered
        if self.stopped:
            on_stop(self.stopped)
        self.tasks = [asyncio.create_task(one) for one in (self.watch(), self.poll(), self.look(), self.compare())]

    async def close(self) -> None:
        for task in self.tasks:
            task.cancel()
        await asyncio.gather(*self.tasks, return_exceptions=True)
        await self.keep_stop()  # where a request showed it, or a task ended before it was written
        with contextlib.suppress(EtcdUnreachable, EtcdError, ValueError):
            await self.report()
        await super().close()

    # Appending.

    async def append(self, batch: Sequence[entry.Wanted], replies: Sequence[JournalReply],
                     until: float) -> list[entry.Entry]:
        head = self.head
        try:
            entries = self.shared.place(batch)
        except DeskNotOn:
            raise LogUnwritable(self.lost or self.view.held or self.divided or self.stopped) from None
        came = await self.appended(head, entries, until)
        if not came.is_done:
            self.view.refused(came.head)
            self.heard, self.away = time.monotonic(), ""
            raise log.LogAdvanced
        try:
            await self.keep(entries, replies)
        except LogUnwritable as why:
            self.view.unkept()
            raise log.AppendUncertain(f"{why}; the statement is in the log, and is done once the journal can be "
                                      "written") from None
        self.notice(came.head)
        return entries

    async def appended(self, head: Head, entries: Sequence[entry.Entry], until: float) -> Appended:
        """Appends a batch after a head; what came of it. If an answer is lost, the batch is sent again with the same
        mark, which shows whether it was done before. Raises LogUnwritable."""
        mark = secrets.token_hex(8)
        while True:
            try:
                came = await self.store.append(head, mark, entries, until)
            except EtcdUnreachable as why:
                self.away = str(why)
                if time.monotonic() >= until:
                    raise log.AppendUncertain(f"{why}; the statement may be done all the same") from None
                await asyncio.sleep(REST)
                continue
            except EtcdError as why:
                raise LogUnwritable(self.refused(why)) from None
            self.full = ""
            first = came.batches[0] if came.batches else None
            if first and first.mark == mark and first.entries[0].seq == entries[0].seq:
                return came._replace(is_done=True)
            return came

    def refused(self, why: EtcdError) -> str:
        """The sentence for etcd's refusal of a change."""
        if why.code == EXHAUSTED and "space" in str(why):
            self.full = f"etcd accepts no change: {why}; make room with `./plan log {self.store.where} --trim`"
            return self.full
        return f"etcd accepts no change: {why}"

    async def keep(self, entries: Sequence[entry.Entry], replies: Sequence[JournalReply]) -> None:
        await super().keep(entries, replies)
        if entries:
            self.read_behind = entries[-1].seq
            self.view.kept(entries[-1].seq)

    # Entries of others.

    async def others(self) -> list[entry.Entry]:
        if not self.view.has_news or self.lost:
            return []
        least = self.given
        try:
            head, batches = await self.store.read(self.read_behind)
            if head is not None and head.moves != self.view.moves:
                self.view.knows(await self.store.versions(), head.moves)
        except (EtcdUnreachable, EtcdError) as why:
            self.away = str(why)
            raise LogUnwritable(str(why)) from None
        except (KeyError, TypeError, ValueError) as error:
            self.view.lost = (f"etcd has something below {self.store.root} that no desk writes: {error!r}; end the "
                              "program that writes there, and start the desk again")
            raise LogUnwritable(self.lost) from None
        self.heard, self.away = time.monotonic(), ""
        return self.shared.read(head, [one for batch in batches for one in batch.entries], least)

    def notice(self, head: Head | None, least: int = 0) -> None:
        """Takes news of the head. The answer to a request that was made when the plan had entry `least` can't be
        less."""
        self.heard, self.away = time.monotonic(), ""
        if self.view.notice(head, least):
            self.on_news()

    async def ask_last(self, until: float) -> int:
        least = self.given
        try:
            desks = await self.store.desks(until)
            self.notice(desks.head, least)
            self.judge(desks)
            self.shared.check_level()
        except DeskNotOn:
            raise LogUnwritable(self.lost or self.view.held) from None
        except (EtcdUnreachable, EtcdError, KeyError, TypeError, ValueError) as why:
            raise LogUnwritable(str(why)) from None
        return self.head.last

    def used(self, wanted: Sequence[entry.Wanted]) -> dict[int, entry.Entry | None]:
        return self.keys.used(wanted)

    def stream_of(self, who: str, key: str) -> str | None:
        return self.keys.stream_of(who, key)

    # What runs in the background.

    async def watch(self) -> None:
        """Follows the head; `poll` sees what this misses."""
        def on_value(data: bytes) -> None:
            """Takes a new head."""
            with contextlib.suppress(ValueError, TypeError):
                self.notice(head_of(data))
        while True:
            with contextlib.suppress(EtcdUnreachable, EtcdError):
                await self.store.etcd.watch(self.store.key("head"), on_value)
            await asyncio.sleep(POLL)

    async def poll(self) -> None:
        """Requests the head if no news of it came for a while."""
        while True:
            await asyncio.sleep(POLL)
            if time.monotonic() - self.heard >= POLL:
                least = self.given
                try:
                    self.notice(await self.store.head(), least)
                except (EtcdUnreachable, EtcdError) as why:
                    self.away = str(why)

    async def look(self) -> None:
        """Keeps the states of the nodes and etcd's alarms up to date."""
        etcd = self.store.etcd
        while True:
            self.members = await asyncio.gather(*map(etcd.standing, etcd.endpoints))
            with contextlib.suppress(EtcdUnreachable, EtcdError):
                alarms = (await etcd.post("/v3/maintenance/alarm", {"action": "GET"})).get("alarms", ())
                named = sorted({one.get("alarm", "") for one in alarms})
                self.full = f"etcd has an alarm: {', '.join(named)}; `./plan log --trim` makes room" if named else ""
            await asyncio.sleep(LOOK)

    async def compare(self) -> None:
        """Reads what other desks publish, decides by it, and publishes this desk's position and digests: at once, and
        then after some more entries or some time."""
        while True:
            self.keys.forget(young_since(time.time()))
            with contextlib.suppress(EtcdUnreachable, EtcdError, KeyError, TypeError, ValueError):
                self.judge(await self.store.desks())
                await self.keep_stop()
                await self.report()
            until, last, kind = time.monotonic() + LOOK, self.given, self.digests.verdict.kind
            await asyncio.sleep(REPORT)
            while self.given < last + EVERY and time.monotonic() < until and self.digests.verdict.kind == kind:
                await asyncio.sleep(POLL)

    def judge(self, desks: Desks) -> None:
        """Decides by what desks publish whether this one is on. Raises ValueError."""
        if self.shared.judge(desks.since(young_since(time.time()))):
            self.on_stop(self.stopped)

    def own_digests(self, needed: Collection[int]) -> dict[int, str]:
        """This desk's last digests, and those at some entries, as far as it has them."""
        found = self.journal.digests(digests.MOST, self.given) | self.journal.digests_at(needed)
        own = {seq: digest for seq, digest in found.items() if self.begins < seq <= self.given}
        begin = {} if self.begun.digest is None else {self.begins: self.begun.digest}
        return digests.short(begin | own | dict(self.answered()))

    @property
    def stopped(self) -> str:
        """Why the desk stopped permanently, or nothing."""
        kind, entry, _, is_exact = self.digests.verdict
        if kind != digests.STOPPED:
            return ""
        what = f"answered entry {entry}" if is_exact else f"had, by entry {entry}, answered"
        return f"a majority of the desks {what} differently from this desk. {digests.WAY_OUT.format(self.path)}"

    @property
    def divided(self) -> str:
        kind, entry, other, is_exact = self.digests.verdict
        if kind != digests.HELD:
            return ""
        theirs = self.shared.desks.reports[other] if self.shared.desks is not None else Report(0)
        own = self.reply_at(entry)
        replies = f": `{theirs.reply}` there, and `{own}` here" if own and theirs.reply and theirs.held == entry else ""
        what = f"answered entry {entry}" if is_exact else f"had, by entry {entry}, answered"
        return (f"desk {other} {what} differently from this desk, {self.desk_id}{replies}; neither has a majority of "
                f"the desks. {digests.WAY_ON.format(self.store.where)}")

    def reply_at(self, seq: int) -> str:
        """This desk's reply to an entry, or nothing if the journal doesn't have it."""
        found = self.journal.entries(seq - 1, 1, seq)
        return found[0].reply or "" if found else ""

    async def check_answers(self, until: float, is_confirmed: bool) -> None:
        while True:
            try:
                if self.shared.judge_again():
                    self.on_stop(self.stopped)
                if self.shared.may_answer(is_confirmed):
                    return
                if time.monotonic() > until:
                    raise LogUnwritable("no majority of the desks has published the same answers yet; try again")
                await asyncio.sleep(POLL)
                self.judge(await self.store.desks(until))
            except DeskNotOn:
                raise LogUnwritable(self.divided or self.stopped) from None
            except (EtcdUnreachable, EtcdError, KeyError, TypeError, ValueError) as why:
                raise LogUnwritable(f"what the desks answered isn't known: {why}") from None

    async def keep_stop(self) -> None:
        """Has the journal keep that the desk stopped, so that it doesn't start again."""
        if self.digests.verdict.kind == digests.STOPPED and not self.is_stop_kept:
            with contextlib.suppress(LogUnwritable):
                await self.written(self.journal.stop, self.digests.verdict.entry)
                self.is_stop_kept = True

    async def report(self) -> None:
        """Publishes in etcd this desk's position and digests, unless etcd has them. Raises EtcdUnreachable, EtcdError
        and ValueError."""
        said = self.shared.published()
        kind, at, *_ = self.digests.verdict
        held = at if kind == digests.HELD else 0
        current = Report(self.given, self.path, self.version, "", {str(seq): one for seq, one in said.digests.items()},
                         said.since, said.stopped, held, self.reply_at(held) if held else "")
        now = time.monotonic()
        if self.reported is not None and now < self.reported + DAY and self.shared.is_published(current):
            return
        await self.store.report(self.desk_id, current._replace(at=entry.moment_now()))
        if self.begun.former is not None and self.reported is None:
            await self.store.forget(self.begun.former)
        self.reported = now

    def standing(self, position: int) -> dict[str, Any]:
        return {"log": str(self.store.where), "head": self.head.last, "behind": max(0, self.head.last - position),
                "etcd": {**self.sizes(), "why": self.away, "members": [one.values() for one in self.members]}}

    def gauges(self, position: int) -> dict[str, float]:
        """The numbers of the log and of etcd, as far as they are known."""
        known: dict[str, float | None] = {
            "head": self.head.last, "behind": max(0, self.head.last - position),
            "etcd_members_up": sum(one.answers for one in self.members),
            **{f"etcd_{name}": value for name, value in self.sizes().items()}}
        return {name: value for name, value in known.items() if value is not None}

    def sizes(self) -> dict[str, int | None]:
        """The size of the largest of etcd's databases and the least quota, in bytes; None if not known."""
        answer = [one for one in self.members if one.answers]
        return {"bytes": max((one.bytes for one in answer), default=None),
                "quota": min((one.quota for one in answer if one.quota), default=None)}


def new_name() -> str:
    """A new id for a plan, which begins with the name of this host."""
    return f"{socket.gethostname()}-{secrets.token_hex(4)}"


def name_of(path: str) -> str:
    """The id that version 1.0 gave to a plan on this machine, from the host, the machine id and the path."""
    machine = b""
    with contextlib.suppress(OSError), open("/etc/machine-id", "rb") as file:
        machine = file.read()
    return f"{socket.gethostname()}-{hashlib.sha256(machine + os.path.realpath(path).encode()).hexdigest()[:8]}"
