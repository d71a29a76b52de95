"""A log in etcd. Its keys are below /opcplan/NAME/.

    begun            the id of the log, and from which plan it began
    head             the last entry, and how often the version was moved: `LAST MOVES`
    version/SINCE    the opcplan that answers the entries from this one on
    log/FIRST        entries that were appended together, under the number of the first
    key/WHO/KEY      what desks of version 1.0 kept of the entry that has a caller's key; their leases end it
    desk/ID          the position and digests that a desk publishes
    distrusted/ID    a desk whose vote somebody took away

A desk that appends, or moves the version, does so on the condition that `head` is as it knows it. So all see one
order."""

import json
import urllib.parse
from collections.abc import AsyncIterator, Mapping, Sequence
from typing import Any, NamedTuple

from opcplan.desk import keys
from opcplan.desk.etcd import Etcd, EtcdUnreachable
from opcplan.desk.log import MOST_TOGETHER
from opcplan.desk.log_entries import (
    Batch, batch_of, batch_text, Head, holder_in, in_base64, KeyHolder, number_of, of_base64)
from opcplan.desk.log_words import Where
from opcplan.desk.published import Desks, Report, report_of
from opcplan.plans.entry import Entry

# the most batches that are read at once, and the most keys of version 1.0
MOST_READ, MOST_KEYS = 64, 1000
# the most entries that are removed by one call
MOST_TRIMMED = 2000
BEHIND_ALL = ":"  # sorts after each digit
Part = Mapping[str, Any]  # of a transaction: a condition, a read or a write


class State(NamedTuple):
    """The state of a log: its id, the entry from which it began and the sum of that plan, its head, its first entry
    that is left (the one after `head` if none is), and the opcplan from each entry on at which it was moved."""

    id: str
    base: int
    base_sum: str
    head: Head
    first: int
    versions: dict[int, str]


class Appended(NamedTuple):
    """What came of an append: whether it is done, and if not, what is there instead."""

    is_done: bool
    head: Head | None
    batches: list[Batch]


class TransactionResult(NamedTuple):
    """etcd's answer to a transaction: whether its conditions held, the answers to its parts, and etcd's revision
    then."""

    held: bool
    answers: list[dict[str, Any]]
    revision: int


class LogContent(NamedTuple):
    """What was read of a log: its Head, or None if there is no log, and Batches."""

    head: Head | None
    batches: list[Batch]


class Size(NamedTuple):
    """How many entries a log has, and their bytes."""

    entries: int
    bytes: int


class Trimmed(NamedTuple):
    """How many batches were removed, and etcd's revision then."""

    gone: int
    revision: int


class Store:
    """A log in etcd."""

    def __init__(self, etcd: Etcd, where: Where) -> None:
        self.etcd, self.where, self.root = etcd, where, f"/opcplan/{where.name}"
        self.most = MOST_READ

    def key(self, *parts: str) -> str:
        """The key of a part of the log."""
        return "/".join([self.root, *parts])

    def log_key(self, seq: int) -> str:
        """The key of the batch that begins with an entry."""
        return self.key("log", f"{seq:010d}")

    async def txn(self, compare: Sequence[Part], success: Sequence[Part], failure: Sequence[Part],
                  until: float | None = None) -> TransactionResult:
        """The answer to a transaction. Raises EtcdUnreachable and EtcdError, as do all calls that use etcd."""
        said = {"compare": compare, "success": success, "failure": failure}
        found = await self.etcd.post("/v3/kv/txn", said, until)
        answers = [next(iter(one.values())) for one in found.get("responses", ())]
        return TransactionResult(found.get("succeeded", False), answers, int(found["header"]["revision"]))

    async def asked(self, *ranges: Part) -> list[dict[str, Any]]:
        """The answers to some reads at one moment."""
        return (await self.txn([], ranges, [])).answers

    # Reading.

    async def state(self) -> State | None:
        """The State, or None if there is no such log."""
        begun, head, versions, first = await self.asked(
            at(self.key("begun")), at(self.key("head")), below(self.key("version") + "/"),
            below(self.key("log") + "/", limit="1", keys_only=True))
        if not kvs(head) or not kvs(begun):
            return None
        fields, last = json.loads(value(begun)), head_of(value(head))
        return State(fields["id"], fields["position"], fields["sum"], last,
                     number_of(kvs(first)[0]) if kvs(first) else last.last + 1,
                     {number_of(kv): of_base64(kv["value"]).decode() for kv in kvs(versions)})

    async def head(self, until: float | None = None) -> Head | None:
        """The Head, or None if there is no such log."""
        found = await self.etcd.post("/v3/kv/range", at(self.key("head"))["request_range"], until)
        return head_of(value(found)) if kvs(found) else None

    async def versions(self) -> dict[int, str]:
        """The opcplan from each entry on at which it was moved."""
        (found,) = await self.asked(below(self.key("version") + "/"))
        return {number_of(kv): of_base64(kv["value"]).decode() for kv in kvs(found)}

    async def read(self, after: int) -> LogContent:
        """The batches after an entry, at most `self.most` of them, which gets less after etcd took too long."""
        try:
            head, log = await self.asked(at(self.key("head")), self.behind(after, self.most))
        except EtcdUnreachable:
            self.most = max(1, self.most // 8)
            raise
        self.most = MOST_READ
        return LogContent(head_of(value(head)) if kvs(head) else None, [batch_of(kv) for kv in kvs(log)])

    def behind(self, after: int, most: int) -> Part:
        """A read of the batches after an entry, at most `most`."""
        return below(self.log_key(after + 1), self.key("log", BEHIND_ALL), limit=str(most))

    async def holding(self, seq: int) -> Batch | None:
        """The Batch that has an entry, or None if it was removed."""
        (found,) = await self.asked(below(self.log_key(max(0, seq - MOST_TOGETHER)), self.log_key(seq + 1)))
        last = batch_of(kvs(found)[-1]) if kvs(found) else None
        return last if last and last.last >= seq else None

    async def size(self) -> Size:
        """The size of the log."""
        entries, size, after = 0, 0, -1
        while True:
            (found,) = await self.asked(self.behind(after, MOST_READ))
            if not kvs(found):
                return Size(entries, size)
            for kv in kvs(found):
                batch = batch_of(kv)
                entries, size = entries + len(batch.entries), size + len(kv["value"]) * 3 // 4
                after = batch.last

    async def entries(self, first: int, last: int) -> AsyncIterator[Entry]:
        """The Entries from one to another that are left, in their order."""
        after = max(0, first - MOST_TOGETHER)  # a batch may begin before its entry
        while after < last:
            try:
                batches = (await self.read(after)).batches
            except EtcdUnreachable:
                if self.most == 1:
                    raise
                continue
            if not batches:
                return
            for one in (one for batch in batches for one in batch.entries if first <= one.seq <= last):
                yield one
            after = batches[-1].last

    async def first_since(self, first: int, last: int, since: str) -> int:
        """The first of some entries that is no older than a moment, as in `keys.first_since`."""
        search = keys.first_since(first, last, since)
        try:
            seq = next(search)
            while True:
                batch = await self.holding(seq)
                seq = search.send(batch.entries[seq - batch.entries[0].seq].at if batch else None)
        except StopIteration as found:
            return int(found.value)

    async def first_keyed(self, first: int, last: int) -> int | None:
        """The first of some entries that has a key, or None."""
        async for one in self.entries(first, last):
            if one.key is not None:
                return one.seq
        return None

    async def old_keys(self) -> dict[tuple[str, str], KeyHolder]:
        """What desks of version 1.0 kept of keys, by caller and key. Raises ValueError and TypeError too."""
        prefix, found = self.key("key", ""), {}
        begin, end = prefix, self.key("key") + "0"  # which sorts after each key below `key/`
        while True:
            (answer,) = await self.asked(below(begin, end, limit=str(MOST_KEYS)))
            for kv in kvs(answer):
                begin = of_base64(kv["key"]).decode()
                who, _, key = begin.removeprefix(prefix).partition("/")
                found[urllib.parse.unquote(who), key] = holder_in(of_base64(kv["value"]))
            if not answer.get("more"):
                return found
            begin += "\0"

    # Writing.

    async def create(self, log_id: str, position: int, base_sum: str, version: str, at: str) -> bool:
        """Makes the log unless there is one; whether it did."""
        begun = {"id": log_id, "position": position, "sum": base_sum, "at": at}
        absent = [is_absent(self.key(name)) for name in ("head", "begun")]
        return (await self.txn(absent, [
            put(self.key("begun"), json.dumps(begun)), put(self.key("head"), str(Head(position, 0))),
            put(self.key("version", f"{position + 1:010d}"), version)], [])).held

    async def append(self, head: Head, mark: str, entries: Sequence[Entry], until: float | None = None) -> Appended:
        """Appends Entries if the head is still `head`."""
        last = entries[-1].seq
        success = [put(self.log_key(entries[0].seq), batch_text(mark, entries)),
                   put(self.key("head"), str(head._replace(last=last)))]
        failure = [at(self.key("head")), self.behind(head.last, 1)]
        is_done, answers, _ = await self.txn([self.is_head(head)], success, failure, until)
        if is_done:
            return Appended(True, head._replace(last=last), [])
        found, log = answers
        return Appended(False, head_of(value(found)) if kvs(found) else None, [batch_of(kv) for kv in kvs(log)])

    async def move_version(self, head: Head, version: str) -> bool:
        """Moves the log to another opcplan from the entry after `head` on, if the head is still that; whether it
        did."""
        moved = head._replace(moves=head.moves + 1)
        return (await self.txn([self.is_head(head)], [
            put(self.key("version", f"{head.last + 1:010d}"), version), put(self.key("head"), str(moved))], [])).held

    def is_head(self, head: Head) -> Part:
        """The condition that the head is still `head`."""
        return {"key": in_base64(self.key("head")), "target": "VALUE", "result": "EQUAL",
                "value": in_base64(str(head))}

    async def report(self, desk_id: str, given: Report) -> None:
        """Publishes a desk's Report. It is under no lease: if a lease ended early, the desk would have no vote."""
        await self.etcd.post("/v3/kv/put", put(self.key("desk", desk_id), given.text)["request_put"])

    async def desks(self, until: float | None = None) -> Desks:
        """What desks publish, and how far the log is then. Raises ValueError and TypeError too."""
        asked = at(self.key("head")), below(self.key("desk", "")), below(self.key("distrusted", ""))
        (head, reports, distrusted), revision = (await self.txn([], asked, [], until))[1:]
        return Desks(head_of(value(head)) if kvs(head) else None,
                     {self.named(kv): report_of(of_base64(kv["value"])) for kv in kvs(reports)},
                     {self.named(kv) for kv in kvs(distrusted)}, revision)

    @staticmethod
    def named(kv: Mapping[str, str]) -> str:
        """The last part of a key."""
        return of_base64(kv["key"]).decode().rpartition("/")[2]

    async def distrust(self, name: str, moment: str) -> None:
        """Takes a desk's vote away."""
        await self.etcd.post("/v3/kv/put", put(self.key("distrusted", name), moment)["request_put"])

    async def forget(self, name: str) -> None:
        """Removes a desk's Report. A desk that still runs publishes it again."""
        await self.etcd.post("/v3/kv/deleterange", {"key": in_base64(self.key("desk", name))})

    async def trim(self, first: int, before: int) -> Trimmed:
        """Removes the batches that begin at `first` or later and before `before`, some at a time, because others wait
        meanwhile."""
        gone, revision, end = 0, 0, first
        while end < before or not revision:
            end = min(end + MOST_TRIMMED, before)
            found = await self.etcd.post("/v3/kv/deleterange", {
                "key": in_base64(self.log_key(0)), "range_end": in_base64(self.log_key(end))})
            gone, revision = gone + int(found.get("deleted", 0)), found["header"]["revision"]
        return Trimmed(gone, revision)


# Parts of a transaction, and their answers.


def at(key: str) -> Part:
    """A read of one key."""
    return {"request_range": {"key": in_base64(key)}}


def below(begin: str, end: str | None = None, **more: str | bool) -> Part:
    """A read of the keys with a prefix, or from `begin` up to an end, in their order."""
    end = end or begin[:-1] + chr(ord(begin[-1]) + 1)
    return {"request_range": {"key": in_base64(begin), "range_end": in_base64(end), **more}}


def put(key: str, text: str) -> Part:
    """A write of a text under a key."""
    return {"request_put": {"key": in_base64(key), "value": in_base64(text)}}


def is_absent(key: str) -> Part:
    """The condition that there is nothing under a key."""
    return {"key": in_base64(key), "target": "CREATE", "result": "EQUAL", "create_revision": "0"}


def kvs(answer: Mapping[str, Any]) -> Sequence[Mapping[str, str]]:
    """The keys and values in an answer."""
    found: Sequence[Mapping[str, str]] = answer.get("kvs", ())
    return found


def value(answer: Mapping[str, Any]) -> bytes:
    """The value of the one key in an answer."""
    return of_base64(answer["kvs"][0].get("value"))


def head_of(data: bytes) -> Head:
    """The Head of its text. Raises ValueError and TypeError."""
    return Head(*map(int, data.split()))
