"""What a desk knows and decides, without I/O: events go in by calls, and commands come out.

There is no clock here, no file and no asyncio. A desk over one machine's journal and a desk over etcd both run this
state; the code around it writes the log, talks to opcplan and answers callers.

What always holds (`State.broken` says what doesn't, and tests/test_desk_states.py calls it in each state of small
worlds):

- The position is never above the greatest entry whose reply came from this plan, and each entry up to it is answered.
- Each answered entry reaches each subscriber once, in order, without a gap.
- One key belongs to one stream.
- What is acknowledged is durable: nothing is sent to opcplan that the log doesn't have."""

import collections
import dataclasses
import re
from collections.abc import Iterable, Sequence
from typing import Generic, NamedTuple, Protocol, TypeVar

from opcplan.errors import Error
from opcplan.plans.chain import chained
from opcplan.plans.entry import Entry

# the most statements that opcplan has at once without a reply
MOST_IN_FLIGHT = 64
# the most answered entries in memory for readers of events, and the most bytes of their texts
MOST_RECENT, RECENT_BYTES = 500, 4 << 20


class Item(Protocol):
    """A statement for opcplan: a change has an entry, a question has none."""

    @property
    def entry(self) -> Entry | None:
        """The entry of a change that the log has."""

    @property
    def is_again(self) -> bool:
        """Whether its entry was answered before, so that it is a question by now."""


ItemT = TypeVar("ItemT", bound=Item)


@dataclasses.dataclass(frozen=True)
class Send(Generic[ItemT]):
    """Command: send opcplan an item."""

    item: ItemT


@dataclasses.dataclass(frozen=True)
class Answer(Generic[ItemT]):
    """Command: answer an item, in the state of the plan that `tag` and `position` name."""

    item: ItemT
    reply: str
    entry: Entry | None  # the answered entry of a change that wasn't answered before, else None
    tag: str
    position: int


@dataclasses.dataclass(frozen=True)
class Drop(Generic[ItemT]):
    """Command: reject an item for all that wait for it. A change stays, because the log has it."""

    item: ItemT


@dataclasses.dataclass(frozen=True)
class Read:
    """Command: read the answered entries after `since`, up to `upto`, in the journal; if it has none, look after
    `upto`."""

    since: int
    upto: int


class Rest(NamedTuple):
    """The state of the plan that a copy of its file has: the last entry, the tag, and the digest of the log up to that
    entry, or None if it isn't known. If it isn't `is_exact`, the file may have later entries too."""

    position: int
    tag: str
    digest: str | None
    is_exact: bool


class Claim(NamedTuple):
    """The digest of the stream under a caller's key, and how many requests use it."""

    stream: str
    users: int


class InvariantBroken(Error):
    """Which invariant doesn't hold: the desk can't go on."""


class State(Generic[ItemT]):
    """The state of a desk over a plan that has all entries up to `position`, and perhaps some of the later ones in
    `pending`. `life` is the name of the log, `chain` the digest of its entries and replies up to the position, or None
    if it isn't known."""

    most_recent = MOST_RECENT

    def __init__(self, life: str, position: int, chain: str | None = None, pending: Iterable[ItemT] = ()) -> None:
        self.life = life
        self.position = self.changed = self.kept = self.recent_from = position
        self.chain = chain
        self.line: collections.deque[ItemT] = collections.deque(pending)  # the items that opcplan will get, in order
        self.flight: collections.deque[ItemT] = collections.deque()  # the items that this process has without a reply
        self.recent: list[Entry] = []  # answered entries after `recent_from`, up to the position
        self.recent_bytes = 0  # of their texts
        self.chains: list[str | None] = []  # the digest at each of `recent`
        self.by_key: dict[tuple[str, str], ItemT] = {}  # changes whose reply the journal doesn't have
        self.claims: dict[tuple[str, str], Claim] = {}
        self.is_open = False
        self.durable = position + sum(is_change(item) for item in self.line)  # the last entry that the log has
        for item in self.line:
            if item.entry is not None and item.entry.key is not None:
                self.by_key[item.entry.who, item.entry.key] = item

    # What the log has.

    def appended(self, items: Sequence[ItemT]) -> list[Send[ItemT]]:
        """Takes changes that the log has now, durably, after all others. Raises InvariantBroken."""
        for item in items:
            if item.entry is None or item.entry.seq != self.durable + 1:
                raise InvariantBroken(f"entry {item.entry and item.entry.seq} doesn't come after entry {self.durable}")
            self.durable = item.entry.seq
            self.line.append(item)
        return self.sends()

    def asked(self, item: ItemT) -> list[Send[ItemT]]:
        """Takes a question."""
        self.line.append(item)
        return self.sends()

    # What opcplan does.

    def opened(self) -> list[Send[ItemT]]:
        """A process of opcplan has opened the plan."""
        self.is_open = True
        return self.sends()

    def sends(self) -> list[Send[ItemT]]:
        """What opcplan gets now. A change waits until the questions in front of it are answered, so that a question
        that is sent again to a later process doesn't see the change."""
        found: list[Send[ItemT]] = []
        while self.is_open and self.line and len(self.flight) < MOST_IN_FLIGHT:
            if is_change(self.line[0]) and self.flight and not is_change(self.flight[-1]):
                break
            self.flight.append(self.line.popleft())
            found.append(Send(self.flight[-1]))
        return found

    def replied(self, reply: str) -> list[Answer[ItemT] | Send[ItemT]]:
        """Takes opcplan's reply to the first item in flight. Raises InvariantBroken."""
        item, answered = self.flight.popleft(), None
        if is_change(item):
            assert item.entry is not None
            if item.entry.seq != self.position + 1:
                raise InvariantBroken(f"entry {item.entry.seq} was answered after entry {self.position}")
            answered = dataclasses.replace(item.entry, reply=reply)
            self.position = answered.seq
            if reply.startswith("ok"):
                self.changed = self.position
            self.chain = chained(self.chain, answered)
            self.recent.append(answered)
            self.recent_bytes += len(answered.text)
            self.chains.append(self.chain)
        tag, position = self.tag, self.position
        if item.is_again and item.entry is not None:  # it gets the answer of then, so the state is that of then too
            tag, position = self.tag_after(item.entry.seq), item.entry.seq
        return [Answer(item, reply, answered, tag, position), *self.sends()]

    def ended(self) -> None:
        """A process of opcplan is over: the next one gets what has no reply, in the same order."""
        self.is_open = False
        self.line.extendleft(reversed(self.flight))
        self.flight.clear()

    def stopped(self) -> list[Drop[ItemT]]:
        """Opcplan can't be started for now: all items are rejected, and changes stay in line."""
        found = [Drop(item) for item in (*self.flight, *self.line)]
        self.line = collections.deque(one.item for one in found if is_change(one.item))
        self.flight.clear()
        return found

    @property
    def is_idle(self) -> bool:
        """Whether nothing waits or is in flight, so the plan is exactly that of the position."""
        return not self.line and not self.flight

    def rest(self) -> Rest:
        """What the plan's file has now."""
        return Rest(self.position, self.tag, self.chain, self.is_idle)

    def copied(self, before: Rest) -> Rest:
        """What a copy of the file has that was begun in a state `before` and ends now. It is exact only if opcplan has
        done nothing meanwhile."""
        return before._replace(is_exact=before.is_exact and before == self.rest())

    @property
    def changes(self) -> int:
        """How many changes have no reply yet."""
        return self.durable - self.position

    @property
    def has_room(self) -> bool:
        """Whether opcplan may get more."""
        return len(self.line) + len(self.flight) < MOST_IN_FLIGHT

    # The journal beside the plan.

    def unkept(self) -> list[Entry]:
        """The answered entries whose reply the journal lacks, in their order."""
        return self.recent[self.kept - self.recent_from :]

    def digests(self, entries: Sequence[Entry]) -> list[str | None]:
        """The digest at each of these answered entries, which must be in memory."""
        return [self.chains[one.seq - self.recent_from - 1] for one in entries]

    def answered(self) -> dict[int, str]:
        """The digests at the entries in memory, by their numbers."""
        return {one.seq: digest for one, digest in zip(self.recent, self.chains) if digest is not None}

    def keeps(self, entries: Sequence[Entry]) -> None:
        """The journal has the replies of these entries now, where a retry finds them."""
        self.kept = max([self.kept, *(one.seq for one in entries)])
        for one in entries:
            item = None if one.key is None else self.by_key.get((one.who, one.key))
            if item is not None and item.entry is not None and item.entry.seq == one.seq:
                del self.by_key[one.who, one.key or ""]
        self.trim()

    def trim(self) -> None:
        """Drops entries that the journal has, if too many are in memory."""
        over, count = 0, len(self.recent)
        while over < self.kept - self.recent_from and (
                count - over > self.most_recent or self.recent_bytes > RECENT_BYTES):
            self.recent_bytes -= len(self.recent[over].text)
            over += 1
        del self.recent[:over]
        del self.chains[:over]
        self.recent_from += over

    # Readers.

    def due(self, last: int, most: int) -> list[Entry] | Read:
        """The answered entries after `last`, at most `most` of them, or where to read them."""
        if last < self.recent_from:
            return Read(last, self.recent_from)
        return self.recent[last - self.recent_from : last - self.recent_from + most]

    @property
    def tag(self) -> str:
        """The name of the plan's state: another log, or another change, has another tag."""
        return self.tag_after(self.changed)

    def tag_after(self, seq: int) -> str:
        """The name of the plan's state after an answered entry, as long as no later entry changed the plan."""
        return f"{self.life}-{seq}"

    def is_state(self, tag: str) -> bool:
        """Whether a tag names the state of the plan, and nothing waits. A desk that was started later may have named
        the same state by a later entry."""
        life, _, entry = tag.rpartition("-")
        is_one = life == self.life and re.fullmatch("[0-9]{1,15}", entry)
        return self.is_idle and bool(is_one) and self.changed <= int(entry) <= self.position

    # Keys.

    def claim(self, who: str, key: str, stream: str, stored: str | None) -> bool:
        """Claims a caller's key for a stream, until `release`; whether the key belongs to no other stream. `stored` is
        the stream to which the key belongs in the log, or None."""
        known = self.claims.get((who, key))
        if stored is not None and stored != stream or known is not None and known.stream != stream:
            return False
        self.claims[who, key] = Claim(stream, known.users + 1 if known else 1)
        return True

    def release(self, who: str, key: str) -> None:
        """Releases a key, once all changes of a request are answered or rejected."""
        known = self.claims[who, key]
        if known.users > 1:
            self.claims[who, key] = Claim(known.stream, known.users - 1)
        else:
            del self.claims[who, key]

    def wants(self, who: str, key: str, item: ItemT) -> None:
        """Notes a change that waits for the log under a caller's key."""
        self.by_key[who, key] = item

    def known(self, who: str, key: str) -> ItemT | None:
        """The change under a caller's key that waits, or whose reply the journal lacks, or None."""
        return self.by_key.get((who, key))

    def forget(self, who: str, key: str, item: ItemT) -> None:
        """Drops a change under a caller's key that didn't get into the log."""
        if self.by_key.get((who, key)) is item:
            del self.by_key[who, key]

    # What has to hold.

    def broken(self) -> str:
        """Which invariant doesn't hold, or nothing."""
        waiting = [item.entry.seq for item in (*self.flight, *self.line) if item.entry is not None and is_change(item)]
        if waiting != list(range(self.position + 1, self.durable + 1)):
            return f"entries {waiting} wait after entry {self.position}, and the log has entry {self.durable}"
        if [one.seq for one in self.recent] != list(range(self.recent_from + 1, self.position + 1)):
            return f"there are gaps among the entries after {self.recent_from}"
        if not self.recent_from <= self.kept <= self.position or not self.changed <= self.position:
            return (f"the journal has replies up to entry {self.kept}, and entry {self.changed} is the last change, at "
                    f"position {self.position}")
        if any(one.reply is None for one in self.recent):
            return "an entry without a reply is among the answered ones"
        if self.recent_bytes != sum(len(one.text) for one in self.recent):
            return f"the answered entries in memory don't have {self.recent_bytes} bytes"
        return ""


def is_change(item: Item) -> bool:
    """Whether an item is an entry that isn't answered."""
    return item.entry is not None and not item.is_again
