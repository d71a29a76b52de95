"""Which entry of a shared log has a caller's key, and what a desk may append: decided without I/O.

The key is in its entry, so the log itself has all keys. A desk appends a change under a key only if it knows that no
entry has this key. It knows because of these rules:

- A desk appends only after the last entry that it has taken, and etcd refuses the append if there is a later one.
- Right before that, it looks the key up in its journal and among the keys of the entries before its journal. A desk
  that begins with a copy of a plan reads those from the log before it accepts a change.
- A trim leaves each entry that has a key and is younger than KEPT, and all entries after it.

What always holds (tests/test_key_states.py goes through small worlds of several desks):

- A key that is younger than a week has one entry, and each caller under it gets the answer of that entry.
- A key that is younger than a week belongs to one stream."""

from collections.abc import Generator, Iterable, Mapping, Sequence
from typing import Protocol

from opcplan.desk.log import KeysInUse, LogAdvanced
from opcplan.desk.log_entries import holder_of, KeyHolder, text_sum
from opcplan.plans import entry
from opcplan.plans.entry import Entry, Wanted

# seconds for which the log keeps a key: a week, and a day by which the clocks of desks may differ
KEPT = 8 * 24 * 3600


class Stored(Protocol):
    """What a journal has of keys."""

    def find(self, who: str, key: str) -> Entry | None:
        """The Entry of a caller's key, or None."""

    def stream_of(self, who: str, key: str) -> str | None:
        """The digest of the stream that has a caller's key, or None."""


class Keys:
    """The keys that a desk knows: those in its journal, and those of the log's entries before its journal."""

    def __init__(self, stored: Stored) -> None:
        self.stored = stored
        self.before: dict[tuple[str, str], KeyHolder] = {}  # by caller and key, in the order of their entries
        self.streams: dict[tuple[str, str], str] = {}  # of `before`, by caller and the stream's key

    def learn(self, entries: Iterable[Entry]) -> None:
        """Takes the log's next Entries before the journal, in their order."""
        for one in entries:
            if one.key is not None:
                self.learn_holder(one.who, one.key, holder_of(one))

    def learn_holder(self, who: str, key: str, holder: KeyHolder) -> None:
        """Takes the entry that has a caller's key; the first one for a key counts."""
        self.before.setdefault((who, key), holder)
        if holder.stream is not None:
            self.streams.setdefault((who, base_of(key)), holder.stream)

    def forget(self, since: str) -> None:
        """Drops the keys of entries before the journal that are older than a moment."""
        while self.before:
            (who, key), holder = next(iter(self.before.items()))
            if holder.at >= since:
                return
            del self.before[who, key]
            self.streams.pop((who, base_of(key)), None)

    def stream_of(self, who: str, key: str) -> str | None:
        """The digest of the stream that has a caller's key, or None if no known stream has it."""
        return self.streams.get((who, key)) or self.stored.stream_of(who, key)

    def used(self, batch: Sequence[Wanted]) -> dict[int, Entry | None]:
        """Which changes of a batch have a key that is used, by their places: the Entry that is the same statement, or
        None if the key is another statement's."""
        found: dict[int, Entry | None] = {}
        for place, one in enumerate(batch):
            if one.key is None:
                continue
            if self.stream_of(one.who, base_of(one.key)) not in (None, one.stream):
                found[place] = None
            elif (holder := self.before.get((one.who, one.key))) is not None:
                found[place] = held_entry(one, holder)
            elif (known := self.stored.find(one.who, one.key)) is not None:
                found[place] = known if known.text == one.text(known.job) else None
        return found

    def placed(self, batch: Sequence[Wanted], given: int, head: int) -> list[Entry]:
        """The Entries that a batch becomes after the log's last entry `head`, for a desk that has taken all entries up
        to `given`. Raises LogAdvanced, KeysInUse and LogUnwritable."""
        if given != head:
            raise LogAdvanced
        if found := self.used(batch):
            raise KeysInUse(found)
        return entry.placed(batch, head)


def base_of(key: str) -> str:
    """The key of the stream that has a statement's key."""
    return key.partition("#")[0]


def held_entry(wanted: Wanted, holder: KeyHolder) -> Entry | None:
    """The Entry that a KeyHolder names, or None if it is another statement. A stream and a place in it name one
    statement; the sum of the text is for entries without a stream."""
    text = wanted.text(holder.job)
    if holder.stream != wanted.stream if holder.stream is not None else holder.sum != text_sum(text):
        return None
    return Entry(holder.seq, holder.at, wanted.who, wanted.key, holder.job, text, None, wanted.stream)


# How far the log has to reach back.


def young_since(now: float) -> str:
    """The moment since which the log keeps keys, by the time in seconds since 1970."""
    return entry.moment_text(now - KEPT)


def first_since(first: int, last: int, since: str) -> Generator[int, str | None, int]:
    """Finds the first of the log's entries `first` to `last` that is no older than a moment; the one after `last` if
    all are older. Yields the number of an entry, and needs its time, or None if it was removed. Each entry before one
    that is older is older too."""
    while first <= last:
        middle = (first + last) // 2
        at = yield middle
        if at is None or at < since:
            first = middle + 1
        else:
            last = middle - 1
    return first


def trimmed_to(wanted: int, positions: Mapping[str, int], young: int | None) -> int:
    """The first entry that a trim leaves: `wanted`, or an earlier one that a desk has at its position, or `young`, the
    first one that has a key and is younger than KEPT."""
    return min([wanted, *positions.values(), *([] if young is None else [young])])
