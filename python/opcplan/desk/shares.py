"""Whose turn it is among callers whose work takes long, when, and how much a turn does: no I/O and no clock, times are
numbers.

What always holds (tests/test_desk_shares.py runs small worlds, and counts steps):

- While changes are in progress, the turns of one caller take a quarter of the time at most, and those of all callers
  together half of it, each up to its last turn.
- While no change is in progress, the next turn comes at once.
- A caller may go once others have had three times as long as its own last turn took. From then on each other caller
  has at most one turn before it, however much work the others have."""

from collections.abc import Sequence

# others go first for so many times as long as a caller's last turn took, and so many times as long as the last one of
# all; but for at most so many seconds
SHARE, SHARE_OF_ALL, MOST_HELD = 3, 1, 10.0
# the most callers whose last turn is known
MOST_CALLERS = 1000
# seconds that a slice of the desk's thread takes, about; by how much the next one may be larger, and the most entries
SLICE, MOST_GROWTH, MOST_ENTRIES = 0.005, 2, 500


class Shares:
    """The turns of callers at something that one of them has at a time."""

    def __init__(self) -> None:
        self.ready: dict[str, float] = {}  # by caller: when it may have the next turn
        self.free = 0.0  # when any caller may

    def choose(self, waiting: Sequence[str], now: float, is_busy: bool) -> int | None:
        """The place of the caller whose turn it is, of those that wait in this order; None if it is nobody's yet.
        `is_busy`: whether changes are in progress."""
        if is_busy and now < self.free:
            return None
        found = min(range(len(waiting)), key=lambda place: self.ready.get(waiting[place], 0.0), default=None)
        if found is None or is_busy and now < self.ready.get(waiting[found], 0.0):
            return None
        return found

    def over(self, who: str, took: float, now: float) -> None:
        """Notes that a turn of a caller is over."""
        self.free = now + min(SHARE_OF_ALL * took, MOST_HELD)
        self.ready.pop(who, None)
        self.ready[who] = now + min(SHARE * took, MOST_HELD)
        if len(self.ready) > MOST_CALLERS:
            del self.ready[next(iter(self.ready))]  # that of the caller whose last turn was first


def next_count(count: int, took: float) -> int:
    """How many entries the next slice has, after one of so many entries that took so long."""
    fits = MOST_GROWTH * count if took * MOST_GROWTH <= SLICE else int(count * SLICE / took)
    return max(1, min(fits, MOST_ENTRIES))
