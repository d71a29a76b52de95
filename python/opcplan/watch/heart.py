"""Who gets a heartbeat, and when. No I/O, and no clock.

Somebody gets one each so many minutes as long as the last poll got an answer of a desk, and no call has been heard by
nobody for as long as that. So if heartbeats stay out for longer, and what carries them works, the watch doesn't run, it
doesn't poll, no desk answers it, or it reaches nobody. What can't be delivered is tried again, and never stored."""

from collections.abc import Collection, Sequence

from opcplan.watch.rulebook import Heartbeat
from opcplan.watch.state import pause_of


class Heart:
    """When each target gets its next heartbeat, by the steady clock."""

    def __init__(self, beats: Sequence[Heartbeat]) -> None:
        self.beats = beats
        self.next = {one.target: 0.0 for one in beats}
        self.fails: dict[str, int] = {}
        self.has_desk = False  # whether a desk answered the last poll
        self.count = 0

    def polled(self, has_desk: bool) -> None:
        """Takes whether a desk answered a poll."""
        self.has_desk = has_desk

    def due(self, steady: float, unheard: float, busy: Collection[str]) -> list[str]:
        """Who gets a heartbeat now. The oldest call that nobody heard waits for `unheard` seconds; `busy` are those who
        are being called."""
        return [target for target in self.free(unheard, busy) if self.next[target] <= steady]

    def next_at(self, unheard: float, busy: Collection[str]) -> float | None:
        """When the next heartbeat is due, None if none is."""
        return min((self.next[target] for target in self.free(unheard, busy)), default=None)

    def free(self, unheard: float, busy: Collection[str]) -> list[str]:
        """Who may get a heartbeat, once it is time."""
        return [one.target for one in self.beats if self.has_desk and unheard < 60 * one.minutes
                and one.target not in busy]

    def begun(self) -> int:
        """The number of a heartbeat that begins."""
        self.count += 1
        return self.count

    def ended(self, target: str, steady: float, began: float, is_delivered: bool) -> None:
        """Notes whether a heartbeat was delivered that began and ended at these moments."""
        (seconds,) = (60 * one.minutes for one in self.beats if one.target == target)
        self.fails[target] = 0 if is_delivered else self.fails.get(target, 0) + 1
        self.next[target] = began + seconds if is_delivered else steady + min(pause_of(self.fails[target]), seconds)
