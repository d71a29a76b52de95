"""Turns of callers at the desk's own thread, in slices, and at copies of the plan. `shares.py` decides whose turn it
is."""

import asyncio
import contextlib
import time
from collections.abc import AsyncIterator, Callable
from types import TracebackType
from typing import NamedTuple

from opcplan.desk.shares import Shares, SLICE

# seconds until it is decided again whose turn it is
LOOK = 0.005


class Waiter(NamedTuple):
    """A caller that waits, and the future of its turn."""

    who: str
    turn: asyncio.Future[None]


class Turns:
    """The turns of callers, one at a time. `is_busy` says whether changes are in progress."""

    def __init__(self, is_busy: Callable[[], bool]) -> None:
        self.shares, self.is_busy = Shares(), is_busy
        self.waiting: list[Waiter] = []
        self.is_taken = False
        self.timer: asyncio.TimerHandle | None = None

    async def begin(self, who: str) -> None:
        """Waits for a turn; `end` has to follow."""
        mine = Waiter(who, asyncio.get_running_loop().create_future())
        self.waiting.append(mine)
        self.look()
        try:
            await mine.turn
        except asyncio.CancelledError:
            if mine in self.waiting:
                self.waiting.remove(mine)
            else:  # it has just become its turn
                self.end(who, 0.0)
            raise

    def end(self, who: str, took: float) -> None:
        """Notes that a turn is over."""
        self.is_taken = False
        self.shares.over(who, took, time.monotonic())
        self.look()

    def look(self) -> None:
        """Gives the next turn, or looks again soon."""
        if self.timer is not None:
            self.timer.cancel()
            self.timer = None
        if self.is_taken or not self.waiting:
            return
        place = self.shares.choose([one.who for one in self.waiting], time.monotonic(), self.is_busy())
        if place is None:
            self.timer = asyncio.get_running_loop().call_later(LOOK, self.look)
            return
        turn = self.waiting.pop(place).turn
        if turn.done():  # its caller was cancelled
            self.look()
        else:
            self.is_taken = True
            turn.set_result(None)

    @contextlib.asynccontextmanager
    async def turn(self, who: str) -> AsyncIterator[None]:
        """A context for a turn."""
        await self.begin(who)
        begun = time.monotonic()
        try:
            yield
        finally:
            self.end(who, time.monotonic() - begun)


class Work:
    """A caller's work on the desk's thread, as a context. The first slice needs no turn; once it is used up, `is_long`
    holds, and each further slice is a turn."""

    def __init__(self, turns: Turns, who: str, is_long: bool = False) -> None:
        self.turns, self.who, self.is_long, self.is_held = turns, who, is_long, False
        self.used, self.since = 0.0, time.monotonic()

    def __enter__(self) -> "Work":
        return self

    def __exit__(self, kind: type[BaseException] | None, error: BaseException | None,
                 trace: TracebackType | None) -> None:
        if self.is_held:
            self.pause()

    @property
    def is_over(self) -> bool:
        """Whether the slice is used up, so that `rest` is due."""
        return self.used + time.monotonic() - self.since >= SLICE

    def pause(self) -> float:
        """Ends the slice, because the work waits for something; how long the slice took so far."""
        self.used += time.monotonic() - self.since
        if self.is_held:
            self.is_held = False
            self.turns.end(self.who, self.used)
        return self.used

    async def resume(self) -> None:
        """Goes on after `pause`, with a turn if the work is long. The turn lasts up to the next `pause`, which has to
        come before anything else is waited for."""
        if self.is_long:
            await asyncio.sleep(0)  # what others have sent meanwhile comes first
            await self.turns.begin(self.who)
            self.is_held, self.used = True, 0.0
        self.since = time.monotonic()

    async def rest(self) -> None:
        """Waits for the next slice."""
        if not self.is_held:
            self.turns.shares.over(self.who, self.used + time.monotonic() - self.since, time.monotonic())
        self.pause()
        self.is_long = True
        await self.resume()
