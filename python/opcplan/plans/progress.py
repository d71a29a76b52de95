"""How far a command is, on standard error: what it does, how far it is, and how long it may still take.

It is shown only if standard error is a terminal, and only for what takes more than a second."""

import contextlib
import sys
import time
from collections.abc import Callable, Iterable, Iterator
from typing import TypeVar

from opcplan.rules import printable

T = TypeVar("T")
FIRST, BETWEEN = 1.0, 0.25  # seconds before the first line, and between two
LEAST = 0.02  # the share from which on the rest can be estimated
CLEAR = "\r\x1b[K"


class Progress:
    """What is done at present, and the share of it that is done, from 0 to 1; None where that isn't known."""

    def __init__(self, what: str) -> None:
        self.what, self.share = what, 0.0
        self.began = time.monotonic()

    def at(self, share: float) -> None:
        """From here on this share is done."""
        self.share = max(self.share, min(share, 1.0))

    @property
    def line(self) -> str:
        """The line that is shown now."""
        took = time.monotonic() - self.began
        if self.share < LEAST:
            return f"{self.what}, for {length_text(took)} so far"
        rest = took * (1 - self.share) / self.share
        return f"{self.what}: {self.share:.0%}, about {length_text(rest)} more"


class ShownProgress(Progress):
    """The same, which a thread of its own shows while it goes on."""

    def __init__(self, what: str) -> None:
        import threading

        super().__init__(what)
        self.ended = threading.Event()
        self.thread = threading.Thread(target=self.show, daemon=True)
        self.thread.start()

    def show(self) -> None:
        """Shows how far it is, until it has ended."""
        is_shown, rest = False, FIRST
        while not self.ended.wait(rest):
            is_shown, rest = put(f"{CLEAR}{printable.fit(self.line)}"), BETWEEN
        if is_shown:
            put(CLEAR)

    def end(self) -> None:
        """Ends it, with the line cleared."""
        self.ended.set()
        self.thread.join()


def put(text: str) -> bool:
    """Writes to the terminal, which may have gone."""
    with contextlib.suppress(OSError, ValueError):
        sys.stderr.write(text)
        sys.stderr.flush()
    return True


@contextlib.contextmanager
def of(what: str, is_seen: bool = True) -> Iterator[Progress]:
    """A Progress of something, as long as the context lasts; it is shown if it would be `seen`, and not between other
    lines."""
    if not is_seen or not is_terminal():
        yield Progress(what)
        return
    shown = ShownProgress(what)
    try:
        yield shown
    finally:
        shown.end()


def along(items: Iterable[T], far: Progress, share: Callable[[], float]) -> Iterator[T]:
    """Items that pass; behind each of them it is asked how much is done."""
    for item in items:
        yield item
        far.at(share())


def is_terminal() -> bool:
    """Whether somebody looks."""
    try:
        return sys.stderr.isatty()
    except (AttributeError, ValueError):
        return False


def length_text(seconds: float) -> str:
    """`4 s`, `2 min`."""
    return f"{round(seconds)} s" if seconds < 100 else f"{round(seconds / 60)} min"
