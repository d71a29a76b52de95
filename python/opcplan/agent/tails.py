"""Sends the ends of jobs' logs to the desk, where operators read them. The plan never waits for that. If the desk
doesn't accept one, the agent still has the whole log."""

import os
import time
from collections.abc import Callable, Iterable
from typing import NamedTuple

from opcplan.agent import record
from opcplan.agent.record import Record
from opcplan.desk import client

# seconds between two tails of a job that runs, and after one that the desk didn't accept
EVERY, PAUSE = 5.0, 60.0


class Sent(NamedTuple):
    """What was last sent of a run: the key of its try, the size of the log then in bytes, and the monotonic time."""

    key: str
    end: int
    at: float


class Tails:
    """Sends a desk the ends of the logs in a folder: at most `size` bytes of each try, nothing if `size` is 0."""

    def __init__(self, desk: client.Client, folder: str, size: int, say: Callable[[str], None]) -> None:
        self.desk, self.folder, self.size, self.say = desk, folder, size, say
        self.sent: dict[int, Sent] = {}
        self.rests = 0.0  # nothing is sent before this time

    def give(self, one: Record, is_last: bool) -> None:
        """Sends the end of a try's log if the log has grown and the last tail is EVERY seconds old, or `is_last`."""
        known, now = self.sent.get(one.serial), time.monotonic()
        if not self.size or one.began is None or now < self.rests:
            return
        if known and known.key == one.start_key and not is_last and now < known.at + EVERY:
            return
        try:
            end, data = self.tail(one)
            if known is None or (known.key, known.end) != (one.start_key, end):
                self.desk.request("PUT", f"/logs/{one.serial}?try={one.attempt}", data, {"Content-Type": "text/plain"})
        except (client.DeskUnreachable, client.RequestRefused, OSError) as why:
            self.rests = now + PAUSE
            self.say(f"the desk didn't accept the end of a log: {why}; the whole logs stay in {self.folder}, and the "
                     "agent tries again later")
            return
        self.sent[one.serial] = Sent(one.start_key, end, now)

    def give_running(self, runs: Iterable[Record]) -> None:
        """Sends the ends of the logs of jobs that run."""
        for one in runs:
            if one.ended is None:
                self.give(one, False)

    def forget(self, serial: int) -> None:
        """Drops what is known of a run that is over."""
        self.sent.pop(serial, None)

    def tail(self, one: Record) -> tuple[int, bytes]:
        """The size of a try's log in bytes, and its last bytes, at most `size` of them. Raises OSError."""
        with open(record.log_of(self.folder, one.serial), "rb") as file:
            end = os.fstat(file.fileno()).st_size
            begin = one.offset if one.offset <= end else 0
            file.seek(max(begin, end - self.size))
            return end, file.read(min(self.size, end - begin))
