"""Runs of opcplan over a plan's file, whose new state is kept as sound where nobody else touched it (`successions` says
when that is known)."""

import contextlib
import fcntl
import functools
import io
import os
import re
import select
import sqlite3
import struct
import subprocess
import termios
import threading
import time
from collections.abc import Callable, Iterator, Sequence
from typing import IO

from opcplan.errors import Unreadable
from opcplan.plans import kept_checks, plan_file, successions, tempfiles
from opcplan.plans.plan_file import State
from opcplan.plans.program import is_own
from opcplan.plans.successions import LogBegin
from opcplan.rules import stream

Ran = subprocess.CompletedProcess[bytes]
# a reply; no row begins with one of these words, because names are in capitals
REPLY = re.compile(rb"^(?:ok|refused|fault)(?: [^\n]*)?\n", re.MULTILINE)
PIECE = 1 << 20
# seconds between two looks at a program that is silent, and at most for a file's times to be told apart
LOOK, SETTLES = 1.0, 0.1


def ran(program: str, path: str, text: bytes) -> Ran:
    """What opcplan answers to a text over a file. Where the file was found sound before, its new state is kept."""
    sound = sound_state(program, path)
    count = None if sound is None else replies_to(text)
    if sound is None or count is None:
        return subprocess.run(words_of(program, path), input=text, capture_output=True, check=False)
    return looked_at(path, sound, functools.partial(talked, words_of(program, path), text, count))


def ran_in_turn(program: str, path: str, statements: Sequence[bytes]) -> Ran:
    """What opcplan answers to statements over a file, up to the first that isn't accepted: it gets each after the reply
    to the one before it. Where the file was found sound before, its new state is kept."""
    words, sound = words_of(program, path), sound_state(program, path)
    if sound is None:
        return talked_in_turn(words, statements, lambda: None)
    return looked_at(path, sound, functools.partial(talked_in_turn, words, statements))


def words_of(program: str, path: str) -> list[str]:
    """The words that run a program over a file."""
    return [program, "--db", os.path.abspath(path)]


def looked_at(path: str, sound: State, talk: Callable[[Callable[[], None]], Ran]) -> Ran:
    """What a run answers over a file that is in a sound state; `talk` takes the look at it. Its new state is kept."""
    with tempfiles.folder("run-") as folder:
        looked = Look(os.path.realpath(path), sound, os.path.join(folder, "plan.db"))
        found = talk(looked.take)
        if successions.ended_well(found.returncode, found.stderr):
            looked.keep()
    return found


def sound_state(program: str, path: str) -> State | None:
    """The state in which a file is, if it was found sound in it, and the program is the one of this package."""
    with contextlib.suppress(Unreadable, OSError):
        return plan_file.kept_state(os.path.realpath(path)) if is_own(program) else None
    return None


def replies_to(text: bytes) -> int | None:
    """How many replies a stream gets before its end is read, or None if it gets one only then."""
    if not text.endswith(b"\n"):
        return None
    with contextlib.suppress(Unreadable):
        found = list(stream.items(stream.Source(io.BytesIO(text), "what is sent")))
        if found and not (found[-1].has_data and found[-1].data is None):
            return len(found)
    return None


class Look:
    """A look at a file that a run has open, which began with it in a sound state: a copy of it and its log, once all is
    answered and nothing of the log is copied into the file yet."""

    def __init__(self, path: str, sound: State, copy: str, log: LogBegin | None = None) -> None:
        # the log with which the run began, if it is known
        self.path, self.sound, self.copy, self.log = path, sound, copy, log
        self.has_copy = False

    def take(self) -> None:
        """Takes the copy; none where the file isn't as it was, or there is no room."""
        with contextlib.suppress(OSError, Unreadable):
            before = plan_file.state_of(self.path)
            if not successions.may_be_copied(self.sound, self.log, before) or successions.log_is_empty(before):
                return
            plan_file.check_room(self.path, os.path.dirname(self.copy))
            for tail in plan_file.TAILS[:2]:
                plan_file.take(self.path + tail, self.copy + tail)
            self.has_copy = successions.may_be_copied(self.sound, self.log, plan_file.state_of(self.path))

    def keep(self) -> None:
        """Keeps that the file is sound, once the run has ended well."""
        with contextlib.suppress(OSError, sqlite3.Error):
            if self.has_copy:
                merge(self.copy)
                keep_equal(self.path, self.copy)
                return
            state = settled(self.path)
            if state is not None and successions.is_sound_unwritten(self.sound, state):
                keep_state(self.path, state)


def merge(copy: str) -> None:
    """Has SQLite copy the log of a private copy into it. Raises sqlite3.Error."""
    with contextlib.closing(sqlite3.connect(copy, isolation_level=None)) as db:
        db.execute("PRAGMA wal_checkpoint(TRUNCATE)").fetchall()


def keep_equal(path: str, copy: str) -> None:
    """Keeps that a file is sound, if all its bytes are those of a sound private copy, in which nothing is in a log."""
    with contextlib.suppress(OSError):
        real = os.path.realpath(path)
        before = settled(real)
        if before is None or not successions.is_alone(before):
            return
        is_equal = same_bytes(real, copy)
        if successions.is_sound_copied(before, is_equal, plan_file.state_of(real)):
            keep_state(real, before)


def keep_state(path: str, state: State) -> None:
    """Keeps that a file is sound in a state."""
    kept = None if tempfiles.is_held(path) else kept_checks.of_file(path, state.text)
    if kept is not None:
        kept_checks.put(kept)


def settled(path: str) -> State | None:
    """The state of a file that ended to change, or None where a further change might not show for longer."""
    until = time.monotonic() + SETTLES
    while not (state := plan_file.state_of(path)).is_settled:
        if time.monotonic() > until:
            return None
        time.sleep(plan_file.COARSE / 4)
    return state


def same_bytes(one: str, other: str) -> bool:
    """Whether two files have the same bytes."""
    with open(one, "rb") as first, open(other, "rb") as second:
        if os.fstat(first.fileno()).st_size != os.fstat(second.fileno()).st_size:
            return False
        while piece := first.read(PIECE):
            if piece != second.read(PIECE):
                return False
        return not second.read(1)


# A program that is talked to.


def talked(words: list[str], text: bytes, count: int, look: Callable[[], None]) -> Ran:
    """What a program answers to a text. Once there are so many replies, and before the program is told that the text
    has ended, there is a look."""
    with subprocess.Popen(words, stdin=subprocess.PIPE, stdout=subprocess.PIPE, stderr=subprocess.PIPE) as process:
        assert process.stdin is not None and process.stdout is not None and process.stderr is not None
        errors: list[bytes] = []
        threads = [threading.Thread(target=write, args=(process.stdin, text), daemon=True),
                   threading.Thread(target=read, args=(process.stderr, errors), daemon=True)]
        try:
            for thread in threads:
                thread.start()
            replies = Replies()
            for piece in pieces(process, threads[0]):
                replies.take(piece)
                if replies.count >= count or replies.has_fault:
                    break
            if replies.count == count and not replies.has_fault:
                threads[0].join()
                look()
            with contextlib.suppress(OSError, ValueError):
                process.stdin.close()
            replies.take(process.stdout.read())
            threads[1].join()
        except BaseException:
            process.kill()
            raise
    return subprocess.CompletedProcess(words, process.returncode, bytes(replies.data), b"".join(errors))


def talked_in_turn(words: list[str], statements: Sequence[bytes], look: Callable[[], None]) -> Ran:
    """What a program answers to statements, of which it gets each once the one before it was accepted. Before the
    program is told that there are no more, there is a look."""
    with subprocess.Popen(words, stdin=subprocess.PIPE, stdout=subprocess.PIPE, stderr=subprocess.PIPE) as process:
        assert process.stdin is not None and process.stdout is not None and process.stderr is not None
        errors: list[bytes] = []
        thread = threading.Thread(target=read, args=(process.stderr, errors), daemon=True)
        try:
            thread.start()
            replies = Replies()
            for count, text in enumerate(statements, 1):
                write(process.stdin, text)
                while replies.count < count and (piece := os.read(process.stdout.fileno(), PIECE)):
                    replies.take(piece)
                if replies.count < count or not replies.is_accepted:
                    break
            if replies.count and not replies.has_fault:
                look()
            with contextlib.suppress(OSError, ValueError):
                process.stdin.close()
            replies.take(process.stdout.read())
            thread.join()
        except BaseException:
            process.kill()
            raise
    return subprocess.CompletedProcess(words, process.returncode, bytes(replies.data), b"".join(errors))


class Replies:
    """The output of a program, how many replies it has, and whether each of them accepts."""

    def __init__(self) -> None:
        self.data, self.place, self.count, self.has_fault, self.is_accepted = bytearray(), 0, 0, False, True

    def take(self, piece: bytes) -> None:
        """Takes more of it."""
        self.data += piece
        end = self.data.rfind(b"\n") + 1
        for found in REPLY.finditer(self.data, self.place, end):
            self.count += 1
            self.has_fault |= found.group().startswith(b"fault")
            self.is_accepted &= found.group().startswith(b"ok")
        self.place = max(self.place, end)


def write(file: IO[bytes], text: bytes) -> None:
    """Writes a text to a program that may end before it has read it."""
    with contextlib.suppress(OSError, ValueError):
        file.write(text)
        file.flush()


def read(file: io.BufferedReader, found: list[bytes]) -> None:
    """Reads all of a file."""
    found.append(file.read())


def pieces(process: "subprocess.Popen[bytes]", writer: threading.Thread) -> Iterator[bytes]:
    """What a program prints, until it closes its output or waits for more although it was given all."""
    assert process.stdout is not None and process.stdin is not None
    number, used = process.stdout.fileno(), -1
    while True:
        if select.select([number], [], [], LOOK)[0]:
            piece = os.read(number, PIECE)
            if not piece:
                return
            yield piece
            used = -1
        elif not writer.is_alive():
            before, used = used, ticks(process.pid)
            if used == before and not unread(process.stdin.fileno()):
                return


def ticks(pid: int) -> int:
    """How much processor time a program has taken."""
    with contextlib.suppress(OSError, ValueError, IndexError):
        with open(f"/proc/{pid}/stat", "rb") as file:
            user, system = file.read().rpartition(b")")[2].split()[11:13]
        return int(user) + int(system)
    return 0


def unread(number: int) -> int:
    """How many bytes a pipe has that nobody has read."""
    (count,) = struct.unpack("i", fcntl.ioctl(number, termios.FIONREAD, bytes(4)))
    return int(count)
