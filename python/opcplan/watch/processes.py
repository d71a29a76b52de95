"""A program that is run for a call. It counts by its exit, and it has a deadline, whatever it does.

The program gets a session of its own, and of the watch's environment only what KEPT names. At its deadline, and if it
fails, its whole process group is killed. If it ends with status 0, what it left behind goes on."""

import contextlib
import math
import os
import select
import signal
import subprocess
import threading
import time
from collections.abc import Iterator, Mapping, Sequence
from typing import NamedTuple

# what a program gets of the environment of the watch: never a token, nor where one is
KEPT = ("PATH", "HOME", "USER", "LOGNAME", "LANG", "LC_ALL", "TZ", "SSL_CERT_FILE", "SSL_CERT_DIR")
PATH = "/usr/local/sbin:/usr/local/bin:/usr/sbin:/usr/bin:/sbin:/bin"
# how much of the end of standard error counts, in bytes, and of its last line, in characters
TAIL, MOST_SAID = 4096, 200
# seconds until what was killed has ended; what hangs in the kernel isn't waited for any longer
KILLED = 5.0


class Ended(NamedTuple):
    """How a program ended: its status (if a signal ended it, the negative number of that), None if it didn't end in
    time; and the last line that it wrote on standard error."""

    status: int | None
    said: str


class Groups:
    """The process groups of programs that run, so that all can be killed when the watch ends."""

    def __init__(self) -> None:
        self.lock, self.running = threading.Lock(), set[int]()

    @contextlib.contextmanager
    def entered(self, group: int) -> Iterator[None]:
        """A context in which a group may be killed. Its leader isn't reaped before the end of it, so no other group has
        its number."""
        with self.lock:
            self.running.add(group)
        try:
            yield
        finally:
            with self.lock:
                self.running.discard(group)

    def kill_all(self) -> None:
        """Kills all groups."""
        with self.lock:
            for group in self.running:
                kill_group(group)


GROUPS = Groups()


def kill_group(group: int) -> None:
    """Kills each process of a group."""
    with contextlib.suppress(ProcessLookupError, PermissionError):
        os.killpg(group, signal.SIGKILL)


def environment() -> dict[str, str]:
    """The environment of each program."""
    return {"PATH": PATH} | {name: os.environ[name] for name in KEPT if name in os.environ}


def run(words: Sequence[str], data: bytes, more: Mapping[str, str], seconds: float, folder: str = "/") -> Ended:
    """Runs a program in a folder, with data on its standard input and more variables, for so many seconds at most.
    Raises OSError if it can't be run."""
    until = time.monotonic() + seconds
    child = subprocess.Popen(words, bufsize=0, stdin=subprocess.PIPE, stdout=subprocess.DEVNULL, stderr=subprocess.PIPE,
                             cwd=folder, env=environment() | dict(more), start_new_session=True)
    assert child.stdin is not None and child.stderr is not None
    with GROUPS.entered(child.pid), child.stdin, child.stderr:
        number = os.pidfd_open(child.pid)
        try:
            is_over, said = served(child, number, data, until)
            is_reapable = is_over
            if not is_over or not is_good(child.pid):
                kill_group(child.pid)
                is_reapable = ends(number, KILLED)
        finally:
            os.close(number)
    status = child.wait() if is_reapable else None
    return Ended(status if is_over else None, last_line(said))


def served(child: "subprocess.Popen[bytes]", number: int, data: bytes, until: float) -> tuple[bool, bytes]:
    """Writes the input of a program and reads its standard error until it ends; whether it did in time, and the end of
    what it said. `number` is the descriptor of its process."""
    assert child.stdin is not None and child.stderr is not None
    pipes = select.poll()
    pipes.register(number, select.POLLIN)
    for pipe, what in ((child.stdin, select.POLLOUT), (child.stderr, select.POLLIN)):
        os.set_blocking(pipe.fileno(), False)
        pipes.register(pipe, what)
    stdin, stderr, left, said = child.stdin.fileno(), child.stderr.fileno(), memoryview(data), b""
    while (rest := until - time.monotonic()) > 0:
        ready = {found for found, _ in pipes.poll(math.ceil(rest * 1000))}
        if stdin in ready:
            left = left[written(stdin, left):]
            if not left:
                pipes.unregister(stdin)
                child.stdin.close()
        if stderr in ready:
            found = read(stderr)
            said = (said + (found or b""))[-TAIL:]
            if found == b"":
                pipes.unregister(stderr)
        if number in ready:
            return True, (said + (read(stderr) or b""))[-TAIL:]
    return False, said


def written(number: int, data: memoryview) -> int:
    """How many bytes of some data a pipe took; all of them if nobody reads them any more."""
    try:
        return os.write(number, data) if data else 0
    except BlockingIOError:
        return 0
    except BrokenPipeError:
        return len(data)


def read(number: int) -> bytes | None:
    """What a pipe has, empty at its end, None if it has nothing for now."""
    try:
        return os.read(number, 1 << 16)
    except BlockingIOError:
        return None


def is_good(pid: int) -> bool:
    """Whether a child that ended, and isn't reaped yet, has status 0."""
    found = os.waitid(os.P_PID, pid, os.WEXITED | os.WNOWAIT)
    return found is not None and (found.si_code, found.si_status) == (os.CLD_EXITED, 0)


def ends(number: int, seconds: float) -> bool:
    """Whether the process of a descriptor ends in so many seconds."""
    return bool(select.select([number], [], [], seconds)[0])


def last_line(said: bytes) -> str:
    """The last line of what a program said."""
    return said.decode("utf-8", "replace").strip().split("\n")[-1][:MOST_SAID]
