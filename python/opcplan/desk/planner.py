"""The planner of a desk: one process of opcplan, which gets statements one after another, and prints the rows and the
reply of each. The desk's state (state.py) decides which statement it gets when.

After a fault or a kill it is started again, and gets the statements without a reply once more, in their order. A kept
job is answered and not done again. A statement that faults each time is never skipped: the planner then counts as
stopped, says why, and tries it again every few seconds."""

import asyncio
import contextlib
import re
import sys
import tempfile
import time
from collections.abc import Callable, Iterator, Sequence
from typing import NamedTuple, TYPE_CHECKING, TypeVar

from opcplan.desk import state
from opcplan.desk.held_files import HeldFiles
from opcplan.desk.sound_states import SoundStates
from opcplan.errors import Error
from opcplan.plans import successions, tempfiles
from opcplan.plans.entry import Entry, Wanted

if TYPE_CHECKING:
    from opcplan.desk.body import Body

PROBE = b"desk-opens\n"  # no statement: the answer `refused 10` shows that the plan is open
OPEN = b"refused 10\n"
# the pattern begins with a line feed, so that the search is fast; no row begins with one of these words, because names
# are in capitals
REPLY = re.compile(rb"\n(?:ok|refused|fault)(?: [^\n]*)?(?=\n)")
HELD = "another program has the file open"
PIECE = 1 << 17
ROWS_IN_MEMORY = 1 << 20
# the planner counts as stopped after so many processes that got one statement, or that didn't open the plan
TRIES = 3
# seconds between two processes: after one that opened the plan, and while the planner is stopped
SHORTEST_REST, LONGEST_REST = 0.05, 5.0
# seconds for which another program may have the plan before the planner counts as stopped
PATIENCE = 20.0
# seconds that opcplan may take to end after its last line: it copies its log into the file
LONGEST_END = 60.0
# seconds for which opcplan may print nothing while an answer is due, unless --limit says otherwise
LIMIT = 60.0
# seconds between two looks whether the plan is in a state that is kept as sound
NOTE_REST = 0.25


class PlannerStopped(Error):
    """Why the planner gives no answers for now."""


class PlannerRun(NamedTuple):
    """What came of a process of opcplan: whether it opened the plan, and the fault that it printed, or nothing."""

    opened: bool
    fault: str


class OutputRest(NamedTuple):
    """The rest of opcplan's output after its whole lines, and the fault that it printed, or nothing."""

    rest: bytes
    fault: str


class Submission:
    """A statement with its state and answer. A change has an Entry once it is in the log."""

    def __init__(self, name: str | None, text: bytes | None = None, wanted: Wanted | None = None) -> None:
        self.name, self.text, self.wanted = name, text, wanted  # no name if another desk got it
        self.who = ""  # of a question: who asks it
        self.entry: Entry | None = None
        self.is_again = False  # its entry was answered before, at this desk or another one
        # the tag of the state that it needs, or the change of its stream after which the plan must be unchanged
        self.condition: str | Submission | None = None
        self.accepted: Submission | None = None  # what must be accepted before it, if it has a condition
        self.streams: list["Body"] = []  # that wait for it
        self.begun = time.monotonic()
        self.tries = 0
        self.rows: tempfile.SpooledTemporaryFile[bytes] | None = None
        self.row_bytes = 0
        self.reply: str | None = None
        self.tag: str | None = None  # with the position, of the state in which it was answered
        self.position = 0
        self.wrong: str | None = None  # why its rows are missing
        self.waiting: list[asyncio.Future["Submission"]] = []

    @classmethod
    def of_answered(cls, one: Entry, tag: str) -> "Submission":
        """The Submission of an answered Entry, with the tag of the state after it."""
        found = cls("", one.text)
        found.entry, found.reply, found.tag, found.position = one, one.reply, tag, one.seq
        return found

    @property
    def line(self) -> bytes:
        """The line of its reply."""
        assert self.reply is not None
        return self.reply.encode("ascii") + b"\n"

    @property
    def is_change(self) -> bool:
        """Whether it has to go into the log, and isn't there yet."""
        return self.wanted is not None and self.entry is None

    @property
    def is_after_refusal(self) -> bool:
        """Whether what must be accepted before it was refused."""
        return self.accepted is not None and (self.accepted.reply or "").startswith("refused")

    @property
    def asked_tag(self) -> str:
        """The tag of the state that it needs; empty if that isn't known. A change that was done before leaves the
        condition to the ones after it."""
        found = self.condition
        while isinstance(found, Submission) and found.is_again:
            found = found.condition
        return (found.tag if isinstance(found, Submission) else found) or ""

    @property
    def size(self) -> int:
        """How many bytes its data take in the log."""
        return len(self.wanted.data or b"") if self.wanted is not None else 0

    def stands_for(self, one: Entry) -> None:
        """Notes that it is an Entry that was answered before, and gets that answer again."""
        self.text, self.entry, self.is_again = one.text, one, True

    def wait(self) -> asyncio.Future["Submission"]:
        """A future of this Submission once it is answered. It raises the error that `fail` gets."""
        future: asyncio.Future[Submission] = asyncio.get_running_loop().create_future()
        if self.reply is None:
            self.waiting.append(future)
        else:
            future.set_result(self)
        return future

    def take_rows(self, data: bytes) -> None:
        """Stores whole lines of rows, on the disk if they are many."""
        if self.wrong is not None or not data:
            return
        try:
            if self.rows is None:
                self.rows = tempfile.SpooledTemporaryFile(max_size=ROWS_IN_MEMORY, prefix="desk-")
            self.rows.write(data)
            self.row_bytes += len(data)
        except OSError as error:
            self.forget_rows()
            self.wrong = f"the rows can't be stored: {error.strerror}; try again"

    def forget_rows(self) -> None:
        """Drops the rows of a process of opcplan that ended before its reply."""
        if self.rows is not None:
            self.rows.close()
        self.rows, self.row_bytes, self.wrong = None, 0, None

    def number(self) -> int:
        """The descriptor of a file that has its rows. Raises OSError."""
        assert self.rows is not None
        self.rows.rollover()
        self.rows.flush()
        return self.rows.fileno()

    def pieces(self) -> Iterator[bytes]:
        """The lines of its rows, some at a time. Several callers may read them at once."""
        place = 0
        while self.rows is not None and place < self.row_bytes:
            self.rows.seek(place)
            data = self.rows.read(min(PIECE, self.row_bytes - place))
            data = data[: data.rfind(b"\n") + 1]
            place += len(data)
            yield data

    def answer(self, reply: str) -> None:
        """Sets its reply, for all that wait for it."""
        self.reply = reply
        for future in self.left_waiting():
            future.set_result(self)

    def fail(self, error: Exception) -> None:
        """Raises an error for all that wait for it. It may still be answered later."""
        for future in self.left_waiting():
            future.set_exception(error)

    def left_waiting(self) -> list[asyncio.Future["Submission"]]:
        """The futures that wait, which are dropped here."""
        waiting, self.waiting = self.waiting, []
        return [future for future in waiting if not future.done()]


class Planner:
    """The planner over the plan of some HeldFiles, for a State of Submissions. It calls `on_answer` with each Answer,
    in their order, and `on_stop` with the reason when it stops. `why_not` returns why the program may not be run for
    now, or nothing. `limit`: for how many seconds opcplan may print nothing while an answer is due."""

    def __init__(self, program: str, files: HeldFiles, the_state: state.State[Submission],
                 on_answer: Callable[[state.Answer[Submission]], None], on_stop: Callable[[str], None],
                 why_not: Callable[[], str], limit: float = LIMIT) -> None:
        self.words = [program, "--db", files.plan]
        self.files, self.state, self.limit = files, the_state, limit
        self.sound, self.answers, self.status = SoundStates(program, files.plan), 0, -1
        self.on_answer, self.on_stop, self.why_not = on_answer, on_stop, why_not
        self.heard, self.kills = time.monotonic(), 0  # when it last printed something, and how often it was killed
        self.halted = ""  # why it isn't run again
        self.is_over = asyncio.Event()  # the desk has to end
        self.room, self.idle = asyncio.Event(), asyncio.Event()
        self.process: asyncio.subprocess.Process | None = None
        self.is_open, self.closing = False, asyncio.Event()
        self.open_since: float | None = None  # seconds since 1970
        self.lives = 0
        self.said = ""  # the last process's line on standard error
        self.why = ""  # why the last process ended
        self.stopped = ""  # why there are no answers for now
        self.task: asyncio.Task[None] | None = None

    def start(self) -> None:
        """Starts it."""
        self.count_flight()
        self.task = asyncio.create_task(self.keep())

    async def keep(self) -> None:
        """Runs opcplan again and again until the desk closes."""
        rest, unopened, since = SHORTEST_REST, 0, time.monotonic()
        while not self.closing.is_set():
            opened = False
            try:
                opened = bool(not self.halted and await self.life())
            except state.InvariantBroken as why:
                self.halt(f"the desk stops, because its entries are out of order: {why}")
                self.is_over.set()
            if self.halted:
                self.stop(self.halted)
                await self.closing.wait()
                return
            if self.closing.is_set():
                if opened and self.said:
                    print(f"desk: opcplan prints: {self.said}", file=sys.stderr, flush=True)
                return
            if opened:
                rest, unopened, since = SHORTEST_REST, 0, time.monotonic()
            else:
                rest, unopened = min(2 * rest, LONGEST_REST), unopened + 1
            is_held = HELD in self.why and time.monotonic() < since + PATIENCE
            if unopened >= TRIES and not is_held or self.state.line and self.state.line[0].tries >= TRIES:
                self.stop(self.why)
                rest = LONGEST_REST
            with contextlib.suppress(asyncio.TimeoutError):
                await asyncio.wait_for(self.closing.wait(), rest)

    def stop(self, why: str) -> None:
        """Rejects all that waits. Changes in the log are sent to opcplan again; questions are dropped."""
        self.stopped = why
        for drop in self.state.stopped():
            drop.item.fail(PlannerStopped(why))
        self.count_flight()
        self.on_stop(why)

    def halt(self, why: str) -> None:
        """Ends opcplan permanently: there are no answers any more."""
        self.halted = self.stopped = self.halted or why
        if self.process is not None:
            with contextlib.suppress(ProcessLookupError):
                self.process.kill()

    def look_at_files(self) -> bool:
        """Whether the files are in their places. If not, there are no answers any more, and the desk has to end."""
        if why := self.files.moved():
            self.halt(f"{why}; end the program that did that, and start the desk again")
            self.is_over.set()
        return not self.halted

    def has_moved(self) -> str:
        """Checks that the files are in their places; why there are no answers any more, or nothing. While opcplan opens
        or closes the plan, the plan's log may become another file, so nothing is checked."""
        if self.is_open and not self.closing.is_set():
            self.look_at_files()
        return self.halted

    @property
    def pid(self) -> int | None:
        """The process id of the opcplan that has the plan open, or None."""
        return self.process.pid if self.is_open and self.process is not None else None

    @property
    def silent(self) -> float:
        """For how many seconds an answer, or its end, has been due."""
        is_asked = self.process is not None and (self.state.flight or not self.is_open or self.closing.is_set())
        return time.monotonic() - self.heard if is_asked else 0.0

    @property
    def trouble(self) -> str:
        """Why there are no answers for now, or nothing."""
        if not self.stopped and self.silent > self.limit / 2:
            return (f"opcplan has printed nothing for {self.silent:.0f} s; after {self.limit:g} s the desk kills it, "
                    "starts it again, and sends the statements without a reply again")
        return self.stopped

    async def watch(self, process: asyncio.subprocess.Process) -> None:
        """Kills opcplan once it has printed nothing for too long."""
        while True:
            await asyncio.sleep(min(1.0, self.limit / 4))
            if self.silent > self.limit:
                self.kills += 1
                with contextlib.suppress(ProcessLookupError):
                    process.kill()
                return

    async def note_states(self) -> None:
        """Keeps the states between statements as sound, as long as one process of opcplan goes on."""
        noted = -1
        while not self.closing.is_set():
            await asyncio.sleep(NOTE_REST if self.sound.is_kept else 4 * NOTE_REST)
            if self.is_open and self.state.is_idle and (noted != self.answers or not self.sound.is_kept):
                noted = self.answers
                await asyncio.to_thread(self.sound.note)

    async def life(self) -> bool:
        """Runs one process of opcplan; whether it opened the plan. Raises InvariantBroken."""
        self.files.forget_log()
        if why := self.why_not():
            self.why = why
            return False
        self.files.forget_log()
        self.sound.begins()
        try:
            self.process = process = await asyncio.create_subprocess_exec(
                *self.words, stdin=asyncio.subprocess.PIPE, stdout=asyncio.subprocess.PIPE,
                stderr=asyncio.subprocess.PIPE, start_new_session=True)
        except OSError as error:
            self.why = f"{self.words[0]}: it can't be run: {error.strerror}"
            return False
        self.lives += 1
        if self.closing.is_set():
            piped(process.stdin).close()
        errors, self.heard = asyncio.create_task(piped(process.stderr).read()), time.monotonic()
        tasks = [asyncio.create_task(self.watch(process)), asyncio.create_task(self.note_states())]
        try:
            talk = await self.talk(process)
        finally:
            for task in tasks:
                task.cancel()
            self.sound.ends()
            self.files.forget_log()
            self.is_open, self.open_since = False, None
        self.state.ended()
        self.status = status = await ended(process)
        self.said = (await errors).decode("utf-8", "replace").strip().split("\n")[0].removeprefix("opcplan: ")
        self.why = self.said or talk.fault or f"opcplan ended with status {status}"
        return talk.opened

    async def talk(self, process: asyncio.subprocess.Process) -> PlannerRun:
        """Sends statements and takes answers until the program ends. Raises InvariantBroken."""
        data, opened = b"", False
        with contextlib.suppress(ConnectionResetError, BrokenPipeError):
            piped(process.stdin).write(PROBE)
            while piece := await piped(process.stdout).read(PIECE):
                data, self.heard = data + piece, time.monotonic()
                if not self.look_at_files():
                    return PlannerRun(opened, self.halted)
                if not opened:
                    if b"\n" not in data:
                        continue
                    if not data.startswith(OPEN):
                        return PlannerRun(False, data.split(b"\n")[0].decode("ascii", "replace"))
                    opened, data = True, data[len(OPEN) :]
                    self.opened()
                data, fault = self.take(data)
                if fault:
                    return PlannerRun(True, fault)
        return PlannerRun(opened, "")

    def opened(self) -> None:
        """Sends the statements without a reply again, in their order."""
        self.is_open, self.open_since = True, time.time()
        self.sound.opened()
        if self.state.is_idle:
            self.stopped = ""
        commands = self.state.opened()
        if self.state.flight:
            self.state.flight[0].tries += 1
        self.do(commands)

    def do(self, commands: Sequence[state.Send[Submission] | state.Answer[Submission]]) -> None:
        """Executes the commands of the state."""
        texts = []
        for one in commands:
            if isinstance(one, state.Send):
                if len(self.state.flight) == 1:
                    self.heard = time.monotonic()
                one.item.forget_rows()
                assert one.item.text is not None
                texts.append(one.item.text)
            else:
                self.stopped, self.answers = "", self.answers + 1
                self.on_answer(one)
        if texts:
            self.write(texts)
        if self.is_open and self.state.flight:
            self.state.flight[0].tries = max(self.state.flight[0].tries, 1)
        self.count_flight()

    def write(self, texts: Sequence[bytes]) -> None:
        """Sends opcplan the texts of statements at once. If it has ended, the next process gets the statements."""
        assert self.process is not None
        with contextlib.suppress(ConnectionResetError, BrokenPipeError):
            piped(self.process.stdin).write(b"".join(texts))

    def take(self, data: bytes) -> OutputRest:
        """Takes whole lines of output. Raises InvariantBroken."""
        text, begin = b"\n" + data, 1
        for found in REPLY.finditer(text):
            line = found.group()[1:].decode("ascii", "replace")
            if line.startswith("fault") or not self.state.flight:
                return OutputRest(b"", line)
            self.state.flight[0].take_rows(text[begin : found.start() + 1])
            begin = found.end() + 1
            self.do(self.state.replied(line))
        end = text.rfind(b"\n", begin) + 1
        if end > begin and self.state.flight:
            self.state.flight[0].take_rows(text[begin:end])
            begin = end
        return OutputRest(text[begin:], "")

    def count_flight(self) -> None:
        """Updates the events `room` (it may get more) and `idle` (nothing is left)."""
        for event, holds in ((self.room, self.state.has_room), (self.idle, self.state.is_idle)):
            if holds:
                event.set()
            else:
                event.clear()

    async def give(self, asks: Sequence[Submission]) -> None:
        """Sends it statements once there is room."""
        await self.room.wait()
        self.do([one for ask in asks
                 for one in (self.state.appended([ask]) if state.is_change(ask) else self.state.asked(ask))])
        if self.is_open and self.process is not None:
            with contextlib.suppress(ConnectionResetError, BrokenPipeError):
                await piped(self.process.stdin).drain()

    async def close(self) -> None:
        """Waits for its answers and ends it. Then the plan is one file."""
        await self.idle_or_stopped()
        with tempfiles.folder("ends-") as folder:
            look = self.sound.look(folder) if self.is_open and self.state.is_idle else None
            if look is not None:
                await asyncio.to_thread(look.take)
            self.heard = time.monotonic()
            self.closing.set()
            self.sound.ends()
            if self.process is not None:
                piped(self.process.stdin).close()
            if self.task is not None:
                await self.task
            if look is not None and successions.ended_well(self.status, self.said.encode()):
                await asyncio.to_thread(look.keep)

    async def idle_or_stopped(self) -> None:
        """Waits until nothing is in flight, or the planner is stopped."""
        while not self.state.is_idle and not self.stopped:
            with contextlib.suppress(asyncio.TimeoutError):
                await asyncio.wait_for(self.idle.wait(), 0.2)


Stream = TypeVar("Stream", asyncio.StreamReader, asyncio.StreamWriter)


def piped(stream: Stream | None) -> Stream:
    """A pipe of a process that was started with pipes."""
    assert stream is not None
    return stream


async def ended(process: asyncio.subprocess.Process) -> int:
    """Waits for the end of opcplan, which has printed all; kills it if it doesn't end. Its exit status."""
    piped(process.stdin).close()
    with contextlib.suppress(asyncio.TimeoutError):
        return await asyncio.wait_for(process.wait(), LONGEST_END)
    with contextlib.suppress(ProcessLookupError):
        process.kill()
    return await process.wait()
