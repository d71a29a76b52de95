"""A trial: a stream is run by opcplan over a private copy of a plan, which stays as it is."""

import contextlib
import dataclasses
import os
import subprocess
from collections.abc import Callable, Iterator
from typing import Any, Generic, TypeVar

from opcplan.errors import Unreadable
from opcplan.plans import own_runs, plan_file, progress, stream_file, stream_state, tempfiles, waits
from opcplan.plans.plan_file import Plan
from opcplan.plans.program import built_program, is_own
from opcplan.plans.stream_state import Known
from opcplan.rules import explanations, stream
from opcplan.rules.stream import Item, Source

F = TypeVar("F")  # what is made of the answers

# of what the planner tells on standard error, and of its answers
MOST_SAID, OF_ANSWERS = 10_000, stream.Bounds(1 << 40, 1 << 40)
SOUND = (0, 4)  # the statuses of a run that did all of a stream


@dataclasses.dataclass
class Trial(Generic[F]):
    """What came of a stream over a copy of a plan."""

    plan: plan_file.Plan  # before it
    after: plan_file.Plan
    found: F  # what was made of the answers
    status: int  # of the planner; below 0 the signal that ended it
    said: str  # by the planner on standard error
    stream: str  # the path of a copy of the stream
    program: str
    result: str | None  # the path of the file that opcplan made, if that is sound

    def keep(self, path: str) -> None:
        """Keeps that a file is sound, where the stream was run over it too and nobody else wrote to it: it has the same
        bytes then."""
        if self.result is not None:
            own_runs.keep_equal(path, self.result)


@contextlib.contextmanager
def tried(
    path: str | None, name: str, take: Callable[[Iterator[Item], Source, Known], F], program: str | None = None
) -> Iterator[Trial[F]]:
    """A Trial of a stream over the plan of a file, or over a new plan where there is no path. What is `found` is what
    `take` makes of the items of the stream, of the output, and of what is known before. Raises Unreadable."""
    program = os.path.abspath(program or built_program())
    if path is not None and plan_file.is_database(name) and not plan_file.is_database(path):
        raise Unreadable(f"{path}: it is not a plan, but {name} may be one; did you swap them?")
    with tempfiles.folder("trial-") as folder:
        text, copy, said = (os.path.join(folder, name) for name in ("stream.in", "plan.db", "said"))
        new = new_plan(program, folder) if path is None else None
        with plan_file.opened(new or path or "", is_own=new is not None, by_program=True) as plan:
            with judged(plan):
                copy_stream(name, text)
                copy_plan(plan, copy)
                before = stream_state.of_plan(plan)
                with contextlib.ExitStack() as held:
                    before.made = MadeRows(copy, held).key_of
                    found, status = answered(program, copy, text, said, lambda items, out: take(items, out, before))
            by_own = status in SOUND and is_own(program)
            (plan_file.found_sound if by_own else plan_file.check)(plan)
            result = copy if by_own else None
            with plan_file.opened(copy, is_own=True) as after, open(said, "rb") as file:
                message = file.read(MOST_SAID).decode(errors="replace").replace(copy, path or name)
                yield Trial(plan, after, found, status, message, text, program, result)


@contextlib.contextmanager
def judged(plan: Plan) -> Iterator[None]:
    """A context in which opcplan checks a plan. What fails may fail because the plan isn't sound: then that is told."""
    try:
        yield
    except Exception:
        plan_file.check(plan)
        raise


class MadeRows:
    """The rows that a stream has made up to here, read from a copy of the file that its run goes on with."""

    MOST_COPIES = 5

    def __init__(self, path: str, held: contextlib.ExitStack) -> None:
        """`path`: the file; `held` closes the copies."""
        self.path, self.held = path, held
        self.plan: Plan | None = None
        self.left = self.MOST_COPIES

    def key_of(self, serial: int) -> str | None:
        """Application and arrival of a serial, in words, or None where it isn't found, or too many were copied."""
        found = self.found(serial)
        if found is None and self.left:
            self.left -= 1
            with contextlib.suppress(Unreadable):
                self.plan = self.held.enter_context(plan_file.opened(self.path, is_own=True))
            found = self.found(serial)
        return found

    def found(self, serial: int) -> str | None:
        """The same, of the copy that is there."""
        rows = [] if self.plan is None else waits.rows_where(self.plan, "serial = :v0", serial)
        return rows[0].key if rows else None


def new_plan(program: str, folder: str) -> str:
    """The path of a new plan in a folder. Raises Unreadable."""
    path = os.path.join(folder, "new.db")
    with running(program, path, stdin=subprocess.DEVNULL, stdout=subprocess.DEVNULL, stderr=subprocess.DEVNULL) as ran:
        ran.wait()
    if ran.returncode or not os.path.exists(path):
        raise Unreadable(f"{program}: it doesn't make a new plan; it ended with status {ran.returncode}")
    return path


def copy_stream(name: str, copy: str) -> None:
    """Copies a stream up to its bound. Raises Unreadable."""
    with stream_file.opened(name) as source, open(copy, "wb") as target:
        target.writelines(source.pieces())


def copy_plan(plan: Plan, copy: str) -> None:
    """Makes the file of a copy, and its log, byte by byte, so that opcplan makes of them what it makes of the plan
    itself. Raises Unreadable."""
    source: str = plan.db.execute("PRAGMA database_list").fetchone()["file"]
    try:
        for tail in plan_file.TAILS[:2]:
            plan_file.take(source + tail, copy + tail)
    except OSError as error:
        raise Unreadable(f"{plan.path}: a private copy can't be made: {error.strerror}") from None


def answered(
    program: str, copy: str, text: str, said: str, take: Callable[[Iterator[Item], Source], F]
) -> tuple[F, int]:
    """Runs a stream over the file of a plan: what `take` makes of its items and the output, and the status; what is
    told on standard error goes to `said`. Raises Unreadable."""
    with open(text, "rb") as asked, open(said, "wb") as errors, stream_file.opened(text) as source:
        with running(program, copy, stdin=asked, stdout=subprocess.PIPE, stderr=errors) as ran:
            assert ran.stdout is not None, "its output goes to a pipe"
            size = max(1, os.path.getsize(text))
            try:
                with progress.of("opcplan opens a copy and runs the stream") as far:
                    items = progress.along(stream.items(source), far, lambda: source.size / size)
                    found = take(items, stream.Source(ran.stdout, program, OF_ANSWERS))
            except explanations.OutputMismatch as why:
                raise Unreadable(f"{program}: it doesn't answer as opcplan does: {why}") from None
    return found, ran.returncode


def done(trial: Trial[F], path: str, output: str) -> tuple[int, str]:
    """The status of opcplan once it has run the stream of a trial over the plan itself, and what it said on standard
    error; its output goes to a file."""
    with open(trial.stream, "rb") as asked, open(output, "wb") as target:
        with running(trial.program, path, stdin=asked, stdout=target, stderr=subprocess.PIPE) as ran, \
                progress.of("opcplan runs the stream"):
            said = ran.communicate()[1][:MOST_SAID].decode(errors="replace")
    return ran.returncode, said


class Planner(subprocess.Popen[bytes]):
    """A run of the planner, which doesn't outlive a signal that comes while it is started."""

    def __init__(self, words: list[str], **how: Any) -> None:
        try:
            super().__init__(words, **how)
        except BaseException:
            if getattr(self, "pid", None) is not None and self.returncode is None:
                self.kill()
                self.wait()
            raise


@contextlib.contextmanager
def running(program: str, path: str, **how: Any) -> Iterator[subprocess.Popen[bytes]]:
    """A run of the planner over a file, which has ended when the context ends. Raises Unreadable where there is no such
    program."""
    try:
        ran = Planner([program, "--db", path], **how)
    except OSError as error:
        raise Unreadable(f"{program}: it can't be run: {error.strerror}") from None
    with ran:
        try:
            yield ran
        except BaseException:
            ran.kill()
            raise
