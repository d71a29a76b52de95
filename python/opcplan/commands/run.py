"""./plan run: checks a stream, shows what it would change, asks, and runs it by opcplan."""

import argparse
import contextlib
import dataclasses
import difflib
import os
import secrets
import sys
from collections.abc import Iterator, Sequence
from typing import NamedTuple

from opcplan.cli import colours, words
from opcplan.commands import check, desk_plan, desk_stream, trial_words, what_if
from opcplan.desk import client, requests
from opcplan.errors import Error, Unreadable, Unwritable, UsageError
from opcplan.plans import job_numbers, locks, plan_file, stream_file, stream_state, tempfiles, trial
from opcplan.plans.stream_state import Known
from opcplan.plans.trial import Trial
from opcplan.rules import explanations, printable, stream
from opcplan.rules.apart import Apart
from opcplan.rules.stream import Item

# an application and one that is or was its predecessor
LINKS = """SELECT app, pred FROM predecessor UNION SELECT app, pred FROM link_in_force UNION
    SELECT later.app, earlier.app FROM dependency JOIN cp_row AS later ON later.serial = successor
        JOIN cp_row AS earlier ON earlier.serial = predecessor"""
SUMMARY = "checks a stream, shows what it would change, asks, and runs it"
MOST_ROWS = 20  # of the table of occurrences
IS_NEW = "the file held no plan, so a new one was made in it"  # which opcplan says, and --new asks for
TURNS = 9  # how often in a row nothing is done of a stream while others change the plan of a desk


@dataclasses.dataclass(frozen=True)
class Settings:
    """The plan of a file or of a desk, the stream, the planner, and how it is run."""

    plan: str | None
    stream: str
    program: str | None
    desk: str | None = None
    is_agreed: bool = False  # whether it is run without asking
    color: str = "never"
    is_new: bool = False


def add_words(parser: words.Parser) -> None:
    """Adds its words to a parser."""
    parser.description = (
        "Checks STREAM over PLAN.db as `./plan check` does, shows what it would change as `./plan what-if` does, asks, "
        "and then runs it with opcplan --db. It explains each refusal below its answer. With --desk the plan is that "
        "of a desk: `run` tries the stream on a copy from the desk, and sends it on the condition that nobody changed "
        "the plan since. If somebody did, it tries the rest again, and asks again if it would change something else. "
        "The exit status is that of opcplan (0 all accepted, 4 some refused, 8 a fault); 1 if nothing was run, or a "
        "desk didn't do all of it; 2 if the words are wrong. " + stream.BOUND
    )
    parser.add_argument("plan", metavar="PLAN.db", nargs="?", type=words.file,
                        help="the file that opcplan --db keeps (not with --desk)")
    trial_words.add_words(parser, "runs")
    parser.add_argument("--desk", metavar="DESK",
                        help="the desk that has the plan: http://HOST:PORT, or the path of its socket (else what "
                             "OPCPLAN_DESK has, if no PLAN.db is given)")
    parser.add_argument("--yes", action="store_true", help="run it without asking")
    colours.add_words(parser)
    parser.add_argument("--new", action="store_true", help="make a new plan in PLAN.db, which must not exist yet")
    parser.is_mixed = True


def run(given: argparse.Namespace) -> int:
    """Does what the words ask for; the exit status."""
    return run_stream(Settings(given.plan, given.stream, given.program, given.desk, given.yes, given.color, given.new))


def run_stream(given: Settings) -> int:
    """Runs a stream over a file, or has a desk do it; the exit status."""
    desk = given.desk or (client.usual() if given.plan is None else None)
    if desk is None and given.plan is not None:
        return run_over_file(given, given.plan)
    if desk is None and plan_file.is_database(given.stream):
        raise UsageError(f"{given.stream} is a database, so the stream is missing: ./plan run {given.stream} STREAM; "
                         "./plan run --help says more")
    if desk is None or given.plan is not None or given.is_new:
        raise UsageError("give PLAN.db or --desk DESK, one of them; --new goes with PLAN.db; ./plan run --help says "
                         "more")
    return run_by_desk(given, desk_plan.of_words(desk))


def run_over_file(given: Settings, plan: str) -> int:
    """Runs a stream over the plan of a file; the exit status."""
    ask_file(plan, given.is_new)
    path = os.path.realpath(plan)
    before = plan_file.stamps(path)
    with trial.tried(None if given.is_new else plan, given.stream, check.checked, given.program) as tried:
        agree(tried, given)
        if plan_file.stamps(path) != before:
            raise Error(f"{plan}: nothing was done, because another program wrote to it meanwhile; run it again")
        answers = f"{tried.stream}.out"
        named = os.path.abspath(plan)
        status, said = trial.done(tried, named, answers)
        tried.keep(path)
        for line in said.splitlines():
            if not (given.is_new and IS_NEW in line):
                print(printable.fit(line.replace(named, plan)), file=sys.stderr)
        status = status if status >= 0 else 128 - status
        try:
            show_answers(tried, answers, given.color)
            sys.stdout.flush()
        except (OSError, Unwritable) as error:
            words.print_message(f"the stream was run, with status {status}, but its answers can't be "
                                f"shown: {why_of(error)}")
    return status


def agree(tried: Trial[check.Checked], given: Settings) -> None:
    """Shows what a stream would change, and asks whether it shall be run. Raises Error where it isn't."""
    try:
        show(tried, given.color)
    except (OSError, Unwritable) as error:
        raise Error(f"nothing was done, because what would change can't be shown: {why_of(error)}") from None
    if tried.found.end or tried.status not in trial.SOUND:
        trial_words.print_end(tried)
        raise Error("nothing was done, because the trial didn't come to its end")
    if not given.is_agreed:
        ask()


def run_by_desk(given: Settings, desk: client.Client) -> int:
    """Has a desk do a stream, once it was tried on a copy of its plan and somebody said so; the exit status."""
    used, refused, done = secrets.token_hex(16), False, 0
    with tempfiles.folder("sent-") as folder:
        with stream_file.opened(given.stream) as source:
            sent = b"".join(source.pieces())
        whole = desk_stream.parts(sent)
        earlier: Agreed | None = None
        idle = 0
        while idle < TURNS:
            now = Tried(desk_stream.copied(desk, os.path.join(folder, f"plan-{idle}-{done}.db")), whole, done)
            with tried_rest(given, folder, now) as tried:
                earlier = agree_again(given, folder, tried, earlier, now)
                apart = apart_of(now, tried.plan)
                answers = desk_stream.answers_beside(desk, sent, used, now.copy, apart)[done:]
                show_part(given, desk, tried, desk_stream.written(os.path.join(folder, "answers"), answers),
                          len(whole[done:]) - len(answers))
            refused |= any(desk_stream.is_refusal(one) for one in answers)
            done, idle = done + len(answers), 0 if answers else idle + 1
            if done == len(whole):
                return 4 if refused else 0
            words.print_message(f"somebody changed the plan of {desk.name} meanwhile: {done_text(done, whole)}; the "
                                "rest is tried on the plan as it is now")
    raise Error(f"others kept changing the plan of {desk.name}: {done_text(done, whole)}, and nothing else; run the "
                "rest again")


@dataclasses.dataclass(frozen=True)
class Tried:
    """A copy of a desk's plan, and the statements of the stream, of which so many were done before it."""

    copy: desk_stream.Copy
    whole: list[bytes]
    done: int


class Agreed(NamedTuple):
    """What was tried, and what it showed, to which somebody agreed."""

    tried: Tried
    text: str


def apart_of(now: Tried, plan: plan_file.Plan) -> Apart:
    """What is near the statements that aren't done yet, in a copy of the plan."""
    changes = [one.words for one in requests.of_stream(b"".join(now.whole[now.done:])) if one.changes]
    return Apart(changes, [(later, earlier) for later, earlier in plan.db.execute(LINKS)])


@contextlib.contextmanager
def tried_rest(given: Settings, folder: str, now: Tried, base: str | None = None) -> Iterator[Trial[check.Checked]]:
    """A trial of what isn't done yet, over a copy, or over the plan of another file, with the numbers that a desk would
    give now."""
    path = base or now.copy.path
    with plan_file.opened(path) as plan:
        text = desk_plan.numbered(b"".join(now.whole[now.done:]), job_numbers.after_desk(plan.db))
    name = desk_stream.written(os.path.join(folder, "rest.in"), [text])
    with trial.tried(path, name, check.checked, given.program) as tried:
        yield tried


def agree_again(
    given: Settings, folder: str, tried: Trial[check.Checked], earlier: Agreed | None, now: Tried
) -> Agreed:
    """Shows what the rest of a stream would change, and asks, unless it is what somebody agreed to before: what is
    agreed to. Raises Error."""
    agreed = Agreed(now, shown_text(tried))
    if earlier is not None and agreed.text == agreed_text(given, folder, earlier, now):
        return agreed
    try:
        agree(tried, given)
    except Error as why:
        if not now.done:
            raise
        text = str(why).replace("nothing was done", "nothing else was done")
        raise Error(f"{done_text(now.done, now.whole)}; {text}") from None
    return agreed


def agreed_text(given: Settings, folder: str, earlier: Agreed, now: Tried) -> str:
    """What the rest would have changed behind what was done of an earlier trial, had nobody else changed the plan."""
    part = Tried(earlier.tried.copy, now.whole[:now.done], earlier.tried.done)
    if now.done == earlier.tried.done:
        return earlier.text
    with tried_rest(given, folder, part) as before, tried_rest(given, folder, now, before.after.path) as tried:
        return shown_text(tried)


def done_text(done: int, whole: Sequence[bytes]) -> str:
    """How many statements were done."""
    return f"{done} of {len(whole)} statements {'is' if done == 1 else 'are'} done"


def show_part(
    given: Settings, desk: client.Client, tried: Trial[check.Checked], answers: str, left: int
) -> None:
    """Shows what a desk answered to a stream that was tried, up to its last statements, which it didn't do."""
    try:
        show_answers(tried, answers, given.color, left)
        sys.stdout.flush()
    except (OSError, Unwritable) as error:
        words.print_message(f"{desk.name} did it, but its answers can't be shown: {why_of(error)}")


def ask_file(path: str, is_new: bool, makes_new: bool = True) -> None:
    """Asks that the plan is there, or where a new one is wanted, that nothing is; `makes_new` says whether the command
    can make one. Raises Unreadable."""
    if is_new and os.path.lexists(path):
        raise Unreadable(f"{path}: the file exists already; leave --new away to run the stream over it")
    if not is_new and os.path.isfile(path) and locks.is_held(path, locks.OF_A_DESK):
        raise Unreadable(f"{path}: a desk has it; `./plan run --desk DESK STREAM` has the desk do the stream")
    if not is_new and not os.path.lexists(path):
        folder, name = os.path.split(os.path.abspath(path))
        others = os.listdir(folder) if os.path.isdir(folder) else []
        plans = [other for other in others if plan_file.is_database(os.path.join(folder, other))]
        near = difflib.get_close_matches(name, plans, 1)
        meant = f" (did you mean {os.path.join(os.path.dirname(path), near[0])}?)" if near else ""
        new = "; --new makes a new plan there" if makes_new else ""
        raise Unreadable(f"{path}: there is no such file{meant}{new}")


def show(tried: Trial[check.Checked], color: str) -> None:
    """Prints what is found of a stream and what it would change."""
    print(colours.text(shown_text(tried), color), flush=True)


def shown_text(tried: Trial[check.Checked]) -> str:
    """What is found of a stream and what it would change; what a block drops or turns stands in what is found."""
    told = {finding.text for finding in tried.found.findings if finding.kind == "change"}
    changed = what_if.difference(tried.plan, tried.after, MOST_ROWS, told)
    return "\n".join([*check.lines_of(tried.found), printable.text(changed), ""])


def ask() -> None:
    """Asks on the terminal whether the stream shall be run. Raises Error where the answer is another one than yes."""
    if not (sys.stdin and sys.stdin.isatty() and sys.stderr.isatty()):
        raise Error("nothing was done, because there is no terminal to ask on; --yes runs it without asking")
    print("Run it? [y/N] ", end="", file=sys.stderr, flush=True)
    if sys.stdin.buffer.readline().strip().lower() not in (b"y", b"yes"):
        raise Error("nothing was done")


def why_of(error: Exception) -> str:
    """Why something can't be written."""
    return error.strerror if isinstance(error, OSError) else str(error)


def show_answers(tried: Trial[check.Checked], path: str, color: str, left: int = 0) -> None:
    """Prints what opcplan answered, each refusal with its explanation below it; the last statements, so many of them,
    weren't done."""
    now = stream_state.of_plan(tried.plan)
    rows: list[str] = []

    def see(line: str) -> None:
        now.see(line)
        rows.append(line)

    with stream_file.opened(tried.stream) as text, stream_file.opened(path, trial.OF_ANSWERS) as answers:
        try:
            items = [*stream.items(text)]
            for item, reply in explanations.answered(iter(items[:len(items) - left]), answers, see):
                print(colours.text(printable.text([*rows, *reply_lines(item, reply, now)]), color))
                rows.clear()
        except explanations.OutputMismatch as why:
            words.print_message(f"{tried.program}: it doesn't answer as opcplan does: {why}; everything that it "
                                "answered follows")
            show_raw(path)


def reply_lines(item: Item | None, reply: str | None, now: Known) -> list[str]:
    """The lines on one reply."""
    if reply is None:
        return explanations.end_lines(item, reply)
    if item is None or reply.startswith("fault"):
        return [reply, f"    {explanations.fault_text(reply)}"]
    lines = explanations.refusal_lines(item, reply, now)[:-1] if reply.startswith("refused") else []
    now.take(item, reply)
    return [reply, *(f"    {line.strip()}" for line in lines if line.strip() != reply)]


def show_raw(path: str) -> None:
    """Prints an output line by line, fit for a terminal."""
    with open(path, "rb") as file:
        for line in file:
            print(printable.fit(line.decode("latin-1").rstrip("\r\n")))
