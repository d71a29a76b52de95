"""./plan roll: extends the daily plan, and the long-term plan before it, as far as a rule says. A timer runs it.

What is to be done is decided of a copy of the plan, and tried on it. The job numbers are made from the statements, so
two runs that decide the same do it once."""

import argparse
import contextlib
import fnmatch
import hashlib
import itertools
import os
import re
import subprocess
import time
from collections.abc import Iterator
from typing import NamedTuple

from opcplan.cli import words
from opcplan.commands import desk_plan, roll_report, send, trial_words
from opcplan.desk import client
from opcplan.errors import Error, UsageError
from opcplan.needs.facts import DONE, FAILED, STOPPED
from opcplan.plans import job_numbers, locks, plan_file, tempfiles, trial, waits
from opcplan.plans.plan_file import Plan
from opcplan.plans.program import built_program
from opcplan.plans.stream_state import Known
from opcplan.rules import explanations, moments, printable, rolling, statuses
from opcplan.rules.rolling import Reach, Rule
from opcplan.rules.stream import Item, Source

SUMMARY = "extends the daily and the long-term plan as far as a rule says, for a timer"
AHEAD, RESERVE, EVERY, WAIT = "48h", "60d", "24h", 60.0
MOST_AHEAD, MOST_RESERVE = 60 * moments.DAY, 1000 * moments.DAY
MINUTES = {"m": 1, "h": 60, "d": moments.DAY}
# statements of one stream, and streams of one run
MOST_STEPS, MOST_STREAMS = 200, 20
STOPS = {"error": "in error", "late": "past its deadline"}
MOST_NAMED = 3
REST = 0.5


class StillDue(Error):
    """A statement that the planner refused, and that is due still."""

    exit_status = 4


class RollStopped(Error):
    """Why --stop-on keeps the daily plan from being extended."""


class Stop(NamedTuple):
    """What keeps the daily plan from being extended: a kind of STOPS, of applications of a pattern."""

    kind: str
    apps: str = "*"


class Answer(NamedTuple):
    """A statement of a stream and what it was answered; what a refusal means."""

    text: str
    reply: str
    why: tuple[str, ...] = ()


def add_words(parser: words.Parser) -> None:
    """Adds its words to a parser."""
    parser.description = (
        "Extends the current plan so far that it ends at the first of the times --at that is --ahead from now or more. "
        "If fewer days than --reserve are left of the long-term plan, it first extends that to the end of a month. It "
        "shows what it is going to do and what a trial on a copy of the plan answers, and does it; if nothing is due, "
        "it does nothing. It reports to the desk how it ended, and prints what needs a person. Each statement has a "
        "job number that is made from the statement, 800000001 to 899999999: run twice, it does the same thing once. "
        "The exit status is 0 if the plan reaches so far. It is 1 if --stop-on or the trial forbids "
        "it or the plan can't be read, and 4 if a statement was refused. It is 8 if it isn't known which answer "
        "a statement got; then run it again."
    )
    parser.add_argument("plan", metavar="PLAN.db", nargs="?", type=words.file, help="the file that opcplan --db keeps")
    parser.add_argument("--desk", metavar="DESK",
                        help="the desk that has the plan: http://HOST:PORT, or the path of its socket (else what "
                             "OPCPLAN_DESK has, if no PLAN.db is given)")
    parser.add_argument("--ahead", type=ahead, metavar="TIME", default=ahead(AHEAD), help="how far the current plan "
                        f"has to reach from now, as 36h or 2d (else {AHEAD})")
    parser.add_argument("--at", type=times, metavar="HH.MM[,HH.MM]..", default=(), help="the times of the day at which "
                        "a daily plan may end (else the one at which it ends already)")
    parser.add_argument("--reserve", type=reserve, metavar="TIME", default=reserve(RESERVE), help="how many days of "
                        f"the long-term plan have to be left, as 60d (else {RESERVE})")
    parser.add_argument("--every", type=ahead, metavar="TIME", default=ahead(EVERY), help="how often a timer runs "
                        f"this; if it doesn't run again in time, that needs a person (else {EVERY})")
    parser.add_argument("--stop-on", type=stop, metavar="KIND[:APP]", action="append", default=[],
                        help="`error` or `late`: don't extend the daily plan while something is in error or past its "
                             "deadline; with a pattern, as error:PAY*, only these applications count; you may give it "
                             "repeatedly")
    parser.add_argument("--wait", type=send.seconds, default=WAIT, metavar="SECONDS",
                        help="how long to try again while the desk is away, or another program has PLAN.db "
                             f"(else {WAIT:.0f})")
    parser.add_argument("--try", dest="is_trial", action="store_true", help="show it, and do nothing")
    parser.add_argument("--program", metavar="FILE", type=words.file,
                        help="the planner that tries it (else the one that is built here)")
    words.add_now(parser)


def minutes_of(text: str, most: int) -> int:
    """The minutes of a length of time like `24h`. Raises ArgumentTypeError."""
    found = re.fullmatch("([0-9]{1,6})([mhd])", text)
    minutes = int(found[1]) * MINUTES[found[2]] if found else -1
    if not 0 <= minutes <= most:
        raise argparse.ArgumentTypeError(f"{text!r} is not a time such as 90m, 36h or 2d, at "
                                         f"most {most // moments.DAY}d")
    return minutes


def ahead(text: str) -> int:
    """How far a plan has to reach, for `type=`."""
    return minutes_of(text, MOST_AHEAD)


def reserve(text: str) -> int:
    """Days that have to be left, for `type=`; a part of a day counts as one."""
    return -(-minutes_of(text, MOST_RESERVE) // moments.DAY)


def times(text: str) -> tuple[int, ...]:
    """Minutes of the day, for `type=`."""
    found = [moments.minute_of(one.strip().replace(":", ".")) for one in text.split(",")]
    if None in found:
        raise argparse.ArgumentTypeError(f"{text!r} is neither a time such as 06.00 nor times such as 06.00,18.00")
    return tuple(sorted({minute for minute in found if minute is not None}))


def stop(text: str) -> Stop:
    """What the plan isn't extended over, for `type=`."""
    kind, colon, apps = text.partition(":")
    if kind not in STOPS or colon and not re.fullmatch(r"[A-Z0-9@#$*?]{1,16}", apps.upper()):
        raise argparse.ArgumentTypeError(f"{text!r} is neither {' nor '.join(STOPS)}, nor one of them with a pattern "
                                         "of applications such as error:PAY*")
    return Stop(kind, apps.upper() or "*")


def run(given: argparse.Namespace) -> int:
    """Does what the words ask for; the exit status."""
    desk = given.desk or (client.usual() if given.plan is None else None)
    if (desk is None) == (given.plan is None):
        raise UsageError("give PLAN.db or --desk DESK, one of them; ./plan roll --help says more")
    asked = None if desk is None else desk_plan.of_words(desk)
    reach = roll_report.Reached()
    try:
        rolled(given, asked, reach)
    except Error as why:
        outcome = STOPPED if isinstance(why, RollStopped) else FAILED
        roll_report.send(given, asked, reach, outcome, str(why))
        if reach.end is not None:
            roll_report.show_needs(given, asked, is_quiet=True)
        raise
    roll_report.send(given, asked, reach, DONE, "")
    roll_report.show_needs(given, asked)
    return 0


def rolled(given: argparse.Namespace, asked: client.Client | None, reach: roll_report.Reached) -> None:
    """Extends a plan as far as is due, and notes how far it reaches. Raises Error."""
    until = time.monotonic() + given.wait
    refused: list[Answer] = []
    for turn in range(MOST_STREAMS):
        with copied(given, asked, until) as path, plan_file.opened(path) as plan:
            reach.end = plan.meta["plan_end"] if plan.is_created else None
            stream = stream_due(plan, given, is_first=not turn)
            if not stream:
                return
            if refused:  # it is due still, so nobody else did it meanwhile
                raise StillDue(f"`{refused[0].text}` was {refused[0].reply}, and is still due; the next run tries it "
                               "again")
            with tried_on(path, stream, given.program) as tried:
                if given.is_trial:
                    return
                refused = [one for one in done(given, asked, stream, until) if not one.reply.startswith("ok")]
                if asked is None:
                    tried.keep(given.plan)
    raise Error(f"{MOST_STREAMS} streams of {MOST_STEPS} statements don't extend the plan far enough; run it again")


@contextlib.contextmanager
def copied(given: argparse.Namespace, desk: client.Client | None, until: float) -> Iterator[str]:
    """The path of a file with the plan as it is: of a desk a copy, for which it is asked up to a moment of the steady
    clock. Raises Unreadable."""
    if desk is None:
        send.check_file(given.plan)
        yield given.plan
        return
    while True:
        with contextlib.ExitStack() as held:
            try:
                path = held.enter_context(desk_plan.copied(desk))
            except desk_plan.CopyUnavailable:
                if time.monotonic() + REST > until:
                    raise
            else:
                yield path
                return
        time.sleep(REST)


# What is due.


def stream_due(plan: Plan, given: argparse.Namespace, is_first: bool) -> str:
    """The stream that extends a plan, empty where nothing is due. Raises Error where it mustn't be extended."""
    if not plan.is_created:
        raise Error("there is no long-term plan yet; `ltp-create` makes one")
    now = moments.now() if given.now is None else given.now
    rule = Rule(given.ahead, given.at, given.reserve)
    reach = Reach(plan.meta["plan_end"], plan.meta["last_day"], plan.meta["max_hours"])
    due = list(itertools.islice(rolling.steps(reach, rule, now), MOST_STEPS))
    if not due and rolling.is_due(reach, rule, now):
        raise Error(f"the plan ends {moments.moment_text(reach.end)} and can't be extended: its last day is "
                    f"{moments.day_text(reach.last_day)}")
    if is_first or due:
        print(f"The current plan ends {moments.moment_text(reach.end)}, the long-term plan "
              f"{moments.day_text(reach.last_day)}{'.' if due else ': nothing is due.'}", flush=True)
    if any(step.is_daily for step in due):
        ask_stops(plan, given.stop_on, now)
    return "".join(f"{step.text} --job {job_numbers.made(plan.db, step.text)}\n" for step in due)


def ask_stops(plan: Plan, stops: list[Stop], now: int) -> None:
    """Asks that the current plan has nothing that the daily plan isn't extended over. Raises Error."""
    rows = waits.rows_of_current(plan, statuses.UNFINISHED)
    for one in stops:
        found = [row for row in rows if fnmatch.fnmatchcase(row.app, one.apps)
                 and (row.place == "E" if one.kind == "error" else waits.is_late(row, now))]
        if found:
            names = ", ".join(f"{row.key} (serial {row.serial})" for row in found[:MOST_NAMED])
            more = f" and {len(found) - MOST_NAMED} more" if len(found) > MOST_NAMED else ""
            raise RollStopped(f"nothing was done: the daily plan is due, but --stop-on {one.kind} stops it "
                              f"for {names}{more}, {STOPS[one.kind]}")


# The trial, and what is done.


@contextlib.contextmanager
def tried_on(path: str, stream: str, program: str | None) -> Iterator[trial.Trial[list[Answer]]]:
    """A trial on a copy; shows what that answers. Raises Error where it refuses a statement, or doesn't come to its
    end."""
    with tempfiles.folder("roll-") as folder:
        name = os.path.join(folder, "stream.in")
        with open(name, "w", encoding="ascii") as file:
            file.write(stream)
        with trial.tried(path, name, answers_of, program) as tried:
            show("trial", tried.found)
            count = len(stream.splitlines())
            if tried.status not in trial.SOUND or len(tried.found) < count:
                trial_words.print_end(tried)
                raise Error("nothing was done, because the trial didn't come to its end")
            refused = [one for one in tried.found if not one.reply.startswith("ok")]
            if refused:
                raise Error("nothing was done, because the trial refuses "
                            f"`{refused[0].text}`: {'; '.join((refused[0].reply, *refused[0].why))}")
            yield tried


def answers_of(items: Iterator[Item], output: Source, now: Known) -> list[Answer]:
    """The statements of a stream with their replies, up to its end or a fault."""
    found = []
    for item, reply in explanations.answered(items, output, now.see):
        if item is None or reply is None or explanations.is_end(reply):
            break
        why = explanations.refusal_sentences(item, reply, now) if reply.startswith("refused") else []
        found.append(Answer(item.shown(), reply, tuple(why)))
        now.take(item, reply)
    return found


def done(given: argparse.Namespace, desk: client.Client | None, stream: str, until: float) -> list[Answer]:
    """Has the planner do a stream, and shows what it answers. Raises StreamNotSent where that isn't known."""
    text = stream.encode("ascii")
    if desk is None:
        ran = by_file(given, text, until)
    else:
        ran = by_desk(desk, text, until)
    replies = ran.decode("ascii", "replace").splitlines()
    lines = stream.splitlines()
    found = [Answer(line, reply) for line, reply in zip(lines, replies)]
    show("done", found)
    answered = sum(not reply.startswith("fault") for reply in replies)
    if (answered, len(replies)) != (len(lines), len(lines)):
        raise send.StreamNotSent(f"the planner answered {answered} of {len(lines)} statements; run it again, and "
                                 "nothing is done twice")
    return found


def by_file(given: argparse.Namespace, text: bytes, until: float) -> bytes:
    """What opcplan answers over the file of the plan. Raises StreamNotSent."""
    program = os.path.abspath(given.program or built_program())
    try:
        ran = send.sent(program, given.plan, text, until)
    except OSError as error:
        raise send.StreamNotSent(f"{program}: it can't be run: {error.strerror}; nothing was sent") from None
    if send.is_held(ran):
        desk = locks.is_held(given.plan, locks.OF_A_DESK)
        who = "a desk has it; `./plan roll --desk DESK` has the desk do it" if desk else "another program kept it open"
        raise send.StreamNotSent(f"{given.plan}: nothing was sent, because {who}")
    print_said(ran, given.plan)
    return ran.stdout


def print_said(ran: subprocess.CompletedProcess[bytes], path: str) -> None:
    """Says what opcplan said on standard error."""
    for line in ran.stderr.decode(errors="replace").splitlines():
        words.print_message(re.sub(r"\bFILE\b", lambda _: path, line.removeprefix("opcplan: ")))


def by_desk(desk: client.Client, text: bytes, until: float) -> bytes:
    """What a desk answers, under a key that is made from the stream. Raises StreamNotSent."""
    key = f"roll-{hashlib.sha256(text).hexdigest()[:32]}"
    try:
        found: bytes = desk.statements(text, key, until)
        return found
    except client.RequestRefused as why:
        raise send.StreamNotSent(f"{desk.name}: {why}") from None
    except client.DeskUnreachable as why:
        advice = "it may be done all the same: run it again, and nothing is done twice"
        raise send.StreamNotSent(f"{why}; {advice if why.may_be_done else 'nothing was sent'}") from None


def show(what: str, answers: list[Answer]) -> None:
    """Prints statements with their replies."""
    for one in answers:
        print(printable.fit(f"{what}: {one.text}: {one.reply}"), flush=True)
