"""./plan send: a statement in words, or a job stream, to a desk, or to a plan that other programs use too.

A desk is asked under one key until it has answered. Where there is none, `opcplan` ends with fault 50 while another
program has the file, and has answered nothing then. So it is started again until it has the file, and no statement is
ever run twice."""

import argparse
import contextlib
import dataclasses
import io
import json
import math
import os
import random
import re
import secrets
import shlex
import subprocess
import sys
import time
from collections.abc import Callable, Iterator
from typing import NamedTuple

from opcplan.acts import loaded, resolver, verbs
from opcplan.acts.resolver import Meant
from opcplan.cli import words
from opcplan.commands import desk_view, keys, rows
from opcplan.desk import client
from opcplan.errors import Error, Unreadable, Unwritable, UsageError
from opcplan.plans import entry, job_numbers, journal, locks, own_runs, plan_definitions, plan_file
from opcplan.plans import printed_numbers, stream_file, stream_state, waits
from opcplan.plans.program import built_program
from opcplan.rules import explanations, moments, printable, statement_words, statements, stream
from opcplan.rules.naming_words import meant_text

Ran = subprocess.CompletedProcess[bytes]
SUMMARY = "sends a statement in words, or a job stream, to a desk or a plan, and waits for it"
FAILED = 8
HELD = b"another program has the file open"
# how often a number that another stream took meanwhile is replaced
TRIES = 9
SHORT = (*statements.ACTS, "add")


class StatementNotSent(UsageError):
    """Why words are not sent."""


class StreamNotSent(Error):
    """Why a stream isn't sent, or what it was answered isn't known here."""

    exit_status = FAILED


class Line(NamedTuple):
    """The line of a statement in words, and whether it lacks its job number."""

    text: str
    lacks_job: bool


@dataclasses.dataclass(frozen=True)
class Settings:
    """The desk, or the plan of a file; how long it is tried, the key of a desk, the planner, and the words of a
    statement, or none where the stream is on standard input."""

    desk: str | None
    plan: str | None
    wait: float
    key: str | None
    program: str | None
    words: list[str]


def add_words(parser: words.Parser) -> None:
    """Adds its words to a parser."""
    parser.description = (
        "Sends the job stream on standard input to a desk, or runs it over PLAN.db if no desk has that. Or it sends "
        f"one statement in words: `start APP D/HH.MM`, and likewise {', '.join(SHORT[1:])}, each as the statement "
        "cp-.. of that name. Any statement of docs/rules/STATEMENTS.md except define is possible too. You may give a "
        "serial in place of APP D/HH.MM, and APP, APP D or APP HH.MM if one occurrence fits. A statement in words "
        "without a job number gets the next one, which `send` "
        "prints; a desk gives numbers to all that lack one. While the desk is away, or another program has PLAN.db, "
        "`send` tries again; no statement is run twice. It prints the replies as opcplan prints them, and on standard "
        "error what a refusal means. The exit status is opcplan's: 0, 4 if some were refused, 8 after a fault, and if "
        "nothing could be sent; 2 if the words are "
        "wrong. " + stream.BOUND + " Put a token for the desk into OPCPLAN_TOKEN, or into the file that "
        "OPCPLAN_TOKEN_FILE names."
    )
    where = parser.add_mutually_exclusive_group()
    where.add_argument("--desk", default=client.usual(), metavar="DESK",
                       help="http://HOST:PORT, or the path of a desk's socket; several desks of one log with commas "
                       "between them (else what OPCPLAN_DESK has)")
    where.add_argument("--db", type=words.file, metavar="PLAN.db", help="the file that opcplan --db keeps")
    parser.add_argument("--wait", type=seconds, default=0, metavar="SECONDS",
                        help="how long to try again while the desk is away, or another program has PLAN.db (else once)")
    parser.add_argument("--key", type=key, metavar="KEY",
                        help="the key under which a desk does the stream once (else a new key)")
    parser.add_argument("--program", metavar="FILE", type=words.file,
                        help="the planner that runs it (else the one that is built here)")
    action = parser.add_argument("words", nargs=argparse.REMAINDER, metavar="STATEMENT",
                                 help="the words of a statement (else the stream on standard input)")
    words.offer(action, [*SHORT, *(name for name in statements.KINDS if name != "define")], ["applications"])


def seconds(text: str) -> float:
    """A number of seconds, for `type=`."""
    try:
        found = float(text)
    except ValueError:
        found = math.nan
    if not 0 <= found <= 1_000_000:
        raise argparse.ArgumentTypeError(f"{text!r} is not a number of seconds from 0 to 1000000")
    return found


def key(text: str) -> str:
    """A key for a desk, for `type=`."""
    if not re.fullmatch(r"[!-\"$-~]{1,200}", text):
        raise argparse.ArgumentTypeError(f"{text!r} is not a key, which has 1 to 200 characters, without blanks and #")
    return text


def run(given: argparse.Namespace) -> int:
    """Does what the words ask for; the exit status."""
    return sent_to(Settings(given.desk, given.db, given.wait, given.key, given.program, given.words))


def sent_to(given: Settings) -> int:
    """Has a desk answer, or runs the stream over the plan of a file; the exit status."""
    until = time.monotonic() + given.wait
    if lack := option_lacked(given.words):
        raise UsageError(f"{lack}; nothing was sent")
    if given.plan is None and given.desk is None:
        raise UsageError("give --desk or --db, one of them; ./plan send --help says more")
    try:
        desk = client.Client(given.desk, client.token()) if given.plan is None and given.desk is not None else None
        line = line_of(with_key(given.plan, desk, parts(given.words))) if given.words else None
    except UsageError as why:
        raise UsageError(f"{why}; nothing was sent") from None
    except (Unreadable, client.DeskUnreachable, client.RequestRefused) as why:
        raise StreamNotSent(f"{why}; nothing was sent") from None
    except OSError as error:
        raise StreamNotSent(f"{error.filename}: the token can't be read: {error.strerror}; nothing was sent") from None
    if desk is not None:
        return run_by_desk(desk, given.key, line, until)
    assert given.plan is not None, "without a desk there is a plan"
    return run_over_file(given.plan, given.program, line, until)


def option_lacked(given: list[str]) -> str:
    """That a plan or a desk stands before the words of a statement without its option, and what to type; or nothing."""
    first = given[0] if given else ""
    option = "--db" if words.is_database(first) else "--desk" if first.startswith(("http://", "https://")) else ""
    typed = shlex.join([*words.CALLED.split(), "send", option, *given])
    return f"{first} needs its option: {typed}" if option else ""


def run_over_file(path: str, planner: str | None, line: Line | None, until: float) -> int:
    """Runs a stream or a statement over the plan of a file, and prints what is answered; the exit status."""
    try:
        explained: list[str] | None = None
        check_file(path)
        program = os.path.abspath(planner or built_program())
        if line is None:
            text = text_sent()
            ran = sent(program, path, text, until)
        else:
            text, ran, explained = sent_in_turn(program, path, line, until)
    except StatementNotSent as why:
        raise StatementNotSent(f"{why}; nothing was sent") from None
    except Unreadable as why:
        raise StreamNotSent(str(why)) from None
    except locks.FileLocked:
        raise StreamNotSent(f"{path}: nothing was sent, because another program kept sending to it") from None
    except OSError as error:
        raise StreamNotSent(f"{error.filename or 'standard input'}: {error.strerror}; nothing was sent") from None
    status = shown(text, ran, explained=explained, path=path)
    if is_held(ran) and locks.is_held(path, locks.OF_A_DESK):
        words.print_message(f"{path}: a desk has it; `./plan send --desk DESK ..` sends to the desk")
    return status


def check_file(path: str) -> None:
    """Asks that there is such a file; opcplan would make one. Raises Unreadable."""
    if not os.path.isfile(path):
        raise Unreadable(f"{path}: there is no such file; `./opcplan --db` makes a new plan")
    if not os.path.getsize(path):
        raise Unreadable(f"{path}: it is empty, so it is not a plan; `./opcplan --db` makes a new plan in it")


def text_sent() -> bytes:
    """The stream on standard input. Raises Unreadable."""
    with stream_file.opened("-") as source:
        return b"".join(source.pieces())


# By a desk.


def run_by_desk(desk: client.Client, given_key: str | None, line: Line | None, until: float) -> int:
    """Has a desk answer, and prints that; the exit status."""
    used = given_key or secrets.token_hex(16)
    view = desk_view.View(desk)
    try:
        if line is not None:
            ask_of_desk(view, line)
        text = text_sent() if line is None else f"{line.text}\n".encode("ascii")
        answer = desk.statements(text, used, until)
    except Unreadable as why:
        raise StreamNotSent(str(why)) from None
    except StatementNotSent as why:
        raise StatementNotSent(f"{why}; nothing was sent") from None
    except client.RequestRefused as why:
        raise StreamNotSent(f"{desk.name}: {why}") from None
    except client.DeskUnreachable as why:
        advice = f"send it again with `--key {used}`, and nothing is done twice"
        if "may be done all the same" not in str(why):
            advice = f"it may be done all the same: {advice}"
        raise StreamNotSent(f"{why}; {advice if why.may_be_done else 'nothing was sent'}") from None
    ran = subprocess.CompletedProcess([], 4 if has_refusals(answer) else 0, answer, b"")
    return shown(text, ran, used, None if line is None else explained_by_desk(view, text, answer))


def ask_of_desk(view: desk_view.View, line: Line) -> None:
    """Asks that a statement names an application that a desk's plan has, where the desk can be asked now. Raises
    StatementNotSent."""
    statement = statement_of(line)
    if statement is None or not statements.KINDS[statement.name].is_on_key:
        return
    with contextlib.suppress(client.DeskUnreachable, client.RequestRefused):
        if lack := view.lack_of(statement.values["app"]):
            raise StatementNotSent(lack)


def explained_by_desk(view: desk_view.View, text: bytes, answer: bytes) -> list[str] | None:
    """What the refusal of one statement means by what a desk's plan has now; None where it isn't asked about that."""
    (item,) = items_of(stream.Source(io.BytesIO(text), "what was sent"))
    asked = item.statement
    if asked is None or not statements.KINDS[asked.name].is_on_key or not has_refusals(answer):
        return None
    with contextlib.suppress(client.DeskUnreachable, client.RequestRefused):
        lines = refusal_lines(text, answer, items_of, view.known(asked))
        done = view.since(asked) if answer == b"refused 29\n" else None
        return [*lines, f"    {done.text()}"] if done else lines
    return None


def statement_of(line: Line) -> statement_words.Statement | None:
    """The statement of a line, also where that lacks its job number."""
    return statement_words.read([*line.text.split(" "), *(["--job", "1"] if line.lacks_job else [])])[0]


def items_of(source: stream.Source) -> Iterator[stream.Item]:
    """The items of a stream; a statement that lacks its job number has one of the desk's."""
    for place, item in enumerate(stream.items(source)):
        if item.statement is None:
            whole = item.text + b" --job %d" % (entry.FIRST_JOB + place)
            statement, _ = stream.read_line(whole, len(whole))
            item = dataclasses.replace(item, statement=statement or item.statement)
        yield item


# A statement in words.


def parts(given: list[str]) -> list[str]:
    """The words of a statement, also where one word in quotes has all of them."""
    if len(given) != 1:
        return given
    return words.joined([word for word in given[0].split(" ") if word]) or given


def with_key(path: str | None, desk: client.Client | None, given: list[str]) -> list[str]:
    """The words of a statement, in which the serial of `start 11`, or `PAY 06.00`, is replaced by what it names in a
    plan, of a file or of a desk. Raises StatementNotSent, Unreadable, DeskUnreachable and client.RequestRefused."""
    meant = meant_by(given)
    if meant is not None:
        count = next((place for place, word in enumerate(given) if word.startswith("-")), len(given))
        key = meant_in_file(path, given[0], meant) if path is not None else meant_at_desk(desk, given[0], meant)
        return [given[0], *key, *given[count:]]
    if given[0] not in statements.ACTS or not re.fullmatch("[1-9][0-9]{0,8}", "".join(given[1:2])):
        return given
    if len(given) > 2 and not given[2].startswith("-"):
        return given
    app, ia = key_in_file(path, int(given[1])) if path is not None or desk is None else key_at_desk(desk, int(given[1]))
    return [given[0], app, ia, *given[2:]]


def meant_by(given: list[str]) -> Meant | None:
    """What a change of a status names by an application alone, or also by its day or minute; None if it names it
    otherwise."""
    count = next((place for place, word in enumerate(given) if word.startswith("-")), len(given))
    if given[0] not in statements.ACTS or count < 2:
        return None
    with contextlib.suppress(resolver.UnknownForm):
        meant = resolver.read(given[1:count])
        if meant.app is not None and (meant.day is None or meant.minute is None):
            return meant
    return None


def meant_in_file(path: str, name: str, meant: Meant) -> tuple[str, str]:
    """Application and input arrival of what is meant in the plan of a file. Raises StatementNotSent and Unreadable."""
    check_file(path)
    with plan_file.opened(path) as plan:
        found = resolver.resolve(loaded.world_of(plan), meant, verbs.VERBS[name].places, moments.now())
    if found.row is None:
        raise StatementNotSent(not_one(meant, found.several and resolver.lines_of(found) or [], found.why))
    return found.row.app, moments.moment_word(found.row.ia)


def meant_at_desk(desk: client.Client | None, name: str, meant: Meant) -> tuple[str, str]:
    """Application and input arrival of what is meant in the plan of a desk. Raises StatementNotSent, DeskUnreachable
    and client.RequestRefused."""
    assert desk is not None, "a statement goes to a file or to a desk"
    found = json.loads(desk.request("POST", "/acts", json.dumps({"verb": name, "of": meant.text}).encode())[1])
    if found["act"] is not None:
        return found["act"]["row"]["app"], found["act"]["row"]["ia"]
    if found["found"] is None:
        raise StatementNotSent(str(found["why_not"]))
    raise StatementNotSent(not_one(meant, found["found"]["choices"] and found["found"]["lines"] or [],
                                   found["found"]["why"]))


def not_one(meant: Meant, lines: list[str], why: str) -> str:
    """Why what is meant isn't one occurrence: several fit, or none does."""
    return f"several fit {meant.text}: {'; '.join(lines)}" if lines else why.removesuffix(".")


def key_in_file(path: str | None, serial: int) -> tuple[str, str]:
    """Application and input arrival of a serial in the plan of a file. Raises StatementNotSent and Unreadable."""
    assert path is not None, "a statement goes to a file or to a desk"
    check_file(path)
    with plan_file.opened(path) as plan:
        found = keys.rows_of(plan, keys.Key(serial, None, None))
        if found is None:
            raise StatementNotSent(keys.unknown_text(plan, keys.Key(serial, None, None)).removesuffix("."))
    return found.app, moments.moment_word(found.ia)


def key_at_desk(desk: client.Client, serial: int) -> tuple[str, str]:
    """Application and input arrival of a serial in the plan of a desk. Raises StatementNotSent, DeskUnreachable and
    client.RequestRefused."""
    found = desk_view.View(desk).key_of(serial)
    if found is None:
        raise StatementNotSent(f"neither the current plan nor the long-term plan of {desk.name} has the serial "
                               f"{serial}")
    return found


def line_of(given: list[str]) -> Line:
    """The line of a statement in words. Raises StatementNotSent."""
    spelled = in_full(list(map(as_word, given)))
    found, wrong = statement_words.read(spelled)
    if found is None:
        found, wrong_with_job = statement_words.read([*spelled, "--job", "1"])
        if found is None:
            gets_job = spelled[0] in statements.KINDS and statements.KINDS[spelled[0]].changes
            has_job = any(word.startswith("--job") for word in spelled)
            raise StatementNotSent(wrong_with_job if gets_job and not has_job else wrong)
        return Line(" ".join(spelled), True)
    return Line(" ".join(spelled), False)


def as_word(text: str) -> str:
    """A moment as statements take it, also where it is typed as lists print it; another word as it is."""
    moment = moments.typed_moment(text)
    return text if moment is None else moments.moment_word(moment)


def in_full(given: list[str]) -> list[str]:
    """The words of a statement, where `start APP D/HH.MM` stands for `cp-start --app APP --ia D/HH.MM`."""
    name, *rest = given
    if name == "define":
        raise StatementNotSent("`define` has data; send it in a stream")
    if name in statements.KINDS and statements.KINDS[name].is_on_key and not any(
        word.startswith("-") for word in rest[:2]
    ) and len(rest) > 1:
        return [name, "--app", rest[0].upper(), "--ia", *rest[1:]]
    if name not in SHORT:
        return given
    if len(rest) < 2 or rest[0].startswith("-") or rest[1].startswith("-"):
        serial = f", or a serial, as `{name} 11`" if name in statements.ACTS else ""
        raise StatementNotSent(f"`{name}` needs an application and its input arrival, as `{name} PAY "
                               f"2024-01-31/08.00`{serial}")
    app, ia, *others = rest
    return [f"cp-{name}", "--app", app.upper(), "--ia", ia, *others]


def sent_in_turn(program: str, path: str, line: Line, until: float) -> tuple[bytes, Ran, list[str] | None]:
    """The text, what it was answered and the lines on a refusal (None: they aren't made here), for a line that may
    lack its job number. Who sends such lines takes turns, so that two never get one number. Raises FileLocked,
    Unreadable and StatementNotSent."""
    if not line.lacks_job:
        text = f"{line.text}\n".encode("ascii")
        return text, sent(program, path, text, until), None
    number = os.open(path, os.O_RDWR)
    try:
        with locks.locked(number, locks.OF_A_SENDER, until):
            for _ in range(TRIES):
                with plan_file.opened(path) as plan:
                    whole = f"{line.text} --job {next_number(path, plan)}"
                    ask_application(plan, whole)
                    words.print_message(f"sends `{whole}`")
                    text = f"{whole}\n".encode("ascii")
                    ran = sent(program, path, text, until)
                    explained = explained_by_plan(plan, text, ran.stdout)
                if ran.stdout != b"refused 12\n":  # no stream took the number meanwhile
                    break
        return text, ran, explained
    finally:
        os.close(number)


def explained_by_plan(plan: plan_file.Plan, text: bytes, answered: bytes) -> list[str]:
    """What the refusal of one statement means, over a plan as it was before."""
    lines = refusal_lines(text, answered, stream.items, stream_state.of_plan(plan))
    (item,) = stream.items(stream.Source(io.BytesIO(text), "what was sent"))
    if answered != b"refused 29\n" or item.statement is None:
        return lines
    done = last_job(plan, item.statement)
    return [*lines, f"    {done.text()}"] if done else lines


def last_job(plan: plan_file.Plan, statement: statement_words.Statement) -> desk_view.Done | None:
    """The job that gave an occurrence its status, by the journal of a desk where there is one, else by the replies that
    the plan keeps."""
    with contextlib.suppress(Unreadable), journal.opened(journal.beside(plan.path)) as record:
        if found := desk_view.last_change((one.values() for one in record.every()), statement):
            return found
    app, ia = statement.values["app"], statement.values["ia"]
    place = next((row.place for row in waits.rows_of_key(plan, app, ia)), "")
    jobs = [job for job in waits.jobs_of_key(plan, app, ia) if job.reply.endswith(f" status {place}")]
    return desk_view.Done(jobs[-1].name, jobs[-1].number) if jobs else None


def ask_application(plan: plan_file.Plan, line: str) -> None:
    """Asks that an occurrence is named of an application that the plan defines, or has rows of. Raises
    StatementNotSent."""
    statement, _ = statement_words.read(line.split(" "))
    if statement is None or not statements.KINDS[statement.name].is_on_key:
        return
    app = statement.values["app"]
    if rows.is_known(plan, app):
        return
    known = plan_definitions.of_plan(plan).applications
    raise StatementNotSent(f"the application {app} isn't defined{meant_text(app, known)}")


def next_number(path: str, plan: plan_file.Plan) -> int:
    """The next job number of a plan. Raises Unreadable."""
    number = printed_numbers.behind(path, job_numbers.after_greatest(plan.db))
    if number > job_numbers.GREATEST:
        raise Unreadable(f"{path}: the greatest job number is used; give a smaller one with --job")
    return number


# The run.


def sent(program: str, path: str, text: bytes, until: float) -> Ran:
    """What opcplan answers to a text over a file. It is started again, up to a moment of the steady clock, where it
    ended before the first statement because another program has the file."""
    while True:
        ran = own_runs.ran(program, path, text)
        if not is_held(ran) or time.monotonic() >= until:
            return ran
        time.sleep(random.uniform(0.02, 0.2))


def is_held(ran: Ran) -> bool:
    """Whether a run ended since another program has its file."""
    return ran.returncode == FAILED and ran.stdout == b"fault 50\n" and HELD in ran.stderr


def shown(
    text: bytes, ran: Ran, used: str | None = None, explained: list[str] | None = None, path: str = "FILE"
) -> int:
    """Prints what was answered, by a desk under a key that was used or over the file of a path, and what refusals mean,
    as is told or by the text alone; the exit status."""
    try:
        sys.stdout.flush()
        sys.stdout.buffer.write(ran.stdout)
        sys.stdout.buffer.flush()
    except (OSError, Unwritable) as error:
        raise StreamNotSent(f"the replies can't be printed: {error}. The statements were answered; send them again "
                            f"with {'`--key ' + used + '`' if used else 'its job numbers'}, and nothing is done "
                            "twice") from None
    with contextlib.suppress(OSError):
        message = ran.stderr.decode(errors="surrogateescape").replace(os.path.abspath(path), path)
        said = [printable.fit(line) for line in message.splitlines()]
        said += refusal_lines(text, ran.stdout, items_of if used else stream.items) if explained is None else explained
        sys.stderr.writelines(f"{line}\n" for line in said)
        sys.stderr.flush()
    return ran.returncode if ran.returncode in (0, 4) else FAILED


def has_refusals(answered: bytes) -> bool:
    """Whether an output has replies that refuse."""
    return any(line.startswith(b"refused") for line in answered.splitlines())


def refusal_lines(
    text: bytes, answered: bytes, items: Callable[[stream.Source], Iterator[stream.Item]],
    now: stream_state.Known | None = None,
) -> list[str]:
    """What the refusals in an output mean, fit for a terminal, or nothing where it has none; `items` reads what
    was sent, and `now` is what was known before it, where something was."""
    if not has_refusals(answered):
        return []
    asked, answers = (stream.Source(io.BytesIO(data), "what was sent", explanations.OF_OUTPUT)
                      for data in (text, answered))
    try:
        lines, _, _ = explanations.explained(items(asked), answers, now or stream_state.Known())
    except explanations.OutputMismatch as why:
        return [printable.fit(f"plan: the planner doesn't answer as opcplan does: {why}")]
    return ["\n".join(lines).rstrip("\n")]
