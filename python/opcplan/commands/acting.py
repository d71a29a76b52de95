"""What start, complete, fail, reset, delete, cancel, rerun, move, add and undo share: their words, the preview, the
question, and how what is wanted gets done, over the plan of a file or by a desk."""

import argparse
import dataclasses
import os
import re
import sys
from collections.abc import Callable, Sequence
from typing import NamedTuple

from opcplan.acts import verbs
from opcplan.acts.verbs import Intention, InvalidIntention
from opcplan.cli import words
from opcplan.desk import client
from opcplan.errors import Error, UsageError
from opcplan.plans import plan_file

AGAIN = "type the same command again, and it goes on with what is left"
KEY = "APP, APP DAY, APP HH.MM, APP DAY/HH.MM, or a serial"
IS_NUMBER = re.compile("[0-9]{1,9}")
IS_OCCURRENCE = re.compile("[A-Za-z@#$][A-Za-z0-9@#$]{0,15}|#?[0-9]{1,9}")


class Settings(NamedTuple):
    """What is wanted, of the plan of a file or of a desk; the planner; whether it is only shown, or done without
    asking; and for `undo` the journal, or the number of the kept job."""

    wanted: Intention
    plan: str | None
    desk: str | None
    program: str | None = None
    is_dry: bool = False
    is_agreed: bool = False
    journal: str | None = None
    job: int | None = None


class NotChosen(Error):
    """Why nothing is done: several occurrences fit, or none, or nobody agreed."""


def add_words(parser: words.Parser, verb: str, about: str, key: str = f"the occurrence: {KEY}") -> None:
    """Adds the words of a verb to a parser."""
    parser.description = (
        f"{about} It first shows the statements that do this, what they would change, who waits, and whether it can be "
        "taken back. Then it asks, and does it. If it is stopped, the same command goes on with what is left, and "
        "nothing is done twice. The exit status is that of opcplan (0 all accepted, 4 some refused, 8 a fault); 1 if "
        "nothing was done; 2 if the words are wrong."
    )
    parser.add_argument("given", metavar="PLAN.db KEY", nargs="*",
                        help=f"the file that opcplan --db keeps (not with --desk), and {key}")
    parser.add_argument("--desk", metavar="DESK",
                        help="the desk that has the plan: http://HOST:PORT, or the path of its socket (else what "
                             "OPCPLAN_DESK has, if no PLAN.db is given)")
    parser.add_argument("--yes", action="store_true", help="do it without asking")
    parser.add_argument("--dry-run", action="store_true", help="show what it would do, and do nothing")
    parser.add_argument("--program", metavar="FILE", type=words.file,
                        help="the planner that does it (else the one that is built here)")
    parser.set_defaults(verb=verb)
    parser.is_mixed = True


def run(given: argparse.Namespace, make: Callable[[list[str]], Intention]) -> int:
    """Does what the words of a verb ask for; the exit status. `make` makes the intention of the words after the
    plan."""
    plan, desk, rest = placed(given.given, given.desk)
    try:
        wanted = make(rest)
        verbs.check(wanted)
    except InvalidIntention as why:
        raise UsageError(f"{why}; {words.CALLED} {given.verb} --help says more") from None
    settings = Settings(wanted, plan, desk, given.program, given.dry_run, given.yes, getattr(given, "journal", None),
                        getattr(given, "job", None))
    from opcplan.commands import acting_desk, acting_file  # each is imported where it is needed

    return acting_file.done(settings, plan) if plan is not None else acting_desk.done(settings, desk or "")


def placed(given: Sequence[str], desk: str | None) -> tuple[str | None, str | None, list[str]]:
    """The plan or the desk, and the other words. Raises UsageError."""
    rest = list(given)
    if desk is not None:
        if rest and plan_file.is_database(rest[0]):
            raise UsageError("give PLAN.db or --desk DESK, one of them")
        return None, desk, rest
    usual = client.usual()
    if usual is not None and (not rest or IS_OCCURRENCE.fullmatch(rest[0]) and not os.path.exists(rest[0])):
        return None, usual, rest
    if not rest:
        raise UsageError("the plan is missing: give PLAN.db, or --desk DESK")
    first = rest.pop(0)
    if not first:
        raise UsageError("'' is not the name of a file: give PLAN.db, or --desk DESK")
    if first.startswith(("http://", "https://")):
        raise UsageError(f"{first} needs its option: --desk {first}")
    if IS_OCCURRENCE.fullmatch(first) and not os.path.exists(first):
        raise UsageError(f"{first} is no file: give PLAN.db first, or --desk DESK")
    return first, None, rest


def agree(settings: Settings, question: str = "Do it?") -> None:
    """Asks on the terminal whether it shall be done. Raises NotChosen where the answer is another one than yes."""
    if settings.is_agreed:
        return
    if not is_terminal():
        raise NotChosen("nothing was done, because there is no terminal to ask on; --yes does it without asking")
    if answer_to(f"{question} [y/N] ") not in ("y", "yes"):
        raise NotChosen("nothing was done")


def chosen(settings: Settings, lines: Sequence[str], serials: Sequence[int], why: str) -> Settings:
    """The settings with the occurrence that somebody chooses of several; or why there is none. Raises NotChosen."""
    if not serials:
        raise NotChosen(f"{' '.join(lines)} Nothing was done")
    print("\n".join(lines), flush=True)
    shown = min(len(serials), sum(line.lstrip()[:1].isdigit() for line in lines))
    if settings.is_agreed or not is_terminal():
        raise NotChosen(f"{len(serials)} occurrences fit {why}; name one of them, by its moment or its serial. Nothing "
                        "was done")
    text = answer_to(f"Which one? [1-{shown}] ")
    if not IS_NUMBER.fullmatch(text) or not 1 <= int(text) <= shown:
        raise NotChosen(f"nothing was done, because {text[:40]!r} isn't a number from 1 to {shown}" if text else
                        "nothing was done")
    return settings._replace(wanted=dataclasses.replace(settings.wanted, of=str(serials[int(text) - 1])))


def is_terminal() -> bool:
    """Whether there is a terminal to ask on."""
    return bool(sys.stdin and sys.stdin.isatty() and sys.stderr.isatty())


def answer_to(question: str) -> str:
    """What somebody types."""
    print(question, end="", file=sys.stderr, flush=True)
    return sys.stdin.buffer.readline().decode("utf-8", "replace").strip().lower()


def of_words(verb: str, chain: bool = False, followers: bool = False) -> Callable[[list[str]], Intention]:
    """What makes the intention of a verb that takes an occurrence alone."""
    return lambda rest: Intention(verb, " ".join(rest), chain=chain, followers=followers)
