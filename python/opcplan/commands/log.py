"""./plan log: the log in etcd that several desks share."""

import argparse
import dataclasses
import importlib.util
import os

from opcplan.cli import words
from opcplan.commands.desk import by_debian
from opcplan.desk import log_words
from opcplan.errors import Unreadable, UsageError
from opcplan.plans.program import built_program

SUMMARY = "shows the log in etcd that several desks share, trims it, begins it, moves its version"
USUAL_KEPT = 5000


@dataclasses.dataclass(frozen=True)
class Settings:
    """Which log is meant and what is done with it, by the words of the command."""

    log: log_words.Where
    trim: bool
    version: bool
    begin: str | None
    distrust: str | None
    keep: int
    forget: list[str]
    program: str | None
    journal: str | None
    etcd_ca: str | None
    etcd_cert: str | None
    etcd_key: str | None
    etcd_user: str | None


def add_words(parser: words.Parser) -> None:
    """Adds its words to a parser."""
    parser.description = (
        "Shows what etcd has of the log that several desks share (`./plan desk --log`): its last entry and its first, "
        "which opcplan answers it, how far the desks are, how full etcd is. With --trim it removes old entries and has "
        "etcd give the room back; entries stay that a desk which reported its position hasn't applied, and those from "
        "the first one on that has a caller's key and is younger than eight days. With --version another opcplan "
        "answers from the next entry on: each desk applies what is before, and goes on once it is "
        "started with that program. With --begin it makes a new log after a plan: the plan that is the furthest if "
        "etcd is lost, or one that had a desk of its own. With --distrust a desk has no vote any more, so desks that "
        "are held because two answered an entry differently go on or stop. The exit status is 1 if there is no such "
        "log, or it can't be done, and 2 if the words are wrong."
    )
    parser.add_argument("log", metavar="LOG", type=log_words.address, help=log_words.EXAMPLE)
    does = parser.add_mutually_exclusive_group()
    does.add_argument("--trim", action="store_true", help="remove old entries, and compact and defragment etcd")
    does.add_argument("--version", action="store_true", help="have --program answer from the next entry on")
    does.add_argument("--begin", metavar="PLAN.db", type=words.file, help="make the log after this plan")
    does.add_argument("--distrust", metavar="DESK", help="take the vote of a desk away that is wrong or gone")
    parser.add_argument("--keep", type=kept, default=USUAL_KEPT, metavar="N",
                        help=f"how many of the last entries --trim keeps at least (else {USUAL_KEPT:,})")
    parser.add_argument("--forget", metavar="DESK", action="append", default=[],
                        help="a desk that is gone permanently, so --trim no longer waits for it; you may give it "
                             "repeatedly")
    parser.add_argument("--program", type=words.file, metavar="FILE",
                        help="the planner of --version and --begin (else the one that is built here)")
    parser.add_argument("--journal", type=words.file, metavar="FILE",
                        help="the journal of the plan of --begin (else PLAN.db.journal beside it)")
    log_words.add_etcd(parser)


def kept(text: str) -> int:
    """How many entries stay, for `type=`."""
    if not text.isascii() or not text.isdigit() or len(text) > 9:
        raise argparse.ArgumentTypeError(f"{text!r} is not a number of entries")
    return int(text)


def run(given: argparse.Namespace) -> int:
    """Does what the words ask for; the exit status."""
    if importlib.util.find_spec("aiohttp") is None:
        by_debian()
    settings = Settings(**vars(given))
    if wrong := log_words.wrong_etcd(settings):
        raise UsageError(wrong)
    import asyncio  # with log_tool the greater part of what an import of this module would take

    from opcplan.desk import log_tool

    if settings.begin and not os.path.isfile(settings.begin):
        raise Unreadable(f"{settings.begin}: there is no such file")
    is_answered = settings.version or settings.begin
    program = os.path.abspath(settings.program or built_program()) if is_answered else None
    print("\n".join(asyncio.run(log_tool.done(settings, program))))
    return 0
