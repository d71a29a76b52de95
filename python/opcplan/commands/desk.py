"""./plan desk: one planner for many callers, all day.

Its parts are in the package opcplan.desk; those that speak HTTP need aiohttp, which Debian's package python3-aiohttp
has."""

import argparse
import contextlib
import importlib.util
import ipaddress
import os
import re
import sys
from typing import NoReturn

from opcplan.cli import interpreter, signals, words
from opcplan.desk import log_words
from opcplan.desk.settings import Address, Settings
from opcplan.errors import Error, Unreadable, UsageError
from opcplan.plans.program import built_program

SUMMARY = "serves one plan to many callers at once, by HTTP, with a journal"
USUAL = "127.0.0.1:7411"
USUAL_LOGS = 1024  # MiB
NAME = re.compile("[A-Za-z0-9._-]{1,60}")
# the Python for which Debian has the package
DEBIAN = "/usr/bin/python3"
LACKING = "it needs aiohttp for Python 3, which Debian's package python3-aiohttp has: apt-get install python3-aiohttp"


def add_words(parser: words.Parser) -> None:
    """Adds its words to a parser."""
    parser.description = (
        "Keeps one opcplan over PLAN.db and answers callers by HTTP: statements, lists, events, a copy of the plan. "
        "The desk writes each change to the journal before it does it; with --log to a log that outlives this machine. "
        "docs/use/DESK.md says what callers may ask, who may, and how to run it as a service. SIGTERM and SIGINT end "
        "it with status 0: it answers what it has received, and then PLAN.db alone has the plan. The status is 1 if it "
        "can't begin, 2 if the words are wrong."
    )
    words.add_plan(parser)
    parser.add_argument("--log", type=log_words.address, metavar="LOG",
                        help="a log in etcd that several desks share, each with a plan of its own (else the journal "
                        f"alone): {log_words.EXAMPLE}")
    parser.add_argument("--from", dest="source", metavar="DESK",
                        help="another desk of the log, whose plan is copied if there is no PLAN.db yet")
    log_words.add_etcd(parser)
    parser.add_argument("--listen", type=address, metavar="HOST:PORT",
                        help=f"an address (else {USUAL} if there is no --socket); port 0 is a free one")
    parser.add_argument("--socket", type=words.file, metavar="PATH",
                        help="a Unix socket, whose callers are known by their user")
    parser.add_argument("--journal", type=words.file, metavar="FILE",
                        help="the journal (else PLAN.db.journal beside the plan)")
    parser.add_argument("--users", type=words.file, metavar="FILE",
                        help="lines `USER ROLE`; a role is read, operate or plan")
    parser.add_argument("--tokens", type=words.file, metavar="FILE",
                        help="lines `SHA256 USER ROLE`, for callers by the address")
    parser.add_argument("--host", metavar="NAME", action="append", default=[],
                        help="a name, with its port if it has one, that pages may use for the desk; you may give it "
                             "repeatedly")
    parser.add_argument("--proxy", metavar="ADDRESS|USER",
                        help="the proxy: its address, or its user, who says over the socket who is logged in")
    parser.add_argument("--limit", type=seconds, default=60.0, metavar="SECONDS",
                        help="how long opcplan may print nothing while an answer is due; then the desk kills it and "
                             "asks again (else 60)")
    parser.add_argument("--job-logs", type=mebibytes, default=USUAL_LOGS, metavar="MIB",
                        help=f"how many MiB of jobs' logs the desk stores (else {USUAL_LOGS:,})")
    parser.add_argument("--name", type=name, help="the name of the plan, for calls and metrics (else that of its file "
                        "without the ending, or of its folder if the file is plan.db)")
    parser.add_argument("--no-usual-deadlines", action="store_true",
                        help="in what needs a person, count a run that was added by hand as due a day after it arrives "
                             "(else by the usual deadline of its application)")
    parser.add_argument("--program", type=words.file, metavar="FILE",
                        help="the planner (else the one that is built here)")


def address(text: str) -> Address:
    """An address, for `type=`."""
    host, _, port = text.rpartition(":")
    try:
        found = str(ipaddress.ip_address(host.removeprefix("[").removesuffix("]").replace("localhost", "127.0.0.1")))
    except ValueError:
        found = ""
    if not found or not port.isascii() or not port.isdigit() or int(port) > 65535:
        raise argparse.ArgumentTypeError(f"{text!r} is not an address such as {USUAL}")
    return Address(found, int(port))


def seconds(text: str) -> float:
    """A time in seconds, for `type=`."""
    with contextlib.suppress(ValueError):
        if 0.1 <= (found := float(text)) <= 100_000:
            return found
    raise argparse.ArgumentTypeError(f"{text!r} is not a number of seconds, 0.1 at least")


def mebibytes(text: str) -> int:
    """A number of MiB, for `type=`."""
    if re.fullmatch("[1-9][0-9]{0,6}", text):
        return int(text)
    raise argparse.ArgumentTypeError(f"{text!r} is not a number of MiB from 1 to 9,999,999")


def name(text: str) -> str:
    """The name of a plan, for `type=`."""
    if not NAME.fullmatch(text):
        raise argparse.ArgumentTypeError(f"{text!r} is not a name of 1 to 60 letters, digits, hyphens, dots and "
                                         "underscores")
    return text


def run(given: argparse.Namespace) -> int:
    """Does what the words ask for; the exit status. A signal ends a desk with 0 while it starts, too."""
    with contextlib.suppress(signals.SignalReceived):
        serve(given)
    return 0


def serve(given: argparse.Namespace) -> None:
    """Runs a desk until a signal. Raises Error."""
    if importlib.util.find_spec("aiohttp") is None:
        by_debian()
    from opcplan.desk import server, snapshot_fetch

    settings = settings_of(given)
    if wrong := wrong_words(settings):
        raise UsageError(wrong)
    try:
        program = os.path.abspath(given.program or built_program())
        if settings.source and not os.path.exists(settings.plan):
            snapshot_fetch.take(settings.source, settings.plan, settings.journal)
        check_file(settings.plan)
        server.serve(settings, program)
    except OSError as error:
        raise Unreadable(f"{error.filename or settings.plan}: {error.strerror}") from None


def settings_of(given: argparse.Namespace) -> Settings:
    """The words as Settings."""
    from opcplan.plans import journal, plan_name

    return Settings(
        plan=given.plan, journal=os.path.realpath(given.journal or journal.beside(given.plan)), log=given.log,
        source=given.source, listen=address(USUAL) if given.listen is None and given.socket is None else given.listen,
        socket=given.socket, users=given.users, tokens=given.tokens, hosts=tuple(given.host), proxy=given.proxy,
        limit=given.limit, etcd_ca=given.etcd_ca, etcd_cert=given.etcd_cert, etcd_key=given.etcd_key,
        etcd_user=given.etcd_user, name=given.name or plan_name.of_path(given.plan),
        job_logs=given.job_logs, by_usual=not given.no_usual_deadlines)


def wrong_words(given: Settings) -> str | None:
    """What is wrong with the words together, or nothing."""
    listen = given.listen
    is_open = listen is not None and not ipaddress.ip_address(listen.host).is_loopback
    if listen and is_open and not (given.tokens and given.proxy):
        return (f"{listen.host} is an address that other machines reach; it needs --tokens, and --proxy with the "
                "address of a proxy that speaks TLS")
    if given.log is None and any((given.source, given.etcd_ca, given.etcd_cert, given.etcd_key, given.etcd_user)):
        return "--from and the options of etcd go with --log"
    return log_words.wrong_etcd(given)


def check_file(path: str) -> None:
    """Asks that there is such a file; opcplan would make a plan. Raises Unreadable."""
    if not os.path.isfile(path):
        raise Unreadable(f"{path}: there is no such file; `./opcplan --db` makes a new plan")


def by_debian() -> NoReturn:
    """Runs the same words by the Python that Debian's package is for. Raises Error where that can't be."""
    if os.path.realpath(sys.executable) != os.path.realpath(DEBIAN) and os.access(DEBIAN, os.X_OK):
        interpreter.run_by(DEBIAN)
    raise Error(f"desk: {LACKING}")
