"""./plan agent: runs the jobs of what is ready, and tells a desk when they begin and how they end."""

import argparse
import math

from opcplan.cli import words

SUMMARY = "runs the jobs of what is ready, and reports to a desk how they end"
USUAL_MOST, USUAL_EVERY, USUAL_TAIL = 4, 1.0, 1 << 16


def add_words(parser: words.Parser) -> None:
    """Adds its words to a parser."""
    parser.description = (
        "Asks a desk again and again what waits in its current plan, has arrived by the clock of this machine, and "
        "waits for nothing that isn't complete. If FOLDER has an executable file of the application's name, the agent "
        "starts the occurrence at the desk and then runs the file, with the application, the input arrival and the "
        "serial as its words. It reports exit status 0 with `cp-complete`, any other with `cp-fail`. What the job "
        "prints goes to a log by serial. A job never begins twice. If an agent ends, its jobs go on, and the next "
        "agent reports how they ended. If nobody knows how a job ended, the agent says so and changes nothing. The "
        "file FOLDER.toml says how the job of an application is run, how often it is tried, on which agents, and how "
        "many of a class run at once. SIGTERM and SIGINT end the agent with status 0. The status is 1 if it can't "
        "begin, 2 if the words are wrong."
    )
    parser.add_argument("--desk", metavar="DESK",
                        help="http://HOST:PORT, or the path of a desk's socket (else what OPCPLAN_DESK has)")
    parser.add_argument("--jobs", type=words.file, metavar="FOLDER", required=True, help="a file for each application")
    parser.add_argument("--logs", type=words.file, metavar="FOLDER",
                        help="where logs and records of runs go (else FOLDER/log)")
    parser.add_argument("--most", type=count, default=USUAL_MOST, metavar="N",
                        help=f"how many jobs run at once (else {USUAL_MOST})")
    parser.add_argument("--limit", type=seconds, metavar="SECONDS",
                        help="how long a job may run; then the agent ends it, and it has failed (else without end)")
    parser.add_argument("--name", type=name, metavar="NAME",
                        help="what this agent is called, for `where` in FOLDER.toml (else the name of the machine)")
    parser.add_argument("--tail", type=tail, default=USUAL_TAIL, metavar="SIZE",
                        help="how much of the end of each log the desk gets, for those who may operate (else 64K; 0 "
                        "for nothing)")
    parser.add_argument("--every", type=seconds, default=USUAL_EVERY, metavar="SECONDS",
                        help=f"how long it rests between two looks (else {USUAL_EVERY:g})")
    parser.add_argument("--without-jobs-toml", action="store_true",
                        help="begin although FOLDER.toml, which had settings for the jobs, is gone or empty: the jobs "
                        "run without them, as the agent's user")
    words.add_now(parser)


def count(text: str) -> int:
    """A number of jobs, for `type=`."""
    if not text.isascii() or not text.isdigit() or not 1 <= int(text) <= 1000:
        raise argparse.ArgumentTypeError(f"{text!r} is not a number from 1 to 1000")
    return int(text)


def tail(text: str) -> int:
    """How much of a log a desk gets, for `type=`."""
    from opcplan.plans import job_logs

    found = words.size(text)
    if found > job_logs.MOST_OF_A_TRY:
        raise argparse.ArgumentTypeError(f"{text!r} is more than the {job_logs.MOST_OF_A_TRY >> 10}K that a desk "
                                         "accepts")
    return found


def name(text: str) -> str:
    """The name of an agent, for `type=`."""
    from opcplan.agent import executor

    if not executor.NAME.fullmatch(text):
        raise argparse.ArgumentTypeError(f"{text!r} is not a name of letters, digits, `.`, `_` and `-`")
    return text


def seconds(text: str) -> float:
    """A time in seconds, for `type=`."""
    try:
        found = float(text)
    except ValueError:
        found = math.nan
    if not 0 < found <= 10_000_000:
        raise argparse.ArgumentTypeError(f"{text!r} is not a number of seconds above 0")
    return found


def run(given: argparse.Namespace) -> int:
    """Does what the words ask for; the exit status."""
    from opcplan.agent import executor, service

    settings = executor.Settings(given.jobs, given.logs or "", given.most, given.limit, given.every, given.now,
                                 given.name or "", given.tail, given.without_jobs_toml)
    return service.run(given.desk, settings)
