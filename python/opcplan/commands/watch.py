"""./plan watch: calls somebody when a plan needs it."""

import argparse
import math

from opcplan.cli import words
from opcplan.desk import client
from opcplan.errors import UsageError
from opcplan.rules import moments

SUMMARY = "calls somebody when something is in error, late, at risk or doesn't answer"
USUAL_EVERY = 30.0
# what the name of the rules gets for that of the state
TAIL = ".state"


def add_words(parser: words.Parser) -> None:
    """Adds its words to a parser."""
    parser.description = (
        "Asks a desk again and again how its plan is, and calls somebody by rules. A rule is about what is in error, "
        "late or at risk, a plan that ends soon, a desk, an agent or a node of etcd that doesn't answer, or a disk "
        "that is nearly full. Each rule names who is called: a command, a mail, a webhook. It calls once for each "
        "event, again when it got twice as bad, and when it is over. What isn't delivered it tries again, with growing "
        "pauses, also after a restart, and calls the next one whom the rules name. Nobody waits for anybody else. A "
        "call that was under way when the watch was killed may come twice; no call is lost. docs/use/MONITORING.md "
        "describes the rules. SIGTERM and SIGINT end the watch with status 0. The status is 1 if it can't begin or, "
        "with --once and --test, if a call isn't delivered; 2 if the words or the rules are wrong, or somebody can't "
        "be called."
    )
    parser.add_argument("--desk", default=client.usual(), metavar="DESK",
                        help="http://HOST:PORT, or the path of a desk's socket; several desks of one log with commas "
                        "between them are all watched (else what OPCPLAN_DESK has)")
    parser.add_argument("--rules", type=words.file, metavar="FILE", help="the rules, in TOML")
    parser.add_argument("--state", type=words.file, metavar="FILE",
                        help="where it keeps what it has sent (else next to the rules, with .state after their name)")
    parser.add_argument("--plan", dest="plan_name", default="", metavar="NAME",
                        help="the name of the plan, which each call has (else the desk's address)")
    parser.add_argument("--every", type=seconds, default=USUAL_EVERY, metavar="SECONDS",
                        help=f"how long it rests between two looks (else {USUAL_EVERY:g})")
    parser.add_argument("--metrics", type=words.file, metavar="FILE",
                        help="a file for node_exporter's textfile collector, written after each look")
    how = parser.add_mutually_exclusive_group()
    how.add_argument("--try", dest="is_trial", action="store_true",
                     help="look once, print what would be sent now, and send nothing")
    how.add_argument("--once", dest="is_once", action="store_true", help="look once, send, and end")
    how.add_argument("--test", metavar="WHO", help="send a test call to somebody whom the rules name, and end")
    how.add_argument("--acknowledge", metavar="CALL",
                     help="say that you take care of what the call with this id is about; nobody else is called for it")
    words.add_now(parser)


def seconds(text: str) -> float:
    """A time in seconds, for `type=`."""
    try:
        found = float(text)
    except ValueError:
        found = math.nan
    if not 0.1 <= found <= 86_400:
        raise argparse.ArgumentTypeError(f"{text!r} is not a number of seconds from 0.1 to 86400")
    return found


def run(given: argparse.Namespace) -> int:
    """Does what the words ask for; the exit status."""
    from opcplan.watch import service

    if given.acknowledge is not None:
        print(service.acknowledge(state_of(given), given.acknowledge))
        return 0
    if given.rules is None:
        raise UsageError("give --rules FILE; ./plan watch --help says more")
    if given.desk is None and given.test is None:
        raise UsageError("give --desk DESK; ./plan watch --help says more")
    now = None if given.now is None else moments.moment_word(given.now)
    settings = service.Settings(given.desk or "", given.rules, state_of(given), given.every, now, given.plan_name,
                                given.metrics)
    if given.test is not None:
        print(service.tested(settings, given.test))
    elif given.is_trial:
        print("\n".join(service.tried(settings) or ["Nothing would be sent."]))
    elif given.is_once:
        return 0 if service.once(settings) else 1
    else:
        service.run(settings)
    return 0


def state_of(given: argparse.Namespace) -> str:
    """The path of the state. Raises UsageError."""
    if given.state is None and given.rules is None:
        raise UsageError("give --state FILE, or --rules FILE; ./plan watch --help says more")
    return str(given.state or f"{given.rules}{TAIL}")
