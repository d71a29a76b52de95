"""./plan watch as a process: its rules, its token, its lock, and what each of its options does."""

import contextlib
import fcntl
import os
import signal
import threading
import time
from collections.abc import Iterator, Sequence

from opcplan.desk import client
from opcplan.errors import UsageError
from opcplan.watch import acknowledgements, calls, checks, rulebook, tokens
from opcplan.watch.driver import Settings as Settings, Watch as Watch, WatchNotStarted, print_message, stored
from opcplan.watch.rulebook import Rulebook
from opcplan.watch.state import InvalidState

LOCK = ".lock"
MOST_BYTES = 1 << 20


def rules_of(path: str) -> Rulebook:
    """The rules of a file. Raises UsageError and WatchNotStarted."""
    try:
        with open(path, encoding="utf-8") as file:
            return rulebook.of_text(file.read(MOST_BYTES))
    except FileNotFoundError:
        raise WatchNotStarted(f"watch: {path}: there is no such file; docs/use/MONITORING.md has an example") from None
    except OSError as error:
        raise WatchNotStarted(f"watch: {path}: it can't be read: {error.strerror}") from None
    except UnicodeDecodeError:
        raise rulebook.InvalidRules(f"watch: {path}: the file isn't text in UTF-8") from None
    except rulebook.InvalidRules as why:
        raise rulebook.InvalidRules(f"watch: {path}: {why}") from None


def token() -> str | None:
    """The token for the desk. Raises WatchNotStarted."""
    try:
        return tokens.private_token()
    except OSError as error:
        raise WatchNotStarted(f"watch: {error.filename}: the token can't be read: {error.strerror}; name another "
                              "file in OPCPLAN_TOKEN_FILE") from None


def check(given: Settings, rules: Rulebook, targets: Sequence[str], is_strict: bool) -> None:
    """Checks that some targets can be called. Raises InvalidRules."""
    try:
        unknown = checks.check(rules, targets, is_strict)
    except rulebook.InvalidRules as why:
        raise rulebook.InvalidRules(f"watch: {given.rules}: {why}") from None
    for one in unknown:
        print_message(f"{given.rules}: {one}; the watch begins, and tries to call all the same")


def made(given: Settings, is_strict: bool = False) -> Watch:
    """A Watch with the stored state, whose targets can all be called. Raises UsageError and WatchNotStarted."""
    secret = token()
    rules = rules_of(given.rules)
    check(given, rules, list(rules.targets), is_strict)
    try:
        found = Watch(given, rules, secret)
    except client.InvalidAddress as why:
        raise UsageError(f"watch: {why}") from None
    found.load()
    return found


@contextlib.contextmanager
def locked(path: str) -> Iterator[None]:
    """A context in which no other watch uses a state file. Raises WatchNotStarted."""
    try:
        number = os.open(f"{path}{LOCK}", os.O_WRONLY | os.O_CREAT | os.O_CLOEXEC | os.O_NOFOLLOW, 0o600)
        acknowledgements.prepare(path)
    except OSError as error:
        raise WatchNotStarted(f"watch: {path}: the state can't be stored there: {error.strerror}; name another file "
                              "with --state") from None
    with os.fdopen(number, "w"):
        try:
            fcntl.flock(number, fcntl.LOCK_EX | fcntl.LOCK_NB)
        except BlockingIOError:
            raise WatchNotStarted(f"watch: {path}: another watch uses this state; end it, or name another file with "
                                  "--state") from None
        yield


def tried(given: Settings) -> Sequence[str]:
    """What a watch would send now, in lines. Raises UsageError and WatchNotStarted."""
    found = made(given, is_strict=True)
    found.is_trial = True
    found.look()
    return found.shown()


def once(given: Settings) -> bool:
    """Looks once and calls; whether all calls were delivered. Raises UsageError and WatchNotStarted."""
    with locked(given.state):
        found = made(given)
        found.sightings.is_anew = False  # such runs follow each other like the looks of one watch
        found.step()
        return found.state.next_try() is None


def run(given: Settings) -> None:
    """Watches until a signal. Raises UsageError and WatchNotStarted."""
    stop = threading.Event()
    with locked(given.state):
        found = made(given)

        def end(*_: object) -> None:
            stop.set()
            found.crew.wake()

        for one in (signal.SIGTERM, signal.SIGINT):
            signal.signal(one, end)
        print_message(f"watches {given.desk} by the rules in {given.rules}")
        found.run(stop.is_set)


def tested(given: Settings, name: str) -> str:
    """Sends a test call to somebody; how long that took, as a sentence. Raises UsageError and Undelivered."""
    rules = rules_of(given.rules)
    if name not in rules.targets:
        raise UsageError(f"watch: {given.rules}: there is no table [who.{name}]; it has "
                         f"{', '.join(rules.targets)}")
    check(given, rules, [name], True)
    begun = time.monotonic()
    caller = calls.From(given.plan or given.desk, given.desk, given.state, rules.sendmail)
    try:
        calls.deliver(rules.targets[name], calls.test(name, time.time()), caller)
    except calls.Undelivered as why:
        raise calls.Undelivered(f"watch: {name}: {why}") from None
    return f"A test call was delivered to {name} ({rules.targets[name].way}) in {time.monotonic() - begun:.1f} s."


def acknowledge(state: str, call: str) -> str:
    """Acknowledges a call; what happens then, as a sentence. Raises UsageError and WatchNotStarted."""
    if not acknowledgements.ID.fullmatch(call):
        raise UsageError(f"watch: {call!r} isn't the id of a call; a call has its id in its last line, or as `id`")
    try:
        if not stored(state)[0].acknowledge(call):
            raise WatchNotStarted(f"watch: {state}: call {call} is about nothing that is still the case; there is "
                                  "nothing to acknowledge")
        acknowledgements.put(state, call)
    except InvalidState as why:
        raise WatchNotStarted(f"watch: {state}: {why}; name the file that the watch has in --state") from None
    except FileNotFoundError:
        raise WatchNotStarted(f"watch: {state}: no watch uses this state; name the file that the watch has in "
                              "--state") from None
    except OSError as error:
        raise WatchNotStarted(f"watch: {error.filename}: {error.strerror}; run the command as the user of the watch, "
                              "or as root") from None
    return f"Call {call} is acknowledged: the watch takes that with its next poll, and calls nobody else about it."
