"""What a watch does: it polls, stores its state, and calls. All that may hang is done by its crew, each desk, disk and
target by itself. Nothing here waits for anything else."""

import contextlib
import dataclasses
import functools
import json
import sys
import time
from collections.abc import Callable
from typing import Any

from opcplan.desk import client, live_facts
from opcplan.errors import Error
from opcplan.watch import acknowledgements, calls, conditions, files, metrics, polls, processes
from opcplan.watch.heart import Heart
from opcplan.watch.polls import Quick
from opcplan.watch.rulebook import Rulebook, Target
from opcplan.watch.sightings import Sightings
from opcplan.watch.state import Call, InvalidState, State, of_kept
from opcplan.watch.workers import Crew, Done, Workers

CALL = "call "
# seconds: the longest and shortest rest, and how long a call goes on when the watch is asked to shut down
LONGEST_REST, SHORTEST_REST, GRACE = 3600.0, 0.05, 10.0


class WatchNotStarted(Error):
    """Why a watch doesn't start."""


@dataclasses.dataclass(frozen=True)
class Settings:
    """The options of a watch: the desks of one plan, with commas between them; the files of its rules and of its state;
    how many seconds it rests between two looks; a moment in place of the desk's clock, or None; the name of the plan,
    or nothing; the file of its metrics, or None."""

    desk: str
    rules: str
    state: str
    every: float = 30.0
    now: str | None = None
    plan: str = ""
    metrics: str | None = None


class Watch:
    """Looks, and calls somebody. `clock` returns seconds since 1970, and `steady` those of a clock that nobody sets.
    `moment` returns the moment for which desks are queried, as statements have it, or None for the desk's clock.
    `deliver` delivers a call or raises calls.Undelivered."""

    def __init__(self, given: Settings, rules: Rulebook, token: str | None, clock: Callable[[], float] = time.time,
                 moment: Callable[[], str | None] | None = None, steady: Callable[[], float] = time.monotonic,
                 crew: Crew | None = None, deliver: Callable[[Target, Call, calls.From], None] = calls.deliver) -> None:
        self.given, self.rules, self.clock, self.steady, self.deliver = given, rules, clock, steady, deliver
        self.moment = moment or (lambda: given.now)
        self.crew: Crew = crew or Workers()
        desks = [Quick(name, token) for name in client.BETWEEN.split(given.desk)]
        paths = dict.fromkeys(rule.path for rule in rules.rules if rule.path)
        self.poll = polls.Poll(self.crew, desks, paths, self.ask, live_facts.used_of)
        self.caller = calls.From(given.plan or given.desk, given.desk, given.state, rules.sendmail)
        self.state, self.sightings, self.heart = State(), Sightings(), Heart(rules.heartbeats)
        self.state.settle(rules.calls(), rules.routes())
        self.beats: dict[str, float] = {}  # the heartbeats that are being sent, and since when
        self.counts = metrics.Counts()
        self.name, self.is_trial = polls.name_of(given.state), False
        self.report = self.report_at(self.clock())  # of calls that weren't delivered at the last look
        self.said: dict[str, str] = {}  # the last message about each thing

    def load(self) -> None:
        """Loads the state that an earlier watch stored. Raises WatchNotStarted."""
        try:
            self.state, self.sightings = stored(self.given.state)
        except FileNotFoundError:
            return
        except InvalidState as why:
            raise WatchNotStarted(f"{self.given.state}: {why}; move the file away to start without it (then calls may "
                                  "be sent a second time)") from None
        except OSError as error:
            raise WatchNotStarted(f"{self.given.state}: it can't be read: {error.strerror}") from None
        self.state.settle(self.rules.calls(), self.rules.routes())
        self.report = self.report_at(self.clock())

    # One look.

    def look(self) -> None:
        """Looks once, and notes what is new, worse or over."""
        self.poll.begin(self.steady())
        while not self.poll.is_over(steady := self.steady()):
            self.pump((self.poll.until or steady) - steady)
        self.take_look()

    def take_look(self) -> None:
        """Notes what is new, worse or over after a poll."""
        self.take_acknowledgements()
        answers, now = self.poll.of_desks(), self.clock()
        self.sightings.take(now, answers)
        good = [one for one in answers.values() if not isinstance(one, str)]
        status = max(good, key=lambda one: int(one["position"]), default=None)
        seen = conditions.Seen(status, self.sightings, self.poll.of_disks())
        for rule in self.rules.rules:
            known = [key for key, one in self.state.events.items() if one.rule == rule.name]
            looked = conditions.looked(rule, seen, now, known)
            self.state.take(now, rule.name, rule.call, conditions.of_plan(looked, self.caller.plan))
        self.heart.polled(status is not None)
        if status is not None:
            self.counts.polled = now
        for name, one in answers.items():
            self.say(name, one if isinstance(one, str) else "")
        self.report = self.report_at(now)

    def report_at(self, now: float) -> bytes:
        """The report of calls that were tried in vain, as of a moment."""
        return polls.report_of(self.name, (one for one in self.state.undelivered() if one.tries), now)

    def ask(self, desk: Quick) -> dict[str, Any] | str:
        """A desk's answer to `GET /status`, or why there is none. The desk gets the report of the last look, and none
        in a trial."""
        return polls.ask(desk, self.moment(), None if self.is_trial else self.report)

    def take_acknowledgements(self) -> None:
        """Takes what people acknowledged."""
        for call in acknowledgements.noted(self.given.state):
            is_known = self.state.acknowledge(call)
            print_message(f"call {call} is acknowledged" if is_known else f"call {call} is about nothing any more")
            if self.state.is_changed:
                self.keep()
            acknowledgements.drop(self.given.state, call)

    def say(self, what: str, wrong: str) -> None:
        """Prints once what is wrong with something, and once that nothing is any more."""
        if wrong != self.said.get(what, ""):
            print_message(f"{what}: {wrong}" if wrong and not wrong.startswith(what)
                          else wrong or f"{what}: all is well again")
        self.said[what] = wrong

    # Calls.

    def keep(self) -> None:
        """Stores the state. If that fails, prints it once; calls may then be sent again after a stop."""
        kept = {"watch": self.state.kept(), "sightings": self.sightings.kept()}
        try:
            files.put(self.given.state, json.dumps(kept, indent=1).encode(), 0o600, True)
            self.say(self.given.state, "")
        except OSError as error:
            self.say(self.given.state, f"it can't be written: {error.strerror}; if the watch stops before it can, "
                     "calls are sent a second time")
        self.state.is_changed = False

    def step(self, is_over: Callable[[], bool] = lambda: False) -> None:
        """Looks, and calls until each call that is due was tried."""
        self.look()
        self.keep()
        self.call_all(is_over)

    def call_all(self, is_over: Callable[[], bool] = lambda: False) -> None:
        """Sends the calls that are due, and waits for how they end. What fails isn't tried a second time."""
        begun = self.steady()
        while not is_over():
            self.call_due(begun)
            if not self.state.in_flight:
                break
            self.pump(LONGEST_REST)
        self.write_metrics()

    def call_due(self, steady: float) -> None:
        """Begins the calls that were due at a moment of the steady clock. The state is stored before that."""
        self.state.tick(self.clock(), self.steady())
        due = self.state.due(steady)
        if self.state.is_changed:
            self.keep()
        for call in due:
            self.begin(call)

    def begin(self, call: Call) -> None:
        """Begins a call."""
        self.state.begun(call.target)
        self.crew.start(f"{CALL}{call.target}", functools.partial(self.deliver, self.rules.targets[call.target], call,
                                                                  self.caller))

    def beat_due(self) -> None:
        """Begins the heartbeats that are due."""
        steady = self.steady()
        for target in self.heart.due(steady, self.unheard(), self.state.in_flight):
            self.beats[target] = steady
            self.begin(calls.heartbeat(target, f"{self.state.life}-beat-{self.heart.begun()}", self.clock()))

    def unheard(self) -> float:
        """For how many seconds the oldest event has waited of which nobody heard."""
        return max((one.unheard_seconds or 0.0 for one in self.state.undelivered()), default=0.0)

    def pump(self, seconds: float) -> None:
        """Waits for so many seconds at most until something ends that the crew does, and notes it."""
        done = self.crew.wait(seconds)
        while done is not None:
            if not self.poll.take(done):
                self.take_end(done)
            done = self.crew.wait(0)

    def take_end(self, done: Done) -> None:
        """Notes how a call or a heartbeat ended, and stores it."""
        target, why = done.name.removeprefix(CALL), done.result
        if why is not None and not isinstance(why, calls.Undelivered):
            why = f"{type(why).__name__}: {why}"
        (self.counts.delivered if why is None else self.counts.failed)[target] += 1
        if target in self.beats:
            self.state.in_flight.discard(target)
            self.heart.ended(target, self.steady(), self.beats.pop(target), why is None)
            if why is None:
                self.counts.beats[target] = self.clock()
        else:
            self.ended(target, None if why is None else str(why))
        self.say(target, "" if why is None else f"{why}; the watch tries again")

    def ended(self, target: str, why: str | None) -> None:
        """Notes how the call of a target ended: why it isn't known to be delivered, None if it was."""
        if why is not None:
            self.state.failed(target, self.steady(), why)
            return
        call = self.state.calls[target]
        self.state.sent(target)
        self.keep()
        print_message(f"called {target}: {calls.subject(call)}")

    def write_metrics(self) -> None:
        """Writes the file of metrics, if one is named."""
        if self.given.metrics is None:
            return
        try:
            text = metrics.text(self.caller.plan, self.rules, self.state, self.counts)
            files.put(self.given.metrics, text.encode(), 0o644, False)
            self.say(self.given.metrics, "")
        except OSError as error:
            self.say(self.given.metrics, f"it can't be written: {error.strerror}")

    def shown(self) -> list[str]:
        """What would be sent now, to whom and how, in lines. Nothing is sent."""
        found = []
        while due := self.state.due(self.steady()):
            for call in due:
                found += [f"{call.target}: {self.rules.targets[call.target].way}",
                          *(f"  {line}" for line in calls.lines(call))]
                self.state.sent(call.target)
        return found

    # Again and again.

    def run(self, is_over: Callable[[], bool]) -> None:
        """Polls and calls until it is over."""
        next_look = self.steady()
        while not is_over():
            steady = self.steady()
            if self.poll.is_over(steady):
                next_look = steady + self.given.every
                self.take_look()
                self.keep()
                self.write_metrics()
            elif self.poll.until is None and steady >= next_look:
                self.poll.begin(steady)
            self.call_due(self.steady())
            self.beat_due()
            moments = (next_look if self.poll.until is None else self.poll.until, self.state.next_try(),
                       self.heart.next_at(self.unheard(), self.state.in_flight))
            rest = min(one for one in moments if one is not None) - self.steady()
            self.pump(min(max(rest, SHORTEST_REST), LONGEST_REST))
        self.end()

    def end(self) -> None:
        """Waits a while for the calls that are under way, and then kills them. The next watch sends these again."""
        until = self.steady() + GRACE
        while self.state.in_flight and (rest := until - self.steady()) > 0:
            self.pump(rest)
        processes.GROUPS.kill_all()
        self.keep()


def stored(path: str) -> tuple[State, Sightings]:
    """The state in a file. Raises InvalidState and OSError."""
    with open(path, encoding="utf-8") as file:
        try:
            kept = json.load(file)
            return of_kept(kept["watch"]), Sightings.of_kept(kept["sightings"])
        except (KeyError, TypeError, ValueError, AttributeError):
            raise InvalidState("this isn't the state of a watch") from None


def print_message(text: str) -> None:
    """Prints a line on standard error; errors of writing are ignored."""
    with contextlib.suppress(OSError):
        print(f"watch: {text}", file=sys.stderr, flush=True)
