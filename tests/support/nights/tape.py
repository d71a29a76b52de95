"""What a watch saw in a night: its looks can be played to other watches, which are killed, or whose receivers fail."""

import contextlib
import io
import shutil
from typing import NamedTuple
from unittest import mock

from support.nights.clock import Clock

from opcplan.watch import driver, service
from opcplan.watch.workers import Done

RESTART = 10  # seconds until systemd starts a watch again, by its unit


class Seen(NamedTuple):
    """A look: when, by the clock in seconds, what each desk answered, by its name, and how full the disk was."""

    at: float
    answers: dict
    disk: float


class Killed(BaseException):
    """The watch is killed here."""


class Crew:
    """Does at once what a watch's workers do, and nothing behind what kills the watch."""

    def __init__(self):
        self.done = []

    def start(self, name, job):
        try:
            found = job()
        except Exception as error:
            found = error
        self.done.append(Done(name, found))

    def wait(self, seconds):
        return self.done.pop(0) if self.done else None

    def wake(self):
        pass


@contextlib.contextmanager
def recorded(world):
    """A context in which the looks of a world are noted; their list."""
    found = []
    look, ask = world.look, driver.Watch.ask

    def asked(watch, desk):
        answer = found[-1].answers[desk.name] = ask(watch, desk)
        return answer

    def looked():
        found.append(Seen(world.clock.seconds, {}, world.clock.disk))
        look()

    with mock.patch.object(driver.Watch, "ask", asked), mock.patch.object(world, "look", looked):
        world.start_watch()
        yield found


class Player:
    """Plays looks to watches with the same settings and the same state file. `deliver` gets target, call and caller as
    calls.deliver does."""

    def __init__(self, looks, given, clock: Clock, deliver, crew=Crew):
        self.looks, self.given, self.clock, self.deliver, self.crew = looks, given, clock, deliver, crew
        self.seen = looks[0]
        self.said = io.StringIO()

    def ask(self, desk):
        return self.seen.answers[desk.name]

    def watch(self):
        """A watch with the state that the file has."""
        found = service.Watch(self.given, service.rules_of(self.given.rules), None, self.clock.time,
                              steady=self.clock.time, crew=self.crew(), deliver=self.deliver)
        found.load()
        return found

    def play(self):
        """Plays all looks; a watch that is killed is started again, and looks again."""
        with contextlib.redirect_stderr(self.said), \
                mock.patch.object(driver.Watch, "ask", lambda _, desk: self.ask(desk)), \
                mock.patch.object(shutil, "disk_usage", self.clock.disk_usage):
            watch = self.watch()
            for self.seen in self.looks:
                watch = self.until(watch, self.seen.at)
                self.clock.seconds, self.clock.disk = max(self.clock.seconds, self.seen.at), self.seen.disk
                watch = self.survived(watch, watch.step)
            self.until(watch, self.looks[-1].at + 86_400)

    def until(self, watch, end):
        """Tries again, up to a moment, what wasn't delivered; the watch that runs then."""
        while (again := watch.state.next_try()) is not None and again < end:
            self.clock.seconds = max(self.clock.seconds, again)
            watch = self.survived(watch, watch.call_all)
        return watch

    def survived(self, watch, act):
        """The watch that runs after an act: another one, which looks first, where this one is killed."""
        while True:
            try:
                act()
                return watch
            except Killed:
                self.clock.seconds += RESTART
                watch = self.watch()
                act = watch.step
