"""A night of a machine in which something goes wrong, and how its calls are written: a line for each event of a call,
with the time, `new`, `worse` or `over`, what it is about, and of what kind it is: `20.20 new error ORDERS`. A receiver
that isn't the page's is named: `20.25 new call to second`.

A night goes on from a healthy morning, at 08.30 of its day. Times up to 08.30 belong to the next day."""

import re
import shutil
import signal
from pathlib import Path

from support.nights import centre
from support.nights.clock import Clock
from support.nights.machine import JOBS, LOGGER, usual
from support.nights.world import NIGHT, QUIET, World

from opcplan.needs import need
from opcplan.rules import moments

MORNING = 8 * 60 + 30
LATER = 30  # minutes that pass after the last time at which the watch looks often
STATE, RULES = "/var/lib/opcplan-watch/main/state", "/etc/opcplan/main/watch.toml"
LOG = "/usr/bin/logger"
# notes what it gets like `logger`, with its own name in the line of JSON
RECEIVER = "#!/bin/sh\nexec sed 's/^{/{\"to\": \"%s\", /' >> /usr/bin/calls\n"
OF_OCCURRENCES = ("error", "unknown", "unstarted", "late", "risk")
OCCURRENCE = re.compile(r"([A-Z]+) [0-9-]{10} [0-9.]{5} \(serial [0-9]+\)")


def first_day(room, day, begin, days=90, extend=World.roll, options=()):
    """A machine on the first day of its plan, at a minute of the day: all is started, as docs/use/INSTALL.md has it,
    and `roll` made the first daily plan. The long-term plan has the page's number of days, or another one, and the desk
    more options."""
    Path(room).mkdir(mode=0o755)
    Clock.made(Path(room) / "clock", day * moments.DAY + begin)
    world = World(room)
    world.hold()
    world.make(day, days)
    if options:
        world.set_options("OPCPLAN_DESK_OPTIONS", " ".join(options))
    world.start_desk()
    world.by_hand(centre.stream(moments.day_text(day + 1)))
    assert not extend(world), world.rolls
    world.start_agent()
    world.start_watch()
    world.look()
    return world


class Saved:
    """The folder of a machine as it was on the morning of a day, from which nights begin. Its place stays, since its
    files name paths."""

    def __init__(self, room, folder, first, day):
        self.room, self.folder, self.day = Path(room), Path(folder), day
        world = first_day(room, first, MORNING)
        world.pace = QUIET
        world.run_to(day * moments.DAY + MORNING)
        self.heard = world.heard
        world.close()
        shutil.copytree(room, folder)

    def night(self, plants=()):
        """A night that goes on from there."""
        shutil.rmtree(self.room)
        shutil.copytree(self.folder, self.room)
        night = Night(self.room, self.day, plants)
        night.heard += self.heard
        night.hold()
        night.start()
        return night


class Night(World):
    """A night, from a day on."""

    def __init__(self, room, day, plants=()):
        super().__init__(room, plants)
        self.day, self.fates, self.last = day, {}, 0
        self.fate = self.of_fates
        self.pace = QUIET

    def of_fates(self, one):
        """How long a try takes and how it ends: as the night has it, else as usual."""
        return self.fates.get((one.app, one.attempt), self.fates.get(one.app, usual(one)))

    def minute(self, text):
        """The minute of a time of the night."""
        minute = moments.minute_of(text)
        return (self.day + (minute <= MORNING)) * moments.DAY + minute

    def on(self, time, act, *given):
        """Has somebody do something at a time."""
        self.at(self.minute(time), lambda: act(*given))

    def between(self, begin, end, pace=NIGHT):
        """Has the watch look often from one time to another."""
        self.on(begin, setattr, self, "pace", pace)
        self.on(end, setattr, self, "pace", QUIET)
        self.last = max(self.last, self.minute(end) + LATER)

    def goes_on(self, until=None):
        """Lets the night pass, up to the next morning or another time; its calls, in lines."""
        self.run_to(self.last if until is None else self.minute(until))
        return [line for one in self.heard if one.minute >= self.day * moments.DAY + MORNING
                for line in lines(one)]

    # What somebody does.

    def ia(self, app):
        """The input arrival of the last occurrence of an application that has arrived."""
        now, time = self.clock.minute, moments.minute_of(centre.APPS[app].arrives)
        return moments.moment_word(now - (now - time) % moments.DAY)

    def send(self, act, app):
        """Somebody sends a statement on the last occurrence of an application."""
        self.by_hand(f"cp-{act} --app {app} --ia {self.ia(app)}\n")

    def send_of(self, act, app, ia):
        """Somebody sends a statement on an occurrence."""
        self.by_hand(f"cp-{act} --app {app} --ia {ia}\n")

    def go_down(self):
        """The machine goes down, with all that runs on it."""
        for app in [one.record.app for one in self.jobs.values()]:
            self.kill_runner(app)
        self.stop_watch()
        self.stop_agent()
        self.stop_desk(signal.SIGKILL)

    def come_up(self):
        """The machine is booted, and the watch looks before the agent has contacted its desk."""
        self.start_desk()
        self.start_watch()
        self.look()
        self.start_agent()

    def write_rules(self, text):
        """Somebody writes the rules of the watch, which takes them when it begins anew."""
        self.files.write(RULES, text)

    def add_receiver(self, name):
        """Somebody installs a command that is called."""
        self.files.write(f"/usr/bin/{name}", RECEIVER % name, 0o755)

    def lose_receiver(self):
        """`logger` fails from now on."""
        self.files.write(LOG, "#!/bin/sh\nexit 1\n", 0o755)

    def find_receiver(self):
        """`logger` works again."""
        self.files.write(LOG, LOGGER, 0o755)

    def lose_state(self):
        """Somebody removes the state of the watch."""
        self.files.path(STATE).unlink()

    def write_job(self, app):
        """Somebody puts the file of a job into its place."""
        self.files.write(f"{JOBS}/{app}", "#!/bin/sh\n", 0o755)
        self.moved = True

    def remove_job(self, app):
        """Somebody removes the file of a job."""
        self.files.path(f"{JOBS}/{app}").unlink()
        self.moved = True

    def write_jobs_toml(self, text):
        """Somebody adds to jobs.toml; nothing makes it what the page prints."""
        printed = self.files.printed(f"{JOBS}.toml")
        self.files.write(f"{JOBS}.toml", f"{printed}\n{text}")
        self.moved = True

    def use_disk(self, percent):
        """The disk is full to so many percent."""
        self.clock.disk, self.moved = percent, True


def lines(heard):
    """A line for each event of a call."""
    time, values = moments.minute_text(heard.minute % moments.DAY), heard.values
    to = f" to {values['to']}" if "to" in values else ""
    return [f"{time} {values['kind']} {subject(values['rule'], one)}{to}" for one in values["events"]]


def subject(rule, event):
    """The kind of a need and what it is about. The key of its event is its name, perhaps behind that of the rule; what
    is at risk is named like what is late."""
    key, text = event["event"], event["text"]
    rest = key.removeprefix(f"{rule}:")
    kind = (rest if rest.partition(":")[0] in need.KINDS else key).partition(":")[0]
    kind = "risk" if " is at risk: " in text else kind
    found = OCCURRENCE.search(text)
    return f"{kind} {found[1]}" if found and kind in OF_OCCURRENCES else kind
