"""A machine with the files of docs/use/INSTALL.md whose clock is set by hand: a desk, its agent, `roll`, the watch, and
who is called.

The desk is a process of its own (`desk_process`). The agent and the watch are those of the package, made from the words
of their units, and take their steps here. Jobs are not run: each takes as long as the plan of `centre` says, and ends
as a night has it. `logger` notes each call in place of writing it into the machine's journal."""

import contextlib
import dataclasses
import datetime
import functools
import http.client
import io
import json
import os
import shutil
import signal
import subprocess
import time
from pathlib import Path
from typing import NamedTuple
from unittest import mock

from support import desks, plans
from support.nights import centre, installed
from support.nights.clock import Clock

from opcplan import __main__ as commands
from opcplan.agent import executor, record, reports, tails
from opcplan.agent import service as agent_service
from opcplan.desk import client
from opcplan.plans import entry
from opcplan.rules import moments
from opcplan.watch import service as watch_service

PROCESS = Path(__file__).parent / "desk_process.py"
JOBS, LOGS = f"/etc/opcplan/{installed.NAME}/jobs", f"/var/lib/opcplan-agent/{installed.NAME}"
SETTINGS = f"/etc/opcplan/{installed.NAME}/settings.env"
PLAN = f"/var/lib/opcplan/{installed.NAME}/plan.db"
# notes what it gets on its standard input, which is a line of JSON
LOGGER, CALLS = "#!/bin/sh\nexec cat >> /usr/bin/calls\n", "/usr/bin/calls"
AGENT = "machine"  # the name of the agent, which is that of the machine


class Job(NamedTuple):
    """A job that runs: its record, the descriptor of its log, when it ends, and with which status."""

    record: record.Record
    log: int
    end: int
    status: int


class Agent(executor.Agent):
    """The agent, whose runners are those of the machine."""

    def __init__(self, machine, *given):
        super().__init__(*given)
        self.machine = machine

    def run(self, one):
        self.machine.begin(one, self.logs.pop(one.serial))


class Machine:
    """A machine in a folder. `fate` returns how many minutes a try of an occurrence takes, and its exit status.
    `moved` says that somebody did something since it was set."""

    def __init__(self, room, plants=()):
        self.room, self.plants = Path(room), plants
        self.files = installed.Files(room)
        self.clock = Clock(self.room / "clock")
        self.fate = usual
        self.jobs, self.said, self.held = {}, io.StringIO(), contextlib.ExitStack()
        self.served, self.agent, self.watch, self.moved = None, None, None, False
        self.hands = 0  # how many streams people sent
        self.rolls = []  # when `roll` ran, its status and what it printed

    def hold(self):
        """Has the modules of this process use the machine's clock and disk."""
        for module, name, value in (
            (moments, "now", self.clock.now), (entry, "moment_now", self.clock.moment_now),
            (executor, "time", self.clock), (tails, "time", self.clock), (reports, "time", self.clock),
            (shutil, "disk_usage", self.clock.disk_usage),
            (reports, "EVERY", 0.0),  # an agent reports within ten seconds, so in the same minute
        ):
            self.held.enter_context(mock.patch.object(module, name, value))
        self.held.enter_context(contextlib.redirect_stderr(self.said))

    def make(self, first, days):
        """Makes the plan as the page has it, from a day on, with a long-term plan of so many days."""
        path = self.files.path(PLAN)
        ran = plans.plan_in_here("init", path, "--yes", "--program", plans.PROGRAM)
        assert ran.returncode == 0, ran
        text = installed.first_stream(moments.day_text(first), moments.day_text(first + days))
        subprocess.run([plans.PROGRAM, "--db", path], input=text.encode(), check=True, capture_output=True)
        for app in centre.APPS:
            self.files.write(f"{JOBS}/{app}", "#!/bin/sh\n", 0o755)
        self.files.write("/usr/bin/logger", LOGGER, 0o755)

    def start(self):
        """Starts desk, agent and watch."""
        self.start_desk()
        self.start_agent()
        self.start_watch()

    def close(self):
        """Ends all."""
        if self.served is not None:
            self.stop_desk()
        for one in self.jobs.values():
            os.close(one.log)
        self.jobs = {}
        self.held.close()

    # The services.

    def start_desk(self):
        """Starts the desk by the command of its unit."""
        words, environment = self.files.command("desk")
        self.served = subprocess.Popen(
            [python(), "-B", PROCESS, self.room / "clock", plans.PROGRAM, ",".join(self.plants), *words],
            stderr=subprocess.PIPE, text=True, env=os.environ | environment | {"TMPDIR": str(self.room)})
        line = self.served.stderr.readline()
        if "listening on" not in line:
            raise AssertionError(line + self.served.stderr.read())
        name = self.files.command("agent")[1]["OPCPLAN_DESK"]
        self.desk, self.line, self.moved = client.Client(name), client.BySocket(name, desks.PATIENCE), True

    def stop_desk(self, how=signal.SIGTERM):
        """Ends the desk."""
        self.line.close()
        self.served.send_signal(how)
        self.served.wait(desks.PATIENCE)
        self.served.stderr.close()
        self.served, self.moved = None, True

    def asked(self, name, module):
        """What the words of a unit's command give to its service."""
        words, environment = self.files.command(name)
        with mock.patch.dict(os.environ, environment), mock.patch.object(module, "run", return_value=0) as run:
            assert commands.ask(words[0], words[1:]) == 0
        return run.call_args.args

    def start_agent(self):
        """Starts the agent by the command of its unit."""
        name, given = self.asked("agent", agent_service)
        given = agent_service.with_folders(dataclasses.replace(given, name=AGENT))
        environment = self.files.command("agent")[1]
        self.agent = Agent(self, given, client.Client(name or environment["OPCPLAN_DESK"]))
        self.agent.load()
        self.moved = True

    def status(self):
        """What the desk says of its plan."""
        return json.loads(self.desk.asked("GET", "/status")[1])

    def contact(self):
        """The agent contacts its desk, as it does in each look, and does nothing else."""
        if self.agent is not None and self.served is not None:
            try:
                self.ask_health()
            except (OSError, http.client.HTTPException):  # the desk closed the connection, which was idle for long
                self.line.close()
                self.ask_health()

    def ask_health(self):
        """Asks the desk over a connection that stays open, which takes the least time."""
        self.line.request("GET", "/health", headers={"X-Opcplan": "desk", "X-Opcplan-Agent": AGENT})
        self.line.getresponse().read()

    def stop_agent(self):
        """Kills the agent; its jobs go on."""
        self.agent, self.moved = None, True

    def start_watch(self):
        """Starts the watch by the command of its unit; it looks at once."""
        (given,) = self.asked("watch", watch_service)
        self.watch = watch_service.made(given)
        self.watch.clock = self.watch.steady = self.clock.time
        self.moved = True

    def stop_watch(self):
        """Kills the watch."""
        self.watch = None

    def roll(self):
        """The unit of `roll` runs once; its exit status."""
        words, environment = self.files.command("roll")
        with mock.patch.dict(os.environ, environment):
            ran = plans.plan_in_here(*words, "--program", plans.PROGRAM)
        self.rolls.append((self.clock.minute, ran.returncode, ran.stdout + ran.stderr))
        self.moved = True
        return ran.returncode

    def set_options(self, name, value):
        """Somebody sets a line of settings.env to a value."""
        path = self.files.path(SETTINGS)
        others = [line for line in path.read_text(encoding="utf-8").splitlines() if not line.startswith(f"{name}=")]
        path.write_text("".join(f"{line}\n" for line in (*others, f"{name}={value}")), encoding="utf-8")

    # Jobs, and people.

    def begin(self, one, log):
        """A runner begins a job."""
        begun = dataclasses.replace(one, began=self.stamp(), offset=os.fstat(log).st_size)
        record.write(self.files.path(LOGS), begun)
        takes, status = self.fate(begun)
        self.jobs[one.serial] = Job(begun, log, self.clock.minute + takes, status)
        self.moved = True

    def end(self, serial):
        """A job ends, and its runner notes that; the record as it is then."""
        one = self.jobs.pop(serial)
        ended = dataclasses.replace(one.record, ended=self.stamp(), status=one.status)
        record.write(self.files.path(LOGS), ended)
        os.close(one.log)
        self.moved = True
        return ended

    def kill_runner(self, app):
        """The runner of an application is killed with its job: nobody knows how the job ended."""
        (serial,) = [serial for serial, one in self.jobs.items() if one.record.app == app]
        os.close(self.jobs.pop(serial).log)
        self.moved = True

    def stamp(self):
        """This moment as a runner notes it."""
        return datetime.datetime.fromtimestamp(self.clock.seconds).astimezone().isoformat(" ", "seconds")

    def by_hand(self, text):
        """Somebody sends a stream to the desk."""
        self.hands += 1
        key = f"by-hand-{self.clock.seconds:.0f}-{self.hands}"
        found = self.desk.statements(text.encode(), key, time.monotonic() + desks.PATIENCE).decode()
        assert found and all(line.startswith("ok") for line in found.splitlines()), found
        self.moved = True

    def calls(self):
        """What `logger` noted, in its order."""
        path = self.files.path(CALLS)
        return [json.loads(line) for line in path.read_text(encoding="utf-8").splitlines()] if path.exists() else []


@functools.cache
def python():
    """The path of a Python that has what a desk needs."""
    return desks.python()


def usual(one):
    """How long a try of an occurrence takes on a healthy day, and its exit status."""
    return centre.APPS[one.app].takes, 0
