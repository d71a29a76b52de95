"""What an agent does with files, processes and the desk. Its state (`state.State`) decides what to do next."""

import contextlib
import dataclasses
import datetime
import functools
import os
import re
import secrets
import stat
import subprocess
import sys
import time

from opcplan.agent import desk_queries, jobs, needs, record, remembered, reports, runner, state, tails
from opcplan.agent import trusted_paths
from opcplan.agent.known_plan import Row
from opcplan.agent.record import Record
from opcplan.desk import client
from opcplan.plans.program import PYTHON
from opcplan.rules import moments

# a runner's Python uses neither the environment nor site packages
RUNNER = [sys.executable, "-E", "-s", "-S", "-B", "-m", "opcplan.agent.runner"]
# the name of an agent
NAME = re.compile("[A-Za-z0-9._-]{1,64}")
# the key of a start, with the name of the agent that made it
OF_START = re.compile(f"agent-({NAME.pattern})-[0-9a-f]{{24}}([.][0-9]+)?")
# seconds until the agent tries again what was refused
PAUSE = 30


@dataclasses.dataclass(frozen=True)
class Settings:
    """The options of an agent: its folders; how many jobs run at once; in seconds how long a job may run (None: without
    end) and how long the agent rests between two looks; a moment in place of the clock's, or None; its name; how many
    bytes of the end of a log the desk gets; whether jobs.toml may have lost its settings since the last start; the
    folder of jobs as it was named, perhaps by a link."""

    jobs: str
    logs: str
    most: int = 4
    limit: float | None = None
    every: float = 1.0
    now: int | None = None
    name: str = "agent"
    tail: int = 0
    is_without_jobs_toml: bool = False
    named_jobs: str = ""


class Agent:
    """Runs the jobs of a folder for a desk. Raises InvalidJobsFile, JobsFileGone, Unreadable and OSError."""

    def __init__(self, given: Settings, desk: client.Client) -> None:
        self.given, self.desk = given, desk
        self.asking = desk_queries.DeskQueries(desk, given.name)
        self.state = state.State()
        self.jobs = jobs.Jobs(given.jobs, given.name)
        named = (given.named_jobs or given.jobs) + jobs.TAIL
        self.remembered = remembered.Remembered(given.logs, self.jobs.path, named)
        self.remembered.begin(self.jobs.has_settings, given.is_without_jobs_toml)
        self.needs = needs.Needs()
        self.tails = tails.Tails(desk, given.logs, given.tail, self.print_once)
        self.runners: list[subprocess.Popen[bytes]] = []
        self.logs: dict[int, int] = {}  # open logs whose lock is the agent's, by serial
        self.pauses: dict[int, float] = {}
        self.refused: dict[int, str] = {}  # by serial why the desk refused a start, or why the agent waits with it
        self.reports = reports.Reports(desk, given.name, self.print_once)
        self.reported: set[str] = set()

    def load(self) -> None:
        """Loads the records that an earlier agent left."""
        found = []
        for serial in record.serials(self.given.logs):
            try:
                found.append(record.read(self.given.logs, serial))
            except (record.InvalidRecord, OSError) as error:
                print_message(f"{error}; the agent leaves it as it is")
        self.state = state.State(found)

    def step(self) -> None:
        """Looks once. Raises DeskUnreachable and RequestRefused."""
        self.runners = [one for one in self.runners if one.poll() is None]
        is_first = self.state.plan.position is None
        self.look_at_settings()
        now = moments.now() if self.given.now is None else self.given.now
        self.state.look(now, self.given.most, self.jobs.rules)
        try:
            while (command := self.state.command) is not None:
                self.do(command)
                self.print_needs()
                if is_first and self.state.plan.position is not None:
                    is_first = False
                    print_message(f"works for {self.desk.name} on the jobs of {self.given.jobs}")
                    self.report_strangers()
                while self.state.messages:
                    print_message(self.state.messages.pop(0))
        except state.DeskBehind as why:
            self.desk.go_over()
            raise client.DeskUnreachable(f"{self.desk.name}: {why}", False) from None
        finally:
            for serial in list(self.logs):
                self.release(serial)
        if self.needs.found:
            self.needs.keep_jobs({row.app for row in self.state.plan.ready(now)})
        self.reports.give(self.asking.report, lambda: self.report(now))
        self.tails.give_running(one for serial, one in self.state.records.items() if serial not in self.state.lost)

    def report(self, now: int) -> bytes:
        """What the agent reports of its last look."""
        found = self.state
        rows = [row for row in found.plan.ready(now) if row.serial not in found.records]
        ready = {row.serial for row in rows}
        self.refused = {serial: why for serial, why in self.refused.items() if serial in ready}
        known = reports.Facts(
            self.needs, self.refused, {app: self.jobs.of(app).where for app in self.jobs.rules.elsewhere},
            lambda app: found.running < self.given.most and not found.is_full(app),
            functools.cache(lambda app: self.program_of(app) is not None))
        return reports.report(rows, found.lost, known)

    def look_at_settings(self) -> None:
        """Checks the folders, and reads jobs.toml; what is wrong is a need."""
        try:
            for path in (self.given.jobs, self.given.logs):
                trusted_paths.ask(path, trusted_paths.users())
            self.needs.end(needs.FOLDER, f"{self.given.jobs}: the agent starts jobs again")
        except trusted_paths.NotTrusted as why:
            self.needs.put(needs.FOLDER, f"{why}; until then the agent starts no job")
        except OSError as error:
            self.needs.put(needs.FOLDER, f"{path}: the folder can't be opened: {error.strerror}; until it can be, the "
                           "agent starts no job")
        self.read_jobs()
        self.print_needs()

    def read_jobs(self) -> None:
        """Reads jobs.toml; if it is gone, empty, unreadable or faulty, the settings stay in force, and there is a
        need."""
        try:
            self.jobs.read()
            self.remembered.keep(self.jobs.has_settings)
            self.needs.end(needs.JOBS_TOML, f"{self.jobs.path}: the agent reads this file again")
        except jobs.InvalidJobsFile as why:
            self.needs.put(needs.JOBS_TOML, f"{why}; the agent goes on with what the file had before")
        except OSError as error:
            self.needs.put(needs.JOBS_TOML, f"{error.filename}: the agent can't note there that jobs.toml has "
                           f"settings: {error.strerror}; make room, or correct the rights of the folder")

    def print_needs(self) -> None:
        """Prints each need that is new, and each that is over."""
        while self.needs.messages:
            print_message(self.needs.messages.pop(0))

    def report_strangers(self) -> None:
        """Reports each occurrence of this agent's jobs that is started and has no record here."""
        for row in self.state.plan.rows.values():
            is_strange = row.status == "S" and row.serial not in self.state.records
            if is_strange and row.app not in self.jobs.rules.elsewhere and self.program_of(row.app):
                other = self.other_agent_of(row.serial)
                how = f"was started by the agent {other}" if other else "is started, and no record here says by whom"
                print_message(f"{row.name} {how}; the agent leaves it alone")

    def other_agent_of(self, serial: int) -> str | None:
        """The name of another agent that started an occurrence, by the key of its start, or None if it isn't known."""
        known = self.state.plan.latest.get(serial)
        found = OF_START.fullmatch(known.key or "") if known is not None and known.status == "S" else None
        return found[1] if found and found[1] != self.given.name else None

    def do(self, command: state.Command) -> None:
        """Executes a command of the state. Raises DeskUnreachable, RequestRefused and DeskBehind."""
        match command:
            case state.AskStanding():
                self.state.standing(*self.asking.standing())
            case state.AskPairs():
                self.state.pairs(*self.asking.pairs())
            case state.AskRows():
                self.state.rows(*self.asking.rows())
            case state.AskEntries(since):
                self.state.entries(self.asking.entries(since))
            case state.Send(one, act, key, tag):
                if one.ended is not None:
                    self.tails.give(one, True)
                answer = self.asking.send(one, act, key, tag)
                if answer is None:
                    self.state.changed()
                else:
                    self.state.answered(answer)
            case _:
                self.do_here(command)

    def do_here(self, command: state.Command) -> None:
        """Executes a command on files and processes; one that fails with an OSError is tried again later."""
        try:
            match command:
                case state.Look(serial):
                    self.state.seen(*self.look_at(self.state.records[serial]))
                case state.Prepare(row, after, attempt):
                    self.state.prepared(self.prepare(row, after, attempt))
                case state.Claim(one):
                    self.state.claimed(self.claim(one))
                case state.Run(one):
                    self.run(one)
                    self.state.begun()
                case state.Again(one):
                    record.write(self.given.logs, one)
                    self.state.renewed()
                case state.Forget(one, why, is_refused):
                    self.forget(one, why, is_refused)
                    self.state.forgotten()
        except OSError as error:
            self.put_off(command, error)

    def put_off(self, command: state.Command, error: OSError) -> None:
        """Reports a command that the disk or the machine refused; it is tried again later."""
        one: Record | Row
        if isinstance(command, state.Prepare):
            one = command.row
        elif isinstance(command, state.Look):
            one = self.state.records[command.serial]
        elif isinstance(command, (state.Claim, state.Run, state.Again, state.Forget)):
            one = command.record
        else:
            raise error
        self.pauses[one.serial] = time.monotonic() + PAUSE
        self.refused[one.serial] = f"{error.filename or 'this machine'}: {error.strerror}"
        self.print_once(f"{one.name}: {error.filename or 'this machine'}: {error.strerror}; the agent tries again")
        if isinstance(command, state.Prepare):
            self.state.prepared(None)
        else:
            self.state.skip()

    # Runs that were requested before.

    def look_at(self, known: Record) -> tuple[Record, bool, bool]:
        """The current record of a run, whether a runner has its log (checked before the record is read), and whether
        the pause after its try is over. Raises OSError."""
        self.release(known.serial)
        has_runner = record.is_run(self.given.logs, known.serial)
        with contextlib.suppress(record.InvalidRecord, OSError):
            known = record.read(self.given.logs, known.serial)
        return known, has_runner, is_rested(known)

    def claim(self, one: Record) -> bool:
        """Takes the lock of a record's log; whether the agent has it now. Raises OSError."""
        log = record.open_log(self.given.logs, one.serial)
        if log is None:
            return False
        self.logs[one.serial] = log
        return True

    def run(self, one: Record) -> None:
        """Starts a runner for a job whose start the desk has accepted; the runner gets the log with its lock. Raises
        OSError."""
        log = self.logs[one.serial]
        words = [*RUNNER, self.given.logs, str(one.serial), self.given.jobs, str(log)]
        self.runners.append(subprocess.Popen(
            words, stdin=subprocess.DEVNULL, stdout=log, stderr=log, cwd=PYTHON, start_new_session=True,
            pass_fds=(log,), env=runner.environment()))
        self.release(one.serial)
        print_message(f"{one.name} is started{f', {one.try_text}' if one.try_text else ''}")

    def forget(self, one: Record, why: str, is_refused: bool) -> None:
        """Deletes a record, and its log if that is empty. Raises OSError."""
        print_message(f"{one.name}: {why}")
        if is_refused:
            self.pauses[one.serial] = time.monotonic() + PAUSE
            self.refused[one.serial] = why
        self.tails.give(one, True)
        self.tails.forget(one.serial)
        record.forget(self.given.logs, one.serial)
        path = record.log_of(self.given.logs, one.serial)
        if one.began is None and os.path.exists(path) and not os.path.getsize(path):
            os.remove(path)
        self.release(one.serial)

    def release(self, serial: int) -> None:
        """Closes the log of a serial if the agent has it."""
        if serial in self.logs:
            os.close(self.logs.pop(serial))

    # What is ready.

    def prepare(self, row: Row, after: int, attempt: int) -> Record | None:
        """A new record for a try of a row, with the lock of its log; None if the row has no job here, or pauses after a
        refusal. Raises OSError."""
        if self.program_of(row.app) is None or self.pauses.get(row.serial, 0) > time.monotonic():
            return None
        log = record.open_log(self.given.logs, row.serial)
        if log is None:
            self.refused[row.serial] = "an earlier run still has its log, so the agent doesn't start it yet"
            self.print_once(f"{row.name}: {self.refused[row.serial]}")
            return None
        self.refused.pop(row.serial, None)
        self.logs[row.serial] = log
        key = f"agent-{self.given.name}-{secrets.token_hex(12)}"
        one = self.jobs.of(row.app).put_into(
            Record(row.serial, row.app, row.ia, key, after, self.given.limit, attempt=attempt))
        record.write(self.given.logs, one)
        return one

    def program_of(self, app: str) -> str | None:
        """The path of an application's job, or None if there is none that may be run; what is wrong is a need."""
        job = self.jobs.of(app)
        path = job.command[0] if job.command else os.path.join(self.given.jobs, app)
        name = f"{needs.JOB}{app}"
        if needs.FOLDER in self.needs.found:
            return None
        try:
            mode = os.stat(path, follow_symlinks=bool(job.command)).st_mode
            if not stat.S_ISREG(mode) or not os.access(path, os.X_OK):
                self.needs.put(name, f"{path}: this isn't an executable file itself, so {app} isn't run; put the "
                               "program there, executable, and no link")
                return None
            trusted_paths.ask_program(path, job.owner)
        except trusted_paths.NotTrusted as why:
            self.needs.put(name, f"{why}; until then {app} isn't run")
            return None
        except OSError as error:
            if job.command:
                self.needs.put(name, f"{path}: {error.strerror}, so {app} isn't run; correct `command` in "
                               f"{self.jobs.path}")
            else:
                self.needs.end(name)
            return None
        self.needs.end(name)
        return path

    def print_once(self, text: str) -> None:
        """Prints a message that wasn't printed before."""
        if text not in self.reported:
            self.reported.add(text)
            print_message(text)


def is_rested(one: Record) -> bool:
    """Whether the pause after a try is over, by this machine's clock; also if the record has no valid end."""
    with contextlib.suppress(ValueError):
        return not one.ended or time.time() >= datetime.datetime.fromisoformat(one.ended).timestamp() + one.pause
    return True


def print_message(text: str) -> None:
    """Prints a line on standard error; errors of writing are ignored."""
    with contextlib.suppress(OSError):
        print(f"agent: {text}", file=sys.stderr, flush=True)
