"""The file jobs.toml beside the folder of jobs: how the job of an application is run, how often it is tried, on which
agents, and how many of a class run at once.

Its content is compared at each look. Settings that are in force stay in force until another valid file with settings
replaces them: a file that is gone, empty, unreadable or faulty, or that others may write, changes nothing."""

import dataclasses
import fnmatch
import math
import os
import pwd
import re
import tomllib
from collections.abc import Callable, Mapping
from typing import Any

from opcplan.agent import trusted_paths
from opcplan.agent.record import Record
from opcplan.agent.state import Rules
from opcplan.cli import words
from opcplan.errors import Unreadable
from opcplan.rules import amounts
from opcplan.rules.toml_lines import Lines

TAIL = ".toml"
CLASSES = "classes"
MOST_TRIES, MOST_OF_A_CLASS, MOST_STATUS = 99, 1000, 255
# of the file, in bytes
MOST_BYTES = 1 << 20
VARIABLE = re.compile("[A-Za-z_][A-Za-z0-9_]*")
CLASS = re.compile("[A-Za-z0-9_.-]{1,60}")
OWN = "OPCPLAN_"
# a placeholder for a value of the occurrence within a word of a command
PLACE = re.compile(r"\{(app|ia|serial|try)\}")
SPAN = "must be a number of seconds above 0, or a span like \"10m\" or \"2h\""


class InvalidJobsFile(Unreadable):
    """What is wrong with the file."""


class FaultyJobsFile(InvalidJobsFile):
    """What is wrong with the text of the file, on whatever machine."""


class Fault(Unreadable):
    """What is wrong with a value of the file, and its place (`toml_lines`)."""

    def __init__(self, why: str, *place: str) -> None:
        super().__init__(why)
        self.place = place


@dataclasses.dataclass(frozen=True)
class Job:
    """How the job of an application is run."""

    command: tuple[str, ...] = ()  # none: the file of the application in the folder of jobs
    user: str | None = None
    folder: str | None = None
    environment: tuple[tuple[str, str], ...] | None = None  # None: that of the agent
    limit: float | None = None
    tries: int = 1
    pauses: tuple[float, ...] = ()
    complete: tuple[int, ...] = (0,)
    group: str | None = None  # its class
    where: str = "*"  # on which agents, by their names

    @property
    def owner(self) -> str | None:
        """The user to whom its program may belong too: the one as whom a `command` runs."""
        return self.user if self.command else None

    def put_into(self, one: Record) -> Record:
        """A record of an occurrence, with how its job is run; without a limit here that of the record stays."""
        values = {"app": one.app, "ia": one.ia, "serial": str(one.serial), "try": str(one.attempt)}
        command = tuple(PLACE.sub(lambda found: values[str(found[1])], word) for word in self.command)
        return dataclasses.replace(
            one, command=command, user=self.user, folder=self.folder, environment=self.environment,
            limit=one.limit if self.limit is None else self.limit, tries=self.tries, pauses=self.pauses,
            complete=self.complete)


USUAL = Job()


class Jobs:
    """The jobs of a folder, for the agent of a name. Raises InvalidJobsFile."""

    def __init__(self, folder: str, agent: str) -> None:
        self.folder, self.path, self.agent = folder, folder + TAIL, agent
        self.text: bytes | None = None  # of the file when its settings came into force
        self.faulty: tuple[bytes, InvalidJobsFile] | None = None  # the last text that isn't valid, and why
        self.found: dict[str, Job] = {}
        self.rules = Rules()
        self.read()

    @property
    def has_settings(self) -> bool:
        """Whether settings are in force."""
        return bool(self.found or self.rules.limits)

    def read(self) -> None:
        """Reads the file, and puts its settings into force if it has others. Raises InvalidJobsFile, and then nothing
        has changed."""
        text = self.content()
        if text is None or text == self.text:
            return
        jobs, limits = self.tables(text)
        if self.has_settings and not jobs and not limits:
            raise InvalidJobsFile(f"{self.path}: the file is empty; put its settings back, or restart the agent once "
                                  "with --without-jobs-toml to run the jobs without settings")
        self.check_users(jobs, text)
        elsewhere = frozenset(app for app, job in jobs.items() if not self.is_here(job))
        classes = {app: job.group for app, job in jobs.items() if job.group is not None}
        self.text, self.found, self.rules = text, jobs, Rules(elsewhere, classes, limits)

    def tables(self, text: bytes) -> tuple[dict[str, Job], dict[str, int]]:
        """What `of_text` returns; a faulty text is parsed once. Raises InvalidJobsFile."""
        if self.faulty is not None and self.faulty[0] == text:
            raise self.faulty[1]
        try:
            return of_text(self.path, text)
        except InvalidJobsFile as why:
            self.faulty = text, why
            raise

    def content(self) -> bytes | None:
        """What the file has; None if there is no file and there are no settings in force. Raises InvalidJobsFile."""
        try:
            return trusted_paths.content(self.path, trusted_paths.users(), MOST_BYTES)
        except FileNotFoundError:
            if not self.has_settings:
                return None
            raise InvalidJobsFile(f"{self.path}: the file is gone; put it back, or restart the agent once with "
                                  "--without-jobs-toml to run the jobs without settings") from None
        except OSError as error:
            raise InvalidJobsFile(f"{self.path}: it can't be read: {error.strerror}") from None
        except trusted_paths.NotTrusted as why:
            raise InvalidJobsFile(str(why)) from None

    def is_here(self, job: Job) -> bool:
        """Whether this agent may run a job, by its `where`."""
        return fnmatch.fnmatchcase(self.agent, job.where)

    def of(self, app: str) -> Job:
        """How the job of an application is run."""
        return self.found.get(app, USUAL)

    def check_users(self, jobs: Mapping[str, Job], text: bytes) -> None:
        """Checks that this agent can run each of its jobs as the user that the file with this text names. Raises
        InvalidJobsFile."""
        for app, job in jobs.items():
            if job.user is None or not self.is_here(job):
                continue
            if wrong := wrong_user(job.user):
                lines = Lines(text.decode("utf-8"))
                raise InvalidJobsFile(f"{self.path}: {lines.told(f'{app}: `user` names {wrong}', app, 'user')}")


def wrong_user(name: str) -> str:
    """Why this process can't run a job as a user of a name, beginning with the name; empty if it can."""
    try:
        user = pwd.getpwnam(name)
    except KeyError:
        return f"{name!r}, whom this machine doesn't have; name another user, or create this one"
    if user.pw_uid == os.geteuid() or not os.geteuid():
        return ""
    return f"{name}, and only an agent of root can run a job as another user; remove the line, or run the agent as " \
        "root or that user"


def of_text(path: str, text: bytes) -> tuple[dict[str, Job], dict[str, int]]:
    """The jobs by application, and the limits by class, of the text of the file at a path. Raises FaultyJobsFile."""
    try:
        tables = tomllib.loads(text.decode("utf-8"))
    except (ValueError, RecursionError) as error:
        raise FaultyJobsFile(f"{path}: the file isn't valid TOML: {error}") from None
    try:
        limits = limits_of(tables.pop(CLASSES, {}))
        jobs = {app: job_of(app, value) for app, value in tables.items()}
        for app, job in jobs.items():
            if job.group is not None and job.group not in limits:
                raise Fault(f"{app}: `class` names {job.group!r}, which has no limit; add a line like "
                            f"`{CLASSES}.{job.group} = 2` at the top", app, "class")
    except Fault as why:
        raise FaultyJobsFile(f"{path}: {Lines(text.decode('utf-8')).told(why, *why.place)}") from None
    return jobs, limits


def limits_of(table: Any) -> dict[str, int]:
    """How many jobs of each class may run at once, by its name. Raises Fault."""
    if not isinstance(table, dict):
        raise Fault(f"`{CLASSES}` must have lines like `{CLASSES}.db = 2`", CLASSES)
    for name, value in table.items():
        if not CLASS.fullmatch(name) or not is_number(value, 1, MOST_OF_A_CLASS):
            raise Fault(f"`{CLASSES}.{name}` must be a number from 1 to {MOST_OF_A_CLASS}", CLASSES, name)
    return dict(table)


def job_of(app: str, table: Any) -> Job:
    """The job that a table of the file describes. Raises Fault."""
    if not words.NAME.fullmatch(app) or not isinstance(table, dict):
        raise Fault(f"{app}: this is no application; write a table like [PAY] for the job of one, and lines like "
                    f"`{CLASSES}.db = 2` for the limits of classes", app)
    given: dict[str, Any] = {"environment": ()}
    for name, value in table.items():
        if name not in READERS:
            raise Fault(f"{app}: there is no key `{name}`; the keys are {', '.join(READERS)}", app, name)
        field, read = READERS[name]
        try:
            given[field] = read(value)
        except ValueError as why:
            raise Fault(f"{app}: `{name}` {why}", app, name) from None
    return Job(**given)


def is_number(value: Any, least: int, most: int) -> bool:
    """Whether a value is a whole number from `least` to `most`."""
    return isinstance(value, int) and not isinstance(value, bool) and least <= value <= most


def text_of(value: Any) -> str:
    """A text that can be passed to a process. Raises ValueError."""
    if not isinstance(value, str) or not value or "\0" in value:
        raise ValueError("must be a text in quotes")
    return value


def command_of(value: Any) -> tuple[str, ...]:
    """The words of a command; the first one is the path of a program. Raises ValueError."""
    if not isinstance(value, list) or not value or not all(isinstance(one, str) and "\0" not in one for one in value):
        raise ValueError("must be a list of words, like [\"/usr/bin/pay\", \"{ia}\"]")
    if not os.path.isabs(value[0]):
        raise ValueError(f"must begin with the absolute path of a program, and {value[0]!r} is none")
    return tuple(value)


def folder_of(value: Any) -> str:
    """The path of a folder. Raises ValueError."""
    if not os.path.isabs(text_of(value)):
        raise ValueError("must be the absolute path of a folder")
    return text_of(value)


def environment_of(value: Any) -> tuple[tuple[str, str], ...]:
    """Variables with their values, in the order of the file. Raises ValueError."""
    if not isinstance(value, dict):
        raise ValueError("must have variables, like { LANG = \"C.UTF-8\" }")
    for name, text in value.items():
        if not VARIABLE.fullmatch(name) or name.startswith(OWN):
            raise ValueError(f"has `{name}`, which can't name a variable of a job; use letters, digits and `_`, and no "
                             f"{OWN} at its beginning")
        if not isinstance(text, str) or "\0" in text:
            raise ValueError(f"has `{name}`, which must be a text in quotes")
    return tuple(value.items())


def span_of(value: Any) -> float:
    """A span in seconds. Raises ValueError."""
    if isinstance(value, str):
        value = amounts.seconds_of(value)
    if isinstance(value, bool) or not isinstance(value, (int, float)) or not math.isfinite(value):
        raise ValueError(SPAN)
    if not 0 < value <= amounts.LONGEST:
        raise ValueError(SPAN)
    return float(value)


def pauses_of(value: Any) -> tuple[float, ...]:
    """One span, or one for each pause. Raises ValueError."""
    return tuple(map(span_of, value)) if isinstance(value, list) else (span_of(value),)


def tries_of(value: Any) -> int:
    """How often a job is tried. Raises ValueError."""
    if not is_number(value, 1, MOST_TRIES):
        raise ValueError(f"must be a number from 1 to {MOST_TRIES}")
    return int(value)


def complete_of(value: Any) -> tuple[int, ...]:
    """Exit statuses. Raises ValueError."""
    if not isinstance(value, list) or not value or not all(is_number(one, 0, MOST_STATUS) for one in value):
        raise ValueError("must be a list of exit statuses, like [0, 4]")
    return tuple(value)


def class_of(value: Any) -> str:
    """The name of a class. Raises ValueError."""
    if not CLASS.fullmatch(text_of(value)):
        raise ValueError("must be the name of a class, like \"db\"")
    return text_of(value)


# by the key in the file: the field of Job, and the function that reads its value
READERS: dict[str, tuple[str, Callable[[Any], Any]]] = {
    "command": ("command", command_of), "user": ("user", text_of), "folder": ("folder", folder_of),
    "environment": ("environment", environment_of), "limit": ("limit", span_of), "tries": ("tries", tries_of),
    "pauses": ("pauses", pauses_of), "complete": ("complete", complete_of), "class": ("group", class_of),
    "where": ("where", text_of)}
