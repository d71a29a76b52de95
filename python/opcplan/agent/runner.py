"""Runs one job for an agent, and writes into its record when the job began and how it ended. It outlives the agent.

Its arguments are the folder of the records, a serial, the folder of the jobs, and the descriptor of the log, whose lock
it has. The job gets a session of its own, and neither the lock nor the token for the desk. If the record names a user,
the job runs as that user, with all groups of that user and none of the agent's."""

import dataclasses
import datetime
import os
import pwd
import signal
import subprocess
import sys
import time
from collections.abc import Sequence
from typing import NamedTuple

from opcplan.agent import record, trusted_paths
from opcplan.agent.record import Record

# seconds between SIGTERM and SIGKILL, and between two looks whether the processes are still there
GRACE, POLL = 10, 0.05
# variables that no job sees; systemd puts the file of the token into the folder of the last one
PRIVATE = ("OPCPLAN_TOKEN", "OPCPLAN_TOKEN_FILE", "CREDENTIALS_DIRECTORY")
REST = 1
# of a job in jobs.toml: the fixed values of its environment, and the variables that it gets from the agent's
PATH, SHELL = "/usr/local/sbin:/usr/local/bin:/usr/sbin:/usr/bin:/sbin:/bin", "/bin/sh"
KEPT = ("LANG", "LC_ALL", "TZ")


def main(folder: str, serial: str, jobs: str, number: str) -> None:
    """Runs the job of a serial to its end."""
    for one in (signal.SIGTERM, signal.SIGINT, signal.SIGHUP):
        signal.signal(one, lambda *_: None)  # the job gets its own signals; the record still gets its end
    os.chdir("/")  # it began in the folder of the package
    log = int(number)
    os.set_inheritable(log, False)
    begun = dataclasses.replace(record.read(folder, int(serial)), began=clock(), offset=os.fstat(log).st_size)
    keep(folder, begun)
    tries = f", {begun.try_text}" if begun.try_text else ""
    say(log, f"begins {begun.app} {begun.ia} {begun.serial} at {begun.began}{tries}")
    status, why = outcome(begun, jobs, record.log_of(folder, begun.serial))
    ended = dataclasses.replace(begun, ended=clock(), status=status, why=why)
    say(log, f"ended at {ended.ended}: {ended.ended_text}")
    keep(folder, ended)


def outcome(one: Record, jobs: str, log: str) -> tuple[int | None, str | None]:
    """Runs a job to its end; its status (None if it can't be run), and what else is known of the end."""
    words = one.command or (os.path.join(jobs, one.app), one.app, one.ia, str(one.serial))
    try:
        user = switched(one.user)
        trusted_paths.ask_program(words[0], one.user if one.command else None)
        with open(log, "ab") as output:
            job = subprocess.Popen(
                words, stdin=subprocess.DEVNULL, stdout=output, stderr=output, cwd=one.folder or jobs,
                start_new_session=True, env=environment_of(one), user=user.uid, group=user.gid,
                extra_groups=user.groups)
    except KeyError:
        return None, f"it can't be run: this machine has no user {one.user}"
    except trusted_paths.NotTrusted as why:
        return None, f"it can't be run: {why}"
    except OSError as error:
        return None, f"it can't be run: {error.filename or words[0]}: {error.strerror}"
    try:
        return job.wait(one.limit), None
    except subprocess.TimeoutExpired:
        return stopped(job), f"it ran longer than {one.limit:g} seconds, so the agent ended it"


class Switch(NamedTuple):
    """The user and groups to which a job switches, None if it keeps those of the agent."""

    uid: int | None = None
    gid: int | None = None
    groups: Sequence[int] | None = None


def switched(name: str | None) -> Switch:
    """The Switch for a job of a user. Raises KeyError if there is no such user."""
    if name is None:
        return Switch()
    found = pwd.getpwnam(name)
    if found.pw_uid == os.geteuid() and os.geteuid():  # only root can change its groups
        return Switch()
    return Switch(found.pw_uid, found.pw_gid, os.getgrouplist(name, found.pw_gid))


def environment() -> dict[str, str]:
    """The environment of this process without the token and its file, because a job can read its runner's."""
    return {name: value for name, value in os.environ.items() if name not in PRIVATE}


def environment_of(one: Record) -> dict[str, str]:
    """The environment of a job: the agent's, or for a job in jobs.toml a small one and what the file names; and in both
    the variables that name the occurrence. Raises KeyError if there is no user of the record's name."""
    own = {"OPCPLAN_APP": one.app, "OPCPLAN_IA": one.ia, "OPCPLAN_SERIAL": str(one.serial),
           "OPCPLAN_TRY": str(one.attempt)}
    if one.environment is None:
        return environment() | own
    user = user_of(one.user)
    fixed = {"PATH": PATH, "SHELL": SHELL, "HOME": user.home, "USER": user.name, "LOGNAME": user.name}
    kept = {name: os.environ[name] for name in KEPT if name in os.environ}
    return fixed | kept | dict(one.environment) | own


class User(NamedTuple):
    """A user's name and home."""

    name: str
    home: str


def user_of(name: str | None) -> User:
    """The user of a name, or the one of this process. Raises KeyError if there is no user of that name."""
    try:
        found = pwd.getpwnam(name) if name else pwd.getpwuid(os.geteuid())
    except KeyError:
        if name:
            raise
        return User(str(os.geteuid()), "/")
    return User(found.pw_name, found.pw_dir)


def stopped(job: subprocess.Popen[bytes]) -> int:
    """Ends a job and all of its process group; its status. Each process of the group has GRACE seconds to end."""
    until = time.monotonic() + GRACE
    is_left = signaled(job.pid, signal.SIGTERM)
    while is_left and time.monotonic() < until:
        time.sleep(POLL)
        job.poll()
        is_left = signaled(job.pid, 0)
    signaled(job.pid, signal.SIGKILL)
    return job.wait()


def signaled(group: int, number: int) -> bool:
    """Sends a signal to a process group; whether it has a process that takes it."""
    try:
        os.killpg(group, number)
    except (ProcessLookupError, PermissionError):
        return False
    return True


def keep(folder: str, one: Record) -> None:
    """Writes the record, and tries again until the disk takes it."""
    while True:
        try:
            return record.write(folder, one)
        except OSError:
            time.sleep(REST)


def say(log: int, text: str) -> None:
    """Writes a line into the log; errors are ignored."""
    try:
        os.write(log, f"== agent: {text}\n".encode())
    except OSError:
        pass


def clock() -> str:
    """This moment by the local clock, with its zone, by ISO 8601."""
    return datetime.datetime.now().astimezone().isoformat(" ", "seconds")


if __name__ == "__main__":
    main(*sys.argv[1:])
