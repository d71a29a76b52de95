"""./plan agent as a process: its start, its loop, its shutdown."""

import dataclasses
import os
import signal
import socket
import sys
import threading

from opcplan.agent import executor, record, remembered, trusted_paths
from opcplan.agent.executor import Settings
from opcplan.agent.jobs import FaultyJobsFile
from opcplan.desk import client
from opcplan.errors import Error, Unreadable, UsageError

LOCK = ".agent"
# the prefix of the file of a token that an agent passes to itself
PIPE = "/dev/fd/"
# the longest rest in seconds while no desk answers
LONGEST_REST = 30


class AgentNotStarted(Error):
    """Why an agent doesn't start."""


def run(name: str | None, given: Settings) -> int:
    """Works for the desk of this address, or the one in OPCPLAN_DESK; the exit status. Raises UsageError and
    AgentNotStarted."""
    name = name or client.usual()
    if name is None:
        raise UsageError("agent: no desk is named; add --desk DESK or set OPCPLAN_DESK (./plan agent --help says more)")
    try:
        desk = client.Client(name, private_token())
    except client.InvalidAddress as why:
        raise UsageError(f"agent: {why}") from None
    except OSError as error:
        raise AgentNotStarted(f"agent: {error.filename}: the token can't be read: {error.strerror}; name another "
                              "file in OPCPLAN_TOKEN_FILE") from None
    try:
        given = with_folders(dataclasses.replace(given, name=given.name or own_name()))
        number = locked(given.logs)
    except AgentNotStarted as why:
        raise AgentNotStarted(f"agent: {why}") from None
    except OSError as error:
        raise AgentNotStarted(f"agent: {error.filename}: {error.strerror}") from None
    try:
        return watch(given, agent_of(given, desk))
    finally:
        os.close(number)


def agent_of(given: Settings, desk: client.Client) -> executor.Agent:
    """An agent with these settings. Raises UsageError and AgentNotStarted."""
    try:
        return executor.Agent(given, desk)
    except (remembered.JobsFileGone, FaultyJobsFile) as why:
        raise UsageError(f"agent: {why}") from None
    except Unreadable as why:
        raise AgentNotStarted(f"agent: {why}") from None
    except OSError as error:
        raise AgentNotStarted(f"agent: {error.filename}: {error.strerror}") from None


def private_token() -> str | None:
    """The token for the desk. If it is in the environment, this process runs itself anew without it, because a job can
    read the environment with which an agent of the same user started. Raises OSError."""
    found = client.token()
    if "OPCPLAN_TOKEN" in os.environ:
        reader, writer = os.pipe()
        os.write(writer, (found or "").encode())
        os.set_inheritable(reader, True)
        del os.environ["OPCPLAN_TOKEN"]
        os.environ["OPCPLAN_TOKEN_FILE"] = f"{PIPE}{reader}"
        sys.stdout.flush()
        os.execv(sys.executable, [sys.executable, *sys.orig_argv[1:]])
    if os.environ.get("OPCPLAN_TOKEN_FILE", "").startswith(PIPE):
        os.close(int(os.environ.pop("OPCPLAN_TOKEN_FILE").removeprefix(PIPE)))
    return found


def own_name() -> str:
    """The name of this machine, for an agent without --name. Raises AgentNotStarted."""
    found = socket.gethostname()
    if not executor.NAME.fullmatch(found):
        raise AgentNotStarted(f"this machine's name, {found!r}, can't be the name of an agent; choose one with --name")
    return found


def with_folders(given: Settings) -> Settings:
    """The settings with absolute paths of folders that nobody else may write; makes the folder of logs if it doesn't
    exist. Raises AgentNotStarted and OSError."""
    jobs = os.path.realpath(given.jobs)
    if not os.path.isdir(jobs):
        raise AgentNotStarted(f"{jobs}: there is no such folder; make it, or name another one with --jobs")
    try:
        trusted_paths.ask(os.path.join(os.getcwd(), given.jobs), trusted_paths.users())
        logs = given.logs or os.path.join(jobs, "log")
        os.makedirs(logs, mode=0o750, exist_ok=True)
        trusted_paths.ask(os.path.join(os.getcwd(), logs), trusted_paths.users())
    except trusted_paths.NotTrusted as why:
        raise AgentNotStarted(f"{why}; until then the agent doesn't start") from None
    return dataclasses.replace(given, jobs=jobs, logs=os.path.realpath(logs), named_jobs=os.path.abspath(given.jobs))


def locked(folder: str) -> int:
    """The open file whose lock says that an agent uses a folder of logs. Raises AgentNotStarted and OSError."""
    number = os.open(os.path.join(folder, LOCK), os.O_WRONLY | os.O_CREAT | os.O_CLOEXEC | os.O_NOFOLLOW, 0o600)
    if not record.is_taken(number):
        os.close(number)
        raise AgentNotStarted(f"{folder}: another agent uses this folder of logs; name another one with --logs")
    return number


def watch(given: Settings, agent: executor.Agent) -> int:
    """Looks again and again until a signal; the exit status. Raises AgentNotStarted if the desk refuses the first
    request."""
    stop = threading.Event()
    for one in (signal.SIGTERM, signal.SIGINT):
        signal.signal(one, lambda *_: stop.set())
    agent.load()
    trouble, rest, name = "", given.every, agent.desk.name
    while not stop.is_set():
        try:
            agent.step()
            if trouble:
                executor.print_message(f"{name} answers again")
            trouble, rest = "", given.every
        except (client.DeskUnreachable, client.RequestRefused, OSError) as why:
            if agent.state.plan.position is None and isinstance(why, client.RequestRefused) and why.status < 500:
                raise AgentNotStarted(f"agent: {name}: {why}") from None
            if str(why) != trouble:
                trouble = str(why)
                executor.print_message(f"{trouble}; the agent tries again")
            rest = min(max(2 * rest, given.every), LONGEST_REST)
        stop.wait(rest)
    if agent.state.running:
        executor.print_message(f"shuts down; {agent.state.running} of its jobs go on, and the next agent reports how "
                               "they end")
    return 0
