"""The process of a desk that has the clock of `clock.Clock`. Its arguments are the file of the clock, the program, the
names of planted bugs with commas between them, and the words of `./plan desk`.

The desk is the one of ./plan, but for this: its clock is that one; what needs somebody is found in this process and not
in another one, which would take most of the time; and what a journal has is read once for each of its states."""

import asyncio
import contextlib
import functools
import os
import shutil
import sys

TESTS = os.path.dirname(os.path.dirname(os.path.dirname(os.path.abspath(__file__))))
sys.path[:0] = [TESTS]

from support.nights import planted  # noqa: E402
from support.nights.clock import Clock  # noqa: E402

from opcplan import __main__ as commands  # noqa: E402
from opcplan.commands import desk as command  # noqa: E402
from opcplan.desk import core, etcd_log, needs_process, server, status  # noqa: E402
from opcplan.needs import loaded  # noqa: E402
from opcplan.plans import entry  # noqa: E402
from opcplan.rules import moments  # noqa: E402

spawned = asyncio.create_subprocess_exec


class Here:
    """A process that is run in this one."""

    def __init__(self, words):
        self.words, self.returncode = words, None

    async def communicate(self, given):
        """What it prints."""
        self.returncode = 0
        return needs_process.text_of(*self.words[:-1], given.decode(), self.words[-1] == "1").encode(), b""


async def started(*words, **how):
    """Starts a process, or runs it here if it finds what needs somebody."""
    if list(words[:len(status.PROCESS)]) == status.PROCESS:
        return Here(words[len(status.PROCESS):])
    return await spawned(*words, **how)


def kept(told_by):
    """The same, which reads a journal once for each of its states."""
    known = {}

    def found(path, *more):
        stamps = tuple(stamp(f"{path}{tail}") for tail in ("", "-wal"))
        if (path, stamps) not in known:
            known.clear()
            known[path, stamps] = told_by(path, *more)
        return known[path, stamps]

    return found


def stamp(path):
    """What tells one state of a file from others."""
    with contextlib.suppress(FileNotFoundError):
        found = os.stat(path)
        return found.st_size, found.st_mtime_ns
    return None


def set_clock(clock):
    """Has the desk use a clock and a disk."""
    moments.now, entry.moment_now, status.moment_now = clock.now, clock.moment_now, clock.moment_now
    core.Agents = functools.partial(core.Agents, clock=clock.time)
    core.Reports = functools.partial(core.Reports, clock=clock.time, steady=clock.time)
    core.Service = functools.partial(core.Service, clock=clock.time)
    shutil.disk_usage = clock.disk_usage


def main(path, program, plants, *words):
    """Runs the desk until a signal."""
    set_clock(Clock(path))
    asyncio.create_subprocess_exec = started
    loaded.told_by = kept(loaded.told_by)
    etcd_log.LOOK = etcd_log.POLL  # seconds of the machine's clock, which the nights don't wait for
    status.PAUSES = 0  # a later minute comes at once, so no older answer may be given
    for name in filter(None, plants.split(",")):
        planted.IN_THE_DESK[name]()
    given = command.settings_of(commands.parser_of("desk").parse_args(words[1:]))
    if wrong := command.wrong_words(given):
        sys.exit(wrong)
    server.serve(given, program)


if __name__ == "__main__":
    main(*sys.argv[1:])
