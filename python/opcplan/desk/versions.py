"""Which opcplan answers a log, and by which rules desks share it.

All desks of a log need the same opcplan, because another one may answer differently. They also need the same rules,
because a desk of other rules may do a change again. The log says both, from which entry on, as one text. It is what
opcplan prints for --version, and a line with the number of the rules. Desks of version 1.0 compare that text with what
their opcplan prints. So they accept no change once the log is moved to these rules, though they don't know the line.

What always holds (tests/test_log_rules.py goes through small worlds):

- A desk appends an entry only if the log says its opcplan and its rules for that entry.
- A desk applies only entries of its opcplan, and none of later rules."""

import contextlib
import os
import re
import subprocess
from collections.abc import Callable, Mapping
from typing import NamedTuple

from opcplan.errors import Error

# seconds in which opcplan has to print its version
LONGEST = 30
# by which rules this desk shares a log. 1: those of version 1.0, which found keys in an index of etcd; 2: keys are
# found in the log
RULES = 2
RULES_LINE = re.compile(r"\nlog rules ([1-9][0-9]{0,8})\Z")


class Stamp(NamedTuple):
    """What differs once another file has taken a program's place."""

    device: int
    inode: int
    changed: int  # nanoseconds
    size: int


class CannotJoin(Error):
    """Why a plan and a log don't belong together, and what to do."""


# What a log says.


def text_of(printed: str, rules: int) -> str:
    """What a log says of an opcplan that prints this for --version, and of rules. Version 1.0 said no rules."""
    return printed if rules == 1 else f"{printed}\nlog rules {rules}"


def rules_of(version: str) -> int:
    """The rules in what a log says."""
    found = RULES_LINE.search(version)
    return int(found[1]) if found else 1


def printed_of(version: str) -> str:
    """What opcplan prints for --version, in what a log says."""
    return RULES_LINE.sub("", version)


def version_at(versions: Mapping[int, str], seq: int) -> str:
    """What a log says of an entry, by what it says from each entry on at which it was moved."""
    return versions[max((since for since in versions if since <= seq), default=min(versions))]


def can_answer(theirs: str, own: str) -> bool:
    """Whether a desk may apply entries of which the log says `theirs`."""
    return printed_of(theirs) == printed_of(own) and rules_of(theirs) <= rules_of(own)


def can_append(theirs: str, own: str) -> bool:
    """Whether a desk may append an entry of which the log says `theirs`."""
    return theirs == own


def held(versions: Mapping[int, str], given: int, head: int, own: str) -> str:
    """Why a desk that has the entries up to `given`, of a log that ends with `head`, waits; empty if it doesn't."""
    theirs = version_at(versions, given + 1)
    if (can_answer if given < head else can_append)(theirs, own):
        return ""
    needed, here = named(theirs, own)
    return f"entries from {given + 1} on need {needed}, and this desk runs {here}; {advice(theirs, own)}"


def why_not_started(versions: Mapping[int, str], first: int, own: str, where: str, program: str) -> str:
    """Why a desk whose next entry is `first` doesn't start, and what to do; empty if it may."""
    theirs, newest = version_at(versions, first), versions[max(versions)]
    move = f"`./plan log {where} --version --program {program}`"
    if rules_of(newest) < rules_of(own):
        return (f"{where}: desks of an earlier version share this log by log rules {rules_of(newest)}, and this one "
                f"has log rules {rules_of(own)}, with which they could do a change twice. Once each machine has this "
                f"version, run {move}: they accept no change from then on. Then end each of them once it has all "
                "entries, and start this one in its place")
    if can_answer(theirs, own):
        return ""
    needed, here = named(theirs, own)
    message = f"{where}: entries from {first} on need {needed}, and {program} is {here}. "
    if rules_of(theirs) > rules_of(own):
        return f"{message}Start the desk with the later version of ./plan that has these rules"
    if newest == own:
        return (f"{message}Start the desk with the older program (--program) until it has entry {max(versions) - 1}, "
                "or take another desk's plan with --from")
    return (f"{message}Start the desk with the program that they need. Or, once each machine has the new one, move the "
            f"log to it: {move}")


def why_not_moved(newest: str, own: str) -> str:
    """Why a log can't be moved to `own`; empty if it can."""
    if rules_of(newest) <= rules_of(own):
        return ""
    return (f"the log has log rules {rules_of(newest)}, and this ./plan has log rules {rules_of(own)}; move it with "
            "the later version of ./plan")


def advice(theirs: str, own: str) -> str:
    """What to do if the log says `theirs` of the next entry."""
    if rules_of(theirs) != rules_of(own):
        return "end it, and start the version of ./plan that has these rules"
    return "start it again with the program that they need"


def named(theirs: str, own: str) -> tuple[str, str]:
    """How a sentence names what a log needs, and what a desk has."""
    is_other = printed_of(theirs) != printed_of(own) and first_line(theirs) == first_line(own)
    needed, here = first_line(theirs) + " built from other sources" * is_other, first_line(own)
    if rules_of(theirs) == rules_of(own):
        return needed, here
    return f"{needed} with log rules {rules_of(theirs)}", f"{here} with log rules {rules_of(own)}"


def first_line(version: str) -> str:
    """A version as sentences name it."""
    return version.split("\n", 1)[0]


# Programs.


def version_of(program: str) -> str:
    """What a log says of a program and of the rules of this desk. Raises CannotJoin."""
    try:
        ran = subprocess.run([program, "--version"], stdin=subprocess.DEVNULL, capture_output=True, check=False,
                             encoding="utf-8", errors="replace", timeout=LONGEST)
    except (OSError, subprocess.TimeoutExpired) as error:
        raise CannotJoin(f"{program}: it can't be run: {getattr(error, 'strerror', None) or error}") from None
    if ran.returncode or not ran.stdout.strip():
        raise CannotJoin(f"{program}: it doesn't print a version, so it isn't an opcplan that a desk can use")
    return text_of(ran.stdout.strip(), RULES)


def of_version(program: str, version: str, why_not: Callable[[], str]) -> Callable[[], str]:
    """A function that returns what `why_not` says, or why a program isn't that opcplan any more, or nothing."""
    seen = stamp(program)

    def asked() -> str:
        """What is wrong now, or nothing."""
        nonlocal seen
        if why := why_not():
            return why
        if (now := stamp(program)) == seen:
            return ""
        try:
            found = version_of(program)
        except CannotJoin as why:
            return str(why)
        if found != version:
            other, here = named(found, version)
            return f"{program} is {other} by now, and this desk needs {here}; start the desk again"
        seen = now
        return ""

    return asked


def stamp(program: str) -> Stamp | None:
    """The Stamp of a program, None if there is no such file."""
    with contextlib.suppress(OSError):
        found = os.stat(program)
        return Stamp(found.st_dev, found.st_ino, found.st_mtime_ns, found.st_size)
    return None
