"""Files and folders that nobody else may write, as sshd's StrictModes has them.

A process trusts root and itself. It obeys a path only if all of this holds:

- Each folder, link and file on the way from / belongs to a trusted user.
- Neither the group nor others may write any of the folders, or the file. An access list that lets another user write
  shows in the rights of the group.
- A sticky folder that others may write, like /tmp, passes on the way if the next one is a folder: nobody can replace a
  folder there that belongs to somebody else.

Each name is opened below the folder that was opened before it, and what was opened is checked, not its name. So a name
that somebody exchanges meanwhile isn't followed."""

import contextlib
import errno
import os
import pwd
import stat
from collections.abc import Set

from opcplan.errors import Unreadable

ROOT = 0
OF_OTHERS = stat.S_IWGRP | stat.S_IWOTH
LOOK = os.O_PATH | os.O_NOFOLLOW | os.O_CLOEXEC
READ = os.O_RDONLY | os.O_NOFOLLOW | os.O_NONBLOCK | os.O_CLOEXEC
MOST_LINKS = 40


class NotTrusted(Unreadable):
    """Which file or folder somebody else may write, and what to do."""


def users(*more: int) -> frozenset[int]:
    """The ids of the users whom this process trusts: root, its own, and more."""
    return frozenset((ROOT, os.geteuid(), *more))


def objection(path: str, found: os.stat_result, trusted: Set[int]) -> str:
    """Why what is at a path isn't trusted, with what to do; empty if it is."""
    is_link = stat.S_ISLNK(found.st_mode)
    is_strange = found.st_uid not in trusted
    is_open = not is_link and bool(found.st_mode & OF_OTHERS)
    if not is_strange and not is_open:
        return ""
    what = "link" if is_link else "folder" if stat.S_ISDIR(found.st_mode) else "file"
    names = sorted(map(name_of, trusted), key=lambda name: (name != "root", name))
    steps = [f"`chown {'-h ' if is_link else ''}{names[-1]} {path}`"] * is_strange + [f"`chmod go-w {path}`"] * is_open
    return (f"{path}: others than {' and '.join(names)} may write this {what}, because it belongs to "
            f"{name_of(found.st_uid)} and has mode {stat.S_IMODE(found.st_mode):04o}; run {' and '.join(steps)}")


def name_of(user: int) -> str:
    """The name of a user, or the number of one without a name."""
    try:
        return pwd.getpwuid(user).pw_name
    except KeyError:
        return str(user)


def ask(path: str, trusted: Set[int]) -> None:
    """Asks that a file or folder is trusted, and all folders above it. Raises NotTrusted and OSError."""
    os.close(Walk(trusted).opened(path))


def ask_program(path: str, user: str | None) -> None:
    """Asks that a program is trusted. If it runs as a user, it may also belong to that user, who can do nothing more
    through it. Raises NotTrusted and OSError."""
    more = []
    with contextlib.suppress(KeyError):
        more = [pwd.getpwnam(user).pw_uid] if user else []
    ask(path, users(*more))


def content(path: str, trusted: Set[int], most: int) -> bytes:
    """What a trusted regular file has, at most so many bytes. Raises NotTrusted and OSError."""
    number = Walk(trusted).opened(path, READ)
    try:
        if not stat.S_ISREG(os.fstat(number).st_mode):
            raise OSError(errno.EINVAL, "this isn't a regular file", path)
        with open(number, "rb", closefd=False) as file:
            data = file.read(most + 1)
    finally:
        os.close(number)
    if len(data) > most:
        raise OSError(errno.EFBIG, f"it has more than {most:,} bytes", path)
    return data


class Walk:
    """The way to a path. `folder` is the open folder of the name in progress, `at` its path without links; `held` is
    the objection to that folder if it is a sticky one."""

    def __init__(self, trusted: Set[int]) -> None:
        self.trusted, self.folder, self.at, self.held, self.links = trusted, -1, "/", "", 0

    def opened(self, path: str, flags: int = LOOK) -> int:
        """The descriptor of what is at an absolute path, open with these flags if it is a file. Raises NotTrusted and
        OSError."""
        left = path.split("/")[::-1]
        try:
            self.enter("/", os.open("/", LOOK))
            while left:
                name = left.pop()
                if name in ("", "."):
                    continue
                found = os.open(name, LOOK, dir_fd=self.folder)
                here = os.path.normpath(os.path.join(self.at, name))
                mode = os.fstat(found).st_mode
                if stat.S_ISLNK(mode):
                    left += self.followed(here, found)
                elif stat.S_ISDIR(mode):
                    self.enter(here, found)
                else:
                    return self.file(name, here, found, flags, bool(left))
            if self.held:
                raise NotTrusted(self.held)
            return os.dup(self.folder)
        finally:
            if self.folder >= 0:
                os.close(self.folder)

    def enter(self, path: str, number: int) -> None:
        """Goes into a folder. Raises NotTrusted."""
        if self.folder >= 0:
            os.close(self.folder)
        self.folder, self.at = number, path
        found = os.fstat(number)
        self.held = objection(path, found, self.trusted)
        if self.held and not (found.st_mode & stat.S_ISVTX and found.st_uid in self.trusted):
            raise NotTrusted(self.held)

    def followed(self, path: str, number: int) -> list[str]:
        """The names of a link, the last one first; closes the link. Raises NotTrusted and OSError."""
        try:
            self.ask(path, number)
            target = os.readlink("", dir_fd=number)
        finally:
            os.close(number)
        self.links += 1
        if self.links > MOST_LINKS:
            raise OSError(errno.ELOOP, os.strerror(errno.ELOOP), path)
        if target.startswith("/"):
            self.enter("/", os.open("/", LOOK))
        return target.split("/")[::-1]

    def file(self, name: str, path: str, number: int, flags: int, is_within: bool) -> int:
        """The descriptor of a file in the folder, open with these flags. Raises NotTrusted and OSError."""
        try:
            if is_within:
                raise NotADirectoryError(errno.ENOTDIR, os.strerror(errno.ENOTDIR), path)
            self.ask(path, number)
            found = number if flags == LOOK else os.open(name, flags, dir_fd=self.folder)
        except BaseException:
            os.close(number)
            raise
        if found != number:
            os.close(number)
            try:
                self.ask(path, found)
            except NotTrusted:
                os.close(found)
                raise
        return found

    def ask(self, path: str, number: int) -> None:
        """Asks that a link or file in the folder is trusted. Raises NotTrusted."""
        if why := self.held or objection(path, os.fstat(number), self.trusted):
            raise NotTrusted(why)
