"""What isn't done, and why: the one hierarchy of the package's errors.

Whoever knows a fact raises it, as a sentence. `__main__.status_of` prints that, and it alone; `exit_status` is then
that of the command."""


class Error(Exception):
    """Why something isn't done."""

    exit_status = 1


class UsageError(Error):
    """Why the words of a command are wrong."""

    exit_status = 2


class Unreadable(Error):
    """What can't be read, and why."""


class Unwritable(Error):
    """What can't be written, and why."""


class LogUnwritable(Error):
    """Why the log of a desk takes nothing for now; nothing of the batch stands in it."""
