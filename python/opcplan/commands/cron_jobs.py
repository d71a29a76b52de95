"""The job files of a crontab's lines, as `./plan agent` runs them: each with the command, the input, the user and the
environment of its line."""

import os
import re
import shlex

from opcplan.cli import output
from opcplan.commands.crontab import Line
from opcplan.edits.changes import ChangeRefused
from opcplan.errors import Unwritable

NOT_SET = ("MAILTO", "MAILFROM", "CRON_TZ", "TZ", "RANDOM_DELAY", "SHELL", "CONTENT_TYPE", "CONTENT_TRANSFER_ENCODING")
USUAL_SHELL, USUAL_PATH = "/bin/sh", "/usr/bin:/bin"


def ask_folder(folder: str, apps: list[str]) -> None:
    """Asks that a folder is there, or can be made, and has none of some files yet. Raises ChangeRefused."""
    if os.path.lexists(folder) and not os.path.isdir(folder):
        raise ChangeRefused(f"{folder}: it is not a folder", 2)
    there = [app for app in apps if os.path.lexists(os.path.join(folder, app))]
    if there:
        raise ChangeRefused(f"{folder}: nothing was written, because {there[0]} is there already and no job file is "
                            "overwritten")


def write(folder: str, lines: dict[str, Line]) -> list[str]:
    """Writes the file of each application, which only its owner may change, and says what there is to say. Raises
    Unwritable."""
    notes = []
    try:
        os.makedirs(folder, 0o755, exist_ok=True)
        for app, line in lines.items():
            path = os.path.join(folder, app)
            number = os.open(path, os.O_WRONLY | os.O_CREAT | os.O_EXCL | os.O_NOFOLLOW, 0o700)
            with open(number, "w", encoding="utf-8", errors="surrogateescape") as file:
                file.write(text_of(line))
                file.flush()
                os.fchmod(number, 0o755)
                os.fsync(number)
        output.sync_folder(os.path.join(folder, "."))
    except OSError as error:
        raise Unwritable(f"{error.filename or folder}: it can't be written: {error.strerror}") from None
    users = sorted({line.user for line in lines.values() if line.user})
    if users:
        notes.append(f"Job files with a user ({', '.join(users)}) run their command by `runuser`, which only root may "
                     "use; an agent of that user runs the command itself.")
    return notes


def text_of(line: Line) -> str:
    """The text of a job file."""
    command, given = parted(line.command)
    variables = dict(line.variables)
    shell = variables.get("SHELL") or USUAL_SHELL
    kept = {"PATH": USUAL_PATH, **{name: value for name, value in variables.items() if name not in NOT_SET}}
    name = re.compile("[A-Za-z_][A-Za-z0-9_]*")
    home = ['HOME=$(getent passwd "$(id -un)" | cut -d : -f 6)', "export HOME"]
    settings = [f"export {name_}={shlex.quote(value)}" for name_, value in kept.items() if name.fullmatch(name_)]
    call = f"{shlex.quote(shell)} -c {shlex.quote(command)}"
    run = call if given is None else f"printf %s {shlex.quote(given)} | {call}"
    run_by_user = [f'if [ "$(id -un)" != {shlex.quote(line.user)} ]; then',
                   f"    exec runuser -u {shlex.quote(line.user)} -- \"$0\" \"$@\"", "fi"] if line.user else []
    return "\n".join(["#!/bin/sh", f"# line {line.number} of a crontab: {printable(line.text)}",
                      "# application, input arrival and serial are its arguments", *run_by_user, *home, *settings,
                      'cd "${HOME:-/}" 2> /dev/null || cd /', run if given is not None else f"exec {run}", ""])


def parted(command: str) -> tuple[str, str | None]:
    """The command of a line, and what it gets as its input: a percent sign ends it, and each further one is an end of a
    line there, but where a backslash is before it."""
    parts = [part.replace("\\%", "%") for part in re.split(r"(?<!\\)%", command)]
    return parts[0], None if len(parts) == 1 else "\n".join(parts[1:]) + "\n"


def printable(text: str) -> str:
    """A line for a remark: in one line, and without what isn't printed."""
    return "".join(letter if letter.isprintable() else " " for letter in text)
