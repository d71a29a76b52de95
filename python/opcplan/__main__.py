"""./plan SUBCOMMAND: what an operator asks of a plan or a stream. agent, desk, roll, run, send, restore change one."""

from __future__ import annotations

import os
import sys

from opcplan.cli import output, signals
from opcplan.errors import Error, UsageError
from opcplan.plans import tempfiles

TYPE_CHECKING = False  # as in `typing`; what --help doesn't need is imported where it is needed
if TYPE_CHECKING:
    import argparse
    from typing import Protocol

    from opcplan.cli import words

    class Command(Protocol):
        """A subcommand: its module in the package commands."""

        SUMMARY: str

        def add_words(self, parser: words.Parser) -> None:
            """Adds its words to a parser."""

        def run(self, given: argparse.Namespace) -> int:
            """Does what the words ask for; the exit status."""

GROUPS = {
    "What is in a plan:": (
        "status", "page", "late", "ready", "next", "day", "rows", "why", "why-day", "cal", "days", "export",
    ),
    "Job streams, before they are run and after:": ("lint", "check", "what-if", "run", "send", "explain", "next-job"),
    "What an operator does, with a preview:": ("start", "complete", "fail", "reset", "delete", "cancel", "rerun",
                                               "move", "add", "undo"),
    "Definitions of a plan, as job streams:": ("init", "dump", "edit", "import"),
    "One plan for many callers:": ("desk", "log", "journal", "agent"),
    "An unattended plan:": ("roll", "watch"),
    "Copies of a plan:": ("backup", "restore"),
}
SUBCOMMANDS = [name for names in GROUPS.values() for name in names]
# what somebody may call a subcommand
OTHERWISE = {
    "list": "rows", "show": "rows", "ls": "rows", "jobs": "journal", "new": "init",
    "create": "init", "restart": "rerun", "repeat": "rerun", "skip": "cancel", "reschedule": "move", "revert": "undo",
    "holidays": "import", "holiday": "edit", "crontab": "import", "cron": "import", "html": "page",
    "graph": "page", "ics": "export", "csv": "export", "json": "export", "gendays": "days", "calendar": "cal",
    "year": "cal", "copy": "backup", "diff": "what-if", "try": "what-if", "trial": "what-if", "serve": "desk",
    "extend": "roll", "alarm": "watch", "monitor": "watch", "server": "desk", "print": "rows",
    "today": "status", "summary": "status", "overview": "status",
}
# what does a thing that somebody asks for by a name, where more has to be said than another name
DOES = {
    "gantt": "`./plan page PLAN.db` draws each day, a box for each occurrence from its input arrival to its deadline",
    "chart": "`./plan page PLAN.db` draws each day, a box for each occurrence from its input arrival to its deadline",
    "history": "`./plan rows PLAN.db history` prints what is complete, and `./plan journal PLAN.db` who did what",
    "forecast": "`./plan late PLAN.db --journal FILE` says when the rest is likely to end, and `./plan next PLAN.db "
                "APP` which runs come",
}
WITH_TRACEBACK = "PLAN_TRACEBACK"
DEFECT = 3
END = """
`./plan SUBCOMMAND --help` shows its words. The exit status is 0; 1 if nothing is found, something has to be repaired,
or a file can't be read or written; 2 if the words are wrong; 3 after a defect of ./plan itself. run and send have those
of opcplan. If a signal stops ./plan, it ends by that signal and leaves nothing behind. python/opcplan/plans/views.sql
has views for sqlite3."""


def module_name(name: str) -> str:
    """The name of the module of a subcommand."""
    import keyword

    return name.replace("-", "_") + "_" * keyword.iskeyword(name)


def module_of(name: str) -> Command:
    """The module of a subcommand."""
    import importlib
    from typing import cast

    return cast("Command", importlib.import_module(f"opcplan.commands.{module_name(name)}"))


def summary_of(name: str) -> str:
    """The SUMMARY of a subcommand, read from the text of its module: not one of them is imported for it."""
    path = os.path.join(os.path.dirname(os.path.abspath(__file__)), "commands", f"{module_name(name)}.py")
    with open(path, encoding="utf-8") as file:
        line = next((line for line in file if line.startswith("SUMMARY = ")), "")
    text = line.removeprefix('SUMMARY = "').removesuffix('"\n')
    is_plain = len(line) - len(text) == len('SUMMARY = ""\n') and not {'"', "\\"} & {*text}
    return text if is_plain else module_of(name).SUMMARY


def help_text() -> str:
    """What `./plan --help` prints."""
    width = max(map(len, SUBCOMMANDS))
    about = __doc__.partition(": ")[2]
    lines = ["usage: ./plan SUBCOMMAND ... | --help | --version", "", about[0].upper() + about[1:]]
    for title, names in GROUPS.items():
        lines += ["", title, *(f"  {name:{width}}  {summary_of(name)}" for name in names)]
    return "\n".join([*lines, END])


def parser_of(name: str) -> words.Parser:
    """The parser of a subcommand's words."""
    from opcplan.cli import words

    module = module_of(name)
    parser = words.Parser(prog=f"{words.CALLED} {name}", description=module.SUMMARY)
    module.add_words(parser)
    return parser


def meant_text(word: str) -> str:
    """What does the thing that a word names which is no subcommand, or ` (did you mean NAME?)` where it is like one or
    another name for one; else nothing."""
    from opcplan.rules import naming_words

    if word.lower() in DOES:
        return f": {DOES[word.lower()]}"
    other = OTHERWISE.get(word.lower())
    return f" (did you mean {other}?)" if other else naming_words.meant_text(word, SUBCOMMANDS)


def ask(name: str, given: list[str]) -> int:
    """The exit status of a subcommand with its words."""
    return module_of(name).run(parser_of(name).parse_args(given))


def main(given: list[str]) -> int:
    """The exit status of the words of a command line."""
    if given[:1] == ["help"] and len(given) > 1:
        given = [given[1], "--help"]
    if given[:1] in (["-h"], ["--help"], ["help"]):
        print(help_text())
        return 0
    if given in (["-V"], ["--version"]):
        from opcplan.cli import version

        print("\n".join(version.lines()))
        return 0
    if given[:1] == ["--names"] and len(given) == 3:  # which a shell asks that completes words
        from opcplan.plans import plan_names

        print("\n".join(plan_names.of_file(given[2], given[1].split(","))))
        return 0
    if not given or given[0] not in SUBCOMMANDS:
        problem = f"there is no subcommand {given[0]!r}{meant_text(given[0])}" if given else "the subcommand is missing"
        raise UsageError(f"{problem}; ./plan --help lists all")
    return ask(given[0], given[1:])


def status_of(given: list[str]) -> int:
    """The exit status, with all printed; what isn't done is told in a sentence, and where a defect is, if asked for."""
    status = 0
    try:
        try:
            status = main(given)
        except SystemExit as ended:  # help
            status = int(ended.code or 0)
        except Error as error:
            status = ended_by(error)
        sys.stdout.flush()
        return status
    except BrokenPipeError:  # who reads what is printed has enough
        return status
    except Error as error:
        return ended_by(error)
    except MemoryError:
        print_message("memory was refused")
    except OSError as error:
        print_message(f"{error.filename}: {error.strerror}" if error.filename else f"{error.strerror or error}")
    except Exception as error:
        if os.environ.get(WITH_TRACEBACK):
            raise
        what = f"{type(error).__name__}: {error}"
        print_message(f"this is a defect of ./plan: {what}; run it with {WITH_TRACEBACK}=1 to see where")
        return DEFECT
    return 1


def print_message(message: str) -> None:
    """Says something on standard error, in one line."""
    from opcplan.cli import words

    words.print_message(message)


def ended_by(error: Error) -> int:
    """Says what isn't done, and why; the exit status."""
    print_message(str(error))
    return error.exit_status


def run(given: list[str]) -> None:
    """Ends the process, by the signal that stopped it or with its status; nothing of its own is left."""
    status: int | None = None
    number: int | None = None
    try:
        try:
            output.prepare()
            signals.catch()
            status = status_of(given)
        finally:
            signals.ignore()
    except signals.SignalReceived as stopped:
        number = stopped.number
    finally:
        tempfiles.drop_all()
    if number:
        signals.end_by(number)
    sys.exit(status)


def run_words() -> None:
    """Runs the words of the command line."""
    run(sys.argv[1:])


if __name__ == "__main__":
    run_words()
