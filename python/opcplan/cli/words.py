"""The words of a subcommand: what `argparse` asks of them here, and what is told where they are wrong. What only wrong
words need is imported where it is needed."""

import argparse
import contextlib
import itertools
import os
import re
import sys
from collections.abc import Callable, Iterable, Sequence
from typing import Any, NoReturn

from opcplan.errors import UsageError
from opcplan.rules import moments, printable

CALLED = "./plan"  # by make install as the command is called there

NAME = re.compile(r"[A-Z@#$][A-Z0-9@#$]{0,15}")


def print_message(message: str) -> None:
    """Says something on standard error, in one line. Where it takes nothing, nobody can be told."""
    try:
        print(printable.fit(f"{os.path.basename(CALLED)}: {message}"), file=sys.stderr, flush=True)
    except OSError:
        sys.stderr = open(os.devnull, "w", encoding="utf-8")


class Formatter(argparse.HelpFormatter):
    """The form of a help, as wide as the terminal. `argparse` itself would import `shutil` for that, and with it all
    that compresses files."""

    def __init__(self, prog: str, indent_increment: int = 2, max_help_position: int = 24,
                 width: int | None = None) -> None:
        super().__init__(prog, indent_increment, max_help_position, columns() - 2 if width is None else width)


def columns() -> int:
    """How many columns a terminal has: by COLUMNS, or by the terminal itself, or 80."""
    with contextlib.suppress(KeyError, ValueError):
        if (count := int(os.environ["COLUMNS"])) > 0:
            return count
    with contextlib.suppress(AttributeError, ValueError, OSError):
        if sys.__stdout__ is not None and (count := os.get_terminal_size(sys.__stdout__.fileno()).columns) > 0:
            return count
    return 80


class Parser(argparse.ArgumentParser):
    """A parser that raises UsageError, in one line."""

    def __init__(self, *, formatter_class: type[argparse.HelpFormatter] = Formatter, **given: Any) -> None:
        super().__init__(formatter_class=formatter_class, **given)

    is_mixed = False  # whether options may stand between words that belong together
    typed: Sequence[str] = ()  # the words that it was given
    likely: Callable[[Sequence[str]], str] | None = None  # what words that aren't taken lack, or nothing

    def error(self, message: str) -> NoReturn:
        why = self.unknown_option(message) or self.without_option(message) or self.plan_behind() or \
            self.likely and self.likely(self.typed) or message.replace("unrecognized arguments", "one word too many")
        raise UsageError(f"{why}; {self.prog} --help says more")

    def unknown_option(self, message: str) -> str:
        """That the words have an option which isn't known, or nothing. What `argparse` misses it says first."""
        if not message.startswith(("the following arguments are required", "unrecognized arguments")):
            return ""
        known = [one for one in self._option_string_actions if one.startswith("--")]
        for word in itertools.takewhile(lambda word: word != "--", self.typed):
            option = word.partition("=")[0]
            if option.startswith("--") and not any(one.startswith(option) for one in known):
                import difflib

                near = difflib.get_close_matches(option, known, 1)
                return f"there is no option {option}{f' (did you mean {near[0]}?)' if near else ''}"
        return ""

    def plan_behind(self) -> str:
        """How the words go where the plan's file is not the first of them, but behind others; or nothing."""
        if not any(action.dest == "plan" and not action.option_strings for action in self._actions):
            return ""
        given = self.words_in_place()
        behind = next((word for word in given[1:] if is_database(word)), None)
        if behind is None or os.path.exists(given[0]):
            return ""
        rest = list(self.typed)
        rest.remove(behind)
        import shlex

        return f"PLAN.db comes first: {shlex.join([*self.prog.split(), behind, *rest])}"

    def without_option(self, message: str) -> str:
        """Which words lack the option that takes them, or nothing where another thing is wrong with the words."""
        from opcplan.cli import bare_words

        line = bare_words.Line(self._actions, self.typed, is_database)
        if "--" in self.typed or message.startswith("argument -") and not any(one.nargs == "+" for one in line.given):
            return ""
        return bare_words.problem(self.prog, line, message.startswith("unrecognized"))

    def words_in_place(self) -> list[str]:
        """The words that are neither options nor their values."""
        found: list[str] = []
        is_value = False
        for word in self.typed:
            action = self._option_string_actions.get(word)
            if not is_value and action is None and not word.startswith("--"):
                found.append(word)
            is_value = action is not None and action.nargs != 0
        return found

    def parse_known_args(
        self, args: Sequence[str] | None = None, namespace: argparse.Namespace | None = None
    ) -> tuple[argparse.Namespace, list[str]]:
        """Notes the words, so that what is wrong with them can be told."""
        self.typed = self.typed or list(sys.argv[1:] if args is None else args)
        return super().parse_known_args(args, namespace)

    def parse_args(  # type: ignore[override]  # argparse has overloads, of which these words are all
        self, args: Sequence[str] | None = None, namespace: argparse.Namespace | None = None
    ) -> argparse.Namespace:
        """The words; a day and a time that stand apart, as lists print them, are one moment."""
        given = self.typed = joined(sys.argv[1:] if args is None else args)
        if self.is_mixed:
            return self.parse_intermixed_args(given, namespace)
        return super().parse_args(given, namespace)


def is_database(path: str) -> bool:
    """Whether a word names a file that is a database."""
    from opcplan.plans import plan_file

    return plan_file.is_database(path)


def joined(given: Sequence[str]) -> list[str]:
    """Words, of which a day and the time after it are one."""
    found: list[str] = []
    for word in given:
        if found and moments.day_of(found[-1]) is not None and moments.typed_moment(f"{found[-1]} {word}") is not None:
            word = f"{found.pop()} {word}"
        found.append(word)
    return found


def day(text: str) -> int:
    """A day, for `type=`."""
    found = moments.day_of(text)
    if found is None:
        from opcplan.rules import hints

        raise argparse.ArgumentTypeError(f"{text!r} is not a day such as 2026-11-25{hint_text(hints.of_day(text))}")
    return found


def moment(text: str) -> int:
    """A moment, for `type=`."""
    found = moments.typed_moment(text)
    if found is None:
        from opcplan.rules import hints

        raise argparse.ArgumentTypeError(f"{text!r} is not a moment such as "
                                         f"2026-11-25/06.00{hint_text(hints.of_moment(text))}")
    return found


def now(text: str) -> int:
    """A moment, or a minute of the clock's day, for `type=`."""
    minute = moments.minute_of(text.replace(":", "."))
    return moment(text) if minute is None else moments.now() // moments.DAY * moments.DAY + minute


def hint_text(slip: str) -> str:
    """What is said behind a word that is not taken, where more than its form can be said."""
    return f": {slip}" if slip else ""


def name(text: str) -> str:
    """The name of an application, for `type=`; small letters are taken as capitals."""
    if not NAME.fullmatch(text.upper()):
        raise argparse.ArgumentTypeError(f"{text!r} is not the name of an application")
    return text.upper()


def span(text: str) -> int:
    """A span of time in seconds, for `type=`."""
    from opcplan.rules import amounts

    found = amounts.seconds_of(text)
    if found is None:
        raise argparse.ArgumentTypeError(f"{text!r} is not a span of time such as 90d, 12h or 4w")
    return found


def size(text: str) -> int:
    """A size in bytes, 0 too, for `type=`."""
    from opcplan.rules import amounts

    found = 0 if text == "0" else amounts.bytes_of(text)
    if found is None:
        raise argparse.ArgumentTypeError(f"{text!r} is not a size such as 64K, 500M or 2G")
    return found


def file(text: str) -> str:
    """The name of a file, for `type=`."""
    if not text:
        raise argparse.ArgumentTypeError("'' is not the name of a file")
    if text.startswith(("http://", "https://")):
        raise argparse.ArgumentTypeError(f"{text!r} is the address of a desk, not a file")
    return text


def add_plan(parser: argparse.ArgumentParser, may_lack: str = "") -> None:
    """The word that names the plan's file, as `words.plan`, and the option that has it checked anew. `may_lack` says
    where the word may be lacking."""
    more: dict[str, Any] = {"nargs": "?"} if may_lack else {}
    parser.add_argument("plan", metavar="PLAN.db", type=file, help=f"the file that opcplan --db keeps{may_lack}",
                        **more)
    parser.add_argument("--again", action=Again, nargs=0,
                        help="check PLAN.db again, even if it hasn't changed since the last check")


class Again(argparse.Action):
    """Has each file checked anew."""

    def __call__(self, *_: object, **__: object) -> None:
        from opcplan.plans import kept_checks  # which no help needs

        kept_checks.distrust()


def add_stream(parser: argparse.ArgumentParser) -> None:
    """The word that names a job stream, as `words.stream`."""
    parser.add_argument("stream", metavar="STREAM", type=file, help="a file with a job stream, or - for standard input")


def offer(action: argparse.Action, texts: Iterable[str] = (), names: Iterable[str] = ()) -> None:
    """Notes what a shell completes where a word is expected: texts, and names of the plan by their kinds."""
    setattr(action, "offered", list(texts))
    setattr(action, "names", list(names))


def add_now(parser: argparse.ArgumentParser) -> None:
    """The option that says what time it is, as `words.now`."""
    parser.add_argument("--now", type=now, metavar="D/HH.MM",
                        help="as of this moment, or of HH.MM of today (else the clock's)")


def add_journal(parser: argparse.ArgumentParser) -> None:
    """The option that names a journal, as `words.journal`."""
    parser.add_argument("--journal", type=file, metavar="FILE",
                        help="the journal of the plan's desk, to show when jobs ran and when the rest is likely to end")
