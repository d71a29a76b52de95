"""An occurrence as somebody types or pastes it: its application and input arrival, or its serial."""

import argparse
import contextlib
import re
import shlex
from collections.abc import Callable, Sequence
from typing import Any, NamedTuple

from opcplan.acts import resolver
from opcplan.acts.resolver import Meant
from opcplan.cli import words
from opcplan.errors import UsageError
from opcplan.plans import waits
from opcplan.plans.plan_file import Plan
from opcplan.plans.waits import Row
from opcplan.rules import hints, moments

HELP = "APP D/HH.MM or APP D HH.MM, or its serial: 123, or '#123' in quotes, because # begins a comment in a shell"
SHORTER = "APP, APP D or APP HH.MM if one fits"


class Key(NamedTuple):
    """An occurrence by its serial, or by application and input arrival; the other fields are None. `meant` names one
    by its application alone, or also by its day or minute."""

    serial: int | None
    app: str | None
    ia: int | None
    meant: Meant | None = None


class Found(NamedTuple):
    """What a key names: application and input arrival, and the rows that have them."""

    app: str
    ia: int
    rows: list[Row]


Read = Callable[[list[str]], Key]


def add_key(parser: words.Parser) -> None:
    """The words that name an occurrence, as `given.key`."""
    add(parser, key_of, f"the occurrence: {HELP}; {SHORTER}")


def add_key_of_day(parser: words.Parser) -> None:
    """The words that name a day of an application, or an occurrence on it, as `given.key`."""
    add(parser, key_of_day, f"the application and the day, APP D; or an occurrence on that day: {HELP}")


def add(parser: words.Parser, read: Read, help_text: str) -> None:
    """The words of a key, with how they are read and what the help says."""
    action = parser.add_argument("key", metavar="KEY", nargs="+", action=Reading, read=read, help=help_text)
    words.offer(action, names=["applications"])
    parser.is_mixed = True


class Reading(argparse.Action):
    """Takes all words of a key at once."""

    def __init__(self, read: Read, **given: Any) -> None:
        super().__init__(**given)
        self.read = read

    def __call__(
        self,
        parser: argparse.ArgumentParser,
        namespace: argparse.Namespace,
        values: str | Sequence[Any] | None,
        option_string: str | None = None,
    ) -> None:
        try:
            setattr(namespace, self.dest, self.read(list(values or ())))
        except argparse.ArgumentTypeError as error:
            raise argparse.ArgumentError(self, str(error)) from None


def key_of(given: list[str]) -> Key:
    """The key that words spell."""
    with contextlib.suppress(resolver.UnknownForm):
        meant = resolver.read(given)
        if meant.app is not None and (meant.day is None or meant.minute is None):
            return Key(None, meant.app, None, meant)
    return serial_key(given) or app_key(given, words.moment)


def key_of_day(given: list[str]) -> Key:
    """The key that words spell; where they name a day alone, its first minute is the arrival."""

    def moment(text: str) -> int:
        is_day = hints.turned_day(text) != text or not re.search("[.:]", text)
        return words.day(text) * moments.DAY if is_day else words.moment(text)

    return serial_key(given) or app_key(given, moment)


def serial_key(given: list[str]) -> Key | None:
    """The key of `#123`, `123` or `serial 123`; None where the words spell no serial."""
    found = re.fullmatch(r"(?:serial +|#)?0{0,8}([1-9][0-9]{0,8})", " ".join(given))
    return Key(int(found[1]), None, None) if found else None


def app_key(given: list[str], read: Callable[[str], int]) -> Key:
    """The key of an application and what stands behind it."""
    app, *rest = " ".join(given).split() or [""]
    if not rest:
        raise argparse.ArgumentTypeError(f"{app!r} is neither a serial nor an application with its input arrival")
    name = words.name(app)
    try:
        return Key(None, name, read(" ".join(rest)))
    except argparse.ArgumentTypeError:
        for count in range(len(rest) - 1, 0, -1):
            with contextlib.suppress(argparse.ArgumentTypeError):
                read(" ".join(rest[:count]))
                raise TooManyWords(too_many_text(name, " ".join(rest[:count]), " ".join(rest[count:]))) from None
        raise


class TooManyWords(UsageError):
    """What stands behind the words of a key."""


def too_many_text(app: str, key: str, more: str) -> str:
    """That words stand behind a key, and what is likely meant by them."""
    text = f"{app} {key} is the whole key, so {more} is too much"
    if moments.day_of(more) is not None:
        return f"{text}; `./plan days PLAN.db {app} --from D --to D` lists the days"
    if moments.minute_of(more.replace(":", ".")) is not None or moments.typed_moment(more) is not None:
        return f"{text} (did you mean --now {shlex.quote(more)}?)"
    return text


def rows_of(plan: Plan, key: Key) -> Found | None:
    """What a key names, of the rows that of its serial first, else the live one; None where nothing has the serial."""
    if key.serial is None:
        assert key.app is not None and key.ia is not None, "a key without a serial has both"
        return Found(key.app, key.ia, waits.rows_of_key(plan, key.app, key.ia))
    named = waits.rows_where(plan, "serial = :v0", key.serial)
    if not named:
        return None
    row = named[0]
    others = [other for other in waits.rows_of_key(plan, row.app, row.ia) if other != row]
    return Found(row.app, row.ia, [row, *others])


def unknown_text(plan: Plan, key: Key) -> str:
    """That no occurrence has the serial of a key."""
    issued = plan.meta["issued"]
    last = f"the last one is {issued}" if issued else "there is none yet"
    return f"No occurrence has the serial {key.serial}: {last}."
