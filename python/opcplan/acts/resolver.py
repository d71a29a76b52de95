"""Which occurrence somebody means: `APP`, `APP DAY`, `APP HH.MM`, `APP DAY/HH.MM`, or a serial. No I/O.

What always holds (tests/test_resolver.py tries all texts over small plans): of the rows that a text names, those of the
first group of places that has any fit. One that fits is taken; several are listed, by input arrival, and none is left
out without saying so; if none fits, the nearest live rows of the application before and after are named."""

import re
from collections.abc import Iterable, Sequence
from typing import NamedTuple

from opcplan.acts.world import GONE, World
from opcplan.errors import UsageError
from opcplan.plans.waits import Row
from opcplan.rules import hints, moments, statuses
from opcplan.rules.naming_words import meant_text

SERIAL = re.compile(r"(?:serial +|#)?0{0,8}([1-9][0-9]{0,8})")
NAME = re.compile(r"[A-Z@#$][A-Z0-9@#$]{0,15}")
NO_APP = re.compile("#[0-9]|SERIAL$")  # what alone is more like a mistyped serial; with a day or a minute it is a name
FORMS = "APP, APP DAY, APP HH.MM, APP DAY/HH.MM, or a serial"
ANYWHERE = ("WSEC", "L", "H", "Dowp")  # where a row is looked for if any place fits
MOST_LISTED = 20
STATES = {**statuses.STATES, "W": "waiting"}


class UnknownForm(UsageError):
    """Why a text names no occurrence."""


class Meant(NamedTuple):
    """What a text names: a serial; or an application, with a day or without, and a minute of the day or without."""

    serial: int | None = None
    app: str | None = None
    day: int | None = None
    minute: int | None = None

    @property
    def text(self) -> str:
        """As it is typed."""
        if self.app is None:
            return f"serial {self.serial}"
        day = "" if self.day is None else moments.day_text(self.day)
        minute = "" if self.minute is None else moments.minute_text(self.minute)
        return " ".join(filter(None, [self.app, "/".join(filter(None, [day, minute]))]))

    def fits(self, row: Row) -> bool:
        """Whether it names a row."""
        if self.app is None:
            return row.serial == self.serial
        day, minute = divmod(row.ia, moments.DAY)
        return row.app == self.app and self.day in (None, day) and self.minute in (None, minute)


class Resolved(NamedTuple):
    """The row that is meant; or several that fit; or none, with why, and the nearest rows before and after."""

    row: Row | None = None
    several: tuple[Row, ...] = ()
    why: str = ""
    before: Row | None = None
    after: Row | None = None


def read(words: str | Sequence[str]) -> Meant:
    """What words name. Raises UnknownForm."""
    text = " ".join((words if isinstance(words, str) else " ".join(words)).split())
    found = SERIAL.fullmatch(text)
    if found:
        return Meant(int(found[1]))
    app, _, rest = text.partition(" ")
    name = app.upper()
    if not NAME.fullmatch(name) or not rest and NO_APP.match(name):
        raise UnknownForm(f"{text!r} names no occurrence; name one as {FORMS}")
    return Meant(None, name, *when(rest)) if rest else Meant(None, name)


def when(text: str) -> tuple[int | None, int | None]:
    """The day and the minute that a text names, of which one may be missing. Raises UnknownForm."""
    turned = hints.turned_day(text)
    minute = minute_of(text)
    if minute is not None:
        return None, minute
    if (day := moments.day_of(turned)) is not None:
        return day, None
    moment = moments.typed_moment(text)
    if moment is not None:
        return divmod(moment, moments.DAY)
    wrong = hints.of_moment(text) or "a day is YYYY-MM-DD, a minute HH.MM, and a moment both, with / between them"
    raise UnknownForm(f"{text!r} is neither a day nor a minute nor a moment: {wrong}")


def minute_of(text: str) -> int | None:
    """The minute of `HH.MM` or `HH:MM`, or None."""
    return moments.minute_of(text.replace(":", ".")) if re.fullmatch("[0-9]{2}[.:][0-9]{2}", text) else None


def resolve(world: World, meant: Meant, groups: Iterable[str] = ANYWHERE, near: int | None = None) -> Resolved:
    """Which row is meant, of those in the places of the first group that has any. `near` is the moment whose nearest
    rows are named if there is none, else that which was named, or the plan end."""
    if meant.app is None:
        row = world.row(meant.serial or 0)
        if row is None:
            last = f"the last one is {world.sizes.serials}" if world.sizes.serials else "there is none yet"
            return Resolved(why=f"No occurrence has the serial {meant.serial}: {last}.")
        return Resolved(row) if any(row.place in group for group in groups) else of_other_place(world, meant, [row])
    rows = sorted((row for row in world.rows(meant.app).values() if meant.fits(row)), key=lambda row: (row.ia,
                                                                                                     row.serial))
    for group in groups:
        found = [row for row in rows if row.place in group]
        if len(found) == 1:
            return Resolved(found[0])
        if found:
            return Resolved(several=tuple(found))
    return of_other_place(world, meant, rows, near)


def of_other_place(world: World, meant: Meant, rows: list[Row], near: int | None = None) -> Resolved:
    """Why no row fits of those that are named, which are elsewhere."""
    live = [row for row in rows if row.place not in GONE]
    if len(live) == 1 or not live and len(rows) == 1:
        row = (live or rows)[0]
        return Resolved(why=f"{row.key} {statuses.WHERE[row.place]}.", before=row)
    if live or rows:
        first, last = (live or rows)[0], (live or rows)[-1]
        places = ", ".join(sorted({STATES[row.place] for row in live or rows}))
        return Resolved(why=f"None of the {len(live or rows)} runs of {meant.text}, from "
                        f"{moments.moment_text(first.ia)} to {moments.moment_text(last.ia)}, fits: they are {places}.")
    assert meant.app is not None, "a serial has a row"
    known = world.defined.applications
    everywhere = world.in_order(meant.app)
    if not everywhere:
        lack = "has no run in the plan" if meant.app in known else f"isn't defined{meant_text(meant.app, known)}"
        return Resolved(why=f"The application {meant.app} {lack}.")
    at = moment_of(world, meant, near)
    before = [row for row in everywhere if row.ia <= at]
    after = [row for row in everywhere if row.ia > at]
    found = Resolved(None, (), "", before[-1] if before else None, after[0] if after else None)
    return found._replace(why=f"No run of {meant.app} arrives then{nearest_text(found)}.")


def moment_of(world: World, meant: Meant, near: int | None) -> int:
    """The moment next to which rows are looked for."""
    end = world.bounds.plan_end if world.bounds else 0
    day = (end if near is None else near) // moments.DAY if meant.day is None else meant.day
    if meant.day is None and meant.minute is None:
        return end if near is None else near
    return day * moments.DAY + (meant.minute or 0)


def nearest_text(found: Resolved) -> str:
    """The nearest rows before and after, in words."""
    parts = [f"the last before it is {moments.moment_text(found.before.ia)}" if found.before else "",
             f"the next after it is {moments.moment_text(found.after.ia)}" if found.after else ""]
    text = ", ".join(filter(None, parts))
    return f": {text}" if text else ""


def lines_of(found: Resolved) -> list[str]:
    """Several rows as a numbered list, or where the one is, or why there is none."""
    if found.row is not None:
        return [f"{found.row.key} {statuses.WHERE[found.row.place]} (serial {found.row.serial})."]
    if not found.several:
        return [found.why]
    shown = found.several[:MOST_LISTED]
    wide = len(str(len(shown)))
    lines = [f"{number:{wide}}  {row.key}  {STATES[row.place]}, serial {row.serial}"
             for number, row in enumerate(shown, 1)]
    more = len(found.several) - len(shown)
    return [*lines, *([f"and {more:,} more: name the day, as {shown[0].app} DAY"] if more else [])]
