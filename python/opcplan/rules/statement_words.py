"""The words of a statement, and what is wrong with words that are none (docs/rules/STATEMENTS.md)."""

import dataclasses
import difflib
import re
from collections.abc import Iterable, Mapping, Sequence
from typing import Any

from opcplan.errors import Error
from opcplan.rules import hints, moments, statements

Value = Any  # of an option: a number, a day, a moment or a text, as its form says
Values = Mapping[str, Value]
KINDS = statements.KINDS["define"].words
ALONE = {name: kind.words for name, kind in statements.KINDS.items() if kind.words}
NEEDED = {  # the options that have to be there; those of trials stand by the function
    name: options
    for kind in statements.KINDS.values()
    for name, options in ((kind.name, kind.options), *((f"{kind.name} {word}", more) for word, more in kind.by_word))
}
NAMES = list(statements.KINDS)
LIST_OPTIONS = ("app",)  # what `list` may have
COMMENTS = ("#", "//", ";", "--")  # what begins a comment elsewhere
OF_COMMENTS = ": a comment is a line of its own, which begins with `*`"
EXTENSIONS = ("dp-extend", "dp-trial extend")
FORMS = {
    "job": "a number from 1 to 999999999 without a leading zero",
    "app": "a name of 1 to 16 of A to Z, 0 to 9, @, # and $, the first no digit",
    "name": "a name of 1 to 16 of A to Z, 0 to 9, @, # and $, the first no digit",
    "short": "a name of 1 to 8 of A to Z, 0 to 9, @, # and $, the first no digit",
    "day": "a day YYYY-MM-DD from 1972-01-01 to 2071-12-31",
    "moment": "a day, / and a minute, YYYY-MM-DD/HH.MM",
    "days": "a number from 1 to 21 without a leading zero",
    "count": "`A`, all days, or `W`, work days",
}


@dataclasses.dataclass(frozen=True)
class Statement:
    """A statement: its name, its word without an option or None, and the values of its options; and all its words."""

    name: str
    alone: str | None
    values: Values
    words: tuple[str, ...]

    @property
    def job(self) -> int | None:
        """Its job number, or None."""
        job: int | None = self.values.get("job")
        return job

    @property
    def kind(self) -> str:
        """The kind of definitions that a `define` or `undefine` names."""
        assert self.alone is not None, "it has no other form"
        return self.alone

    @property
    def tried(self) -> str:
        """Its name, and for a trial that of the statement that it tries."""
        return f"{self.name.removesuffix('trial')}{self.alone}" if self.name.endswith("-trial") else self.name


class InvalidStatement(Error):
    """Why words are no statement."""


def read(words: Sequence[str]) -> tuple[Statement | None, str]:
    """The statement that words spell and nothing, or None and why they spell none."""
    try:
        return statement_of(words), ""
    except InvalidStatement as why:
        return None, str(why)


def statement_of(words: Sequence[str]) -> Statement:
    name, *rest = words
    if name not in NAMES:
        hint = OF_COMMENTS if name.startswith(COMMENTS) else near(name, NAMES)
        raise InvalidStatement(f"there is no statement `{cut(name)}`" + hint)
    alone, given = parted(rest)
    if name in ALONE:
        check_alone(name, alone)
    elif alone:
        hint = ": a day and its time are one word, 2026-11-25/06.00" if moments.minute_of(alone[0]) is not None else ""
        hint = OF_COMMENTS if alone[0].startswith(("*", *COMMENTS)) else hint or option_meant(name, alone[0], given)
        raise InvalidStatement(f"`{name}` takes no word without an option, but `{cut(alone[0])}` is one{hint}")
    word = alone[0] if alone else None
    what = f"{name} {word}" if name.endswith("-trial") else name
    needed = NEEDED[what]
    if what in EXTENSIONS and set(given) & set(statements.BY_DAYS):
        if "to" in given:
            raise InvalidStatement(f"`{what}` takes `--to`, or `--days` and `--count`, but not both")
        needed = statements.BY_DAYS + needed[1:]
    allowed = LIST_OPTIONS if name == "list" else needed
    for option in given:
        if option not in allowed:
            raise InvalidStatement(f"`{what}` has no option `--{cut(option)}`" + near(option, allowed, "--"))
    for option in needed:
        if option not in given:
            raise InvalidStatement(f"`{what}` lacks its option `--{option}`")
    values = {option: value_of(form_of(what, word, option), option, text) for option, text in given.items()}
    return Statement(name, word, values, tuple(words))


def option_meant(name: str, word: str, given: Iterable[str]) -> str:
    """The option of a statement that takes a word, where there is one such option that isn't given; or nothing."""
    options = [option for option in (LIST_OPTIONS if name == "list" else NEEDED.get(name, ())) if option not in given]
    for text in (word, f"{word}/00.00"):
        found = [option for option in options if spelled(form_of(name, None, option), text) is not None]
        if len(found) == 1:
            return f" (did you mean `--{found[0]} {cut(text)}`?)"
    return ""


def parted(rest: Sequence[str]) -> tuple[list[str], dict[str, str]]:
    """The words without an option, and the texts of the options."""
    alone: list[str] = []
    given: dict[str, str] = {}
    left = list(rest)
    while left:
        word = left.pop(0)
        if not word.startswith("-"):
            alone.append(word)
            continue
        if not word.startswith("--") or word == "--":
            known = {option for needed in NEEDED.values() for option in needed} | {*LIST_OPTIONS, *statements.BY_DAYS}
            meant = f" (did you mean `-{cut(word)}`?)" if word[1:].partition("=")[0] in known else ""
            raise InvalidStatement(f"`{cut(word)}` is neither an option `--name` nor a word{meant}")
        option, equals, value = word[2:].partition("=")
        if option in given:
            raise InvalidStatement(f"the option `--{cut(option)}` is given twice")
        if not equals:
            if not left or left[0].startswith("-"):
                raise InvalidStatement(f"the option `--{cut(option)}` has no value")
            value = left.pop(0)
        given[option] = value
    return alone, given


def check_alone(name: str, alone: list[str]) -> None:
    """Asks that there is one word without an option, of those that the statement takes."""
    known = ", ".join(f"`{word}`" for word in ALONE[name])
    if not alone:
        raise InvalidStatement(f"`{name}` lacks its word: one of {known}")
    if alone[0] not in ALONE[name]:
        raise InvalidStatement(f"`{name}` takes one of {known}, not `{cut(alone[0])}`" + near(alone[0], ALONE[name]))
    if len(alone) > 1:
        hint = OF_COMMENTS if alone[1].startswith(("*", *COMMENTS)) else option_meant(name, alone[1], ())
        raise InvalidStatement(f"`{name}` takes one word without an option, but `{cut(alone[1])}` is one more{hint}")


def form_of(what: str, word: str | None, option: str) -> str:
    """The form of an option's value, a word of FORMS."""
    if option in ("from", "to"):
        return "moment" if what in EXTENSIONS else "day"
    return {"ia": "moment", "name": "short" if word == "periods" else "name"}.get(option, option)


def value_of(form: str, option: str, text: str) -> Value:
    """The value that a text spells."""
    found = spelled(form, text)
    if found is None:
        raise InvalidStatement(f"`--{option}` takes {FORMS[form]}, not `{cut(text)}`" + slip_of(form, text))
    return found


def slip_of(form: str, text: str) -> str:
    """What is likely wrong with a value, where that is easily said, else nothing."""
    said = {"day": hints.of_day, "moment": hints.of_moment}.get(form, lambda _: "")(text)
    bare = text.strip("\"'")
    if not said and bare != text and spelled(form, bare) is not None:
        said = f"without the quotes it would be one, {cut(bare)}"
    if not said and spelled(form, text.upper()) is not None:
        said = f"in capital letters it would be one, {cut(text.upper())}"
    if not said and form == "job" and re.fullmatch("0+[1-9][0-9]{0,8}", text):
        said = f"without the zeros it would be one, {text.lstrip('0')}"
    return f": {said}" if said else ""


def spelled(form: str, text: str) -> Value | None:
    """The value of a text in a form, or None."""
    if form == "job":
        return int(text) if re.fullmatch(r"[1-9][0-9]{0,8}", text) else None
    if form == "days":
        return int(text) if re.fullmatch(r"[1-9]|1[0-9]|2[01]", text) else None
    if form == "count":
        return text if text in ("A", "W") else None
    if form == "day":
        return moments.day_of(text)
    if form == "moment":
        return moments.moment_of(text)
    return text if is_name(text, 8 if form == "short" else 16) else None


def is_name(text: str, longest: int) -> bool:
    """Whether a text is a name of at most so many characters."""
    return re.fullmatch(r"[A-Z@#$][A-Z0-9@#$]{0,%d}" % (longest - 1), text) is not None


def cut(text: str, most: int = 40) -> str:
    """A text that isn't too long to be shown."""
    return text if len(text) <= most else text[: most - 3] + "..."


def near(text: str, known: Iterable[str], before: str = "") -> str:
    """` (did you mean NAME?)` where a known word is like the text, else nothing."""
    found = difflib.get_close_matches(text.lower(), list(known), 1)
    return f" (did you mean `{before}{found[0]}`?)" if found else ""
