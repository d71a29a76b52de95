"""Words of a command line that stand alone where an option takes them: which options are likely meant.

- A word is misplaced if no place is left for it, or if the next place may stay empty and doesn't take it, and an option
  does. PLAN.db has the first place, wherever it was typed.
- An option is meant by a misplaced word if it takes the word, wasn't given, and no earlier word of the line has it.
- A word that nothing takes is one too many. No word is dropped in silence."""

import argparse
import os
import re
import shlex
from collections.abc import Callable, Sequence

# what stands for a word that isn't checked by its type: the forms of addresses
FORMS = {"DESK": r"https?://\S+", "HOST:PORT": r"[^\s/]*:[0-9]{1,5}"}
# what the names of files end in that an option takes
ENDINGS = {"--journal": [".journal"], "--ics": [".ics"], "--csv": [".csv"], "--socket": [".socket", ".sock"]}
# options with files that a bare word hardly means
RARE = {"--program", "--log", "--users", "--tokens", "--etcd-ca", "--etcd-cert", "--etcd-key", "--etcd-user"}
FOLDERS = {"DIR", "FOLDER"}
A_DAY = re.compile(r"[0-9]{4}-[0-9]{2}-[0-9]{2}")


class Line:
    """The words of a command line by the actions of its parser; `is_database` says whether a word names such a file."""

    def __init__(self, actions: Sequence[argparse.Action], typed: Sequence[str],
                 is_database: Callable[[str], bool]) -> None:
        self.options = [action for action in actions if action.option_strings and action.dest != "help"]
        self.places = [action for action in actions if not action.option_strings]
        self.is_database = is_database
        self.given: set[argparse.Action] = set()
        self.bare: list[str] = []
        self.rest: list[str] = []  # the words without the bare ones
        self.read(typed)

    def read(self, typed: Sequence[str]) -> None:
        """Parts the words that stand alone from options and their values."""
        left = list(typed)
        while left:
            word = left.pop(0)
            action = self.option_of(word)
            if action is None:
                (self.rest if word.startswith("--") and len(word) > 2 else self.bare).append(word)
                continue
            self.given.add(action)
            self.rest.append(word)
            if action.nargs == "+":
                while left and not left[0].startswith("-") and takes(action, left[0]):
                    self.rest.append(left.pop(0))
            elif action.nargs != 0 and "=" not in word and left:
                self.rest.append(left.pop(0))

    def option_of(self, word: str) -> argparse.Action | None:
        """The option that a word names, also where it is cut short; or None."""
        name = word.partition("=")[0]
        if not name.startswith("-") or len(name) < 2:
            return None
        whole = [one for one in self.options if name in one.option_strings]
        near = [one for one in self.options if name.startswith("--") and
                any(string.startswith(name) for string in one.option_strings)]
        found = whole or near
        return found[0] if len(found) == 1 else None

    def misplaced(self) -> tuple[list[str], list[str]]:
        """The words that have a place, and those that have none."""
        placed: list[str] = []
        without: list[str] = []
        places = list(self.places)
        for word in self.in_order():
            if places and nargs_of(places[0]) not in (None, "?"):
                placed.append(word)  # that place takes all words
            elif not places or self.is_foreign(places[0], word):
                without.append(word)
            else:
                placed.append(word)
                places.pop(0)
        return placed, without

    def in_order(self) -> list[str]:
        """The words that stand alone, PLAN.db first where that is the first place."""
        plan = next((word for word in self.bare if self.is_database(word)), None)
        if plan is None or not self.places or self.places[0].dest != "plan" or self.is_database(self.bare[0]):
            return self.bare
        rest = list(self.bare)
        rest.remove(plan)
        return [plan, *rest]

    def is_foreign(self, place: argparse.Action, word: str) -> bool:
        """Whether a place doesn't need a word, and an option takes it. Where a place takes some words alone, a name in
        small letters is rather one of these that was mistyped."""
        if takes(place, word):
            return False
        if nargs_of(place) != "?":
            return any(takes_form(one, word) for one in self.options)
        found = self.meant(word, set())
        if place.choices is not None and word != word.upper():
            return any(not is_named(one) for one in found)
        return bool(found)

    def meant(self, word: str, used: set[argparse.Action]) -> list[argparse.Action]:
        """The options that a word is likely meant for."""
        free = [one for one in self.options if one not in used and (one not in self.given or is_repeated(one))]
        found = [one for one in free if one.nargs == 0 and f"--{word}" in one.option_strings]
        found = found or [one for one in free if one.nargs != 0 and one.choices is not None and takes(one, word)]
        found = found or [one for one in free if takes_form(one, word)]
        found = found or [one for one in free if is_typed(one) and takes(one, word)]
        if word != word.upper() and not all(map(is_named, found)):
            found = [one for one in found if not is_named(one)]
        if {one.option_strings[0] for one in found} == {"--from", "--to"}:
            found = [one for one in found if one.option_strings[0] == "--from"]
        if all(map(is_named, found)) and word != word.upper():
            found = self.files(word, free) or found
        return found

    def files(self, word: str, free: Sequence[argparse.Action]) -> list[argparse.Action]:
        """The options that take a word as the name of a file."""
        taking = [one for one in free if is_file(one) and one.option_strings[-1] not in RARE]
        if self.is_database(word):
            return [one for one in taking if str(one.metavar).endswith(".db")]
        taking = [one for one in taking if not str(one.metavar).endswith(".db")]
        taking = [one for one in taking if one.metavar not in FOLDERS or one.required or os.path.isdir(word)]
        taking = [one for one in taking if one.required] or taking
        if by_end := [one for one in taking if word.endswith(tuple(ENDINGS.get(one.option_strings[-1], ())))]:
            return by_end
        return [one for one in taking if one.option_strings[-1] not in ENDINGS]


def takes(action: argparse.Action, word: str) -> bool:
    """Whether an option or a place takes a word."""
    value: object = word
    if action.type is not None:
        try:
            value = action.type(word)
        except (argparse.ArgumentTypeError, ValueError, TypeError):
            return False
    return action.choices is None or value in action.choices


def nargs_of(place: argparse.Action) -> object:
    """How many words a place takes, also while `argparse` reads the options alone."""
    return getattr(place, "save_nargs", place.nargs) if place.nargs == argparse.SUPPRESS else place.nargs


def is_repeated(action: argparse.Action) -> bool:
    """Whether an option may be given more than once."""
    return isinstance(action, argparse._AppendAction)  # argparse has no other name for it


def is_file(action: argparse.Action) -> bool:
    """Whether an option takes any name of a file."""
    return getattr(action.type, "__name__", "") == "file"


def is_named(action: argparse.Action) -> bool:
    """Whether an option takes the name of an application or a calendar, which nearly any word may be."""
    return getattr(action.type, "__name__", "") == "name"


def is_typed(action: argparse.Action) -> bool:
    """Whether an option takes words of a form alone."""
    return action.nargs != 0 and action.type is not None and not is_file(action) and action.metavar not in FORMS


def takes_form(action: argparse.Action, word: str) -> bool:
    """Whether an option takes an address, and a word is one."""
    form = FORMS.get(str(action.metavar))
    return form is not None and action.nargs != 0 and re.fullmatch(form, word) is not None


def problem(called: str, line: Line, is_too_many: bool) -> str:
    """What is wrong with words that stand alone where an option takes them, and what to type; or nothing.
    `is_too_many`: whether the parser has found a word for which it has no place."""
    placed, misplaced = line.misplaced()
    used: set[argparse.Action] = set()
    typed: list[str] = []
    for word in misplaced:
        found = line.meant(word, used)
        names = [one.option_strings[-1] for one in found]
        if not found:
            return f"{word!r} is one word too many{moment_text(line, word)}" if is_too_many else ""
        if len(found) > 1:
            return f"{word!r} needs an option before it: {', '.join(names[:-1])} or {names[-1]}"
        used.add(found[0])
        typed += [f"--{word}"] if found[0].nargs == 0 else [names[0], word]
    if not typed:
        return ""
    which = f"{', '.join(misplaced[:-1])} and {misplaced[-1]} need their options" if misplaced[1:] else \
        f"{misplaced[0]} needs its option"
    return f"{which}: {shlex.join([*called.split(), *placed, *line.rest, *typed])}"


def moment_text(line: Line, word: str) -> str:
    """How a day is given where a moment alone is taken, or nothing."""
    is_meant = A_DAY.fullmatch(word) and any(takes(one, f"{word}/00.00") for one in line.options if is_typed(one))
    return f": a moment goes with --now, as `--now {word}/06.00`" if is_meant else ""
