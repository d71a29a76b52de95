"""Which changes of others have nothing to do with a stream that is still to be done.

A statement on an occurrence (`cp-start`, `cp-add` and so on) reads and changes that occurrence and its pairs, and reads
the status of those that it waits for. So two of them are apart if they are

- on occurrences of two applications of which neither is a predecessor of the other, or
- on two occurrences of one application that isn't its own predecessor, and one of them changes only a status, or the
  application has no predecessors and is none.

What always holds (tests/test_apart.py tries each pair of such statements in a small plan, by the plain planner): of two
statements that are apart, each gets the same reply and changes the same rows, whichever comes first; only the serials
of two occurrences that they make are given in their order."""

from collections.abc import Iterable
from typing import NamedTuple

# statements on one occurrence of the current plan; the first ones change only its status
STATUS = frozenset(("cp-start", "cp-complete", "cp-fail", "cp-reset"))
ON_ONE = STATUS | {"cp-add", "cp-delete"}


class OnOne(NamedTuple):
    """A statement on one occurrence of the current plan."""

    name: str
    app: str
    ia: str


class Apart:
    """What is near a stream with these changes, by their lines. `links` has pairs of an application and one that it
    has, or had, as a predecessor."""

    def __init__(self, changes: Iterable[str], links: Iterable[tuple[str, str]]) -> None:
        self.changes = {on_one(line) for line in changes}
        self.links: dict[str, set[str]] = {}
        for later, earlier in links:
            self.links.setdefault(later, set()).add(earlier)
            self.links.setdefault(earlier, set()).add(later)

    def is_apart(self, line: str) -> bool:
        """Whether a change with this line has nothing to do with the stream."""
        return all(self.are_apart(on_one(line), own) for own in self.changes)

    def are_apart(self, one: OnOne | None, other: OnOne | None) -> bool:
        """Whether two statements are apart; any other one (None) may depend on the whole plan."""
        if one is None or other is None:
            return False
        near = self.links.get(one.app, set())
        if one.app != other.app:
            return other.app not in near
        return one.ia != other.ia and one.app not in near and (not near or bool({one.name, other.name} & STATUS))


def on_one(line: str) -> OnOne | None:
    """A statement on one occurrence of the current plan, by its line, or None if it is another one."""
    name, *words = line.replace("=", " ").split() or [""]
    options = dict(zip(words, words[1:]))
    if name not in ON_ONE or "--app" not in options or "--ia" not in options:
        return None
    return OnOne(name, options["--app"], options["--ia"])
