"""The statements of an act, one after the other, and their text as a stream. No I/O."""

from collections.abc import Iterable
from typing import NamedTuple

from opcplan.errors import Error
from opcplan.rules import moments, statement_words, statements, stream
from opcplan.rules.statements import Role

NO_JOB = b" --job 1"  # what a line gets to be read, whose number is still to be given


class NoSteps(Error):
    """Why a text isn't that of an act."""


class Step(NamedTuple):
    """A statement without its job number: on the occurrence of a key, of an application alone (no input arrival), or of
    definitions of a kind: with data, or the name that is removed."""

    name: str
    app: str
    ia: int | None = None
    kind: str = ""
    data: str = ""

    @property
    def line(self) -> str:
        """The words of its line."""
        if self.name == "define":
            return f"define {self.kind}"
        if self.name == "undefine":
            return f"undefine {self.kind} --name {self.app}"
        when = "" if self.ia is None else f" --ia {moments.moment_word(self.ia)}"
        return f"{self.name} --app {self.app}{when}"

    @property
    def text(self) -> str:
        """Its part of a stream, which lacks the job number."""
        return self.numbered("")

    def numbered(self, words: str) -> str:
        """Its part of a stream, with more words on its line."""
        data = f"{self.data}/*\n" if self.name == "define" else ""
        return f"{self.line}{words}\n{data}"

    @property
    def role(self) -> Role:
        """The role that a desk asks for."""
        return statements.KINDS[self.name].role


def text_of(steps: Iterable[Step]) -> str:
    """The stream of steps, in which a desk gives the job numbers."""
    return "".join(step.text for step in steps)


def numbered(steps: Iterable[Step], numbers: Iterable[int]) -> str:
    """The stream of steps with their job numbers."""
    return "".join(step.numbered(f" --job {number}") for step, number in zip(steps, numbers))


def role_of(steps: Iterable[Step]) -> Role:
    """The greatest role that a desk asks for."""
    return max((step.role for step in steps), default=Role.READ)


def of_text(text: str) -> list[Step]:
    """The steps of a text that `text_of` made. Raises NoSteps."""
    found = []
    for item in stream.steps(text.encode("utf-8", "replace"), "the stream", read_line):
        if item is not None:
            found.append(of_item(item))
    return found


def read_line(line: bytes, length: int) -> tuple[statement_words.Statement | None, str]:
    """The statement of a line that has no job number, or None and why the line is none."""
    return stream.read_line(line + NO_JOB, length + len(NO_JOB))


def of_item(item: stream.Item) -> Step:
    """The step of an item. Raises NoSteps."""
    asked = item.statement
    if asked is None or item.has_data and item.data is None:
        why = item.wrong or "its data have no end"
        raise NoSteps(f"line {item.line} of the stream is no statement of an act: {why}")
    if asked.name == "define":
        return Step("define", "", None, asked.kind, (item.data or b"").decode("utf-8", "replace"))
    if asked.name == "undefine":
        return Step("undefine", asked.values["name"], None, asked.kind)
    if asked.name != "ltp-modify-one" and not statements.KINDS[asked.name].is_on_key:
        raise NoSteps(f"no act has the statement `{asked.name}`")
    return Step(asked.name, asked.values["app"], asked.values.get("ia"))
