"""A job stream as its items: which lines are statements, which are data, and which are passed over
(docs/rules/STREAM.md).

It is read as opcplan reads it, a line at a time; of a long line or block no more is held than there."""

import dataclasses
import re
from collections.abc import Callable, Iterator
from typing import NamedTuple, Protocol

from opcplan.errors import Unreadable
from opcplan.rules import statement_words

MOST_OF_LINE, MOST_OF_BLOCK = 1024, 262_144
# what is held of a line with its end, and of a block, which is enough to see that they are too long
HELD_OF_LINE, HELD_OF_BLOCK = MOST_OF_LINE + 2, MOST_OF_BLOCK + 1
# what is looked at of each line of data, for one that ends them or looks as if it did
HELD_OF_DATA_LINE = 100
PIECE = 65_536
BLANKS = b" \t"
NAMES = {name.encode("ascii") for name in statement_words.NAMES}
# a byte that no statement has, and what a reader is shown for bytes
ODD = re.compile(rb"[^\t -~]")
SHOWN = {byte: "\t" if byte == 9 else f"\\x{byte:02x}" for byte in range(256) if not 32 <= byte < 127}
# whole lines that are passed over
SKIPPED = re.compile(rb"(?>(?:[ \t]{0,%d}|\*[^\n]{0,%d})\r?\n)+" % (MOST_OF_LINE, MOST_OF_LINE - 1))
# of a text in memory: after so many bytes, or lines of data that begin as their end does, others may have a turn
STEP, STEP_LINES = 65_536, 1000


@dataclasses.dataclass(frozen=True)
class Bounds:
    """How much is read of a text, so that one without an end is told."""

    size: int
    lines: int

    def __str__(self) -> str:
        return f"{self.size >> 20:,} MiB or {self.lines:,} lines"


OF_STREAM = Bounds(64 << 20, 1_000_000)
Read = Callable[[bytes, int], tuple[statement_words.Statement | None, str]]
BOUND = f"A stream of more than {OF_STREAM} isn't read."


class Readable(Protocol):
    """A file that is read a line at a time."""

    def readline(self, most: int, /) -> bytes:
        """The next bytes up to the end of the line, so many at most."""


class Line(NamedTuple):
    """The first bytes of a line, its length without its end, and the length with it: 0 where there is no line."""

    held: bytes
    length: int
    size: int


class Source:
    """A text that is read a line at a time. `number` is that of the last line that was read, from 1."""

    def __init__(self, file: Readable, name: str, bounds: Bounds = OF_STREAM) -> None:
        self.file, self.name, self.bounds = file, name, bounds
        self.number, self.size = 0, 0

    def line(self, most: int) -> Line:
        """The first bytes of the next line, so many at most; its length without its end, which is a line feed and one
        carriage return before it; and the length with its end, 0 where there is no line."""
        first = piece = tail = self.piece(most)
        size, self.number = len(first), self.number + bool(first)
        while piece and not piece.endswith(b"\n"):
            piece = self.piece(PIECE)
            size, tail = size + len(piece), (tail[-1:] + piece)[-2:]
        return Line(first, size - len(tail) + len(tail.removesuffix(b"\n").removesuffix(b"\r")), size)

    def pieces(self) -> Iterator[bytes]:
        """All its bytes, piece by piece."""
        while piece := self.piece(PIECE):
            self.number += piece.endswith(b"\n")
            yield piece

    def piece(self, most: int) -> bytes:
        """The next bytes, to the end of the line at most. Raises Unreadable."""
        try:
            piece = self.file.readline(most)
        except OSError as error:
            raise Unreadable(f"{self.name}: it can't be read: {error.strerror}") from None
        self.size += len(piece)
        if self.size > self.bounds.size or self.number > self.bounds.lines:
            raise Unreadable(f"{self.name}: it has more than {self.bounds}, so it wasn't read to its end")
        return piece


@dataclasses.dataclass(slots=True)
class Item:
    """What is answered once: a line, with the data behind it where its first word is `define`."""

    line: int  # number of the line, from 1
    text: bytes  # the line without its end, as far as it is held
    length: int  # how many bytes the line has
    statement: statement_words.Statement | None
    wrong: str  # why the line is no statement, where it is none
    has_data: bool = False
    data: bytes | None = None  # as far as they are held; None where they have no end
    data_length: int = 0
    odd_ends: tuple[int, ...] = ()  # where data have no end: the first lines that look like one

    @property
    def asked(self) -> statement_words.Statement:
        """The statement of a line that is one."""
        assert self.statement is not None, "a refusal above 10 is of a statement"
        return self.statement

    @property
    def data_line(self) -> int:
        """The number of the first line of the data."""
        return self.line + 1

    @property
    def is_whole(self) -> bool:
        """Whether the data have an end and are short enough to be read as a block."""
        return self.data is not None and self.data_length <= MOST_OF_BLOCK

    def shown(self, most: int = 100) -> str:
        """The line for a reader: printable, and cut where it is long."""
        text = " ".join(self.text.decode("latin-1").translate(SHOWN).split())
        return text if len(text) <= most else text[: most - 3] + "..."


def items(source: Source) -> Iterator[Item]:
    """The items of a stream, in order, read as they are asked for. Raises Unreadable."""
    while True:
        line, length, size = source.line(HELD_OF_LINE)
        if not size:
            return
        line = line[:length]
        has_data = first_word(line[:MOST_OF_LINE]) == b"define"
        if not has_data and is_skipped(line, length):
            continue
        item = Item(source.number, line, length, *read_line(line, length), has_data)
        if has_data:
            item.data, item.data_length, item.odd_ends = data_of(source)
        yield item


def steps(text: bytes, name: str, read: Read | None = None, bounds: Bounds = OF_STREAM) -> Iterator[Item | None]:
    """The items of a stream in memory, as `items` finds them, but without what is wrong with a line, and without
    `odd_ends`; and None after each piece of it that has no item, so that its reader may do something else meanwhile.
    `read` reads the lines that begin with the name of a statement, as `read_line` does. Raises Unreadable."""
    if len(text) > bounds.size or text.count(b"\n") + (not text.endswith(b"\n")) > bounds.lines:
        raise Unreadable(f"{name}: it has more than {bounds}, so it wasn't read to its end")
    place, number, counted = 0, 1, 0
    while place < len(text):
        skipped = SKIPPED.match(text, place, place + STEP)
        if skipped is not None:
            place = skipped.end()
            yield None
            continue
        end = text.find(b"\n", place)
        after = end + 1 if end >= 0 else len(text)
        tail = text[max(place, after - 2) : after]
        length = after - place - len(tail) + len(tail.removesuffix(b"\n").removesuffix(b"\r"))
        line, begin, place = text[place : place + min(length, HELD_OF_LINE)], place, after
        word = first_word(line[:MOST_OF_LINE])
        has_data = word == b"define"
        if not has_data and is_skipped(line, length):  # the last line, without an end
            continue
        number, counted = number + text.count(b"\n", counted, begin), begin
        found = (read or read_line)(line, length) if word in NAMES else (None, "")
        item = Item(number, line, length, *found, has_data)
        if has_data:
            for ends in data_ends(text, place):
                if ends is None:
                    yield None
                    continue
                item.data, item.data_length = text[place : min(ends.begin, place + HELD_OF_BLOCK)], ends.begin - place
                place = ends.after
                break
            else:
                item.data_length, place = len(text) - place, len(text)
        yield item


class DataEnd(NamedTuple):
    """Where the line that ends data begins, and the place behind it."""

    begin: int
    after: int


def data_ends(text: bytes, begin: int) -> Iterator[DataEnd | None]:
    """The end of the data that begin at a place, if they have one; and None after each piece that has none."""
    at, looks = begin - 1, 0
    while (at := text.find(b"\n/*", at)) >= 0:
        rest = text[at + 3 : at + 5]
        if rest[:1] in (b"", b"\n") or rest == b"\r\n" or rest == b"\r":
            yield DataEnd(at + 1, min(len(text), at + 3 + len(rest[: rest.find(b"\n") + 1] or rest)))
            return
        at, looks = at + 1, looks + 1
        if looks % STEP_LINES == 0:
            yield None


def data_of(source: Source) -> tuple[bytes | None, int, tuple[int, ...]]:
    """The data up to the line `/*`, as far as they are held, and their length; or None, and what looks like such a
    line."""
    held: list[bytes] = []
    odd: list[int] = []
    length = 0
    while True:
        left = max(0, HELD_OF_BLOCK - length)
        line, line_length, size = source.line(max(left, HELD_OF_DATA_LINE))
        if not size:
            return None, length, tuple(odd)
        if line[:line_length] == b"/*":
            return b"".join(held), length, ()
        if len(odd) < 9 and line.strip().startswith(b"/*"):
            odd.append(source.number)
        held.append(line[:left])
        length += size


def is_skipped(line: bytes, length: int) -> bool:
    """Whether a line is passed over without an answer."""
    return length <= MOST_OF_LINE and (not line.strip(BLANKS) or line.startswith(b"*"))


def first_word(line: bytes) -> bytes:
    """The first word of a line, or nothing."""
    return line.replace(b"\t", b" ").strip(b" ").split(b" ")[0]


def read_line(line: bytes, length: int) -> tuple[statement_words.Statement | None, str]:
    """The statement of a line and nothing, or None and why the line is none."""
    if length > MOST_OF_LINE:
        return None, f"the line has {length:,} bytes, but a statement has at most {MOST_OF_LINE:,}"
    odd = ODD.search(line)
    if odd is not None:
        return None, (f"byte {odd.end()} of the line is {odd.group()[0]:02X} hexadecimal, which isn't a printable "
                      "character")
    return statement_words.read(line.decode("ascii").replace("\t", " ").split())


def text_of_job(item: Item) -> bytes:
    """The text under which the job of a statement is kept."""
    text = " ".join(item.asked.words).encode("ascii")
    return text if item.data is None else text + b"\n" + item.data
