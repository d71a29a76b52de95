"""Text fit for a terminal: what comes from a plan, a stream or a word may hold what moves its cursor or its colours."""

from collections.abc import Iterable


def fit(text: str) -> str:
    """The text with each character that can't be printed, a line feed too, as its number: `\\x1b`, `\\u202e`."""
    if text.isprintable():
        return text
    return "".join(letter if letter.isprintable() else number_of(letter) for letter in text)


def number_of(letter: str) -> str:
    """A character as its number; what stands for a byte that is no text as that byte."""
    code = ord(letter) - 0xDC00 if "\udc80" <= letter <= "\udcff" else ord(letter)
    return f"\\x{code:02x}" if code < 0x100 else f"\\u{code:04x}" if code < 0x10000 else f"\\U{code:08x}"


def text(lines: Iterable[str]) -> str:
    """Lines as one text, each of them fit."""
    return "\n".join(map(fit, lines))
