"""Words of ./plan edit, import, days and cal, for argparse."""

import argparse
from collections.abc import Callable, Iterable
from typing import TypeVar

from opcplan.cli import words
from opcplan.commands import dump
from opcplan.edits import words as edit_words
from opcplan.edits.changes import ChangeRefused

Read = TypeVar("Read")  # what a text is read as


def checked(read: Callable[[str], Read], text: str) -> Read:
    """What a reader of words answers, for `type=`."""
    try:
        return read(text)
    except ChangeRefused as wrong:
        raise argparse.ArgumentTypeError(str(wrong)) from None


def name(text: str) -> str:
    """A name of 16, for `type=`; small letters are taken as capitals."""
    return checked(edit_words.name, text)


def short_name(text: str) -> str:
    """A name of 8, for `type=`; small letters are taken as capitals."""
    return checked(edit_words.short_name, text)


def day(text: str) -> int:
    """A day, for `type=`."""
    return checked(edit_words.day, text)


def hours(text: str) -> int:
    """A limit in hours, for `type=`."""
    return checked(edit_words.hours, text)


def pair(text: str) -> tuple[str, str]:
    """`key=value`, for `type=`."""
    return checked(edit_words.pair, text)


def pair_text(text: str) -> str:
    """The text of `key=value`, for `type=`."""
    pair(text)
    return text


def add_job(parser: argparse.ArgumentParser) -> None:
    """The option that names the first statement's job number, as `words.job`."""
    parser.add_argument("--job", metavar="N", type=dump.job_number, help="its job number (else the next one)")


def print_sentences(sentences: Iterable[str]) -> None:
    """Says sentences on standard error."""
    for sentence in sentences:
        words.print_message(sentence)
