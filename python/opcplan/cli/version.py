"""Which version this is, and what the program in release/ was made of."""

import os

from opcplan.cli import words
from opcplan.errors import Unreadable
from opcplan.plans import program


def lines() -> list[str]:
    """The version, the schema of plans that are made, the sum of the program's sources, and the kit that made it; the
    first two alone where the package is among Python's, without a program."""
    from importlib import metadata  # these take their time, and are seldom needed

    from opcplan.plans import plan_file

    name, schema = os.path.basename(words.CALLED), f"schema {max(plan_file.VERSIONS)}"
    if not program.is_of_top():
        return [f"{name} {metadata.version('opcplan')}", schema]
    sources, _, kit = first_line(program.TOP, "release", "SOURCES").partition(" ")
    return [f"{name} {first_line(program.TOP, 'VERSION')}", schema, f"sources {sources}", f"kit {kit}"]


def first_line(*names: str) -> str:
    """The first line of a file. Raises Unreadable."""
    path = os.path.join(*names)
    try:
        with open(path, encoding="utf-8") as file:
            return file.readline().rstrip("\n")
    except OSError as error:
        raise Unreadable(f"{path}: it can't be read: {error.strerror}") from None
