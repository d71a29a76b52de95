"""The program opcplan that is at hand, and where this package is."""

import os
import shutil

from opcplan.errors import Unreadable

# the folder that has the package; above it the repository, or the folder that stands for it where this is installed
PYTHON = os.path.dirname(os.path.dirname(os.path.dirname(os.path.abspath(__file__))))
TOP = os.path.dirname(PYTHON)
PROGRAMS = [os.path.join(TOP, "crates", "opcplan", "out", "opcplan"), os.path.join(TOP, "release", "opcplan")]


def is_of_top() -> bool:
    """Whether the package is in the repository or was put by `make install`, and not among Python's packages."""
    return os.path.exists(os.path.join(TOP, "VERSION"))


def built_program() -> str:
    """The program that was built here, or else the release; where the package is among Python's, the one on PATH."""
    for program in PROGRAMS:
        if os.path.exists(program):
            return program
    if not is_of_top() and (found := shutil.which("opcplan")):
        return found
    raise Unreadable("there is no planner to try it with: run ./opcplan to build one, or name one with --program")


def is_own(program: str) -> bool:
    """Whether a program is the one that is taken where none is named."""
    try:
        return os.path.samefile(program, built_program())
    except (OSError, Unreadable):
        return False
