"""Another Python, which has a package that this one lacks."""

import os
import sys
from typing import NoReturn

from opcplan.plans.program import PYTHON


def run_by(python: str) -> NoReturn:
    """Runs the same words by another Python, in place of this process; it finds opcplan where this one does."""
    os.environ["PYTHONPATH"] = os.pathsep.join(filter(None, [PYTHON, os.environ.get("PYTHONPATH")]))
    sys.stdout.flush()
    os.execv(python, [python, *sys.orig_argv[1:]])
