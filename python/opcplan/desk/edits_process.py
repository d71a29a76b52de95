"""The process that turns an edit into statements, and finds the days before and after it.

Its argument is a copy of the plan. Standard input has what the caller wants as JSON. It prints an object of JSON."""

import gc
import json
import os
import sys

from opcplan.acts import loaded
from opcplan.edits import previews
from opcplan.edits.changes import Unsound
from opcplan.errors import Unreadable
from opcplan.plans import plan_file
from opcplan.rules import moments

NICE = 5  # the desk and opcplan go first if processors are short


def main(copy: str) -> int:
    """Prints the answer; the exit status."""
    os.nice(NICE)
    gc.disable()
    try:
        with plan_file.opened(copy, is_own=True) as plan:
            found = previews.answer(loaded.world_of(plan), json.loads(sys.stdin.read()), moments.now())
    except (Unreadable, Unsound) as error:
        print(error, file=sys.stderr)
        return 1
    print(json.dumps(found))
    return 0


if __name__ == "__main__":
    sys.exit(main(*sys.argv[1:]))
