"""The process that finds what in a plan needs a person.

Its arguments are a copy of the plan, a moment (or `-` for the clock), the journal of the desk, the last entry that the
copy has, and 1 if usual deadlines count for what was added by hand, else 0. Standard input has the live facts of the
desk as JSON. It prints an object of JSON."""

import gc
import json
import sys

from opcplan.desk import needs
from opcplan.errors import Unreadable
from opcplan.needs import live_values
from opcplan.plans import plan_file
from opcplan.rules import moments


def main(copy: str, moment: str, journal: str, position: str, usual: str) -> int:
    """Prints the facts of the plan; the exit status."""
    gc.disable()
    try:
        print(text_of(copy, moment, journal, position, sys.stdin.read(), usual == "1"))
    except Unreadable as error:
        print(error, file=sys.stderr)
        return 1
    return 0


def text_of(copy: str, moment: str, journal: str, position: str, live: str, by_usual: bool) -> str:
    """The facts of the plan as JSON, with live facts. Raises Unreadable."""
    with plan_file.opened(copy, is_own=True) as plan:
        now = moments.now() if moment == "-" else int(moment)
        facts = live_values.of_values(json.loads(live))
        return json.dumps(needs.of_plan(plan, journal, now, facts, int(position), by_usual))


if __name__ == "__main__":
    sys.exit(main(*sys.argv[1:]))
