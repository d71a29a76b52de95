"""The process that turns what a caller wants into statements, and says what they would do, or what refusals mean.

Its arguments are a copy of the plan, the journal of the desk, the last entry that the copy has, and the caller.
Standard input has an object of JSON: what the caller wants; or `rest`, a stream, and in `answered` those of its
statements that are answered, each with its reply; or `refused`, statements that were refused, each with its reply. It
prints the answer as JSON."""

import gc
import json
import os
import sys

from opcplan.acts import loaded, rest, values
from opcplan.acts.undoing import Done
from opcplan.desk import requests
from opcplan.errors import Unreadable
from opcplan.plans import plan_file, stream_state
from opcplan.rules import moments, stream
from opcplan.rules.stream import Item

NICE = 5  # the desk and opcplan go first if processors are short


def main(copy: str, journal: str, position: str, who: str) -> int:
    """Prints the answer; the exit status."""
    os.nice(NICE)
    gc.disable()
    try:
        print(text_of(copy, journal, int(position), who, sys.stdin.read()))
    except Unreadable as error:
        print(error, file=sys.stderr)
        return 1
    return 0


def text_of(copy: str, journal: str, position: int, who: str, asked: str) -> str:
    """The answer as JSON. Raises Unreadable."""
    look = json.loads(asked)
    entries: list[Done] = []
    if look.get("verb") == "undo" and position:
        entries = loaded.entries_of(journal, position)
    with plan_file.opened(copy, is_own=True) as plan:
        if "refused" in look:
            known = stream_state.of_plan(plan)
            return json.dumps([rest.means(item, reply, known) for text, reply in look["refused"]
                               for item in items_of(text)])
        world = loaded.world_of(plan)
        if "rest" in look:
            done = [Done(line, "", reply) for line, reply in look["answered"]]
            left = items_of(look["rest"])[len(done):]
            return json.dumps(values.answer_of_rest(world, left, done, stream_state.of_plan(plan)))
        return json.dumps(values.answer_to(world, look, moments.now(), entries, who))


def items_of(text: str) -> list[Item]:
    """The statements of a stream, which may lack job numbers."""
    found = stream.steps(text.encode("utf-8", "surrogateescape"), "the stream", requests.read_line)
    return [item for item in found if item is not None]


if __name__ == "__main__":
    sys.exit(main(*sys.argv[1:]))
