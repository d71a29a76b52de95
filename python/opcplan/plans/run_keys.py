"""The keys under which agents send the steps of a run, and what each says of the run."""

import re
from typing import NamedTuple

# with the name of the agent, unless an old one made it; the number of the try from the second on; and the step: none is
# the start, and the end of a try that another one follows says how many seconds later that one is due
KEY = re.compile(r"agent-(?:([A-Za-z0-9._-]{1,64})-)?[0-9a-f]{24}(?:\.([0-9]{1,3}))?(-end|-reset|-again([0-9]{1,9}))?")


class RunKey(NamedTuple):
    """What a key says: the agent's name, empty if it has none, and after how many seconds another try follows, None if
    none does."""

    agent: str
    pause: int | None


def of_text(text: str | None) -> RunKey | None:
    """What a key says, or None if it isn't one of an agent."""
    found = KEY.fullmatch(text or "")
    return None if found is None else RunKey(found[1] or "", None if found[4] is None else int(found[4]))
