"""The names of a plan, for a shell that completes words."""

from collections.abc import Iterable

from opcplan.errors import UsageError
from opcplan.plans import plan_file

KINDS = {
    "applications": "SELECT name FROM application",
    "run-cycles": "SELECT name FROM run_cycle",
    "calendars": "SELECT calendar FROM calendar_entry",
    "periods": "SELECT name FROM plan_period",
}


def of_file(path: str, kinds: Iterable[str]) -> list[str]:
    """The names of some kinds that a plan defines, in order, each once."""
    kinds = list(kinds)
    if strange := [kind for kind in kinds if kind not in KINDS]:
        raise UsageError(f"{strange[0]!r} is not one of {', '.join(KINDS)}")
    with plan_file.opened(path) as plan:
        return sorted({name for kind in kinds for (name,) in plan.db.execute(KINDS[kind])})
