"""The stream of a change of definitions for a plan's file: its job numbers, which the plan doesn't keep yet."""

from collections.abc import Sequence

from opcplan.acts import steps
from opcplan.edits import changes as edit_changes
from opcplan.edits.changes import Change, ChangeRefused, Unsound
from opcplan.errors import Unreadable
from opcplan.plans import job_numbers, printed_numbers
from opcplan.plans.plan_file import Plan
from opcplan.rules.known import PlanBounds


def stream_of(plan: Plan, changes: Sequence[Change], first_job: int | None = None) -> tuple[str, int]:
    """The statements that make changes, and the job number of the last one."""
    try:
        found = edit_changes.steps_of(changes)
    except Unsound as wrong:
        raise Unreadable(f"{plan.path}: {wrong}") from None
    if first_job is None:
        text, least = printed_text(found), job_numbers.after_greatest(plan.db)
        numbers = printed_numbers.numbered(plan.path, text, least, lambda first: numbers_of(plan, len(found), first))
    else:
        numbers = numbers_of(plan, len(found), first_job)
    return steps.numbered(found, numbers), numbers[-1]


def printed_text(found: Sequence[steps.Step]) -> str:
    """The text by which equal streams are known."""
    return "".join(step.text.replace("\n", "", 1) for step in found)


def numbers_of(plan: Plan, count: int, first: int) -> list[int]:
    """As many free job numbers as are wanted from one on; after it none that a desk gives."""
    kept = job_numbers.kept_from(plan.db, first)
    found: list[int] = []
    if first in kept:
        raise ChangeRefused(f"job {first} is used already; give a free one, or leave --job away", 2)
    number = first
    while len(found) < count and number <= job_numbers.GREATEST:
        if number not in kept:
            found.append(number)
        number = job_numbers.following(number)
    if len(found) < count:
        raise ChangeRefused("there is no job number after it; give a smaller one that is free with --job")
    return found


def following_free(plan: Plan, job: int) -> int:
    """The first number after a job's own that isn't kept."""
    number = job_numbers.following(job)
    kept = job_numbers.kept_from(plan.db, number)
    while number in kept:
        number = job_numbers.following(number)
    return number


def way_into(plan: Plan, changes: Sequence[Change], job: int) -> list[str]:
    """What takes changes into the plan, in sentences."""
    try:
        number = str(numbers_of(plan, 1, following_free(plan, job))[0])
    except ChangeRefused:
        number = "N"
    meta = plan.meta
    bounds = PlanBounds(meta["first_day"], meta["last_day"], meta["plan_end"]) if plan.is_created else None
    return edit_changes.way_into(bounds, changes, f" --job {number}")
