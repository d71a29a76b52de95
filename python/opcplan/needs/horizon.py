"""What of the ends of a plan needs a person: the current plan, the long-term plan, definitions, and `roll`. No I/O.

A current plan that is extended in time needs nobody: it needs somebody once an extension was due and wasn't made. It
was due as `roll` last reported its rule, or if that isn't known, as the last extensions were made."""

from collections.abc import Iterator, Sequence

from opcplan.needs import need
from opcplan.needs.facts import DONE, STOPPED, Ends, Extension, Facts, Roll
from opcplan.needs.need import WORST, Need
from opcplan.plans.waits import length_text
from opcplan.rules import moments
from opcplan.rules.horizons import Shortfall
from opcplan.rules.moments import DAY
from opcplan.rules.naming_words import count_text

# minutes: an extension that is later by so much didn't happen; a plan that nobody extends by a rule ends soon
LATE, SOON = 60, 12 * 60
# days: a long-term plan ends soon; and from which on definitions that end count as worse with each halving
SOON_DAYS, FAR_DAYS = 14, 64
# minutes: what stops `roll` is reported again after twice as long
AGAIN = 30


def of_facts(facts: Facts) -> Iterator[Need]:
    """The needs of the ends of a plan."""
    if facts.ends is None:
        return
    roll = facts.live.roll
    if roll is not None and roll.outcome != DONE and roll.end == facts.ends.plan_end:
        yield of_roll(roll, facts.now)
    elif (since := missed_since(facts)) is not None:
        yield of_end(facts.ends, facts.now, since, bool(facts.live.roll or facts.extensions))
    yield from of_long_term(facts.ends, roll, facts.now)
    for one in facts.shortfalls:
        yield of_shortfall(one, facts.now)


def is_never_extended(ends: Ends) -> bool:
    """Whether a plan had no daily plan yet."""
    return ends.plan_end == ends.first_day * DAY


# The current plan.


def of_roll(roll: Roll, now: int) -> Need:
    """That `roll` can't extend the plan."""
    left, end = roll.end - now, moments.moment_text(roll.end)
    until = f"the current plan ends {end}, in {length_text(left)}, and nothing new starts after that" if left > 0 else \
        f"the current plan ended {end}, {length_text(-left)} ago, and nothing new starts"
    how = "is stopped" if roll.outcome == STOPPED else "failed"
    level = WORST + 1 if left <= 0 else need.doublings(now - roll.since, AGAIN)
    return need.of_kind("roll", moments.moment_word(roll.end), level, roll.since, f"roll {how}: {roll.why}; {until}")


def missed_since(facts: Facts) -> int | None:
    """Since when the current plan lacks an extension that was due; None if it lacks none."""
    ends, roll = facts.ends, facts.live.roll
    assert ends is not None, "there is a plan"
    left = ends.plan_end - facts.now
    if roll is not None and roll.outcome == DONE:
        due = roll.at + roll.every
        return due if facts.now >= due + LATE and left < roll.ahead else ends.plan_end if left <= 0 else None
    soon = ends.plan_end - time_left(facts.extensions)
    return soon if facts.now >= soon else None


def time_left(extensions: Sequence[Extension]) -> int:
    """How many minutes the current plan may have left before it lacks an extension: fewer than it had when it was
    extended last."""
    last = [one for one in extensions if extensions[0].at - one.at <= LATE]  # perhaps in several steps
    before = [one.to for one in extensions[len(last):]]
    if not before:
        return SOON
    left = max(before) - last[-1].at
    return max(0, (left if last[0].is_by_roll else min(SOON, left)) - LATE)


def of_end(ends: Ends, now: int, since: int, is_extended: bool) -> Need:
    """That the current plan ends, and if somebody extends it, that an extension that was due wasn't made."""
    left, end = ends.plan_end - now, moments.moment_text(ends.plan_end)
    if is_never_extended(ends):
        text = f"the current plan is empty: the first `dp-extend` fills it, from {end} on"
    elif left > 0:
        text = f"the current plan ends {end}, in {length_text(left)}"
        text += ", and wasn't extended when that was due" if is_extended else ""
    else:
        text = f"the current plan ended {end}, {length_text(-left)} ago: nothing new starts"
    level = WORST + 1 if left <= 0 else need.doublings(DAY, left)
    return need.of_kind("plan-end", moments.moment_word(ends.plan_end), level, since, text)


# The long-term plan and definitions.


def of_long_term(ends: Ends, roll: Roll | None, now: int) -> Iterator[Need]:
    """That the long-term plan ends soon."""
    left = ends.last_day + 1 - now // DAY
    soon = SOON_DAYS if roll is None else max(0, min(SOON_DAYS, roll.reserve - 2))
    if left > soon:
        return
    day = moments.day_text(ends.last_day)
    far = f"ends {day}, in {count_text(left, 'day')}" if left > 0 else f"ended {day}, {count_text(-left, 'day')} ago"
    level = WORST + 1 if left <= 0 else need.doublings(SOON_DAYS, left)
    yield need.of_kind("long-term-end", day, level, (ends.last_day + 1 - soon) * DAY, f"the long-term plan {far}")


def of_shortfall(one: Shortfall, now: int) -> Need:
    """That definitions end before the long-term plan does. Its name lacks the last day of the plan, which moves on."""
    left = one.ends - now // DAY
    level = WORST if left <= 0 else need.doublings(FAR_DAYS, left)
    return need.of_kind("definitions", ":".join(one.names), level, None, one.text)
