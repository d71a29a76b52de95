"""What an operator wants, turned into statements: a verb, what it is about, a plan -> an `Act`. No I/O.

What always holds (tests/test_acts.py goes through random plans and states, with the plain planner): the statements of
an act are accepted, one after the other, and do what its preview says (`previews`). What adds a run comes before what
deletes the one that it replaces, so a call that is stopped in between loses none."""

import dataclasses
from collections.abc import Callable
from typing import NamedTuple

from opcplan.acts import chains, deadlines, one_day, resolver
from opcplan.acts.resolver import Resolved
from opcplan.acts.steps import Step
from opcplan.acts.world import World
from opcplan.errors import Error, UsageError
from opcplan.plans.waits import Row
from opcplan.rules import moments, usual_due
from opcplan.rules.naming_words import meant_text


class Verb(NamedTuple):
    """What a verb is for, and the places of the rows that it is for: of the first group that has any."""

    about: str
    places: tuple[str, ...] = ()
    asks: tuple[str, ...] = ()  # the fields of an Intention that it takes besides `of`


VERBS = {
    "start": Verb("says that a run was started", ("W",)),
    "complete": Verb("says that a run is complete, with `--chain` also all that it waits for", ("SE",), ("chain",)),
    "fail": Verb("says that a run ended in error", ("S",)),
    "reset": Verb("lets a run that is in error wait again", ("E",)),
    "delete": Verb("deletes a run from the current plan", ("WE",)),
    "cancel": Verb("deletes a run from the plan that has it", ("WE", "L")),
    "rerun": Verb("runs a run again, with `--with-followers` also those that followed it", ("E", "C", "H"),
                  ("followers",)),
    "move": Verb("moves a run to another moment", ("WE", "L"), ("to", "due")),
    "add": Verb("adds a run", (), ("due",)),
    "undo": Verb("takes the last change back, or the one of a journal's entry", (), ("entry",)),
}
OF_CHAIN = ("WSE",)  # what `complete --chain` is for
MOST_EACH = 200  # occurrences that an act is about


@dataclasses.dataclass(frozen=True)
class Intention:
    """What somebody wants: a verb and what it is about, as it is typed; where a run is moved to, when it is due;
    whether the whole chain is completed, or followers run too; the entry of the journal that is undone; and in `each`,
    if it is wanted of several occurrences, each of them (`several`)."""

    verb: str
    of: str = ""
    to: str | None = None
    due: str | None = None
    chain: bool = False
    followers: bool = False
    entry: int | None = None
    each: tuple[str, ...] = ()

    @property
    def places(self) -> tuple[str, ...]:
        """The places of the rows that it is for."""
        return OF_CHAIN if self.chain else VERBS[self.verb].places

    @property
    def text(self) -> str:
        """Its words."""
        more = [f"--due {self.due}" if self.due else "", "--chain" if self.chain else "",
                "--with-followers" if self.followers else "", "" if self.entry is None else f"--entry {self.entry}"]
        return " ".join(filter(None, [self.verb, self.of, self.to or "", *more]))


class InvalidIntention(UsageError):
    """What is wrong with the words of an intention."""


class NotDoable(Error):
    """Why the plan doesn't allow what is wanted; nothing is done."""


class Ambiguous(Error):
    """Several rows fit, or none does."""

    def __init__(self, found: Resolved) -> None:
        super().__init__("\n".join(resolver.lines_of(found)))
        self.found = found


class Part(NamedTuple):
    """What is done with one of several occurrences: as it was named, its row, its statements, or why there are none."""

    of: str
    row: Row | None
    steps: tuple[Step, ...]
    why_not: str = ""


class Act(NamedTuple):
    """The statements of an intention, the row that it is about (None if it makes one, undoes something, or is about
    several), what can't be kept, in sentences, and if it is about several rows, the part of each."""

    intention: Intention
    row: Row | None
    steps: tuple[Step, ...]
    notes: tuple[str, ...] = ()
    parts: tuple[Part, ...] = ()


def act_of(world: World, wanted: Intention, near: int | None = None) -> Act:
    """The act of an intention; `near` is the moment of the clock. `undo` has its own (`undoing`). Raises UsageError,
    Ambiguous and NotDoable."""
    check(wanted)
    if world.bounds is None:
        raise NotDoable("there is no long-term plan yet; `ltp-create` makes one")
    if wanted.verb == "add":
        return add(world, wanted)
    found = resolver.resolve(world, resolver.read(wanted.of), wanted.places, near)
    if found.row is None:
        raise Ambiguous(explained(found, wanted))
    return MAKERS[wanted.verb](world, wanted, found.row)


def check(wanted: Intention) -> None:
    """Asks that a verb is one, and that it has the words that it takes. Raises InvalidIntention."""
    if wanted.verb not in VERBS:
        raise InvalidIntention(f"there is no verb {wanted.verb[:40]!r}{meant_text(wanted.verb, VERBS)}; the verbs are "
                               f"{', '.join(VERBS)}")
    for name in ("to", "due", "chain", "followers", "entry"):
        if getattr(wanted, name) and name not in VERBS[wanted.verb].asks:
            raise InvalidIntention(f"`{wanted.verb}` takes no `{name}`")
    if wanted.verb == "move" and not wanted.to:
        raise InvalidIntention("`move` needs the day, the minute or the moment to which the run is moved")
    if wanted.each:
        check_each(wanted)
    elif not wanted.of and wanted.verb != "undo":
        raise InvalidIntention(f"`{wanted.verb}` needs the occurrence, as {resolver.FORMS}")


def check_each(wanted: Intention) -> None:
    """Asks that a verb may be wanted of several occurrences. Raises InvalidIntention."""
    if not VERBS[wanted.verb].places:
        raise InvalidIntention(f"`{wanted.verb}` isn't for several occurrences at once")
    if wanted.of:
        raise InvalidIntention("an act has either `of` or `each`, not both")
    if len(wanted.each) > MOST_EACH:
        raise InvalidIntention(f"an act is for at most {MOST_EACH} occurrences; name fewer of them in `each`")


def explained(found: Resolved, wanted: Intention) -> Resolved:
    """Why no row fits, with what leads on."""
    row = found.before
    if found.several or row is None or not found.why.startswith(row.key):
        return found
    ways = {("complete", "W"): "`start` comes first, and `complete --chain` does all that it waits for too",
            ("rerun", "W"): "it hasn't run yet", ("rerun", "S"): "`fail` comes first, once its job is stopped",
            ("cancel", "S"): "`fail` comes first, once its job is stopped",
            ("delete", "S"): "`fail` comes first, once its job is stopped",
            ("delete", "L"): "`cancel` deletes it there", ("move", "S"): "it has begun",
            ("start", "L"): "a daily plan has to take it into the current plan first",
            ("start", "E"): "`reset` or `rerun` lets it wait again",
            ("fail", "W"): "`start` comes first", ("rerun", "D"): "`add` makes it again",
            ("rerun", "o"): "`add` makes it again", ("rerun", "p"): "`add` makes it again"}
    way = ways.get((wanted.verb, row.place))
    how = f"so `{wanted.verb}` isn't for it"
    return found._replace(why=f"{found.why.removesuffix('.')}, {how}{f': {way}' if way else ''}.")


# One verb each.


def on_status(world: World, wanted: Intention, row: Row) -> Act:
    """A change of a status."""
    if wanted.verb == "start" and (left := world.open_before(row)):
        names = ", ".join(one.key for one in left[:3]) + (f" and {len(left) - 3} more" if len(left) > 3 else "")
        raise NotDoable(f"{row.key} waits for {names}; `./plan why` shows all, and `complete --chain` completes them")
    return Act(wanted, row, (Step(f"cp-{wanted.verb}", row.app, row.ia),))


def complete(world: World, wanted: Intention, row: Row) -> Act:
    """A run that is complete, or its whole chain."""
    if not wanted.chain:
        return on_status(world, wanted, row)
    return Act(wanted, row, tuple(chains.completed(world, row)))


def cancel(world: World, wanted: Intention, row: Row) -> Act:
    """A run that is deleted where it is."""
    if row.place != "L":
        return Act(wanted, row, (Step("cp-delete", row.app, row.ia),))
    return Act(wanted, row, (Step("ltp-delete", row.app, row.ia),),
               ("no planning statement makes it again; `add` does",) if row.cycle is not None else ())


def rerun(world: World, wanted: Intention, row: Row) -> Act:
    """A run that runs again."""
    try:
        found = chains.again(world, row, wanted.followers)
    except chains.NoRoom as why:
        raise NotDoable(str(why)) from None
    return Act(wanted, row, tuple(found.steps), tuple(found.notes))


def move(world: World, wanted: Intention, row: Row) -> Act:
    """A run that is moved to another moment."""
    day, minute = resolver.when(wanted.to or "")
    ia = (row.ia // moments.DAY if day is None else day) * moments.DAY + (
        row.ia % moments.DAY if minute is None else minute)
    if ia == row.ia:
        raise NotDoable(f"{row.key} arrives then already")
    deadline = due_of(wanted.due, ia) if wanted.due else deadlines.kept(row, ia)
    steps, notes = made(world, row.app, ia, deadline, row)
    return Act(wanted, row, tuple(steps), tuple(notes))


def add(world: World, wanted: Intention) -> Act:
    """A run that is added."""
    meant = resolver.read(wanted.of)
    if meant.app is None or meant.day is None or meant.minute is None:
        raise InvalidIntention("`add` needs an application, and the moment at which it arrives, as APP DAY/HH.MM")
    ia = meant.day * moments.DAY + meant.minute
    deadline = due_of(wanted.due, ia) if wanted.due else ia + moments.DAY
    steps, notes = made(world, meant.app, ia, deadline, None)
    return Act(wanted, None, tuple(steps), tuple(notes))


def due_of(text: str, ia: int) -> int:
    """The deadline that a text names for a run that arrives at a moment: a minute is the first one after it. Raises
    UsageError."""
    day, minute = resolver.when(text)
    if minute is None:
        raise InvalidIntention(f"the deadline {text!r} lacks its minute: HH.MM, or DAY/HH.MM")
    return deadlines.first_at(minute, ia) if day is None else day * moments.DAY + minute


def made(world: World, app: str, ia: int, deadline: int, old: Row | None) -> tuple[list[Step], list[str]]:
    """The statements that make a run with a deadline, and take away the one that it replaces; and what can't be kept.
    Raises NotDoable."""
    check_made(world, app, ia)
    assert world.bounds is not None, "there is a plan"
    is_current = ia < world.bounds.plan_end
    plain = [Step("cp-add" if is_current else "ltp-add", app, ia)]
    gone = [] if old is None else [Step("ltp-delete" if old.place == "L" else "cp-delete", app, old.ia)]
    if deadline == ia + moments.DAY:
        return plain + gone, []
    try:
        is_planned = old is not None and old.place == "L" and old.cycle is not None
        steps = one_day.steps(world, app, ia, deadline, old if is_planned else None)
        return steps + ([] if is_planned else gone), []
    except one_day.NoWay as why:
        comes = usual_due.text(ia + moments.DAY, ia)
        return plain + gone, [f"the deadline {usual_due.text(deadline, ia)} can't be kept: {why}. It is due {comes}"]


def check_made(world: World, app: str, ia: int) -> None:
    """Asks that a run can be made. Raises NotDoable."""
    assert world.bounds is not None, "there is a plan"
    number = world.why_not_added(app, ia, ia < world.bounds.plan_end)
    if not number:
        return
    first, last = moments.day_text(world.bounds.first_day), moments.day_text(world.bounds.last_day)
    known = world.defined.applications
    pending = f"the application {app} is pending" if app in known else \
        f"the application {app} isn't defined{meant_text(app, known)}"
    texts = {"24": f"the plan goes from {first} to {last}, and {moments.moment_text(ia)} isn't in it", "26": pending,
             "27": f"{moments.key_text(app, ia)} is there already", "31": "the plan is full"}
    raise NotDoable(texts[number])


MAKERS: dict[str, Callable[[World, Intention, Row], Act]] = {
    **dict.fromkeys(("start", "fail", "reset", "delete"), on_status), "complete": complete, "cancel": cancel,
    "rerun": rerun, "move": move,
}
