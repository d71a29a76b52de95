"""The act that takes a change back which was done before: the statements of a journal, or a kept job. No I/O.

A plan doesn't say what it was before a change. What can be known: the status that a statement gave, and by the table of
changes (docs/rules/OCCURRENCES.md) the one before, or by the replies that the plan keeps; deadline and run cycle of a
row that was deleted, which the deletions keep; and run cycles, by an earlier entry that defines them, or because an act
only added run cycles of one day. What a row waited for before isn't kept: a row that waits again finds it anew, by the
lists in force.

What always holds (tests/test_undoing.py goes through random plans and acts, with the plain planner): an act that is
undone at once leaves the live runs of both plans as they were; if something of it has changed since, it isn't undone,
with the reason."""

import dataclasses
from collections.abc import Iterator, Mapping, Sequence, Set
from typing import NamedTuple

from opcplan.acts import inverses, one_day, previews
from opcplan.acts.inverses import NoInverse
from opcplan.acts.steps import Step
from opcplan.acts.verbs import Act, Intention, NotDoable
from opcplan.acts.world import Difference, World
from opcplan.plans import run_keys
from opcplan.plans.waits import Row
from opcplan.rules import blocks, moments, naming, statement_words, statements
from opcplan.rules.definitions import RunCycle
from opcplan.rules.statement_words import Statement

ACT_KEY = "act-"  # with it the keys begin under which acts are sent


class Done(NamedTuple):
    """A statement that was answered: its line and its data (empty if it has none), its reply, the number of its entry
    and who sent it under which key, if that is known."""

    line: str
    data: str
    reply: str
    seq: int = 0
    who: str = ""
    key: str | None = None

    @property
    def is_of_agent(self) -> bool:
        """Whether an agent sent it as a step of a run."""
        return run_keys.of_text((self.key or "").partition("#")[0]) is not None

    @property
    def act(self) -> str | None:
        """The key of the act that it is of, or None."""
        base = (self.key or "").partition("#")[0]
        return base if base.startswith(ACT_KEY) else None

    @property
    def statement(self) -> Statement | None:
        """Its statement."""
        return statement_words.read(self.line.split(" "))[0]


def last_of(entries: Sequence[Done], who: str | None) -> list[Done]:
    """The last change, of one caller if one is named: a statement that was accepted, which no agent sent; with all
    accepted ones of its act. Raises NotDoable."""
    for one in reversed(entries):
        if one.reply.startswith("ok") and not one.is_of_agent and who in (None, one.who):
            return with_act(entries, one)
    of = "" if who is None else f" of {who}"
    raise NotDoable(f"there is no change{of} to take back in the journal")


def of_entry(entries: Sequence[Done], seq: int) -> list[Done]:
    """The change of an entry of the journal, with all of its act. Raises NotDoable."""
    found = next((one for one in entries if one.seq == seq), None)
    if found is None:
        raise NotDoable(f"the journal has no entry {seq}")
    if not found.reply.startswith("ok"):
        raise NotDoable(f"entry {seq} was answered `{found.reply}`, so it changed nothing")
    return with_act(entries, found)


def with_act(entries: Sequence[Done], one: Done) -> list[Done]:
    """The accepted statements of the act that one is of, in their order; else the one."""
    if one.act is None:
        return [one]
    accepted = [other for other in entries if other.reply.startswith("ok")]
    return [other for other in accepted if (other.act, other.who) == (one.act, one.who)]


def act_of(world: World, wanted: Intention, done: Sequence[Done], entries: Sequence[Done]) -> Act:
    """The act that takes accepted statements back; `entries` has what else is known. Raises NotDoable."""
    if world.bounds is None:
        raise NotDoable("there is no long-term plan yet, so nothing can be undone")
    names = ", ".join(one.line.partition(" --job")[0] for one in done[:3]) + (" .." if len(done) > 3 else "")
    try:
        steps = tuple(back(world, done, entries))
    except NoInverse as why:
        raise NotDoable(f"`{names}` can't be undone: {why}") from None
    trial = world.copy()
    for step in steps:
        reply = trial.apply(step)
        if not reply.startswith("ok"):
            raise NotDoable(f"`{names}` can't be undone: `{step.line}` would be refused with "
                            f"{reply.removeprefix('refused ')}{because(trial, step)}")
    for app, was, now in modified(world, done, entries):
        own = {(step.app, step.ia) for step in steps}
        check_modified(world, trial, names, Modified(app, named(world, app, was), named(world, app, now)), own)
    for row in deleted(world, done):
        lack = inverses.row_lack((row.app, row.ia), row._replace(place=""), again(trial, row))
        if lack:
            raise NotDoable(f"`{names}` can't be undone: {lack}. `add {moments.key_text(row.app, row.ia)}` adds it "
                            "all the same")
    notes = [f"it takes back `{one.line}`, answered `{one.reply}`" for one in done]
    return Act(wanted, None, steps, tuple(notes[:previews.MOST_NOTES]))


def because(world: World, step: Step) -> str:
    """What a refused start waits for."""
    row = None if step.ia is None else world.live(step.app, step.ia)
    left = world.open_before(row) if row is not None and step.name == "cp-start" else []
    return f": it waits for {left[0].key} now" if left else ""


class Modified(NamedTuple):
    """An application whose run cycles an act changed, with what it names in the plan, by input arrival: as they were
    before the act, and as they are."""

    app: str
    before: Mapping[int, tuple[str, int]]
    after: Mapping[int, tuple[str, int]]


def modified(world: World, done: Sequence[Done], entries: Sequence[Done]
             ) -> Iterator[tuple[str, dict[str, RunCycle], dict[str, RunCycle]]]:
    """The applications whose run cycles statements changed and took into the long-term plan, with those of before and
    of now."""
    names = [one.statement for one in done]
    taken = {one.values["app"] for one in names if one is not None and one.name == "ltp-modify-one"}
    for one, statement in zip(done, names):
        if statement is not None and statement.name == "define" and statement.kind == "run-cycles":
            for app, cycles in blocks.read("run-cycles", one.data.encode()).defined.items():
                if app in taken:
                    yield app, cycles_before(app, one, cycles, entries), cycles


def named(world: World, app: str, cycles: dict[str, RunCycle]) -> dict[int, tuple[str, int]]:
    """By input arrival what run cycles name in the days of the plan: the run cycle, and the deadline."""
    assert world.bounds is not None, "there is a plan"
    defined = dataclasses.replace(world.defined, run_cycles={**world.defined.run_cycles, app: cycles})
    return {day * moments.DAY + one.time: (one.cycle.name, one.deadline)
            for day in range(world.bounds.first_day, world.bounds.last_day + 1)
            for one in naming.names(defined, app, day).times if not one.excluded_by}


def check_modified(world: World, trial: World, names: str, one: Modified, own: Set[tuple[str, int | None]]) -> None:
    """Asks that what an act changed by run cycles is as the act left it, that it comes back, and that nothing else of
    the application changes but `own` keys, which other statements change. Raises NotDoable."""
    assert world.bounds is not None, "there is a plan"
    changed = {ia for ia in {*one.before, *one.after} if one.before.get(ia) != one.after.get(ia)}
    for ia in sorted(changed):
        row, key = world.live(one.app, ia), moments.key_text(one.app, ia)
        if ia in one.after and (row is None or row.place != "L" or (row.cycle, row.deadline) != one.after[ia]):
            why = f"{key} has changed since: it is {WHERE[row.place] if row else 'deleted'}"
        elif ia not in one.after and row is not None:
            why = f"{key} is there again"
        elif ia in one.before and ia < world.bounds.plan_end:
            why = f"{key} isn't made again, because the current plan goes past it"
        else:
            continue
        raise NotDoable(f"`{names}` can't be undone: {why}")
    came = {ia: trial.live(one.app, ia) for ia in changed}
    is_back = all((row and (row.cycle, row.deadline)) == one.before.get(ia) for ia, row in came.items())
    keys = {(row.app, row.ia) for _, row in Difference(world, trial).rows.values()}
    if not is_back or any(app == one.app and ia not in changed and (app, ia) not in own for app, ia in keys) or \
            trial.in_force != world.in_force:
        raise NotDoable(f"`{names}` can't be undone: other definitions of {one.app} have changed since, and "
                        "`ltp-modify-one` would take that in too")


def deleted(world: World, done: Sequence[Done]) -> Iterator[Row]:
    """The rows that statements deleted, and that nothing of them made."""
    made = {serial_of(one) for one in done if is_making(one)}
    for one in done:
        name = one.line.partition(" ")[0]
        serial = serial_of(one)
        row = world.row(serial) if name in ("cp-delete", "ltp-delete") and serial not in made else None
        if row is not None:
            yield row


def is_making(one: Done) -> bool:
    """Whether a statement made a row."""
    kind = statements.KINDS.get(one.line.partition(" ")[0])
    return kind is not None and kind.makes_row


def again(world: World, row: Row) -> Row | None:
    """The live row of a row's key, without its place."""
    found = world.live(row.app, row.ia)
    return None if found is None else found._replace(place="")


def serial_of(one: Done) -> int:
    """The serial in a reply, or 0."""
    words = one.reply.split(" ")
    return int(words[2]) if words[1] == "serial" else 0


def back(world: World, done: Sequence[Done], entries: Sequence[Done]) -> Iterator[Step]:
    """The statements that take others back, the last one first. Raises NoInverse."""
    late: list[Step] = []
    for one in reversed(done):
        statement = one.statement
        if statement is None:
            raise NoInverse(f"`{one.line}` is no statement")
        if statement.name == "ltp-modify-one":
            late.append(Step(statement.name, statement.values["app"]))
        elif statement.name == "define" and statement.kind == "run-cycles":
            yield from run_cycles_before(world, one, entries)
            yield from late
            late = []
        elif statement.name == "define" and statement.kind == "periods" and one.act is not None:
            yield from periods_before(world, one, done)
        elif statements.KINDS[statement.name].is_on_key:
            yield from of_key(world, one, statement)
        else:
            raise NoInverse(f"the statements have none that takes `{statement.name}` back")
    if late:
        raise NoInverse("what the definitions were before isn't known")


def of_key(world: World, one: Done, statement: Statement) -> Iterator[Step]:
    """The statements that take one on an occurrence back. Raises NoInverse."""
    name, app, ia = statement.name, statement.values["app"], statement.values["ia"]
    row = world.row(serial_of(one))
    if row is None or row[1:3] != (app, ia):
        raise NoInverse("its occurrence isn't in the plan any more")
    place = place_before(world, serial_of(one)) if name == "cp-delete" else ""
    names = inverses.names_of(name, place)
    if name == "ltp-add" and row.place == "W":  # a daily plan took it into the current plan
        names = ("cp-delete",)
    elif row.place not in after(name):
        raise NoInverse(f"{row.key} has changed since: it is {WHERE[row.place]}")
    yield from (Step(other, app, ia) for other in names)


def after(name: str) -> str:
    """The places of a row that a statement leaves, if nothing has changed since but by daily plans."""
    act = statements.KINDS[name].act
    if act is not None:
        return {"D": "Dp", "C": "CH"}.get(act.after, act.after)
    return {"cp-add": "W", "ltp-add": "L", "ltp-delete": "o"}[name]


WHERE = {"L": "in the long-term plan", "W": "waiting", "S": "started", "E": "in error", "C": "complete",
         "D": "deleted", "H": "in history", "o": "deleted", "w": "withdrawn", "p": "deleted"}


def place_before(world: World, serial: int) -> str:
    """The status of an occurrence before it was deleted: in error if a statement said so, and none let it wait again
    since."""
    statuses = list(world.source.statuses(serial))
    return "E" if statuses.count("E") > statuses.count("W") else "W"


def run_cycles_before(world: World, one: Done, entries: Sequence[Done]) -> Iterator[Step]:
    """The statements that give applications the run cycles that they had before a `define`. Raises NoInverse."""
    block = blocks.read("run-cycles", one.data.encode())
    for app, cycles in block.defined.items():
        if world.defined.run_cycles.get(app) != cycles:
            raise NoInverse(f"the run cycles of {app} have changed since")
        before = cycles_before(app, one, cycles, entries)
        yield one_day.define(app, before) if before else Step("undefine", app, None, "run-cycles")


def periods_before(world: World, one: Done, done: Sequence[Done]) -> Iterator[Step]:
    """The statements that undefine the periods that an act defined, unless somebody else uses or changed them."""
    own = {statement.values["app"] for other in done for statement in (other.statement,)
           if statement is not None and statement.name == "ltp-modify-one"}
    used = {cycle.period for app, cycles in world.defined.run_cycles.items() if app not in own
            for cycle in cycles.values()}
    for name, period in blocks.read("periods", one.data.encode()).defined.items():
        if name not in used and world.defined.periods.get(name) == period:
            yield Step("undefine", name, None, "periods")


def cycles_before(app: str, one: Done, cycles: dict[str, RunCycle], entries: Sequence[Done]) -> dict[str, RunCycle]:
    """The run cycles that an application had before a `define`. Raises NoInverse."""
    before = known_before(app, one, entries)
    return without_own(one, cycles) if before is None else before


def known_before(app: str, one: Done, entries: Sequence[Done]) -> dict[str, RunCycle] | None:
    """The run cycles that the last accepted entry before a statement gave an application, or None."""
    found: dict[str, RunCycle] | None = None
    for other in entries:
        if other.seq >= one.seq:
            break
        statement = other.statement if other.reply.startswith("ok") else None
        if statement is None or statement.alone != "run-cycles":
            continue
        if statement.name == "undefine" and statement.values["name"] == app:
            found = {}
        elif statement.name == "define":
            found = blocks.read("run-cycles", other.data.encode()).defined.get(app, found)
    return found


def without_own(one: Done, cycles: dict[str, RunCycle]) -> dict[str, RunCycle]:
    """Run cycles without those of one day that an act added, if it was the first to do so. Raises NoInverse."""
    numbers = {int(found[1]) for name in cycles if (found := one_day.OWN.fullmatch(name))}
    if one.act is None or numbers != {1}:
        raise NoInverse("what the run cycles were before isn't in the journal")
    return {name: cycle for name, cycle in cycles.items() if not one_day.OWN.fullmatch(name)}
