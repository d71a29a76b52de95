"""A plan's file with its log as a model, small enough to go through every order of events: we judge the file, we run
opcplan over it in three ways, a stranger writes at each moment with all times but that of the kernel set back, and
opcplan and we are killed at each moment.

What bytes say is a number of a sound plan, or something else. Of a file that somebody wrote to, what SQLite reads by a
log is a mixture, which is no sound plan. Of a `Damaged` plan the rows are sound, but an index says other things:
opcplan takes it, and we don't. Of an `Unruly` one tables and indexes are undamaged, but a row breaks a rule: opcplan
refuses it. `plain` decides as the package does; a test replaces a part of it."""

import dataclasses
from typing import NamedTuple

from opcplan.plans import plan_file, successions
from opcplan.plans.plan_file import Stamp, State

GRANULE = int(plan_file.COARSE * plan_file.SECOND)
FIRST, OTHERS = 0, 90  # the plan at first, and one of another file
LAST_TICK = 4


class File(NamedTuple):
    """The file itself: what its bytes say, inode, and the tick of its last change."""

    says: object
    inode: int
    tick: int


class Damaged(NamedTuple):
    """What a file says whose rows are those of a sound plan, and an index isn't."""

    number: int


class Unruly(NamedTuple):
    """What a file says whose tables and indexes are undamaged, and a row isn't that of a sound plan."""

    number: int


class Log(NamedTuple):
    """Its log: the number at random in its first bytes, the frames up to which nothing is damaged, inode, the tick of
    its last change, and whether something is damaged: nobody reads the frames behind that."""

    salt: int
    frames: tuple[int, ...]
    inode: int
    tick: int
    is_damaged: bool = False


def merged(file, log):
    """What SQLite reads: a number is a sound plan."""
    if file is None or log is None or not log.frames:
        return None if file is None else file.says
    # a log goes on from the plan that its first frame changes, and may be in the file already, up to some frame
    number = taken(file.says)
    if number is None or not log.frames[0] - 1 <= number <= log.frames[-1]:
        return ("mixed", file.says, log.frames[-1])
    return log.frames[-1] if isinstance(file.says, int) else Damaged(log.frames[-1])


def taken(says):
    """As which plan opcplan takes what bytes say, or None."""
    return says.number if isinstance(says, Damaged) else says if isinstance(says, int) else None


class Ours(NamedTuple):
    """A program of ours: its way, its next step, and what it has noted so far."""

    way: str
    step: int = 0
    sound: State | None = None
    seen: State | None = None
    copied: tuple = ()
    begin: object = None  # which log opcplan began
    merged: object = None  # what a private copy says, which opcplan made
    opened: State | None = None  # in which opcplan has opened a file of which nothing was known


@dataclasses.dataclass(frozen=True)
class World:
    """All that is there at a moment, and how much may still happen."""

    file: File
    log: Log | None
    marks: frozenset
    ours: tuple  # of Ours
    run: object = None  # the plan that opcplan has open
    answers: int = 0
    salts: int = 1
    now: int = 1
    most: int = 2  # answers
    writes: int = 1
    kills: int = 1

    def but(self, **changes):
        return dataclasses.replace(self, **changes)

    @property
    def state(self):
        """What is seen of the files; size and first bytes of the file, and the times that a program can set, stay."""
        stamps = [Stamp("", 4096, 1, self.file.inode, 1, self.file.tick * GRANULE + 1)]
        heads = ["same"]
        if self.log is not None:
            size = 41 + 4120 * (len(self.log.frames) + self.log.is_damaged)
            stamps.append(Stamp("-wal", size, 1, self.log.inode, 1, self.log.tick * GRANULE + 1))
            heads.append(f"{self.log.salt:0{successions.OF_LOG_HEAD}}")
        return State(tuple(stamps), tuple(heads), self.now * GRANULE + 1)

    @property
    def is_sound(self):
        return isinstance(merged(self.file, self.log), int)

    @property
    def is_marked(self):
        return self.state.text in self.marks


def first(ways, says=FIRST, is_known=True, **budget):
    """A world in which the file was just found sound, or nothing is known of it, and these programs of ours are going
    to run."""
    world = World(File(says, 1, 0), Log(0, (), 2, 0), frozenset(), tuple(Ours(way) for way in ways), **budget)
    return world.but(marks=frozenset([world.state.text] if is_known else []))


def following(world, plain):
    """Each (name, world) that may come next."""
    if world.now < LAST_TICK:
        yield "time passes", world.but(now=world.now + 1)
    yield from of_opcplan(world)
    for place, one in enumerate(world.ours):
        for name, after, then in STEPS[one.way](world, one, plain):
            rest = world.ours[:place] + ((then,) if then else ()) + world.ours[place + 1:]
            yield f"{one.way}: {name}", after.but(ours=rest)
        if world.kills and one.step:
            rest = world.ours[:place] + world.ours[place + 1:]
            yield f"{one.way} is killed", world.but(ours=rest, run=None, kills=world.kills - 1)
    if world.writes:
        for name, after in strangers(world):
            yield f"a stranger {name}", after.but(writes=world.writes - 1)


def strangers(world):
    """What somebody else may do, who keeps size, first bytes and times of the file."""
    now, file, log = world.now, world.file, world.log
    yield "writes a byte", world.but(file=File(("foreign", file.says), file.inode, now))
    if isinstance(file.says, int):
        yield "writes a value", world.but(file=File(Unruly(file.says), file.inode, now))
    yield "replaces the file", world.but(file=File(("foreign", "other"), 9, now))
    yield "puts the first plan back", world.but(file=File(FIRST, file.inode, now))
    if log is not None:
        if log.frames:
            yield "damages the log", world.but(log=log._replace(frames=log.frames[:-1], tick=now, is_damaged=True))
            yield "takes the log away", world.but(log=None)
        if world.run is None or any(one.begin is not None for one in world.ours):
            yield "puts another plan's log there", world.but(log=Log(77, (OTHERS,), log.inode, now))


def of_opcplan(world):
    """What opcplan does by itself while it runs."""
    if world.run is None:
        return
    if world.answers < world.most and world.log is not None and any(one.step < 3 or one.way == "desk"
                                                                       for one in world.ours):
        made = world.run + 1
        more = () if world.log.is_damaged else (made,)
        log = world.log._replace(frames=(*world.log.frames, *more), tick=world.now)
        yield "opcplan answers", world.but(run=made, log=log, answers=world.answers + 1)
        yield "opcplan answers, and copies its log", copied(world.but(run=made, log=log, answers=world.answers + 1))
    if world.kills:
        yield "opcplan is killed", world.but(run=None, kills=world.kills - 1)


def copied(world):
    """The world once opcplan has copied its log into the file, and begun it anew."""
    if world.log is None:
        return world
    file = world.file
    if world.log.frames:
        file = File(merged(file, world.log), file.inode, world.now)
    return world.but(file=file, salts=world.salts + 1, log=Log(world.salts + 1, (), world.log.inode, world.now))


def opened(world):
    """The world once opcplan has opened the file, or None where it refuses it."""
    number = taken(merged(world.file, world.log))
    if world.run is not None or number is None:
        return None
    log = world.log or Log(0, (), 3, world.now)
    return copied(world.but(log=log)).but(run=number, answers=0)


def marked(world, state):
    return world.but(marks=world.marks | {state.text})


# Our programs, step by step: name, the world after the step, and the program after it, or None once it has ended.


def of_look(world, one, plain):
    """Checks a private copy of the file, as each command does that finds no result."""
    if one.step == 0:
        yield "sees it", world, one._replace(step=1, seen=world.state)
    elif one.step == 1:
        yield "copies it", world, one._replace(step=2, copied=(merged(world.file, world.log),))
    else:
        is_kept = isinstance(one.copied[0], int) and world.state.stamps == one.seen.stamps and one.seen.is_settled
        yield "ends", marked(world, one.seen) if is_kept else world, None


def of_send(world, one, plain):
    """`own_runs.ran`."""
    if one.step == 0:
        if world.run is None:
            yield "sees it", world, one._replace(step=1, sound=world.state if world.is_marked else None)
    elif one.step == 1:
        after = opened(world)
        if after is None:
            yield "is refused", world, None
        else:
            yield "has opcplan open it", after, one._replace(step=2)
    elif one.step == 2:
        if not plain.may_be_copied(one.sound, one.begin, world.state):
            yield "takes no copy", world, one._replace(step=5)
        elif plain.log_is_empty(world.state):
            yield "has nothing to copy", world, one._replace(step=5)
        else:
            yield "copies the file", world, one._replace(step=3, seen=None, copied=(world.file,))
    elif one.step == 3:
        yield "copies the log", world, one._replace(step=4, copied=(one.copied[0], world.log))
    elif one.step == 4:
        if plain.may_be_copied(one.sound, one.begin, world.state):
            yield "merges", world, one._replace(step=5, merged=merged(*one.copied), copied=())
        else:
            yield "drops the copy", world, one._replace(step=5, copied=())
    elif one.step == 5:
        if world.run is not None:
            yield "has opcplan end", copied(world).but(run=None), one._replace(step=6)
    else:
        yield from of_keeping(world, one, plain)


def of_keeping(world, one, plain):
    """`Look.keep`, and `own_runs.keep_equal` of a private copy."""
    if one.step == 6 and one.merged is None:
        is_kept = plain.is_sound_unwritten(one.sound, world.state)
        yield "keeps it unwritten", marked(world, world.state) if is_kept else world, None
    elif one.step == 6:
        yield "sees what is left", world, one._replace(step=7, seen=world.state)
    elif one.step == 7:
        is_equal = world.file.says == one.merged
        yield "compares", world, one._replace(step=8, copied=(is_equal,))
    else:
        is_kept = plain.is_sound_copied(one.seen, one.copied[0], world.state)
        yield "keeps it", marked(world, one.seen) if is_kept else world, None


def of_trial(world, one, plain):
    """`trial.tried` and then the run itself, whose result is compared with that of the trial."""
    if one.step == 0:
        says = merged(world.file, world.log)
        if world.run is None and isinstance(says, int):
            yield "tries it", world, one._replace(step=1, merged=says + 1)
    elif one.step == 1:
        after = opened(world)
        yield ("has opcplan open it", after, one._replace(step=2)) if after else ("is refused", world, None)
    elif one.step == 2:
        yield "waits", world, one._replace(step=5)
    else:
        yield from of_send(world, one, plain)


def of_desk(world, one, plain):
    """The planner of a desk, which looks at the files between statements, and takes a copy at its end."""
    if one.step == 0:
        if world.run is None:
            yield "sees it", world, one._replace(step=1, sound=world.state if world.is_marked else None,
                                                 seen=world.state)
    elif one.step == 1:
        after = opened(world)
        if after is None:
            yield "is refused", world, None
        else:
            is_opened = one.sound is None and plain.is_opened(one.seen, after.state)
            yield "has opcplan open it", after, one._replace(
                step=2, begin=plain.log_begin(after.state), seen=None, opened=one.seen if is_opened else None)
    elif one.step == 2:
        if world.run is not None:
            yield "sees it", world, one._replace(step=3, seen=world.state)
            yield "begins to end", world, Ours("send", 2, one.sound, begin=one.begin)
        if one.opened is not None:
            is_undamaged = isinstance(world.file.says, int | Unruly)
            yield "asks for the tables", world, one._replace(step=4, copied=(is_undamaged,))
    elif one.step == 4:
        is_sound = one.sound is None and plain.is_sound_opened(one.opened, one.copied[0], world.state)
        yield "knows of the tables", world, one._replace(step=2, sound=one.opened if is_sound else one.sound,
                                                         copied=(), opened=None)
    else:
        is_kept = plain.is_sound_beside(one.sound, one.begin, one.seen)
        yield "keeps it", marked(world, one.seen) if is_kept else world, one._replace(step=2, seen=None)
        if world.is_marked:
            yield "goes on from it", world, one._replace(step=2, sound=world.state, begin=plain.log_begin(world.state))


STEPS = {"look": of_look, "send": of_send, "trial": of_trial, "desk": of_desk}


def explored(worlds, plain=successions, most=2_000_000):
    """All worlds that may come of some, each once; a way to one in which a state counts as sound and isn't, or None."""
    came = {world: None for world in worlds}
    left = list(worlds)
    while left:
        world = left.pop()
        if world.is_marked and not world.is_sound:
            return came, way_to(world, came)
        for name, after in following(world, plain):
            if after not in came:
                came[after] = (world, name)
                left.append(after)
        assert len(came) <= most, "the worlds are no longer small"
    return came, None


def way_to(world, came):
    """The events that lead to a world."""
    found = []
    while came[world] is not None:
        world, name = came[world]
        found.append(name)
    return found[::-1]
