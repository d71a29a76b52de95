"""Small worlds around the state of an agent: a desk with its log, the agent's disk, runners with their jobs, and people
who act besides. Each step that may come next is a state of its own; what the agent promises is asked there of what the
log has and what the jobs did.

The desk may be behind its log: one that was begun again, or another one of the same log, answers for a while as it was
some entries before."""

import dataclasses
import random
import re
from collections import deque
from typing import NamedTuple

from support.copies import shallow, with_containers

from opcplan.agent import known_plan, state
from opcplan.agent.known_plan import Entry, Pair, Row
from opcplan.agent.record import Record
from opcplan.plans.entry import FIRST_JOB

NOW = 10
# statuses from which an act goes, and to which; as docs/rules/STATEMENTS.md has them
ACTS = {"start": ("W", "S"), "complete": ("SE", "C"), "fail": ("S", "E"), "reset": ("E", "W"), "delete": ("WE", "D")}
GOOD, BAD = 0, 1
OLD_JOB = 20
ANY = ""
# of the key of an end, behind that of its start: no other try follows, or one does
END = re.compile("-(?:end|again0)$")
ROUNDS = 12
MOST_STEPS = 150  # of a walk
# what an agent's state has that decides nothing, or is the same in a world, or follows from the rest
UNSEEN = ("messages", "said", "rules", "counted")
PLAIN = (int, str, bool, type(None), tuple, frozenset)  # values that stay as they are


class InvariantViolated(Exception):
    """What a world shows that must not be."""


class Kind(NamedTuple):
    """A small world: how many occurrences there are, each of which waits for the one before it, what people do, and how
    often what goes wrong."""

    rows: int = 1
    most: int = 2
    tries: int = 1  # that an occurrence gets
    is_chained: bool = True  # whether each occurrence waits for the one before it
    class_most: int = 0  # how many may be started at once, 0 where no class limits that
    elsewhere: int = 0  # the occurrence whose jobs another agent runs
    acts: tuple = ()  # what people do, in this order, at any moment
    olds: int = 0  # old jobs that are answered again
    fails: int = 0  # jobs that end badly
    agent_ends: int = 0
    runner_ends: int = 0
    desk_ends: int = 0
    others: int = 0  # times that another desk of the log is asked
    joined: int = 0  # the same, of one whose journal begins where it is
    lost: int = 0  # requests whose answer is lost
    away: int = 0  # requests that don't come to the desk
    late: int = 0  # requests that come to the desk later


class Sent(NamedTuple):
    """A statement on its way."""

    serial: int
    act: str
    key: str
    tag: str


class Runner(NamedTuple):
    """A runner: `begun` (it has the log), `noted` (the record says that the job begins), `running`, `over` (the job
    ended), `last` (the record says so)."""

    serial: int
    key: str
    phase: str


class Job(NamedTuple):
    """A job that began, and how it ended."""

    serial: int
    key: str
    outcome: int | None = None


@dataclasses.dataclass
class World:
    """One state of all that there is."""

    kind: Kind
    left: Kind
    agent: state.State | None = None
    log: tuple = ()
    served: int = 0  # the entry up to which the desk that is asked has answers
    begins: int = 0  # the entry behind which its journal begins
    life: int = 0
    disk: tuple = ()  # records by serial
    claimed: frozenset = frozenset()  # serials whose log the agent has
    runners: tuple = ()
    jobs: tuple = ()
    late: tuple = ()
    done: int = 0  # how many of the acts people did
    keys: int = 0
    rested: frozenset = frozenset()  # keys of the starts of tries whose pause is over

    def next(self):
        """A copy that is to change."""
        found = shallow(self)
        if self.agent is not None:
            found.agent = with_containers(self.agent)
            found.agent.plan = with_containers(self.agent.plan)
            if self.agent.fetched is not None:
                found.agent.fetched = shallow(self.agent.fetched)
        return found

    def frozen(self):
        """What tells this state from others."""
        return (frozen(self.agent), self.left, self.log, self.served, self.begins, self.life, self.disk, self.claimed,
                self.runners, self.jobs, self.late, self.done, self.keys, self.rested)

    def frozen_when_calm(self):
        """What decides of a calm world what becomes of it."""
        return (frozen(self.agent), self.log, self.begins, self.life, self.disk, self.claimed, self.jobs, self.keys,
                self.rested)

    @property
    def rules(self):
        """What the agent is told of applications."""
        apps = [f"A{serial}" for serial in range(1, self.kind.rows + 1)] if self.kind.class_most else []
        return state.Rules(frozenset({f"A{self.kind.elsewhere}"}), dict.fromkeys(apps, "db"),
                           {"db": self.kind.class_most})

    def resting(self):
        """The records of tries that failed, and whose pause isn't over."""
        return [one for one in self.disk
                if one.ended is not None and one.is_tried_again and one.start_key not in self.rested]

    def spent(self, name):
        """Notes that something went wrong once more."""
        self.left = self.left._replace(**{name: getattr(self.left, name) - 1})

    # The desk.

    def status(self, serial, upto=None):
        """The status of an occurrence after some entries."""
        found = [one.reply[-1] for one in self.of_serial(serial, upto)]
        return found[-1] if found else "W"

    def of_serial(self, serial, upto=None):
        """The entries that changed an occurrence, up to one."""
        return [one for one in self.log[:upto] if one.reply.startswith(f"ok serial {serial} ") and one.job >= FIRST_JOB]

    def answered(self):
        """The entries that the desk's journal has."""
        return self.log[: self.served]

    def rows(self):
        """The rows that the desk tells."""
        return [Row(serial, f"A{serial}", str(serial), serial, serial, self.status(serial, self.served))
                for serial in range(1, self.kind.rows + 1)]

    def put(self, act, serial, key=None):
        """The entry that a statement becomes, at the end of the log."""
        before, after = ACTS[act]
        status = self.status(serial)
        if act == "start" and self.waits(serial):
            reply = "refused 30"
        else:
            reply = f"ok serial {serial} status {after}" if status in before else "refused 29"
        seq = len(self.log) + 1
        self.log += (Entry(seq, f"cp-{act} --app A{serial} --ia {serial}", FIRST_JOB + seq - 1, reply, key),)
        return self.log[-1]

    def waits(self, serial):
        """Whether an occurrence waits for the one before it."""
        return self.kind.is_chained and serial > 1 and self.status(serial - 1) != "C"

    def deliver(self, sent):
        """What the desk answers to a statement with a key and a condition; None where the plan has changed."""
        known = next((one for one in self.log if one.key == sent.key), None)
        if known is not None:
            return known
        return self.put(sent.act, sent.serial, sent.key) if self.is_state(sent.tag) else None

    def is_state(self, tag):
        """Whether a tag names the state of the plan; ANY names each."""
        life, _, seq = tag.rpartition("-")
        changed = max((one.seq for one in self.log if one.reply.startswith("ok")), default=0)
        return tag == ANY or life == str(self.life) and changed <= int(seq) <= len(self.log)

    # The machine of the agent.

    def record(self, serial):
        """The record of a serial on the disk, or None."""
        return next((one for one in self.disk if one.serial == serial), None)

    def keep(self, one):
        """Puts a record on the disk."""
        self.disk = tuple(sorted((*self.without(one.serial), one)))

    def without(self, serial):
        """The records of others."""
        return tuple(one for one in self.disk if one.serial != serial)

    def runner(self, serial):
        """The runner of a serial, or None."""
        return next((one for one in self.runners if one.serial == serial), None)

    def set_runner(self, one, phase):
        """A runner comes to a phase, None where it is gone."""
        others = tuple(other for other in self.runners if other.serial != one.serial)
        self.runners = others if phase is None else tuple(sorted((*others, one._replace(phase=phase))))

    def rest(self):
        """The look is over, and the logs that the agent has are closed."""
        self.agent.command, self.claimed = None, frozenset()


Record.__lt__ = lambda one, other: one.serial < other.serial


def frozen(one):
    """The values of an agent's state, without what it says."""
    if one is None:
        return None
    found = []
    for name, value in one.__dict__.items():
        if name in UNSEEN:
            continue
        if type(value) not in PLAIN:
            if isinstance(value, dict):
                value = tuple(sorted(value.items()))
            elif isinstance(value, set):
                value = frozenset(value)
            elif isinstance(value, (list, deque)):
                value = tuple(value)
            elif isinstance(value, (known_plan.KnownPlan, state.Fetched)):
                value = frozen(value)
        found.append(value)
    return tuple(found)


# What may come next.


def steps(world, kind_of_state=state.State):
    """Each state that may come next, with what happens."""
    if world.agent is None:
        found = world.next()
        found.agent = kind_of_state(found.disk)
        yield "an agent begins", found
    elif world.agent.command is None:
        found = world.next()
        found.agent.look(NOW, world.kind.most, world.rules)
        yield "the agent looks", found
    else:
        yield from steps_of_the_agent(world)
    if world.agent is not None and world.left.agent_ends:
        found = world.next()
        found.spent("agent_ends")
        found.agent, found.claimed = None, frozenset()
        yield "the agent is killed", found
    for one in world.runners:
        yield from steps_of_a_runner(world, one)
    for one in world.resting():
        found = world.next()
        found.rested |= {one.start_key}
        yield f"the pause of {one.start_key} is over", found
    yield from steps_of_the_desk(world)
    yield from steps_of_people(world)


def steps_of_the_agent(world):
    """The agent does its command, or what it asks comes to nothing."""
    command = world.agent.command
    found = world.next()
    label = do(found, command)
    yield label, found
    if not isinstance(command, (state.AskStanding, state.AskPairs, state.AskRows, state.AskEntries, state.Send)):
        return
    if world.left.away:
        found = world.next()
        found.spent("away")
        found.rest()
        yield f"{label}: the desk is away", found
    if isinstance(command, state.Send):
        sent = sent_by(command)
        if world.left.lost:
            found = world.next()
            found.spent("lost")
            found.deliver(sent)
            found.rest()
            yield f"{label}: the answer is lost", found
        if world.left.late:
            found = world.next()
            found.spent("late")
            found.late += (sent,)
            found.rest()
            yield f"{label}: it is on its way for long", found


def sent_by(command):
    """What a command sends."""
    return Sent(command.record.serial, command.act, command.key, command.tag)


def do(world, command):
    """Does what the agent's state says, as opcplan.agent.executor does; what that is."""
    agent = world.agent
    try:
        if isinstance(command, state.AskStanding):
            agent.standing(world.served, str(world.life))
        elif isinstance(command, state.AskPairs):
            last = world.kind.rows if world.kind.is_chained else 1
            agent.pairs([Pair(serial, serial - 1) for serial in range(2, last + 1)], world.served)
        elif isinstance(command, state.AskRows):
            agent.rows(world.rows(), world.served)
        elif isinstance(command, state.AskEntries):
            agent.entries([one for one in world.answered() if one.seq > max(command.since, world.begins)])
        elif isinstance(command, state.Send):
            check_sent(world, command)
            answer = world.deliver(sent_by(command))
            world.served = len(world.log)
            agent.changed() if answer is None else agent.answered(answer)
        else:
            do_here(world, command)
    except state.DeskBehind:
        world.rest()
        return f"{type(command).__name__}: the desk is behind"
    if agent.command is None:
        world.rest()
    more = f" {command.act} under {command.key} at {command.tag}" if isinstance(command, state.Send) else ""
    return f"{type(command).__name__}{more}"


def do_here(world, command):
    """What an agent does with its disk and its runners."""
    agent = world.agent
    if isinstance(command, state.Look):
        world.claimed -= {command.serial}
        one = world.record(command.serial) or agent.records[command.serial]
        agent.seen(one, world.runner(command.serial) is not None, one.start_key in world.rested)
    elif isinstance(command, state.Prepare):
        if world.runner(command.row.serial):
            agent.prepared(None)
            return
        if command.row.serial == world.kind.elsewhere:
            raise InvariantViolated(f"{command.row} is another agent's")
        world.keys += 1
        one = Record(command.row.serial, command.row.app, command.row.ia, f"k{world.keys}", command.after, None,
                     attempt=command.attempt, tries=world.kind.tries)
        world.keep(one)
        world.claimed |= {one.serial}
        agent.prepared(one)
    elif isinstance(command, state.Claim):
        is_free = world.runner(command.record.serial) is None
        if is_free:
            world.claimed |= {command.record.serial}
        agent.claimed(is_free)
    elif isinstance(command, state.Run):
        one = command.record
        if one.serial not in world.claimed or world.runner(one.serial):
            raise InvariantViolated(f"two runners of {one.serial}")
        if [other.key for other in world.of_serial(one.serial, agent.plan.position)][-1:] != [one.start_key]:
            raise InvariantViolated(f"{one.start_key} is run, and by what the agent knows it isn't started")
        world.runners = tuple(sorted((*world.runners, Runner(one.serial, one.start_key, "begun"))))
        world.claimed -= {one.serial}
        agent.begun()
    elif isinstance(command, state.Again):
        world.keep(command.record)
        agent.renewed()
    else:
        world.disk = world.without(command.record.serial)
        world.claimed -= {command.record.serial}
        agent.forgotten()


def steps_of_a_runner(world, one):
    """A runner goes on, or is killed."""
    yield from ((label, found) for label, found, _ in moves(world, one))
    if world.left.runner_ends:
        found = world.next()
        found.spent("runner_ends")
        found.set_runner(one, None)
        yield f"the runner of {one.key} is killed, {one.phase}", found


def moves(world, one):
    """How a runner goes on: what happens, the state then, and whether the job ends badly."""
    found = world.next()
    kept = found.record(one.serial)
    if one.phase == "begun":
        found.set_runner(one, "noted" if kept else None)  # without a record it ends at once
        if kept:
            found.keep(dataclasses.replace(kept, began="then"))
    elif one.phase == "noted":
        found.set_runner(one, "running")
        found.jobs += (Job(one.serial, one.key),)
    elif one.phase == "running":
        for outcome in (GOOD, BAD) if world.left.fails else (GOOD,):
            other = world.next()
            other.jobs = tuple(job._replace(outcome=outcome) if job.key == one.key else job for job in world.jobs)
            other.set_runner(one, "over")
            if outcome == BAD:
                other.spent("fails")
            yield f"the job of {one.key} ends with {outcome}", other, outcome == BAD
        return
    elif one.phase == "over":
        outcome = next(job.outcome for job in world.jobs if job.key == one.key)
        found.keep(dataclasses.replace(kept, ended="then", status=outcome))
        found.set_runner(one, "last")
    else:
        found.set_runner(one, None)
    yield f"the runner of {one.key} goes on, {one.phase}", found, False


def steps_of_the_desk(world):
    """The desk comes nearer to the end of its log, is begun again, or another one is asked."""
    if world.served < len(world.log):
        found = world.next()
        found.served += 1
        yield "the desk answers one more", found
    behind = sorted({max(0, world.served - 1), max(0, world.served - 2)})
    if world.left.desk_ends:
        for served in behind:
            found = world.next()
            found.spent("desk_ends")
            found.life, found.served = world.life + 1, served
            yield f"the desk is begun again, at {served}", found
    if world.left.others:
        for served in behind:
            found = world.next()
            found.spent("others")
            found.served, found.begins = served, 0
            yield f"another desk is asked, at {served}", found
    if world.left.joined and not world.begins:
        found = world.next()
        found.spent("joined")
        found.begins = world.served
        yield f"another desk is asked, which joined at {world.served}", found
    for place, sent in enumerate(world.late):
        found = world.next()
        found.late = world.late[:place] + world.late[place + 1 :]
        found.deliver(sent)
        yield f"{sent.act} under {sent.key} comes late", found


def steps_of_people(world):
    """Somebody changes the first occurrence."""
    if world.done < len(world.kind.acts):
        found = world.next()
        found.done += 1
        is_level = found.served == len(found.log)
        found.put(world.kind.acts[world.done], 1)
        found.served = len(found.log) if is_level else found.served
        yield f"somebody says {world.kind.acts[world.done]}", found
    if world.left.olds:
        for status in "SE":
            found = world.next()
            found.spent("olds")
            seq = len(found.log) + 1
            found.log += (Entry(seq, "cp-old", OLD_JOB, f"ok serial 1 status {status}", None),)
            yield f"an old job is answered again, {status}", found


# What has to hold.


def check_sent(world, command):
    """What the agent sends has its time."""
    one = command.record
    if command.act == "reset" and one.start_key not in world.rested:
        raise InvariantViolated(f"{one.start_key} is reset within its pause")


def check(world):
    """Asks all that has to hold of a state. Raises InvariantViolated."""
    keys = [job.key for job in world.jobs]
    if len(set(keys)) < len(keys):
        raise InvariantViolated(f"a job began twice: {keys}")
    for job in world.jobs:
        if not any(one.key == job.key and one.reply.endswith(" S") for one in world.log):
            raise InvariantViolated(f"the job of {job.key} began, and nobody was told")
    for one in world.log:
        if one.key is not None and one.reply.startswith("ok"):
            check_step(world, one)
    if world.agent is not None and world.agent.fetched is None and world.agent.plan.position is not None:
        check_plan(world, world.agent.plan)


def check_step(world, one):
    """What the desk accepted of an agent was its turn."""
    serial = int(one.statement.split()[-1])
    before = world.of_serial(serial, one.seq - 1)
    if END.search(one.key):
        check_end(world, one)
    elif one.key.endswith("-reset"):
        failed = f"{start_of(one.key)}-again0"
        if (before[-1].key, before[-1].reply[-1]) != (failed, "E"):
            raise InvariantViolated(f"{one.statement} under {one.key}, and {before[-1]} was in force")
    else:
        check_start(world, one, serial, before)


def check_start(world, one, serial, before):
    """A start is that of a try that there may be, behind the reset of the one before it, and its class has room."""
    attempt = attempt_of(one.key)
    if attempt > world.kind.tries:
        raise InvariantViolated(f"{one.key} is started, and there are {world.kind.tries} tries")
    if attempt > 1 and not (before and str(before[-1].key).endswith(f".{attempt - 1}-reset")):
        raise InvariantViolated(f"{one.key} is started, and no try before it was reset")
    if is_full(world, one.seq - 1):
        raise InvariantViolated(f"{one.key} is started, and its class is full")


def attempt_of(key):
    """Which try a key of a start or an end stands for."""
    return int(END.sub("", key).partition(".")[2] or 1)


def start_of(key):
    """The key of the start of the try that a key of a reset stands for."""
    return key.removesuffix("-reset").removesuffix(".1")


def check_end(world, one):
    """What is told of a job's end happened, and of the start that was in force."""
    job = next((job for job in world.jobs if job.key == END.sub("", one.key)), None)
    if job is None or job.outcome != (GOOD if one.reply.endswith(" C") else BAD):
        raise InvariantViolated(f"{one.statement} is told under {one.key}, and the job is {job}")
    if one.key.endswith("-end") != (job.outcome == GOOD or attempt_of(one.key) >= world.kind.tries):
        raise InvariantViolated(f"{one.key} doesn't say whether another try follows")
    last = [other for other in world.of_serial(job.serial, one.seq - 1)][-1]
    if last.key != job.key:
        raise InvariantViolated(f"{one.statement} is told under {one.key}, and {last} was in force")


def check_plan(world, plan):
    """What the agent knows of rows is so at its position."""
    if plan.position > len(world.log):
        raise InvariantViolated(f"position {plan.position} of {len(world.log)} entries")
    if plan.stale == known_plan.NOTHING:
        for serial, row in plan.rows.items():
            if row.status != world.status(serial, plan.position):
                raise InvariantViolated(f"{row} at entry {plan.position} isn't so")


def check_outcome(world, kind_of_state=state.State, met=None):
    """Where nothing goes wrong any more, each job that ended is reported, and nothing is left that nobody has. What
    comes of a world doesn't depend on what could still have gone wrong: it is asked once of those that `met` has."""
    world = calmed(world.next())
    if met is not None:
        name = hash(world.frozen_when_calm())
        if name in met:
            return
        met.add(name)
    last = finished(world, kind_of_state)
    for one in last.disk:
        is_unknown = one.began is not None and one.ended is None or last.begins > one.after
        is_waiting = is_full(last) and (one.began is None or one.is_tried_again)
        if not is_unknown and not is_waiting:
            raise InvariantViolated(f"a record is left: {one}")
    for job in last.jobs:
        found = any(END.sub("", one.key or "") == job.key != one.key and one.reply.startswith("ok") for one in last.log)
        kept = last.record(job.serial)
        if not found and last.of_serial(job.serial)[-1].key == job.key and (kept is None or kept.start_key != job.key):
            raise InvariantViolated(f"the end of {job} is never told")
    for serial in range(1, last.kind.rows + 1):
        changes = last.of_serial(serial)
        if changes and changes[-1].reply.endswith(" S") and changes[-1].key and last.record(serial) is None:
            raise InvariantViolated(f"{changes[-1]} is started, and nobody has it")
        check_left(last, serial, changes)


def check_left(last, serial, changes):
    """Nothing is left that could go on: what is ready is begun, and what failed is tried again."""
    may_begin = serial != last.kind.elsewhere and not is_full(last)
    if last.status(serial) == "W" and not last.waits(serial) and may_begin and not last.record(serial):
        raise InvariantViolated(f"{serial} is ready, and nobody begins it")
    key = changes[-1].key if changes and changes[-1].reply.endswith(" E") else None
    if key and attempt_of(key) < last.kind.tries and not last.begins and may_begin:
        raise InvariantViolated(f"{changes[-1]} is never tried again")


def is_full(world, upto=None):
    """Whether as many occurrences are started as their class may have, after some entries."""
    started = [one for one in range(1, world.kind.rows + 1) if world.status(one, upto) == "S"]
    return 0 < world.kind.class_most <= len(started)


def calmed(found):
    """A world whose desk is level, whose pauses are over and whose runners end, all jobs well."""
    found.served = len(found.log)
    found.rested |= {one.start_key for one in found.resting()}
    while found.runners:
        _, found, _ = next(moves(found, found.runners[0]))
    return found


def finished(found, kind_of_state):
    """What a world, which may change, comes to where nothing goes wrong any more, and all jobs end well."""
    before = None
    for _ in range(ROUNDS):
        found = calmed(found)
        if found.agent is None:
            found.agent = kind_of_state(found.disk)
        if found.agent.command is None:
            found.agent.look(NOW, found.kind.most, found.rules)
        while found.agent.command is not None:
            do(found, found.agent.command)
            check(found)
        now = found.log, found.disk, found.runners, found.jobs
        if now == before:
            return found
        before = now
    raise InvariantViolated("the agent comes to no end")


def explored(kind, kind_of_state=state.State):
    """How many states a world has. Raises InvariantViolated, with how it comes to that."""
    first = World(kind, kind)
    begin = hash(first.frozen())
    seen, waiting, met = {begin: (None, "")}, deque([(begin, first)]), set()
    while waiting:
        number, world = waiting.popleft()
        try:
            check(world)
            if world.agent is None or world.agent.command is None:
                check_outcome(world, kind_of_state, met)
            for label, found in steps(world, kind_of_state):
                if (other := hash(found.frozen())) not in seen:
                    seen[other] = number, label
                    waiting.append((other, found))
        except (InvariantViolated, AssertionError) as why:
            raise InvariantViolated(f"{why}\n" + "\n".join(path_to(seen, number))) from None
    return len(seen)


def walked(kind, seed, kind_of_state=state.State):
    """Takes steps at random through a world, and asks at some rests whether all comes to its end. Raises
    InvariantViolated, with the path."""
    chosen, path, world = random.Random(seed), [], World(kind, kind)
    try:
        while len(path) < MOST_STEPS:
            check(world)
            if (world.agent is None or world.agent.command is None) and not chosen.randrange(5):
                check_outcome(world, kind_of_state)
            label, world = chosen.choice(list(steps(world, kind_of_state)))
            path.append(label)
    except (InvariantViolated, AssertionError) as why:
        raise InvariantViolated("\n".join([f"{why}, by seed {seed}", *path])) from None


def path_to(seen, number):
    """What happened up to a state."""
    found = []
    while number is not None:
        number, label = seen[number]
        found.append(label)
    return found[::-1]
