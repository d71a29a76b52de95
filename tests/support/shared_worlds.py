"""Small worlds of several desks over one log, each with all that it decides: the state of a desk (State), and what it
sees of the log, keys and digests (SharedLog). Callers go over to another desk with their key, desks are killed, a
machine is replaced by a copy, an entry is answered differently, reports are removed, the log is trimmed, and moved to
another opcplan. Each step that may come next is a state of its own. What is here beside the desks' own code is what
etcd, disks and opcplan do by themselves, and a record of what really happened, which no desk sees.

A digest is written as the replies that it covers, as in digest_worlds: `oox` means that entries 1 and 2 were answered
right, and 3 differently."""

import random
from typing import NamedTuple
from unittest import mock

from support import digest_worlds, exploration
from support.copies import with_containers
from support.digest_worlds import Copy, Plan, standing
from support.exploration import InvariantViolated

from opcplan.desk import digests, keys, log, shared_log, state, versions
from opcplan.desk.digests import HELD, ON, STOPPED, Verdict
from opcplan.desk.log_entries import Head
from opcplan.desk.log_view import LogView
from opcplan.desk.published import Desks, Report
from opcplan.plans import entry
from opcplan.plans.copy_mark import CopyMark
from opcplan.plans.entry import Wanted

WHO, AT = "me", "2024-01-01T00:00:00.000Z"
OLD, NEW = (versions.text_of(name, versions.RULES) for name in ("v1", "v2"))
MOST_STEPS = 400  # of a walk


class Rules(NamedTuple):
    """What the desks run; tests put mutants here."""

    shared: type = shared_log.SharedLog
    view: type = LogView
    known: type = keys.Keys
    core: type = state.State
    begun_with: object = digests.begun_with
    trimmed_to: object = keys.trimmed_to
    reads_keys: bool = True  # a desk that begins with a copy, of the entries before it


class Left(NamedTuple):
    """How often what may happen may still happen."""

    odd: int = 0  # another program changes a plan
    overs: int = 0  # a caller gives a desk up
    losses: int = 0  # the answer to an append is lost
    kills: int = 0
    downs: int = 0  # opcplan can't be started for a while
    lost: int = 0  # machines
    copies: int = 0  # by /snapshot
    plain: int = 0  # by hand, without a mark
    forgets: int = 0  # a report is removed, also that of a desk that runs
    trims: int = 0
    moves: int = 0  # of the log to another opcplan
    fresh: int = 0


class Kind(NamedTuple):
    """A kind of world: how many desks, the keys that each caller sends one after another (None: without a key), what
    may happen, and what has happened: how the labels of those steps begin."""

    desks: int
    callers: tuple
    left: Left
    script: tuple = ()
    rules: Rules = Rules()
    most_recent: int = 2  # answered entries in memory


class Ask(NamedTuple):
    """An entry on its way to opcplan."""

    entry: entry.Entry
    is_again: bool = False


class Journal(NamedTuple):
    """A desk's journal: it has the entries after `begun`, with that digest, up to `given`, and replies to the first of
    them. The plan answers by itself after `since`. `stopped`: the entry at which the desk stopped, or 0."""

    begun: int = 0
    digest: str = ""
    given: int = 0
    replies: str = ""
    since: int = 0
    stopped: int = 0

    @property
    def text(self):
        return self.digest + self.replies


class Run(NamedTuple):
    """A desk's process: its State, what it sees of the log, its verdict, the keys of entries before its journal, the
    changes that wait, whether opcplan can't be started, and which opcplan it is."""

    core: state.State
    head: Head
    has_news: bool
    verdict: Verdict = Verdict()
    before: tuple = ()
    queue: tuple = ()
    is_down: bool = False
    version: str = OLD
    lost: str = ""


class Said(NamedTuple):
    """What a desk published."""

    digests: dict
    since: int
    stopped: int
    position: int


class Desk(NamedTuple):
    """A desk, as in digest_worlds."""

    name: str
    run: Run | None
    plan: Plan
    journal: Journal
    report: Said | None = None
    is_lost: bool = False
    is_distrusted: bool = False
    was_stopped: bool = False

    @property
    def position(self):
        return self.run.core.position


class World(NamedTuple):
    """A state of all that there is. `moved`: the entry from which on the new opcplan answers, or 0."""

    log: tuple  # the key of each entry that the log ever had
    desks: tuple
    callers: tuple  # how many keys each has sent, and the name of the desk at which it waits
    left: Left
    first: int = 1
    moved: int = 0
    acknowledged: tuple = ()
    copies: tuple = ()
    wrong: str = ""  # what a step showed that must not be

    @property
    def now(self):
        """The head of the log."""
        return Head(len(self.log), int(bool(self.moved)))

    @property
    def versions(self):
        return {1: OLD, self.moved: NEW} if self.moved else {1: OLD}

    def put(self, place, desk):
        """The same with another state of a desk."""
        return self._replace(desks=self.desks[:place] + (desk,) + self.desks[place + 1 :])

    def spent(self, name):
        """The same after something happened once more."""
        return self._replace(left=self.left._replace(**{name: getattr(self.left, name) - 1}))

    def key(self):
        """What tells a state from others: desks have no names here, and no order."""
        desks = tuple(sorted(hash((frozen(one), tuple(
            number for number, (_, at) in enumerate(self.callers) if at == one.name))) for one in self.desks))
        turns = tuple(turn for turn, _ in self.callers)
        return hash((self.log, desks, turns, self.left, self.first, self.moved, self.acknowledged, self.copies,
                     self.wrong))


def frozen(desk):
    """A desk without its name."""
    report = desk.report and (tuple(desk.report.digests.items()), *desk.report[1:])
    run = desk.run
    if run is not None:
        core = run.core
        run = (core.position, core.changed, core.kept, core.recent_from, core.durable, core.chain,
               tuple(one.entry.seq for one in core.line), tuple(one.entry.seq for one in core.flight),
               tuple(core.chains), *run[1:3], run.verdict[:2], *run[4:])
    return (run, desk.plan, desk.journal, report, *desk[5:])


def readable(digest, one):
    """The digest after an answered entry, as one that can be read."""
    return digest + one.reply[-1]


def entry_at(seq, key):
    """An entry of the log."""
    return entry.placed([wanted(key)], seq - 1)[0]


def wanted(key):
    """A caller's change."""
    return Wanted(WHO, key, "cp-add", None, None, AT, key)


class Stored(NamedTuple):
    """A journal, as Keys sees it."""

    log: tuple
    begun: int
    given: int

    def find(self, _who, key):
        """The Entry of a caller's key, or None."""
        found = [seq for seq in range(self.begun + 1, self.given + 1) if self.log[seq - 1] == key]
        return entry_at(found[0], key) if found else None

    def stream_of(self, who, key):
        """The stream that has a caller's key, or None."""
        return key if self.find(who, key) else None


def beginning(kind):
    """The first state."""
    world = World((), (), ((0, ""),) * len(kind.callers), kind.left)
    desks = tuple(Desk("ABC"[number], begun(kind, world, Plan(), Journal()), Plan(), Journal())
                  for number in range(kind.desks))
    world = world._replace(desks=desks)
    for place in range(kind.desks):
        world = looked(world, kind, place)[1]
    return world


def begun(kind, world, plan, journal, version=OLD):
    """The process of a desk that begins over a plan and its journal."""
    position = len(journal.text)
    pending = [Ask(entry_at(seq, world.log[seq - 1])) for seq in range(position + 1, journal.given + 1)]
    core = kind.rules.core("life", position, journal.text, pending)
    core.most_recent = kind.most_recent
    core.opened()
    before = ()
    if kind.rules.reads_keys:
        before = tuple((world.log[seq - 1], seq) for seq in range(world.first, journal.begun + 1) if world.log[seq - 1])
    verdict = Verdict(STOPPED, journal.stopped) if journal.stopped else Verdict()
    return Run(core, world.now, journal.given < world.now.last, verdict, before, (), False, version)


def parts(world, kind, place):
    """The SharedLog of a desk, and a State of its own, in their state."""
    desk = world.desks[place]
    run, journal = desk.run, desk.journal
    view = kind.rules.view(f"{desk.name}.db", journal.given, run.head, world.versions if run.head.moves else {1: OLD},
                           run.version)
    view.has_news, view.lost = run.has_news, run.lost
    known = kind.rules.known(Stored(world.log, journal.begun, journal.given))
    known.learn(entry_at(seq, key) for key, seq in run.before)
    judge = digests.Digests(journal.since, journal.stopped)
    judge.most, judge.verdict = 2, run.verdict
    core = with_containers(run.core)
    text = journal.text

    def own(_needed):
        """The desk's digests, those in memory too."""
        return {seq: text[:seq] for seq in range(journal.begun, len(text) + 1)} | core.answered()

    found = kind.rules.shared(desk.name, view, known, judge, own)
    return found, core


def seen(world, place, shared, core, **more):
    """The same after a desk's SharedLog and State have changed."""
    desk, view = world.desks[place], shared.view
    run = desk.run._replace(core=core, head=view.head, has_news=view.has_news, lost=view.lost,
                            verdict=shared.digests.verdict._replace(other=""))
    return world.put(place, desk._replace(run=run, **more))


# What happens by itself.


def steps(world, kind):
    """Each state that may come next, with what happens."""
    for label, found in progress(world, kind):
        yield label, answered(found)
    for label, found in (*steps_of_callers(world, kind), *steps_of_machines(world, kind), *steps_of_log(world, kind)):
        yield label, answered(found)


def progress(world, kind):
    for place, desk in enumerate(world.desks):
        if desk.run is None:
            continue
        if desk.run.verdict.kind != STOPPED:
            yield from takes(world, kind, place)
            if desk.run.core.flight and not desk.run.is_down:
                yield answers(world, kind, place)
            if desk.run.queue:
                yield from appends(world, kind, place)
        if desk.run.core.unkept():
            shared, core = parts(world, kind, place)
            yield f"{desk.name}'s journal gets replies", seen(world, place, shared, core,
                                                              journal=with_replies(desk.journal, core))
        label, found = looked(world, kind, place)
        if found.key() != world.key():
            yield label, found


def with_replies(journal, core):
    """A journal that gets the replies which it lacks."""
    replies = core.unkept()
    core.keeps(replies)
    return journal._replace(replies=journal.replies + "".join(one.reply[-1] for one in replies))


def takes(world, kind, place):
    """A desk reads the log, and takes the next entry."""
    desk, (shared, core) = world.desks[place], parts(world, kind, place)
    if desk.run.lost or not shared.view.has_news and desk.run.head == world.now:
        return
    view = shared.view
    if view.moves != world.now.moves:
        view.knows(world.versions, world.now.moves)
    begin = max(world.first, desk.journal.given + 1)
    found = [entry_at(seq, world.log[seq - 1]) for seq in range(begin, len(world.log) + 1)][:1]
    taken = shared.read(world.now, found, desk.journal.given)
    if not taken:
        after = seen(world, place, shared, core)
        if after.key() != world.key():
            yield f"{desk.name} reads nothing", after
        return
    journal = with_replies(desk.journal, core)._replace(given=taken[-1].seq)
    view.kept(taken[-1].seq)
    core.appended([Ask(one) for one in taken])
    yield f"{desk.name} takes entry {taken[-1].seq}", seen(world, place, shared, core, journal=journal)


def answers(world, kind, place):
    """Opcplan answers the next entry: as before, if the plan has it."""
    desk, (shared, core) = world.desks[place], parts(world, kind, place)
    seq, plan = core.flight[0].entry.seq, desk.plan
    if len(plan.done) < seq:
        is_right = not plan.odd and desk.run.version == versions.version_at(world.versions, seq)
        plan = Plan(plan.done + ("o" if is_right else "x"), plan.odd)
    core.replied(f"ok {plan.done[seq - 1]}")
    return f"{desk.name} answers entry {seq}: {plan.done[seq - 1]}", seen(world, place, shared, core, plan=plan)


def appends(world, kind, place):
    """A desk appends what waits; etcd does it if the head is as the desk knows it."""
    desk, (shared, core) = world.desks[place], parts(world, kind, place)
    try:
        entries = shared.place([wanted(key) for key in desk.run.queue])
    except (log.LogAdvanced, shared_log.DeskNotOn):
        return
    except log.KeysInUse as why:
        yield f"{desk.name} finds {len(why.found)} keys", found_keys(world, place, why.found)
        return
    if desk.run.verdict.kind != ON:
        raise InvariantViolated(f"{desk.name} appends {desk.run.queue}, and is {desk.run.verdict.kind}")
    if shared.view.head != world.now:
        shared.view.refused(world.now)
        yield f"{desk.name} hears that the log has advanced", seen(world, place, shared, core)
        return
    after = world._replace(log=world.log + desk.run.queue)
    if world.left.losses:  # the desk drops them, and reads them again
        shared.view.refused(after.now)
        yield f"{desk.name} appends {desk.run.queue}, and gets no answer", without_queue(
            seen(after.spent("losses"), place, shared, core), place)
        shared, core = parts(world, kind, place)
    journal = with_replies(desk.journal, core)._replace(given=entries[-1].seq)
    shared.view.kept(entries[-1].seq)
    shared.view.notice(after.now)
    core.appended([Ask(one) for one in entries])
    found = seen(after, place, shared, core, journal=journal)
    desk = found.desks[place]
    yield f"{desk.name} appends {world.desks[place].run.queue} as entry {entries[-1].seq}", found.put(
        place, desk._replace(run=desk.run._replace(queue=())))


def found_keys(world, place, found):
    """Keys of a desk's queue have entries already: who waits for them gets the answers of those."""
    desk = world.desks[place]
    queue = tuple(key for number, key in enumerate(desk.run.queue) if number not in found)
    world = world.put(place, desk._replace(run=desk.run._replace(queue=queue)))
    for number, one in found.items():
        world = acknowledged(world, desk, desk.run.queue[number], one.seq if one else 0)
    return world


def without_queue(world, place):
    """What waited at a desk is gone, and those who wait there get no answer."""
    desk = world.desks[place]
    if desk.run is not None:
        world = world.put(place, desk._replace(run=desk.run._replace(queue=())))
    return world._replace(callers=tuple(
        (turn, "" if at == desk.name else at) for turn, at in world.callers))


def report_of(desk):
    """A Report in etcd."""
    said = desk.report
    return Report(said.position, digests={str(seq): one for seq, one in said.digests.items()}, since=said.since,
                  stopped=said.stopped)


def looked(world, kind, place):
    """A desk reads the reports, decides, and publishes its own if etcd hasn't got it."""
    desk, (shared, core) = world.desks[place], parts(world, kind, place)
    reports = {one.name: report_of(one) for one in world.desks if one.report is not None}
    is_new = shared.judge(Desks(world.now, reports, set(), 1))
    verdict, journal, wrong, report = shared.digests.verdict, desk.journal, "", desk.report
    if is_new:
        journal = journal._replace(stopped=verdict.entry)
        if standing(world, place, desk.plan.done[: desk.position])[0] == "majority":
            wrong = f"{desk.name} stops at entry {verdict.entry}, and a majority is like it"
    said = shared.published()
    said = Said(said.digests, said.since, said.stopped, desk.journal.given)
    if not shared.is_published(report_of(desk._replace(report=said))):
        report = said
    found = seen(world, place, shared, core, journal=journal, report=report,
                 was_stopped=desk.was_stopped or is_new)._replace(wrong=wrong or world.wrong)
    if is_new:
        found = without_queue(found, place)
    what = {ON: "is on", HELD: f"is held at entry {verdict.entry}", STOPPED: f"STOPS at entry {verdict.entry}"}
    return f"{desk.name} reads the reports, and {what[verdict.kind]}", found


# Callers.


def answered(world):
    """Who waits for what a desk has answered gets that answer; a desk that isn't on gives none."""
    for number, (turn, at) in enumerate(world.callers):
        desk = next((one for one in world.desks if one.name == at), None)
        if desk is None or desk.run is None or desk.run.verdict.kind != ON:
            if at:
                world = set_caller(world, number, turn, "")
            continue
        key = sent_by(world, number)
        seqs = [seq for seq in range(desk.journal.begun + 1, desk.position + 1) if world.log[seq - 1] == key]
        if key is not None and seqs and key not in desk.run.queue:
            world = acknowledged(world, desk, key, seqs[0])
        elif key is None and key not in desk.run.queue:
            world = set_caller(world, number, turn + 1, "")
    return world


CALLERS = []  # of the world that is gone through, by number: what each sends


def sent_by(world, number):
    """The key that a caller sends, or "" if it has sent all."""
    sends, turn = CALLERS[number], world.callers[number][0]
    return sends[turn] if turn < len(sends) else ""


def set_caller(world, number, turn, at):
    return world._replace(callers=world.callers[:number] + ((turn, at),) + world.callers[number + 1 :])


def acknowledged(world, desk, key, seq):
    """Those who wait at a desk for a key get the answer of an entry."""
    for number, (turn, at) in enumerate(world.callers):
        if at == desk.name and sent_by(world, number) == key:
            world = set_caller(world, number, turn + 1, "")._replace(
                acknowledged=tuple(sorted({*world.acknowledged, (key, seq)})))
    return world


def steps_of_callers(world, kind):
    for number, (turn, at) in enumerate(world.callers):
        key = sent_by(world, number)
        if at and world.left.overs:
            yield f"caller {number} gives {at} up", set_caller(
                world.spent("overs"), number, turn if key is not None else turn + 1, "")
        if at or key == "":
            continue
        for place, desk in enumerate(world.desks):
            if desk.run is not None and desk.run.verdict.kind == ON:
                found = set_caller(world, number, turn, desk.name)
                known = key is not None and key in (*world.log[desk.journal.begun : desk.journal.given],
                                                    *desk.run.queue)
                if not known:
                    found = found.put(place, desk._replace(run=desk.run._replace(queue=desk.run.queue + (key,))))
                yield f"caller {number} sends {key} to {desk.name}", found
    if world.left.fresh:
        for place, desk in enumerate(world.desks):
            if desk.run is not None and desk.position == len(world.log) and not desk.run.is_down:
                yield from reads(world, kind, place)


def reads(world, kind, place):
    """Somebody requests a fresh list from a desk that has all entries."""
    _, found = looked(world, kind, place)
    shared, _ = parts(found, kind, place)
    try:
        shared.may_answer(False)
    except shared_log.DeskNotOn:
        return
    desk = found.desks[place]
    what, seq = standing(world, place, desk.plan.done[: desk.position])
    wrong = ""
    if what == "minority" and digest_worlds.is_shown(world, desk, seq):
        wrong = f"{desk.name} gives a fresh answer that is wrong from entry {seq} on"
    yield f"{desk.name} gives a fresh answer", found.spent("fresh")._replace(wrong=wrong)


# Machines, and the log.


def steps_of_machines(world, kind):
    for place, desk in enumerate(world.desks):
        if desk.run is not None and world.left.kills:
            yield f"{desk.name} is killed", without_queue(
                world.spent("kills").put(place, desk._replace(run=None)), place)
        if desk.run is not None and world.left.downs and not desk.run.is_down:
            yield f"{desk.name}'s opcplan can't be started", world.spent("downs").put(
                place, desk._replace(run=desk.run._replace(is_down=True)))
        if desk.run is None and not desk.is_lost:
            for version in (OLD, NEW) if world.moved else (OLD,):
                if not versions.why_not_started(world.versions, len(desk.journal.text) + 1, version, "", ""):
                    found = world.put(place, desk._replace(run=begun(
                        kind, world, desk.plan, desk.journal, version)))
                    yield f"{desk.name} starts with {version[:2]}", looked(found, kind, place)[1]
        if world.left.lost and not desk.is_lost:
            yield f"{desk.name}'s machine is lost", without_queue(world.spent("lost").put(
                place, desk._replace(run=None, is_lost=True)), place)
        if world.left.odd and not desk.is_lost:
            yield f"another program changes {desk.name}'s plan", world.spent("odd").put(
                place, desk._replace(plan=desk.plan._replace(odd=True)))
        if world.left.forgets and desk.report is not None:
            yield f"the report of {desk.name} is removed", world.spent("forgets").put(
                place, desk._replace(report=None))
        if not desk.is_lost and not world.copies:
            yield from copied(world, kind, place)
    if any(desk.is_lost for desk in world.desks) and len(world.desks) <= kind.desks:
        for copy in world.copies:
            yield from replaced(world, kind, copy)


def copied(world, kind, place):
    """A copy of a plan: by a desk at rest, or by hand."""
    desk = world.desks[place]
    if desk.run is not None and desk.run.verdict.kind != STOPPED and world.left.copies:
        _, core = parts(world, kind, place)
        if (rest := core.rest()).is_exact:
            yield f"a copy of {desk.name} is made by /snapshot", world.spent("copies")._replace(
                copies=(Copy(desk.plan.done, (rest.position, rest.digest)),))
    if world.left.plain:
        yield f"a copy of {desk.name} is made by hand", world.spent("plain")._replace(
            copies=(Copy(desk.plan.done, None),))


def replaced(world, kind, copy):
    """A desk begins with a copy, if it may."""
    mark = copy.mark and CopyMark("log", copy.mark[0], len(copy.done), copy.mark[1])
    found = kind.rules.begun_with(mark, digests.PlanFacts("log", 0, "", len(copy.done), len(copy.done), not copy.done))
    if found is None or world.first > max(1, found.seq) or found.seq > len(world.log):
        return
    plan, journal = Plan(copy.done), Journal(found.seq, found.digest, found.seq, "", found.seq)
    for version in (OLD, NEW) if world.moved else (OLD,):
        if not versions.why_not_started(world.versions, found.seq + 1, version, "", ""):
            desk = Desk("D", begun(kind, world, plan, journal, version), plan, journal)
            after = world._replace(desks=world.desks + (desk,))
            yield f"D begins with a copy at entry {found.seq}, with {version[:2]}", looked(
                after, kind, len(world.desks))[1]


def steps_of_log(world, kind):
    if world.left.moves:
        yield "the log is moved", world.spent("moves")._replace(moved=len(world.log) + 1)
    if world.left.trims and world.log:
        positions = {one.name: one.report.position for one in world.desks
                     if one.report is not None and not one.report.stopped}
        young = next((seq for seq, key in enumerate(world.log, 1) if key is not None), None)
        first = kind.rules.trimmed_to(len(world.log), positions, young)
        if first > world.first:
            yield f"the log is trimmed before {first}", world.spent("trims")._replace(first=first)


# What has to hold.


def check(world, kind):
    """Asks all that has to hold of a state. Raises InvariantViolated."""
    if world.wrong:
        raise InvariantViolated(world.wrong)
    found = [key for key in world.log if key is not None]
    if len(found) > len(set(found)):
        raise InvariantViolated(f"a key is done twice: {world.log}")
    for key, seq in world.acknowledged:
        if not seq or world.log[seq - 1] != key:
            raise InvariantViolated(f"{key} is answered as entry {seq} of {world.log}")
    for desk in world.desks:
        check_desk(world, desk)
    for one in world.copies:
        if one.mark is not None and one.mark != (len(one.done), one.done):
            raise InvariantViolated(f"a copy says {one.mark}, and is {one.done}")
    if next(progress(world, kind), None) is None:
        check_settled(world)


def check_desk(world, desk):
    """What has to hold of a desk: what it has is its own, and all events are shown, once and in their order."""
    if desk.is_lost:
        return
    text, core = desk.journal.text, desk.run and desk.run.core
    if text != desk.plan.done[: len(text)]:
        raise InvariantViolated(f"{desk.name} goes on from digest {text}, and its plan is {desk.plan.done}")
    for seq, letter in enumerate(desk.plan.done, 1):
        if letter == "x" and not desk.plan.odd and desk.run and seq > desk.journal.since:
            raise InvariantViolated(f"{desk.name}'s opcplan answered entry {seq}, which another version answers")
    if core is None:
        return
    if why := core.broken():
        raise InvariantViolated(f"{desk.name}: {why}")
    if core.chain != desk.plan.done[: core.position]:
        raise InvariantViolated(f"{desk.name} has digest {core.chain}, and its plan is {desk.plan.done}")
    last = desk.journal.begun
    while last < core.position:
        due = core.due(last, 1)
        if isinstance(due, state.Read):
            seqs = [seq for seq in range(due.since + 1, due.upto + 1) if seq <= len(text)]
        else:
            seqs = [one.seq for one in due]
        if not seqs or seqs[0] != last + 1:
            raise InvariantViolated(f"{desk.name} shows entries {seqs} after entry {last}")
        last = seqs[-1]


def check_settled(world):
    """Once nothing more happens by itself: the minority has stopped, the majority is on, where there is no majority no
    desk is on, and no change waits."""
    digest_worlds.check_settled(world)
    for desk in world.desks:
        run = desk.run
        if run is None or run.verdict.kind != ON:
            continue
        is_closed = run.lost or run.version != versions.version_at(world.versions, len(world.log) + 1)
        if run.queue and not is_closed:
            raise InvariantViolated(f"{run.queue} waits at {desk.name}, and nothing happens")
        if not is_closed and not run.is_down and desk.position < len(world.log):
            raise InvariantViolated(f"{desk.name} has entry {desk.position} of {len(world.log)}, and nothing happens")


# The way through a world.


def scripted(kind):
    """The state after a world's script, and what happened."""
    world, path = beginning(kind), []
    for begin in kind.script:
        found = list(steps(world, kind))
        chosen = next((one for one in found if one[0].startswith(begin)), None)
        if chosen is None:
            raise ValueError(f"{begin}: not among {[label for label, _ in found]}")
        path.append(chosen[0])
        world = chosen[1]
    return world, path


def explored(kind):
    """How many states a world has. Raises InvariantViolated, with how it comes to that."""
    CALLERS[:] = kind.callers
    with mock.patch.object(state, "chained", readable):
        first, path = scripted(kind._replace(rules=Rules()))
        return exploration.explored(first, lambda world: steps(world, kind), lambda world: check(world, kind),
                                    World.key, path)


def walked(kind, seed):
    """How many steps a walk at random takes, in which what happens by itself is more frequent. Raises
    InvariantViolated, with the path."""
    chance = random.Random(seed)
    CALLERS[:] = kind.callers

    def choose(world):
        own = [(label, answered(found)) for label, found in progress(world, kind)]
        found = own if own and chance.random() < 0.6 else list(steps(world, kind))
        return chance.choice(found) if found else None

    with mock.patch.object(state, "chained", readable):
        return exploration.walked(beginning(kind), choose, lambda world: check(world, kind), MOST_STEPS)
