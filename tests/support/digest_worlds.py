"""Small worlds of several desks over one log, of which one may answer an entry differently: desks that are killed, that
lag, or whose machines are replaced by a copy, reports that are forgotten, votes that are taken away. Each step that may
come next is a state of its own. What desks decide by digests is `opcplan.desk.digests`; the rest here is what etcd,
disks and opcplan do by themselves, and a record of what really happened, which no desk sees.

A digest is written as the replies that it covers: `oox` means that entries 1 and 2 were answered right, and 3
differently."""

import random
from typing import NamedTuple

from support import exploration
from support.exploration import InvariantViolated

from opcplan.desk import digests
from opcplan.desk.digests import HELD, ON, Published, STOPPED, Verdict
from opcplan.plans.copy_mark import CopyMark

MOST_STEPS = 400  # of a walk


class Rules(NamedTuple):
    """What the desks run; tests put mutants here."""

    decides: type = digests.Digests
    begun_with: object = digests.begun_with
    most: int = 2  # digests in a report
    keeps_stop: bool = True  # in the journal
    compares: bool = True  # before a fresh answer
    confirms: bool = False  # a fresh answer waits for a majority, as with fresh=2


class Left(NamedTuple):
    """How often what may happen may still happen."""

    entries: int = 1  # somebody appends one
    odd: int = 1  # another program changes a plan
    kills: int = 0
    downs: int = 0  # opcplan can't be started for a while
    lost: int = 0  # machines
    copies: int = 0  # by /snapshot
    backups: int = 0  # of a file, with the digest of its journal
    plain: int = 0  # by hand, without a mark
    forgets: int = 0
    distrusts: int = 0
    anew: int = 0  # a stopped desk begins anew with a copy
    prunes: int = 0
    fresh: int = 0


class Kind(NamedTuple):
    """A kind of world: how many desks, what may happen, and what has happened: how the labels of those steps begin."""

    desks: int
    left: Left
    script: tuple = ()
    rules: Rules = Rules()
    grows: bool = False  # a further desk may come though no machine is lost
    strict: bool = False  # no fresh answer is wrong; else none that the reports show to be wrong


class Plan(NamedTuple):
    """A plan: the replies to the entries that it has. `odd`: another program changed it, so it answers the next entry
    differently."""

    done: str = ""
    odd: bool = False


class Journal(NamedTuple):
    """A desk's journal: it has the entries after `begun`, with that digest, up to `given`, and replies to the first of
    them. The plan answers by itself after `since`. `stopped`: the entry at which the desk stopped, or 0."""

    begun: int = 0
    digest: str = ""
    given: int = 0
    replies: str = ""
    since: int = 0
    stopped: int = 0

    @property
    def kept(self):
        return self.begun + len(self.replies)

    def digests(self, more=""):
        """The digests by entry, with those of further replies in memory."""
        text = self.digest + self.replies + more
        return {seq: text[:seq] for seq in range(self.begun, len(text) + 1)}


class Run(NamedTuple):
    """A desk's process: the replies that its journal lacks, its verdict, and whether opcplan can't be started."""

    heard: str = ""
    verdict: Verdict = Verdict()
    is_down: bool = False


class Copy(NamedTuple):
    """A copy of a plan, with the mark that says its entry and digest, if it has one."""

    done: str
    mark: tuple | None


class Desk(NamedTuple):
    """A desk: its process (None if it doesn't run), its files, and its report in etcd. `was_stopped`: what really
    happened, whatever the desk stores of it. The name is for traces alone."""

    name: str
    run: Run | None
    plan: Plan
    journal: Journal
    report: Published | None = None
    is_lost: bool = False
    is_distrusted: bool = False
    was_stopped: bool = False

    @property
    def position(self):
        return self.journal.kept + len(self.run.heard)


class World(NamedTuple):
    """A state of all that there is."""

    head: int
    copies: tuple
    left: Left
    desks: tuple
    wrong: str = ""  # what a step showed that must not be

    def put(self, place, desk):
        """The same with another state of a desk."""
        return self._replace(desks=self.desks[:place] + (desk,) + self.desks[place + 1 :])

    def spent(self, name):
        """The same after something happened once more."""
        return self._replace(left=self.left._replace(**{name: getattr(self.left, name) - 1}))

    def key(self):
        """What tells a state from others: desks have no names here, and no order."""
        desks = tuple(sorted(hash(frozen(one)) for one in self.desks))
        return hash((self.head, self.copies, self.left, self.wrong, desks))


def frozen(desk):
    """A desk without its name."""
    report = desk.report and (tuple(desk.report.digests.items()), *desk.report[1:])
    verdict = desk.run and (desk.run.heard, desk.run.verdict[:2], desk.run.is_down)
    return (verdict, desk.plan, desk.journal, report, *desk[5:])


def beginning(kind):
    """The first state: all have answered entry 1, and published that."""
    journal = Journal(given=1, replies="o")
    report = kind.rules.decides(0).published(journal.digests(), ())
    desks = tuple(Desk("ABCD"[number], Run(), Plan("o"), journal, report) for number in range(kind.desks))
    return World(1, (), kind.left, desks)


def steps(world, kind):
    """Each state that may come next, with what happens."""
    yield from progress(world, kind)
    yield from steps_of_people(world, kind)
    yield from steps_of_machines(world, kind)
    yield from steps_of_copies(world, kind)


# What happens by itself.


def progress(world, kind):
    for place, desk in enumerate(world.desks):
        if desk.run is None:
            continue
        if desk.run.verdict.kind != STOPPED:
            if desk.journal.given < world.head:
                journal = desk.journal._replace(given=desk.journal.given + 1)
                yield f"{desk.name} takes entry {journal.given}", world.put(place, desk._replace(journal=journal))
            if not desk.run.is_down and desk.position < desk.journal.given:
                yield from answers(world, place)
        if desk.run.heard:
            journal = desk.journal._replace(replies=desk.journal.replies + desk.run.heard)
            yield f"{desk.name}'s journal gets replies", world.put(
                place, desk._replace(journal=journal, run=desk.run._replace(heard="")))
        label, found = looked(world, kind, place)
        if found != world:
            yield label, found


def answers(world, place):
    """Opcplan answers the next entry: as before, if the plan has it."""
    desk = world.desks[place]
    seq, plan = desk.position + 1, desk.plan
    if len(plan.done) < seq:
        plan = Plan(plan.done + ("x" if plan.odd else "o"))
    reply = plan.done[seq - 1]
    yield f"{desk.name} answers entry {seq}: {reply}", world.put(
        place, desk._replace(plan=plan, run=desk.run._replace(heard=desk.run.heard + reply)))


def decided(world, kind, place):
    """The Digests of a desk, those that it knows, and what the others publish."""
    desk = world.desks[place]
    stopped = desk.run.verdict.entry if desk.run.verdict.kind == STOPPED else 0
    found = kind.rules.decides(desk.journal.since, stopped)
    found.most, found.has_vote, found.verdict = kind.rules.most, not desk.is_distrusted, desk.run.verdict
    others = {one.name: one.report for number, one in enumerate(world.desks)
              if number != place and one.report is not None and not one.is_distrusted}
    every = [one.report for number, one in enumerate(world.desks) if number != place and one.report is not None]
    return found, desk.journal.digests(desk.run.heard), others, every


def looked(world, kind, place):
    """A desk reads the reports, decides, and publishes its own."""
    desk = world.desks[place]
    found, own, others, every = decided(world, kind, place)
    verdict = found.judge(own, others)
    journal, is_new = desk.journal, verdict.kind == STOPPED and desk.run.verdict.kind != STOPPED
    if verdict.kind == STOPPED and kind.rules.keeps_stop:
        journal = journal._replace(stopped=verdict.entry)
    wrong = ""
    if is_new and standing(world, place, desk.plan.done[: desk.position])[0] == "majority":
        wrong = f"{desk.name} stops at entry {verdict.entry}, and a majority is like it"
    desk = desk._replace(run=desk.run._replace(verdict=verdict._replace(other="", is_exact=False)), journal=journal,
                         report=found.published(own, every), was_stopped=desk.was_stopped or is_new)
    said = {ON: "is on", HELD: f"is held at entry {verdict.entry}", STOPPED: f"STOPS at entry {verdict.entry}"}
    return f"{desk.name} reads the reports, and {said[verdict.kind]}", world.put(place, desk)._replace(
        wrong=wrong or world.wrong)


# People, and machines.


def steps_of_people(world, kind):
    for place, desk in enumerate(world.desks):
        if desk.run is None or desk.run.verdict.kind != ON or desk.run.is_down:
            continue
        if world.left.entries and desk.journal.given == world.head:
            journal = desk.journal._replace(given=world.head + 1)
            yield f"{desk.name} appends entry {world.head + 1}", world.spent("entries")._replace(
                head=world.head + 1).put(place, desk._replace(journal=journal))
        if world.left.fresh and desk.position == world.head:
            yield from reads(world, kind, place)
    if world.left.forgets:
        for place, desk in enumerate(world.desks):
            if desk.report is not None and desk.is_lost:
                found = world._replace(desks=world.desks[:place] + world.desks[place + 1 :])
                yield f"{desk.name}'s report is forgotten", found.spent("forgets")
    if world.left.distrusts:
        for place, desk in enumerate(world.desks):
            if desk.report is not None and not desk.is_distrusted and "x" in desk.plan.done:  # the operator is right
                yield f"{desk.name} isn't trusted", world.spent("distrusts").put(
                    place, desk._replace(is_distrusted=True))


def reads(world, kind, place):
    """Somebody requests a fresh list from a desk that has all entries."""
    found = world
    if kind.rules.compares:
        _, found = looked(world, kind, place)
    desk = found.desks[place]
    if desk.run.verdict.kind != ON:
        return  # 503
    if kind.rules.confirms:
        decides, own, others, _ = decided(found, kind, place)
        if not decides.is_confirmed(desk.position, own, others):
            return  # it waits
    kind_of, entry = standing(world, place, desk.plan.done[: desk.position])
    wrong = ""
    if kind_of == "minority" and (kind.strict or is_shown(world, desk, entry)):
        wrong = f"{desk.name} gives a fresh answer that is wrong from entry {entry} on"
    yield f"{desk.name} gives a fresh answer", found.spent("fresh")._replace(wrong=wrong)


def is_shown(world, desk, entry):
    """Whether the reports show that a majority of the plans answered an entry differently."""
    plans = [one for one in world.desks if one.report is not None and one.journal.since < entry
             and not one.is_distrusted]
    against = [one for one in plans if not one.report.stopped and any(
        entry <= seq <= desk.position and not desk.plan.done.startswith(digest)
        for seq, digest in one.report.digests.items())]
    return 2 * len(against) > len(plans)


def steps_of_machines(world, kind):
    for place, desk in enumerate(world.desks):
        if desk.run is not None and world.left.kills:
            yield f"{desk.name} is killed", world.spent("kills").put(place, desk._replace(run=None))
        if desk.run is not None and world.left.downs and not desk.run.is_down:
            yield f"{desk.name}'s opcplan can't be started", world.spent("downs").put(
                place, desk._replace(run=desk.run._replace(is_down=True)))
        if desk.run is None and not desk.is_lost:
            stopped = desk.journal.stopped
            verdict = Verdict(STOPPED, stopped) if stopped else Verdict()
            yield f"{desk.name} starts", world.put(place, desk._replace(run=Run(verdict=verdict)))
        if world.left.lost and not desk.is_lost:
            yield f"{desk.name}'s machine is lost", world.spent("lost").put(
                place, desk._replace(run=None, is_lost=True))
        if world.left.odd and not desk.is_lost and not desk.plan.odd:
            yield f"another program changes {desk.name}'s plan", world.spent("odd").put(
                place, desk._replace(plan=desk.plan._replace(odd=True)))
        if world.left.prunes and desk.run is None and not desk.is_lost and len(desk.journal.replies) > 1:
            text = desk.journal.digest + desk.journal.replies
            if all(one.plan.done.startswith(text[:-1]) for one in world.desks):  # a prune leaves 2,000 entries
                yield f"{desk.name}'s journal is pruned", world.spent("prunes").put(place, desk._replace(
                    journal=desk.journal._replace(begun=len(text) - 1, digest=text[:-1], replies=text[-1:])))


def steps_of_copies(world, kind):
    for place, desk in enumerate(world.desks):
        if not desk.is_lost and not world.copies:
            yield from copied(world, place)
        if desk.run is not None and desk.run.verdict.kind == STOPPED and world.left.anew:
            for copy in world.copies:
                for label, found in begun(kind, copy, desk.name):
                    yield f"{desk.name} begins anew {label}", world.spent("anew").put(
                        place, found._replace(report=desk.report))
    if (kind.grows or any(desk.is_lost for desk in world.desks)) and len(world.desks) < kind.desks + 1:
        names = {desk.name for desk in world.desks}
        for copy in world.copies:
            for label, desk in begun(kind, copy, next(one for one in "DCBAE" if one not in names)):
                yield f"{desk.name} begins {label}", world._replace(desks=world.desks + (desk,))


def copied(world, place):
    """A copy of a plan at rest, by a desk or of its file, or without a mark."""
    desk = world.desks[place]
    is_on = desk.run is not None and desk.run.verdict.kind != STOPPED
    if is_on and world.left.copies and desk.position == desk.journal.given == len(desk.plan.done):
        digest = (desk.journal.digest + desk.journal.replies + desk.run.heard)
        yield f"a copy of {desk.name} is made by /snapshot", world.spent("copies")._replace(
            copies=(Copy(desk.plan.done, (desk.position, digest)),))
    if world.left.backups and desk.journal.kept >= len(desk.plan.done) >= desk.journal.begun and not (
            desk.journal.stopped):
        text = desk.journal.digest + desk.journal.replies
        yield f"a backup of {desk.name} is made", world.spent("backups")._replace(
            copies=(Copy(desk.plan.done, (len(desk.plan.done), text[: len(desk.plan.done)])),))
    if world.left.plain:
        yield f"a copy of {desk.name} is made by hand", world.spent("plain")._replace(
            copies=(Copy(desk.plan.done, None),))


def begun(kind, copy, name):
    """A new desk over a copy, if there may be one."""
    mark = copy.mark and CopyMark("log", copy.mark[0], len(copy.done), copy.mark[1])
    found = kind.rules.begun_with(mark, digests.PlanFacts("log", 0, "", len(copy.done), len(copy.done), not copy.done))
    if found is not None:
        seq, digest = found
        yield f"with a copy at entry {seq}", Desk(name, Run(), Plan(copy.done), Journal(seq, digest, seq, "", seq))


# What has to hold.


def standing(world, place, done, is_known=False):
    """Whether a plan with these replies is in the `majority`, in the `minority` (from which entry on), or whether that
    is `open`, by what all plans really answered; also those that don't run, but not those that were forgotten.
    `is_known`: only by what desks heard from opcplan, and those that don't run published; nobody can know more."""
    plans = [(desk.journal.since, known_of(desk) if is_known else desk.plan.done)
             for number, desk in enumerate(world.desks)
             if not desk.was_stopped and not desk.is_distrusted and (
                 number == place or desk.run or desk.report is not None and not desk.report.stopped)]
    for seq in range(1, len(done) + 1):
        voters = [plan for since, plan in plans if since < seq]
        answered = [plan[:seq] for plan in voters if len(plan) >= seq]
        if all(plan[:seq] == done[:seq] for _, plan in plans if len(plan) >= seq):
            continue  # copies too, though they have no vote
        if 2 * answered.count(done[:seq]) > len(voters):  # the others are wrong, and have no vote any more
            plans = [(since, plan) for since, plan in plans if len(plan) < seq or plan[:seq] == done[:seq]]
            continue
        if any(2 * answered.count(one) > len(voters) for one in answered):
            return "minority", seq
        return "open", seq
    return "majority", 0


def known_of(desk):
    """The replies of a plan that anybody can know."""
    if desk.run is not None:
        return desk.plan.done[: desk.position]
    return max(desk.report.digests.values(), key=len, default="") if desk.report is not None else ""


def check(world, kind):
    """Asks all that has to hold of a state. Raises InvariantViolated."""
    if world.wrong:
        raise InvariantViolated(world.wrong)
    for desk in world.desks:
        text = desk.journal.digest + desk.journal.replies + (desk.run.heard if desk.run else "")
        if not desk.is_lost and text != desk.plan.done[: len(text)]:
            raise InvariantViolated(f"{desk.name} goes on from digest {text}, and its plan is {desk.plan.done}")
    for one in world.copies:
        if one.mark is not None and one.mark != (len(one.done), one.done):
            raise InvariantViolated(f"a copy says {one.mark}, and is {one.done}")
    if next(progress(world, kind), None) is None:
        check_settled(world)


def check_settled(world):
    """Once nothing more happens by itself: the minority has stopped, the majority is on, and where there is no majority
    no desk is on."""
    for place, desk in enumerate(world.desks):
        if desk.run is None:
            continue
        kind, entry = standing(world, place, desk.plan.done[: desk.position], True)
        said = desk.run.verdict.kind
        wanted = STOPPED if desk.was_stopped else {"minority": STOPPED, "majority": ON, "open": HELD}[kind]
        if said != wanted:
            raise InvariantViolated(f"{desk.name} is {said}, and not {wanted}: {kind} at entry {entry}")


# The way through a world.


def scripted(kind):
    """The state after a world's script, and what happened."""
    world, path = beginning(kind), []
    for begin in kind.script:
        found = list(steps(world, kind))
        chosen = next((one for one in found if one[0].startswith(begin)), None)
        if chosen is None:
            raise ValueError(f"{begin}: not among {[label for label, _ in found]}")
        path.append(chosen[0])
        world = chosen[1]
    return world, path


def explored(kind):
    """How many states a world has. Raises InvariantViolated, with how it comes to that."""
    first, path = scripted(kind._replace(rules=Rules(keeps_stop=kind.rules.keeps_stop)))
    return exploration.explored(first, lambda world: steps(world, kind), lambda world: check(world, kind), World.key,
                                path)


def walked(kind, seed):
    """How many steps a walk at random takes, in which what happens by itself is more frequent. Raises
    InvariantViolated, with the path."""
    chance = random.Random(seed)

    def choose(world):
        own = list(progress(world, kind))
        found = own if own and chance.random() < 0.6 else list(steps(world, kind))
        return chance.choice(found) if found else None

    return exploration.walked(beginning(kind), choose, lambda world: check(world, kind), MOST_STEPS)
