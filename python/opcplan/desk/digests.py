"""The digests that desks of one log publish of their answers, and what a desk decides by them, without I/O.

The digest of an entry covers all entries and replies up to it. So once two desks have answered one entry differently,
all their later digests differ.

A desk is *on*, *held* or *stopped*. At the first entry at which digests differ, the plans vote that answered the entry
by themselves, or will: not the copies that were made after it.

- More than half of the votes are for this desk's digest: it is on.
- More than half of them are for another digest: it stops, permanently. It has no vote any more.
- Neither: it is held. It takes the log, and accepts no change. It goes on by itself, or stops, once more plans have
  answered the entry, or somebody took a vote away.

What always holds (tests/test_digest_states.py goes through small worlds of several desks):

- A desk whose answers a majority of the plans shares doesn't stop.
- Once all have answered and published, the minority has stopped. If there is no majority, no desk is on.
- The digest from which a desk goes on is that of its own plan: it takes none from a report."""

from collections.abc import Collection, Iterable, Mapping, Sequence
from typing import NamedTuple

from opcplan.plans.copy_mark import CopyMark

# how many of its last entries a desk publishes the digest of, and how many letters of each
MOST, LETTERS = 24, 8
ON, HELD, STOPPED = "on", "held", "stopped"
WAY_OUT = ("Another program than its desk changed {0}. End this desk, move the plan and its journal away, and start "
           "with --from http://OTHERDESK")
WAY_ON = ("This desk accepts no change until more desks have answered the entry. If a desk is wrong, or gone "
          "permanently, take its vote away: `./plan log {0} --distrust DESK`")


class Verdict(NamedTuple):
    """Whether a desk is on, held or stopped; at which entry, and a desk that answered it differently; and whether that
    is the first such entry, or one before it may be."""

    kind: str = ON
    entry: int = 0
    other: str = ""
    is_exact: bool = False


class Published(NamedTuple):
    """What a desk publishes: digests by the numbers of their entries, the entry after which its plan answers by itself,
    and the entry at which it stopped, or 0."""

    digests: Mapping[int, str]
    since: int
    stopped: int = 0


class Votes(NamedTuple):
    """At an entry: how many plans have this desk's digest, the most that have another one, and how many may vote."""

    own: int
    most: int
    voters: int


class Digests:
    """What a desk decides by digests. Its plan answers each entry after `since` by itself; `stopped` is the entry at
    which it stopped, or 0. The desk has a vote unless somebody took that away."""

    most = MOST

    def __init__(self, since: int, stopped: int = 0) -> None:
        self.since, self.has_vote = since, True
        self.verdict = Verdict(STOPPED, stopped) if stopped else Verdict()

    def needed(self, others: Collection[Published]) -> set[int]:
        """The entries of which this desk's digests are compared with those of others, or published for them."""
        found = {self.since, *(other.since for other in others)}
        return found.union(self.steps(), *(other.digests for other in others))

    def steps(self) -> set[int]:
        """The entries by which two desks that are held find the first one that differs: that at which this desk is
        held, and some before it, in steps that double."""
        kind, entry, *_ = self.verdict
        return {entry, *(entry - (1 << power) for power in range(entry.bit_length()))} if kind == HELD else set()

    def published(self, own: Mapping[int, str], others: Iterable[Published]) -> Published:
        """What this desk publishes: the last digests, those at the entries from which plans began, and for each other
        desk that at the last entry that it published. So two desks can always compare an entry that both have."""
        chosen = {*sorted(own)[-self.most :], self.since}
        for other in others:
            chosen |= {other.since, max(other.digests, default=other.since)}
        chosen |= self.steps()
        stopped = self.verdict.entry if self.verdict.kind == STOPPED else 0
        return Published({seq: own[seq] for seq in sorted(chosen) if seq in own}, self.since, stopped)

    def judge(self, own: Mapping[int, str], others: Mapping[str, Published]) -> Verdict:
        """Decides whether this desk is on, by its own digests and by what all others publish that have a vote or
        stopped."""
        if self.verdict.kind != STOPPED:
            self.verdict = self.judged(own, others)
        return self.verdict

    def judged(self, own: Mapping[int, str], others: Mapping[str, Published]) -> Verdict:
        """The same for a desk that hasn't stopped."""
        stopped = [one for one in others.values() if one.stopped]
        known = with_earlier(own, [one for one in others.values() if not one.stopped])
        for name, one in others.items():
            if one.stopped and is_of(known, one):
                return Verdict(STOPPED, one.stopped, name)
        rest = {name: one for name, one in others.items()
                if not one.stopped and not any(is_of(one.digests, other) for other in stopped)}
        entry, other = min(((seq, name) for name, one in rest.items() for seq, digest in one.digests.items()
                            if known.get(seq, digest) != digest), default=(0, ""))
        if not entry:
            return Verdict()
        votes = self.votes_at(entry, known, list(rest.values()))
        if 2 * votes.own > votes.voters:
            return Verdict()
        is_exact = entry - 1 in known and rest[other].digests.get(entry - 1) == known[entry - 1]
        return Verdict(STOPPED if 2 * votes.most > votes.voters else HELD, entry, other, is_exact)

    def is_confirmed(self, position: int, own: Mapping[int, str], others: Mapping[str, Published]) -> bool:
        """Whether a majority of the plans has published this desk's digest at its position, or after it."""
        if position == self.since:
            return True  # nothing was answered here
        rest = [one for one in others.values() if not one.stopped]
        votes = self.votes_at(position, own, rest)
        return position in own and 2 * votes.own > votes.voters

    def votes_at(self, entry: int, own: Mapping[int, str], others: Sequence[Published]) -> Votes:
        """The votes at an entry. Two desks with one digest at a later entry have one at this entry too, so that none
        needs to publish just this one."""
        plans = [Published(own, self.since), *others]
        voters = {place for place, one in enumerate(plans) if one.since < entry and (place or self.has_vote)}
        groups: list[set[int]] = []
        for place, one in enumerate(plans):
            if max(one.digests, default=0) >= entry:
                alike = [group for group in groups
                         if any(share(plans[member].digests, one.digests, entry) for member in group)]
                groups = [group for group in groups if group not in alike] + [{place}.union(*alike)]
        mine = max((len(group & voters) for group in groups if 0 in group), default=0)
        most = max((len(group & voters) for group in groups
                    if 0 not in group and any(differ(own, plans[member].digests) for member in group)), default=0)
        return Votes(mine, most, len(voters))


def with_earlier(own: Mapping[int, str], others: Sequence[Published]) -> dict[int, str]:
    """A desk's digests, with those at entries that it lacks: a desk that shares a digest with another one shares all
    earlier ones too."""
    found, count = dict(own), -1
    while len(found) > count:
        count = len(found)
        for one in others:
            last = max((seq for seq, digest in one.digests.items() if found.get(seq) == digest), default=0)
            for seq, digest in one.digests.items():
                if seq < last:
                    found.setdefault(seq, digest)
    return found


def share(some: Mapping[int, str], more: Mapping[int, str], since: int) -> bool:
    """Whether two desks have one digest at an entry from `since` on."""
    return any(seq >= since and some.get(seq) == digest for seq, digest in more.items())


def differ(some: Mapping[int, str], more: Mapping[int, str]) -> bool:
    """Whether two desks have two digests at one entry. Otherwise one may only be further than the other."""
    return any(some.get(seq, digest) != digest for seq, digest in more.items())


def is_of(known: Mapping[int, str], stopped: Published) -> bool:
    """Whether digests go on from those of a desk that stopped: those of a copy of it."""
    return share(known, stopped.digests, stopped.stopped)


def short(found: Mapping[int, str]) -> dict[int, str]:
    """Digests as a desk publishes them."""
    return {seq: digest[:LETTERS] for seq, digest in found.items()}


# What a desk begins with.


class PlanFacts(NamedTuple):
    """What a desk sees of a plan that its journal doesn't continue: its log, the entry after which that begins and its
    digest, the entry of the plan's greatest job number, how many jobs the plan has, and whether it is the plan from
    which the log begins."""

    log: str
    base: int
    base_digest: str
    position: int
    jobs: int
    is_base: bool


class Start(NamedTuple):
    """The last entry of a plan with which a desk begins, and the digest of the log up to it."""

    seq: int
    digest: str


def begun_with(mark: CopyMark | None, plan: PlanFacts) -> Start | None:
    """What a desk begins with over a plan, or None if the plan doesn't say it. A plan that has changed since it was
    copied has more jobs than its mark says."""
    if mark is not None and mark.log == plan.log and mark.jobs == plan.jobs and mark.seq >= plan.position:
        return Start(mark.seq, mark.digest)
    return Start(plan.base, plan.base_digest) if plan.is_base else None
