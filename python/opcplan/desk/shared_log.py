"""What a desk decides about a log that it shares with other desks, without I/O: which entries it takes, what it appends
and answers, what it publishes, and whether it is on.

It joins what the desk sees of the log (log_view.py), callers' keys (keys.py), and digests (digests.py). The code around
it (etcd_log.py) sends what this says to etcd and to the journal, and passes on what comes back.

What always holds (tests/test_shared_states.py goes through small worlds of several desks, each with this and with the
state of a desk from state.py):

- What each of the three promises alone.
- A desk that is held or stopped appends nothing, and gives no fresh answer.
- A desk publishes itself before it serves, and again if that is gone."""

from collections.abc import Callable, Collection, Mapping, Sequence, Set

from opcplan.desk import digests
from opcplan.desk.digests import Digests, Published
from opcplan.desk.keys import Keys
from opcplan.desk.log_entries import Head
from opcplan.desk.log_view import LogView
from opcplan.desk.published import Desks, Report
from opcplan.errors import Error
from opcplan.plans.entry import Entry, Wanted

# this desk's digests: its last ones, and those at some entries, as far as it has them
Own = Callable[[Collection[int]], Mapping[int, str]]


class DeskNotOn(Error):
    """The desk is held or stopped, or can't read the log, so that it appends nothing and gives no fresh answer."""


class SharedLog:
    """A log as the desk sees it whose plan has the id `desk_id`. `own` returns the desk's digests."""

    def __init__(self, desk_id: str, view: LogView, keys: Keys, judge: Digests, own: Own) -> None:
        self.desk_id, self.view, self.keys, self.digests, self.own = desk_id, view, keys, judge, own
        self.former: str | None = None  # the id by which version 1.0 published the same plan
        self.desks: Desks | None = None  # what was published when it decided last

    @property
    def is_held(self) -> bool:
        """Whether desks answered an entry differently, and no majority did it alike."""
        return self.digests.verdict.kind == digests.HELD

    @property
    def is_stopped(self) -> bool:
        """Whether a majority of the desks answered an entry differently."""
        return self.digests.verdict.kind == digests.STOPPED

    # The log.

    def check_on(self) -> None:
        """Checks that the desk may accept a change. Raises DeskNotOn."""
        if self.view.lost or self.view.held or self.is_held or self.is_stopped:
            raise DeskNotOn

    def place(self, batch: Sequence[Wanted]) -> list[Entry]:
        """The Entries that a batch becomes, after the last entry that the desk knows. Raises DeskNotOn, LogAdvanced,
        KeysInUse and LogUnwritable."""
        self.check_on()
        self.view.check_level()
        return self.keys.placed(batch, self.view.given, self.view.head.last)

    def read(self, head: Head | None, entries: Sequence[Entry], least: int) -> list[Entry]:
        """The Entries that the desk takes next, of those of a read that was made when the plan had entry `least`."""
        return self.view.read(head, entries, least)

    def check_level(self) -> None:
        """Checks that the desk can apply the log up to its last entry. Raises DeskNotOn."""
        if self.view.lost or self.view.held and self.view.head.last > self.view.given:
            raise DeskNotOn

    # What desks publish.

    def judge(self, desks: Desks) -> bool:
        """Decides by what desks publish whether this one is on; whether it has stopped just now. What was read before
        the last decision is ignored. Raises ValueError."""
        if self.desks is not None and desks.revision < self.desks.revision:
            return False
        self.desks = desks
        return self.judge_again()

    def judge_again(self) -> bool:
        """Decides by what was read last, after the desk has answered more; whether it has stopped just now. Raises
        ValueError."""
        if self.desks is None or self.is_stopped:
            return False
        self.digests.has_vote = self.desk_id not in self.desks.distrusted
        others = self.others(self.desks.distrusted)
        return self.digests.judge(self.own(self.digests.needed(others.values())), others).kind == digests.STOPPED

    def others(self, without: Set[str] = frozenset()) -> dict[str, Published]:
        """What other desks publish, by their ids, without some of them. Raises ValueError."""
        own = {self.desk_id, self.former}
        return {} if self.desks is None else {
            name: one.published for name, one in self.desks.reports.items() if name not in own and name not in without}

    def published(self) -> Published:
        """What this desk has to publish of its answers. Raises ValueError."""
        others = list(self.others().values())
        return self.digests.published(self.own(self.digests.needed(others)), others)

    def is_published(self, report: Report) -> bool:
        """Whether etcd had just this Report of the desk when the desk decided last."""
        known = None if self.desks is None else self.desks.reports.get(self.desk_id)
        return known is not None and known._replace(at=report.at) == report

    def may_answer(self, is_confirmed: bool) -> bool:
        """Whether the desk may give an answer that has to be fresh, or, if answers have to be confirmed, has to wait
        until a majority of the plans has published the same. Raises DeskNotOn and ValueError."""
        if self.is_held or self.is_stopped:
            raise DeskNotOn
        if not is_confirmed or self.desks is None:
            return True
        others = self.others(self.desks.distrusted)
        own = self.own(self.digests.needed(others.values()))
        return self.digests.is_confirmed(max(own, default=-1), own, others)
