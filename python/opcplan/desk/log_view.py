"""What a desk sees of a log to which others append too, without I/O: how far the log is, which entries the desk has
taken, and whether it may append.

Answers of etcd come late and in any order. Each one is as of the moment when etcd gave it.

What always holds (tests/test_view_states.py goes through small worlds):

- A desk takes each entry once, in the order of the log, and leaves none out.
- It appends only after the last entry that it has taken, and only if it knows of no later one.
- Once it has heard of an entry, it reads the log until it has taken it, or says why it can't.
- It says that entries are gone only if they are."""

from collections.abc import Mapping, Sequence

from opcplan.desk import versions
from opcplan.desk.log import LogAdvanced
from opcplan.desk.log_entries import Head
from opcplan.plans.entry import Entry

CHANGED = ("the log {0}, and this plan has entry {1}: etcd's data were changed or restored. End all desks of the plan; "
           "`./plan log --help` says how to begin a new log from a plan")
TRIMMED = ("the log is trimmed beyond entry {0}, the last one of this plan. Take another desk's plan: end this desk, "
           "move {1} away, and start it with --from http://OTHERDESK")


class LogView:
    """A log whose Head was `head` when the plan at `path` had its entries up to `given`. `moved` has by entries what
    the log says of versions from there on, and `version` is what it has to say for this desk."""

    def __init__(self, path: str, given: int, head: Head, moved: Mapping[int, str], version: str) -> None:
        self.path, self.given, self.head, self.versions, self.version = path, given, head, moved, version
        self.moves = head.moves  # up to here `versions` is known
        self.has_news = given < head.last  # whether the log has to be read
        self.lost = ""  # why nothing more can be read

    @property
    def held(self) -> str:
        """Why the desk waits, or nothing: another opcplan, or a desk of other rules, has to answer the next entry."""
        return versions.held(self.versions, self.given, self.head.last, self.version)

    def notice(self, head: Head | None, least: int = 0) -> bool:
        """Takes news of the head; whether the log has to be read for it. The answer to a request that was made when the
        plan had entry `least` can't be less."""
        if head is None or head.last < least:
            self.lost = CHANGED.format(f"ends with entry {head.last}" if head else "is gone", least)
            return False
        self.head = max(head, self.head)
        is_news = self.head.last > self.given or self.head.moves != self.moves
        self.has_news = self.has_news or is_news
        return is_news

    def knows(self, moved: Mapping[int, str], moves: int) -> None:
        """Takes what the log says of versions, once it was moved so often."""
        self.versions, self.moves = moved, moves

    def read(self, head: Head | None, entries: Sequence[Entry], least: int) -> list[Entry]:
        """The Entries that the desk takes next, of those of a read that was made when the plan had entry `least`."""
        self.notice(head, least)
        found = [one for one in entries if one.seq > self.given]
        if head and head.last > self.given and (not found or found[0].seq != self.given + 1):
            self.lost = TRIMMED.format(self.given, self.path)
            found = []
        found = [one for one in found if versions.can_answer(versions.version_at(self.versions, one.seq), self.version)]
        if not found and head == self.head:
            self.has_news = False
        return found

    def kept(self, last: int) -> None:
        """The journal has entries up to this one."""
        self.given = last

    # Appending.

    def check_level(self) -> None:
        """Checks that the desk knows of no entry that it hasn't taken. Raises LogAdvanced."""
        if self.has_news or self.given != self.head.last:
            raise LogAdvanced

    def refused(self, head: Head | None) -> None:
        """An append wasn't done, because the log's head was another one."""
        self.notice(head, self.given)
        self.has_news = True

    def unkept(self) -> None:
        """An append was done, and the journal doesn't have it: it has to be read."""
        self.has_news = True
