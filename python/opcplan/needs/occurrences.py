"""What of the occurrences of a current plan needs a person: one need for each fault (`faults`), and one for each other
chain that is late or at risk. No I/O."""

from collections import defaultdict
from collections.abc import Iterator

from opcplan.needs import chains, faults, need
from opcplan.needs.chains import Chains
from opcplan.needs.facts import Facts
from opcplan.needs.faults import Fault
from opcplan.needs.need import MOST_APPS, Found, Need
from opcplan.plans.waits import Row, length_text
from opcplan.rules import moments, printable, statuses

# in minutes: a chain that is late by twice as much is worse by a level
LATE = 15


class Occurrences:
    """The needs of the rows of facts."""

    def __init__(self, facts: Facts) -> None:
        self.facts = facts = facts.by_usual()
        self.now, self.rows = facts.now, facts.rows
        self.chains = Chains(facts)
        self.model = self.chains.model
        self.faults = faults.of_chains(self.chains)
        self.heads = self.chains.heads(self.faults)
        self.late = [place for place, is_late in enumerate(self.model.is_late) if is_late]
        self.risky = [place for place, row in enumerate(self.rows) if self.is_at_risk(place, row)]
        self.late_chains = self.grouped(self.late)
        self.risky_chains = {head: places for head, places in self.grouped(self.risky).items()
                             if head not in self.late_chains}
        self.followers: dict[int, str] = {}

    def is_at_risk(self, place: int, row: Row) -> bool:
        """Whether a row is going to end late by the forecast."""
        one = self.facts.expected.get(row.serial)
        return one is not None and one.end_moment > row.deadline >= self.now and place not in self.faults

    def head(self, place: int) -> int:
        """The place at which the waiting of a row begins, or its own."""
        return self.heads.get(place, place)

    def grouped(self, places: list[int]) -> dict[int, list[int]]:
        """Places by their heads, without those that a fault counts."""
        pairs = ((place, self.head(place)) for place in places)
        return chains.grouped((place, head) for place, head in pairs if head not in self.faults)

    def needs(self) -> Iterator[Need]:
        """All needs of rows. `followers` is complete after the last one."""
        counted = chains.grouped((place, self.head(place)) for place in (*self.late, *self.risky))
        for head, fault in self.faults.items():
            followers = [place for place in counted.get(head, ()) if place != head]
            self.followers.update((self.rows[place].serial, fault.name) for place in followers)
            if fault.text:
                yield self.of_fault(head, fault, followers)
            else:
                self.followers[self.rows[head].serial] = fault.name
        for name, heads in self.named().items():
            yield self.of_late(name, heads)
        for head, places in self.risky_chains.items():
            yield self.of_risk(head, places)

    def named(self) -> dict[int, list[int]]:
        """The heads of late chains by the serial that names their chain: what waited for one row may have several."""
        found = defaultdict(list)
        for head, places in self.late_chains.items():
            found[self.chains.name(self.chains.in_order(places))].append(head)
        return found

    def of_fault(self, head: int, fault: Fault, followers: list[int]) -> Need:
        """The need of a row that has a fault of its own."""
        row, waiting = self.rows[head], self.chains.waiting(head)
        late = sum(self.model.is_late[place] for place in waiting)
        due = f"{'was' if row.deadline < self.now else 'is'} {self.due(row)} {moments.moment_text(row.deadline)}"
        text = f"{name_of(row)} {fault.text}; it {due}{waiting_text(len(waiting), late)}"
        level = int(self.model.is_late[head] or late > 0)
        return self.need(fault.name, fault.kind, level, fault.since, text, head, followers, len(waiting), late)

    def of_late(self, origin: int, heads: list[int]) -> Need:
        """The need of a chain that is late, named by a serial."""
        name, key = f"late:{origin}", self.chains.key(origin)
        assert key is not None, "it is a row"
        places = self.chains.in_order(place for head in heads for place in self.late_chains[head])
        first, risky = places[0], [place for place in self.risky if self.head(place) in heads]
        followers = [place for place in (*places, *risky) if place != first]
        self.followers.update((self.rows[place].serial, name) for place in followers)
        others = set(places).union(*map(self.chains.waiting, heads)) - {first}
        count = sum(self.model.is_late[place] for place in others)
        late = self.now - self.rows[first].deadline
        by = " by its usual deadline" if self.rows[first].serial in self.facts.usual else ""
        text = f"{name_of(self.rows[first])} is late by {length_text(late)}{by}, {self.at_head(first)}"
        text += f"; {len(others):,} more in its chain{late_text(len(others), count)}" if others else ""
        level = 1 + need.doublings(self.now - key.deadline, LATE)  # a risk that came true is worse than one
        return self.need(name, "late", level, key.deadline, text, first, followers, len(others), count)

    def of_risk(self, head: int, places: list[int]) -> Need:
        """The need of a chain that is at risk."""
        first = max(places, key=lambda place: (self.slip(place), -self.rows[place].serial))
        row, one = self.rows[first], self.facts.expected[self.rows[first].serial]
        name, waiting = f"late:{row.serial}", self.chains.waiting(head)
        followers = [place for place in places if place != first]
        self.followers.update((self.rows[place].serial, name) for place in followers)
        least = "not before " if one.is_least else ""
        text = f"{name_of(row)} is at risk: it is {self.due(row)} {moments.moment_text(row.deadline)}, and is expected "
        text += "to end "
        text += f"{least}{moments.moment_text(one.end_moment)}; it is {self.at_head(first)}"
        if len(places) > 1:
            text += f"; {len(places) - 1} more of its chain {'is' if len(places) == 2 else 'are'} at risk"
        return self.need(name, "risk", 0, None, text, first, followers, len(waiting), 0)

    def due(self, row: Row) -> str:
        """`due`, or of a row that was added by hand and counts by another deadline than the rules give, `usually
        due`."""
        return "usually due" if row.serial in self.facts.usual else "due"

    def slip(self, place: int) -> int:
        """By how many minutes a row is expected to end late."""
        row = self.rows[place]
        return self.facts.expected[row.serial].end_moment - row.deadline

    def at_head(self, place: int) -> str:
        """How far a row is, and what it waits for."""
        state, head = statuses.STATES[self.model.states[place]], self.head(place)
        if place == head:
            return state
        return f"{state}; it waits for {name_of(self.rows[head])}, {statuses.STATES[self.model.states[head]]}"

    def need(self, name: str, kind: str, level: int, since: int | None, text: str, place: int, followers: list[int],
             waiting: int, late: int) -> Need:
        """A need of a row."""
        row = self.rows[place]
        apps = sorted({row.app, self.rows[self.head(place)].app, *(self.rows[one].app for one in followers)})
        return Need(name, kind, level, since, printable.fit(text), need.KINDS[kind], row.app, row.ia, row.serial,
                    waiting, late, tuple(apps[:MOST_APPS]))


def of_facts(facts: Facts) -> Found:
    """The needs of the rows of facts, in no order."""
    occurrences = Occurrences(facts)
    found = tuple(occurrences.needs())
    return Found(found, occurrences.followers)


def name_of(row: Row) -> str:
    """An occurrence as needs name it."""
    return f"{row.key} (serial {row.serial})"


def waiting_text(count: int, late: int) -> str:
    """How many wait for a row, and how many of them are late; empty if none does."""
    return f"; {count:,} {'waits' if count == 1 else 'wait'} for it{late_text(count, late)}" if count else ""


def late_text(count: int, late: int) -> str:
    """How many of some rows are late; empty if none is."""
    return f", {'all' if late == count > 1 else f'{late:,}'} of them late" if late else ""
