"""Small worlds of two writers at a desk. The first sends streams one after another, each on the condition that the plan
is as the answer before it said; the second changes the plan whenever it likes. Each order of their steps is run from
its beginning, over the desk's own state and the code that makes and answers statements."""

from typing import NamedTuple

from opcplan.desk import body, state
from opcplan.desk.planner import Submission
from opcplan.desk.requests import StreamItem
from opcplan.plans import entry

# what a statement of a world is: a change that is accepted or refused, a list, or no statement
OK, REFUSED, LIST, NONE = "ok", "refused", "list", "none"
ITEMS = {
    OK: StreamItem("cp-start", "cp-start", None, None, True),
    REFUSED: StreamItem("cp-start", "refused", None, None, True),
    LIST: StreamItem("list", "list", None, None, False, None, b"list\n"),
    NONE: StreamItem("none", "x", None, None, False, "refused 10"),
}
FIRST, SECOND = "first", "second"


class InvariantViolated(Exception):
    """What a world shows that must not be."""


class Kind(NamedTuple):
    """A world: the streams of the first writer, what the second one sends, how many answers to the first are lost, and
    whether the desk learns only from the log that a key was used."""

    streams: tuple
    others: tuple
    answers_lost: int = 0
    is_late: bool = False


class WorldDesk:
    """A desk as a stream sees it. Its log and its opcplan are the world's."""

    def __init__(self, is_late):
        self.state, self.is_late = state.State("life", 0), is_late
        self.state.opened()
        self.queue, self.alone, self.entries = [], [], []

    @property
    def position(self):
        return self.state.position

    def tag(self):
        return self.state.tag

    def ask_question(self, name, text, who, waits):
        ask = Submission(name, text)
        (self.queue if waits else self.alone).append(ask)
        return ask

    def ask_change(self, name, wanted, condition=None):
        known = None if self.is_late else self.used(wanted)
        if known is not None:
            return Submission.of_answered(known, self.state.tag_after(known.seq))
        ask = Submission(name, None, wanted)
        ask.condition = condition
        self.queue.append(ask)
        return ask

    def used(self, wanted):
        """The answered entry of a change's key, or None."""
        return next((one for one in self.entries if one.key and (one.who, one.key) == (wanted.who, wanted.key)), None)

    def answer(self, one):
        """Passes an answer on."""
        if one.entry is not None:
            self.entries.append(one.entry)
        one.item.tag, one.item.position = one.tag, one.position
        one.item.answer(one.reply)


class World:
    """One run of a world. `desk_of` makes the desk, `body_of` a stream at it, `tag_of` the tag of an answer."""

    def __init__(self, kind, desk_of=WorldDesk, body_of=body.Body, tag_of=lambda states: states[-1]):
        self.kind, self.desk, self.body_of, self.tag_of = kind, desk_of(kind.is_late), body_of, tag_of
        self.turn, self.others, self.lost = 0, list(kind.others), kind.answers_lost
        self.stream, self.asks, self.states = None, [], []
        self.tag = self.desk.tag()  # that the last answer named
        self.seen = 0  # the last entry that the last answer showed
        self.shown = {}  # by question, how many entries there were when it was answered
        self.come = 0  # how many there were when the stream in progress came
        self.done = 0  # streams of the first writer that have a whole answer

    def steps(self):
        """What may come next, by name."""
        found = {}
        if self.stream is None and self.turn < len(self.kind.streams):
            found["the first sends"] = self.send
        if self.others:
            found["the second sends"] = self.send_other
        if self.desk.queue and (self.desk.queue[0].condition is None or self.desk.state.is_idle):
            found["the log takes"] = self.enter
        if self.desk.alone:
            found["a list is sent"] = lambda: self.do(self.desk.state.asked(self.desk.alone.pop(0)))
        if self.desk.state.flight:
            found["opcplan replies"] = self.reply
        if self.stream is not None and self.is_answered():
            found["the first reads"] = self.read
        return found

    def send(self):
        """The first writer sends its next stream on the condition of the answer before it."""
        items = [ITEMS[one] for one in self.kind.streams[self.turn]]
        has_changes = any(one.changes for one in items)
        self.stream = self.body_of(self.desk, items, FIRST, f"key{self.turn}", self.tag if has_changes else None)
        self.come = len(self.desk.entries)
        self.asks = [self.stream.ask(one, place) for place, one in enumerate(items)]
        self.states = []

    def send_other(self):
        """The second writer sends a change, without a condition."""
        one = ITEMS[self.others.pop(0)]
        self.desk.ask_change(one.name, entry.Wanted(SECOND, None, one.words, None, None, "", None))

    def enter(self):
        """The log takes the next statement, or rejects it if the plan isn't in the state that it needs."""
        ask, core_state = self.desk.queue.pop(0), self.desk.state
        if ask.wanted is None:
            self.do(core_state.asked(ask))
            return
        known = self.desk.used(ask.wanted)
        if known is not None:
            ask.stands_for(known)
            self.do(core_state.asked(ask))
            return
        is_of_first = ask.wanted.who == FIRST
        foreign = [one.seq for one in self.desk.entries if is_of_first and one.who == SECOND
                   and one.seq > self.seen and one.reply == OK]
        if ask.condition is not None and not core_state.is_state(ask.asked_tag):
            if not foreign:
                raise InvariantViolated(f"a change is rejected at entry {core_state.position}, and nobody changed the "
                                        f"plan after entry {self.seen}")
            self.desk.queue = [one for one in self.desk.queue if one not in self.asks]
            self.stream = None
            self.turn = len(self.kind.streams)  # it has to look at the plan again
            return
        if foreign:
            raise InvariantViolated(f"a change is done after entries {foreign}, but the answer showed entry "
                                    f"{self.seen}")
        (ask.entry,) = entry.placed([ask.wanted], core_state.durable)
        ask.text = ask.entry.text
        self.do(core_state.appended([ask]))

    def reply(self):
        """Opcplan answers the first statement that it has."""
        ask = self.desk.state.flight[0]
        if ask.entry is None:
            text = "ok rows 1"
        elif ask.is_again:
            text = ask.entry.reply
        else:
            text = REFUSED if ask.entry.text.startswith(b"refused") else OK
        self.do(self.desk.state.replied(text))

    def do(self, commands):
        """The desk does what its state says."""
        for one in commands:
            if isinstance(one, state.Answer):
                self.desk.answer(one)
                if one.item.wanted is None:
                    self.shown[one.item] = len(self.desk.entries)

    def is_answered(self):
        """Whether the next statement of the first writer's stream has its answer."""
        return len(self.states) < len(self.asks) and self.asks[len(self.states)].reply is not None

    def read(self):
        """The first writer reads an answer, and with the last one what the headers say."""
        place = len(self.states)
        found = self.stream.answered(self.stream.asked[place], self.asks[place])
        self.states.append(found.state)
        if len(self.states) < len(self.asks):
            return
        self.stream = None
        if self.lost:  # the answer doesn't arrive, so the same stream is sent again under the same key
            self.lost -= 1
            return
        (self.tag, position), self.seen = self.tag_of(self.states), self.last_seen()
        if position != self.seen:
            raise InvariantViolated(f"an answer names entry {position}, and shows entry {self.seen}")
        self.turn, self.done = self.turn + 1, self.done + 1

    def last_seen(self):
        """The last entry that the whole answer to a stream showed."""
        found = self.come
        for ask in self.asks:
            if ask.entry is not None:
                found = ask.entry.seq
            elif ask in self.shown:
                found = self.shown[ask]
        return found


def explored(kind, **how):
    """Runs each order of a world's steps; how many there are, and how many streams were done in each."""
    counts, path = [], []
    while True:
        world, place = World(kind, **how), 0
        while steps := world.steps():
            names = list(steps)
            if place == len(path):
                path.append((0, len(names)))
            steps[names[path[place][0]]]()
            place += 1
        counts.append(world.done)
        while path and path[-1][0] + 1 == path[-1][1]:
            path.pop()
        if not path:
            return counts
        path[-1] = path[-1][0] + 1, path[-1][1]
