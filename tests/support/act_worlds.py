"""Small plans at random, and the plain planner as what acts are compared with."""

import random

from support import plans

from opcplan.acts import world
from opcplan.plans.stream_state import Known
from opcplan.plans.waits import Row
from opcplan.rules import moments
from opcplan.rules.known import PlanBounds, Sizes

import plain_planner as plain

APPS = ("AA", "BB", "CC", "DD")
FIRST = moments.day_of("2024-01-01")
DAYS = 5
KEYS = [(app, day * moments.DAY + minute) for app in APPS for day in range(FIRST, FIRST + DAYS)
        for minute in (480, 481, 600)]
# what is done with an occurrence, one after the other
ACTS = ("start", "start complete", "start complete", "start complete", "start fail", "start fail", "start fail reset",
        "start fail complete", "delete", "complete")
# of a block: what other run cycles an application may have
OTHERS = ("DAY,3,1", "DAY,E,1", "WEEK,3,1 3", "WEEK,3,2 -1", "WORK,E,1 2")


class Random:
    """A stream that makes a plan at random."""

    def __init__(self, seed):
        self.rnd = random.Random(seed)
        self.job = 0
        self.text = []

    def put(self, line, data=None):
        self.job += 1
        self.text.append(f"{line} --job {self.job}\n" + ("" if data is None else f"{data}/*\n"))

    def cycles(self, app):
        """The run cycles of an application."""
        lines = []
        for name in self.rnd.choice(("RS", "RS", "AS"))[:self.rnd.choice((1, 1, 2))]:
            period, rule, offsets = self.rnd.choice(OTHERS).split(",")
            time = self.rnd.choice(("08.00", "08.00", "08.01", "10.00"))
            due = self.rnd.choice(("0,09.00", "0,22.00", "1,06.00", "1," + time))
            kind = "X" if name == "S" and self.rnd.random() < 0.3 else "N"
            first = self.rnd.choice(("2023-12-25", "2023-12-25", "2024-01-04"))
            lines.append(f"{app},{name},{kind},{period},{rule},{offsets},{first},,{time},{due}\n")
        return "".join(lines)

    def lists(self):
        """The lists of predecessors, without a loop."""
        lines = []
        for place, app in enumerate(APPS):
            for other in APPS[:place + 1]:
                if self.rnd.random() < (0.2 if other == app else 0.5):
                    lines.append(f"{app},{other},{self.rnd.choice(('', '', '2', '23', '24'))}\n")
        return "".join(lines)

    def stream(self):
        """The whole stream."""
        rnd = self.rnd
        self.put("define periods", "DAY,A,2023-12-25,1\nWEEK,A,2023-12-25,7\nWORK,W,2023-12-25,3\n"
                 if rnd.random() < 0.8 else "WEEK,N,2023-12-25,2024-02-01\nDAY,W,2023-12-25,1\nWORK,W,2023-12-25,3\n")
        self.put("define calendars", "DEFAULT,SAT,FREE\nDEFAULT,SUN,FREE\nDEFAULT,2024-01-03,FREE\n")
        self.put("define applications", "".join(f"{app},A,\n" for app in APPS))
        self.put("define run-cycles", "".join(map(self.cycles, APPS)))
        self.put("define predecessors", self.lists() or "AA,AA,\n")
        self.put(f"ltp-create --from 2024-01-01 --to {moments.day_text(FIRST + DAYS - 1)}")
        ends = sorted(rnd.sample(range(1, 10), rnd.choice((1, 2))))
        for end in ends:
            self.put(f"dp-extend --to {moments.moment_word(FIRST * moments.DAY + end * 720)}")
            keys = [rnd.choice(KEYS) for _ in range(rnd.randrange(4, 50))]
            if rnd.random() < 0.6:  # what waits comes after what it waits for
                keys.sort(key=lambda key: (key[1], key[0]))
            for app, ia in keys:
                for name in self.changes():
                    self.put(f"{name} --app {app} --ia {moments.moment_word(ia)}")
        for _ in range(rnd.choice((0, 0, 2, 4))):  # runs that are nearer to what has ended than what it waited for
            app, ia = rnd.choice(KEYS)
            for name in ("add", "start", "complete")[:rnd.choice((1, 3, 3))]:
                self.put(f"cp-{name} --app {app} --ia {moments.moment_word(ia - rnd.choice((0, 1, 30)))}")
        if rnd.random() < 0.3:
            self.put("define run-cycles", self.cycles(rnd.choice(APPS)))
        if rnd.random() < 0.2:
            self.put("define predecessors", self.lists() or "AA,AA,\n")
        if rnd.random() < 0.1:
            self.put("define applications", f"{rnd.choice(APPS)},P,\n")
        return "".join(self.text)

    def changes(self):
        """Changes of one occurrence."""
        if self.rnd.random() < 0.85:
            return [f"cp-{name}" for name in self.rnd.choice(ACTS).split(" ")]
        return [self.rnd.choice(("cp-add", "ltp-add", "ltp-delete"))]


class Source:
    """What a plain planner knows, as acts ask for it."""

    def __init__(self, text, planner=None):
        self.planner = planner or plans.planner_from(text)
        known = Known(is_whole=True)
        for item in plans.items_of(text):
            known.take(item, self.planner.jobs[item.statement.job][1])
        self.defined = known.defined
        self.in_force = {app: dict(sorted(listed.items())) for app, listed in self.planner.in_force.items() if listed}
        bounds = self.planner.bounds
        self.bounds = PlanBounds(*bounds) if bounds else None
        self.sizes = Sizes(len(self.planner.planned) + len(self.planner.current), self.planner.issued)
        self.found = rows_of(self.planner)

    def rows(self, app):
        return [row for row in self.found.values() if row.app == app]

    def row(self, serial):
        return self.found.get(serial)

    def before(self, serial):
        return [last for first, last in self.planner.pairs if first == serial]

    def behind(self, serial):
        return [first for first, last in self.planner.pairs if last == serial]

    def statuses(self, serial):
        replies = (reply for _, reply in self.planner.jobs.values())
        return [reply[-1] for reply in replies if reply.startswith(f"ok serial {serial} status ")]


def rows_of(planner):
    """All rows of a plain planner, by serial."""
    found = [Row(*row, "L") for row in planner.planned.values()]
    found += [Row(*row, status) for row, status in planner.current.values()]
    found += [Row(*row, "H") for row in planner.history.values()]
    found += [Row(*row, reason.lower()) for row, reason in planner.deleted.values()]
    return {row.serial: row for row in found}


def pairs_of(planner):
    """By serial the predecessors of each row that has any."""
    found = {}
    for first, last in planner.pairs:
        found.setdefault(first, []).append(last)
    return {serial: tuple(sorted(before)) for serial, before in found.items()}


def world_of(text):
    """The world of a stream's plan, and its planner."""
    source = Source(text)
    return world.World(source), source.planner


def numbered(stream, first=800_000_000):
    """A stream with job numbers, which it lacks."""
    lines, number, in_data = [], first, False
    for line in stream.splitlines():
        if not in_data:
            line, number = f"{line} --job {number}", number + 1
            in_data = line.startswith("define ")
        else:
            in_data = line != "/*"
        lines.append(f"{line}\n")
    return "".join(lines)


def after(planner, stream, first=800_000_000):
    """A planner after a stream without job numbers, and its replies."""
    other = planner.copy()
    return other, plain.run(numbered(stream, first).encode(), other)
