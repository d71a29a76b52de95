"""Days and nights of a machine: time goes on, and what may happen in a minute happens.

**When the watch looks.** By its unit it looks every 30 seconds. In a night with a fault it looks here whenever somebody
did something (a job begins or ends, somebody changes the plan, something is gone), when something arrives or a deadline
passes, and every 5 minutes; all other moments of the plan, of the rules and of the faults are multiples of 5 minutes.
Between two such moments the desk's answer is the same but for the times in it, and a look that finds what the one
before it found, and nothing worse, changes nothing. So it calls in the same minute as one that looks every 30 seconds:
`test_a_night_looked_at_every_30_seconds` asks that of a night.

With CLOSE it looks besides before each step and a minute after it, which a look every 30 seconds rarely does: such a
look finds what is ready and isn't started yet, and what ended and isn't reported yet. With QUIET it looks only every
hour: so pass healthy days that are like those before them."""

import heapq
from typing import NamedTuple

from support.nights import centre
from support.nights.machine import Machine

from opcplan.desk import client
from opcplan.rules import moments

ROLL_AT, ROLL_AGAIN = 5 * 60 + 30, 10  # by the units of `roll`
CONTACT = 4  # minutes after which the agent contacts its desk while nothing happens, as it does every second
MOST_LOOKS = 50  # of an agent in one minute


class Pace(NamedTuple):
    """How often the watch looks: each so many minutes, behind each step, before each step, and half a minute later."""

    every: int
    behind: bool = True
    before: bool = False
    half: bool = False


QUIET, NIGHT, CLOSE = Pace(60, False), Pace(5), Pace(30, True, True)
EACH_MINUTE, BY_ITS_UNIT = Pace(1), Pace(1, half=True)


class Heard(NamedTuple):
    """A call that came, in the minute in which it was made."""

    minute: int
    values: dict


class World(Machine):
    """A machine, from a day on."""

    def __init__(self, room, plants=()):
        super().__init__(room, plants)
        self.pace, self.is_timed = NIGHT, True
        self.alarms, self.acts, self.heard, self.looks = [], {}, [], 0

    def at(self, minute, act=None):
        """Has something happen in a minute; without an act it is looked at."""
        self.acts.setdefault(minute, []).extend([act] if act else [])
        heapq.heappush(self.alarms, minute)

    def run_to(self, end):
        """Lets the time go on to a minute."""
        while (minute := self.next_minute()) < end:
            self.wait_until(minute)
            self.pass_minute(minute)
        self.wait_until(end)

    def next_minute(self):
        """The next minute in which something may happen."""
        now = self.clock.minute
        while self.alarms and self.alarms[0] <= now:
            heapq.heappop(self.alarms)
        found = [one.end for one in self.jobs.values() if one.end > now]
        again = self.watch.state.next_try() if self.watch is not None else None
        if again is not None and again > self.clock.seconds:
            found.append(now + max(1, -int((self.clock.seconds - again) // 60)))
        return min([*found, *self.alarms[:1], self.next_of_day(now), (now // self.pace.every + 1) * self.pace.every])

    def next_of_day(self, now):
        """The next minute in which something of each day happens: something arrives, the timer elapses, or the deadline
        passes of what isn't complete by what the agent knows."""
        times = {moments.minute_of(app.arrives) for app in centre.APPS.values()} | {ROLL_AT}
        due = centre.APPS.values() if self.agent is None else [
            centre.APPS[row.app] for row in self.agent.state.plan.rows.values() if row.status in "WSE"
            and row.deadline < now + moments.DAY]
        times |= {(moments.minute_of(app.due) + 1) % moments.DAY for app in due}
        return min(now + 1 + (minute - now - 1) % moments.DAY for minute in times)

    def wait_until(self, minute):
        """Lets the time go on while nothing happens but that the agent looks."""
        while (between := self.clock.minute + CONTACT) < minute:
            self.clock.set_to(between)
            self.contact() if self.pace == QUIET else self.settle()
        self.clock.set_to(minute)

    def pass_minute(self, minute):
        """All that happens in a minute."""
        self.work()
        ends = [serial for serial, one in self.jobs.items() if one.end <= minute]
        acts = self.acts.pop(minute, ())
        if self.pace.before or not (ends or acts or self.moved):
            self.look()
        for act in acts:
            act()
            if self.pace.before:
                self.look()
        for serial in ends:
            self.note_end(self.end(serial))
        if minute % moments.DAY == ROLL_AT and self.is_timed:
            self.timer()
        self.settle()
        if self.pace.half:
            self.clock.seconds += 30
            self.work()
            self.look()

    def settle(self):
        """Has the agent do what there is to do, and the watch look if something happened."""
        self.work()
        is_moved, self.moved = self.moved, False
        if is_moved and self.pace.behind:
            self.look()
        if is_moved and self.pace.before:
            heapq.heappush(self.alarms, self.clock.minute + 1)

    def note_end(self, one):
        """Notes when the next try of a run is due."""
        if one.is_tried_again:
            heapq.heappush(self.alarms, self.clock.minute + -(-int(one.pause) // 60))

    def timer(self):
        """The timer of `roll` elapses; a run that fails is run again."""
        if self.roll() not in (0, 2):
            self.at(self.clock.minute + ROLL_AGAIN, self.timer)

    def work(self):
        """Has the agent look until there is nothing more to do at this moment."""
        before = self.moved
        for _ in range(MOST_LOOKS):
            if self.agent is None:
                return
            self.moved = False
            try:
                self.agent.step()
            except (client.DeskUnreachable, client.RequestRefused):
                pass
            if not self.moved:
                self.moved = before
                return
            before = True
        raise AssertionError(f"the agent doesn't come to rest: {self.said.getvalue()[-2000:]}")

    def look(self):
        """The watch looks and calls."""
        if self.watch is not None:
            self.looks += 1
            self.watch.step()
            self.heard += [Heard(self.clock.minute, values) for values in self.calls()[len(self.heard):]]
