"""A night whose receivers hang, drip, redirect, fail or lose their answers, and whose watch is killed at each step:
whoever can be reached is called at once, nobody's call is lost, and what comes twice has one id.

The night is one of tests/test_nights_needs.py: ORDERS fails at 20.20, and is reset at 20.35. Its looks are played to
watches again and again."""

import functools
import json
import shutil
import unittest
from unittest import mock

from support.nights import tape
from support.nights.receivers import KINDS, Receiver
from test_nights_needs import Case, saved_morning

from opcplan.rules import moments
from opcplan.watch import calls, files
from opcplan.watch.workers import Workers

NEW, OVER = "20.20", "20.35"
DEADLINE = 5.0  # seconds, in place of those of a whole call


@functools.cache
def played():
    """The looks of one night, with the watch's state before them, what it is given, its files and clock, and the minute
    of its begin."""
    night = saved_morning().night()
    night.between("20.00", "21.00")
    night.fates["ORDERS"] = 20, 1
    night.on("20.35", night.fates.clear)
    night.on("20.35", night.send, "reset", "ORDERS")
    state = night.files.path("/var/lib/opcplan-watch/main/state").read_text(encoding="utf-8")
    night.goes_on("19.59")
    with tape.recorded(night) as looks:
        night.goes_on("20.45")
    night.close()
    return looks, state, night.watch.given, night.files, night.clock, night.minute("19.59")


class Played(Case):
    """The looks of one night."""

    @classmethod
    def setUpClass(cls):
        super().setUpClass()
        cls.looks, cls.state, cls.given, cls.files, cls.clock, cls.begin = played()

    def player(self, deliver, crew=tape.Crew, rules=None):
        """A player of the night, as it begins, to a watch with the page's rules or others."""
        shutil.rmtree(self.files.path("/var/lib/opcplan-watch/main"))
        self.files.write("/var/lib/opcplan-watch/main/state", self.state)
        self.files.write("/etc/opcplan/main/watch.toml", rules or self.files.printed("/etc/opcplan/main/watch.toml"))
        self.clock.set_to(self.begin)
        return tape.Player(self.looks, self.given, self.clock, deliver, crew)

    def moment(self):
        """The time of the night."""
        return moments.minute_text(self.clock.minute % moments.DAY)


class Kills(Played):
    """A watch that is killed before and after each thing that it stores or sends."""

    def played(self, kill):
        """The calls that came, and how many steps there were, of a watch that is killed at one of these."""
        came, steps, store = [], [], files.put

        def step(act):
            """An act, with a kill before or after it where it is its turn."""
            for do in (None, act):
                if do is not None:
                    do()
                steps.append(do)
                if len(steps) == kill:
                    raise tape.Killed

        def deliver(target, call, caller):
            step(lambda: came.append((self.moment(), target.name, call)))

        with mock.patch.object(files, "put", lambda *given: step(lambda: store(*given))):
            self.player(deliver).play()
        return came, len(steps)

    def test_at_each_step(self):
        whole, count = self.played(0)
        self.assertEqual([(at, call.kind) for at, _, call in whole], [(NEW, "new"), (OVER, "over")])
        self.assertGreater(count, 30)
        for kill in range(1, count + 1):
            with self.subTest(kill):
                came, _ = self.played(kill)
                once = list({call.id: (at, call) for at, _, call in reversed(came)}.values())[::-1]
                self.assertEqual([(at, call.kind, call.mentions[0].key) for at, call in once],
                                 [(at, call.kind, call.mentions[0].key) for at, _, call in whole])
                self.assertLessEqual(len(came), len(whole) + 1)
                self.assertEqual(len({(call.id, call.mentions) for _, _, call in came}), len(once))
        print(f"a watch was killed at {count} steps")


class Receivers(Played):
    """`log` is the page's; the others are webhooks that fail."""

    def played(self, fails):
        """The receivers of a night by their kinds, whose first calls fail; and what came to `log`, and when."""
        receivers = {kind: Receiver(kind, fails) for kind in KINDS}
        for one in receivers.values():
            self.addCleanup(one.close)
        names = {kind: kind.replace(" ", "-") for kind in KINDS}
        rules = self.files.printed("/etc/opcplan/main/watch.toml").replace(
            'call = "log"', f"call = {json.dumps([*names.values(), 'log'])}")
        rules += "".join(f'[who.{names[kind]}]\nwebhook = "{one.url}"\n' for kind, one in receivers.items())
        came, path = [], self.files.path("/usr/bin/calls")
        path.unlink(missing_ok=True)

        def deliver(target, call, caller):
            calls.deliver(target, call, caller)
            came.append((self.moment(), target.name, call))

        with mock.patch.object(calls, "LONGEST_POST", DEADLINE):
            self.player(deliver, Workers, rules).play()
        return receivers, came

    def test_one_that_can_be_reached_is_called_at_once(self):
        """The others fail twice each, and get their calls from the third try on; on a busy machine perhaps later."""
        receivers, came = self.played(2)
        self.assertEqual([(at, call.kind) for at, name, call in came if name == "log"], [(NEW, "new"), (OVER, "over")])
        for kind, one in receivers.items():
            with self.subTest(kind):
                self.assertEqual([call.kind for _, name, call in came if name == kind.replace(" ", "-")],
                                 ["new", "over"])
                self.assertGreaterEqual(len(one.ids()), 4)
                self.assertEqual(len(set(one.ids())), 2)
                self.assertEqual(len({json.dumps(found.values) for found in one.came}), 2)


if __name__ == "__main__":
    unittest.main()
