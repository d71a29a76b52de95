"""A day on which etcd, in which a desk has its log, loses a node, then all of them, and gets them back: who is called,
when, how often, and when it is over.

The calls are worked out by hand from the rules of docs/use/MONITORING.md. Each is named by the node, or by `desk`."""

import contextlib
import tempfile
import time
import unittest
from pathlib import Path

from support import desks, etcds
from support.nights import night as nights
from support.nights.world import NIGHT

from opcplan.rules import moments

DAY = moments.day_of("2026-01-01") * moments.DAY
WHY_NOT = desks.why_not() or etcds.why_not()


@unittest.skipIf(WHY_NOT, WHY_NOT)
class Etcd(unittest.TestCase):
    """HELLO is started at 08.30 and ends at 09.31, while the desk accepts no change."""

    def setUp(self):
        held = contextlib.ExitStack()
        self.addCleanup(held.close)
        folder = held.enter_context(tempfile.TemporaryDirectory(prefix="nights-", dir=desks.IN_MEMORY))
        self.cluster = held.enter_context(etcds.cluster(3))
        self.world = nights.first_day(Path(folder) / "room", DAY // moments.DAY, nights.MORNING,
                                      options=("--log", self.cluster.log()))
        held.callback(self.world.close)
        self.world.fate = lambda one: (61, 0)

    def on(self, time_of_day, act, *given):
        """Has something happen at a time."""
        self.world.at(DAY + moments.minute_of(time_of_day), lambda: act(*given))

    def kill(self, *places):
        """Some nodes are killed, and the desk knows that."""
        for place in places:
            self.cluster.kill(place)
        self.wait_for_desk()

    def start(self):
        """All nodes are started again, and the desk knows that."""
        for place in range(3):
            self.cluster.start(place)
        self.cluster.comes()
        self.wait_for_desk()

    def wait_for_desk(self):
        """Waits until the desk knows which nodes answer, and whether it can change the log."""
        wanted = [process.poll() is None for process in self.cluster.processes]
        until = time.monotonic() + etcds.PATIENCE
        while time.monotonic() < until:
            found = self.world.status()
            if [one["answers"] for one in found["etcd"]] == wanted and bool(found["trouble"]) != any(wanted):
                self.world.moved = True
                return
            time.sleep(0.1)
        raise AssertionError(found)

    def lines(self):
        """The calls in lines, with the name of each node."""
        found = []
        for one in self.world.heard:
            kind, time_of_day = one.values["kind"], moments.minute_text(one.minute % moments.DAY)
            for event in one.values["events"]:
                _, about, name = event["event"].split(":", 2)
                node = self.cluster.names.index(name.removeprefix("http://")) if about == "etcd" else ""
                found.append(f"{time_of_day} {kind} {about}{node}")
        return sorted(found)

    def test_a_node_is_gone_and_then_all_of_them(self):
        """One node from 09.00 on, and all from 09.20 to 09.40."""
        self.world.pace = NIGHT
        self.on("09.00", self.kill, 0)
        self.on("09.20", self.kill, 1, 2)
        self.on("09.40", self.start)
        self.world.run_to(DAY + moments.minute_of("10.30"))
        self.assertEqual(self.lines(), sorted([
            "09.05 new etcd0", "09.10 worse etcd0", "09.20 worse etcd0",
            "09.25 new desk", "09.25 new etcd1", "09.25 new etcd2",
            "09.30 worse desk", "09.30 worse etcd1", "09.30 worse etcd2",
            "09.40 over desk", "09.40 over etcd0", "09.40 over etcd1", "09.40 over etcd2"]),
            self.world.said.getvalue()[-3000:])
        self.assertEqual(self.world.said.getvalue().count("agent: HELLO 2026-01-01/00.05 (serial 1): ended: status 0; "
                                                          "it is complete"), 1)


if __name__ == "__main__":
    unittest.main()
