"""Desks over logs in a cluster that all tests of a class share, each test with a log of its own."""

import copy
import http.client
import signal
import tempfile
import time
import unittest
from contextlib import closing
from pathlib import Path

from support import desks, etcds, expected, machines, plans

START, COMPLETE = (f"cp-{what} --app APP00 --ia 2024-01-01/08.00" for what in ("start", "complete"))
ADDS = [f"cp-add --app APP00 --ia 2024-01-02/{place // 60:02}.{place % 60:02}" for place in range(300)]
FIRST = 500_000_001


def numbered(*lines, first=FIRST):
    """Statements with the numbers that desks give them."""
    return "".join(f"{line} --job {number}\n" for number, line in enumerate(lines, first)).encode()


def rows_of(app):
    """How many rows the plain planner has of an application in the current plan."""
    return len(plans.plain.run(f"list cp --app {app}\n".encode(), plans.planner_of(desks.CENTRE))) - 1


@unittest.skipIf(machines.why_not(), machines.why_not())
class Case(unittest.TestCase):
    """A test with a log of its own, in a cluster that all tests of a class share."""

    NODES, WORDS = 1, ()

    @classmethod
    def setUpClass(cls):
        room = tempfile.TemporaryDirectory(prefix="etcd-test-", dir=etcds.IN_MEMORY)
        cls.addClassCleanup(room.cleanup)
        cls.etcd = etcds.Cluster(room.name, cls.NODES, *cls.WORDS)
        cls.addClassCleanup(cls.etcd.end)
        cls.etcd.begin()

    def setUp(self):
        room = tempfile.TemporaryDirectory(prefix="late-", dir=etcds.IN_MEMORY)
        self.addCleanup(room.cleanup)
        self.room = Path(room.name)
        self.name = self._testMethodName.removeprefix("test_").replace("_", "-")
        self.log = self.etcd.log(self.name)

    def plan(self, name, text=desks.CENTRE):
        """The file of a desk, at first a plan as a stream makes it."""
        path = self.room / f"{name}.db"
        if not path.exists():
            plans.copy_of(plans.of_stream(text), self.room, path.name)
        return path

    def begun(self, path, *words, log=None, **how):
        found = desks.Desk(path, "--log", log or self.log, *words, **how)
        self.addCleanup(lambda: found.process.poll() is None and found.ended(signal.SIGKILL))
        return found

    def desk(self, name, *words, **how):
        """A desk that serves."""
        found = self.begun(self.plan(name), *words, **how)
        self.assertIsNotNone(found.port, found.said)
        return found

    def refused(self, name, *words, **how):
        """The sentence with which a desk doesn't begin."""
        found = self.begun(self.plan(name), *words, **how)
        self.assertIsNone(found.port)
        self.assertEqual(found.ended(), 1)
        self.assertEqual(len(found.said), 1, found.said)
        return found.said[0]

    def end(self, *serving):
        for desk in serving:
            self.assertEqual(desk.ended(), 0, desk.said)

    def trim(self, *words):
        ran = plans.plan("log", self.log, "--trim", *words)
        self.assertEqual(ran.returncode, 0, ran.stderr)
        return ran.stdout

    def trim_behind(self, last, *words):
        """Trims until an entry is gone: what a desk hasn't said that it has stays."""
        until = time.monotonic() + desks.PATIENCE
        while min(one.seq for one in machines.entries(self.etcd, self.name)) <= last:
            self.assertLess(time.monotonic(), until, self.trim(*words))
            time.sleep(0.2)

    def revoke_leases(self):
        """Ends all leases of etcd, and what they hold."""
        for one in self.etcd.asked("/v3/lease/leases", {}).get("leases", ()):
            self.etcd.asked("/v3/lease/revoke", {"ID": one["ID"]})

    def caught_up(self, desk, position):
        return desk.comes(lambda found: found.get("status") == "ok" and found["position"] >= position)

    def snapshot(self, desk, name):
        """A desk's file, made of the snapshot of another."""
        with closing(http.client.HTTPConnection("127.0.0.1", desk.port, timeout=60)) as connection:
            connection.request("GET", "/snapshot")
            data = connection.getresponse().read()
        path = self.room / f"{name}.db"
        for tail in ("-wal", "-shm"):
            Path(f"{path}{tail}").unlink(missing_ok=True)
        path.write_bytes(data)

    def assert_plans(self, names, *texts):
        """Asks that plans are what these streams make of the first one."""
        planner = copy.deepcopy(plans.planner_of(desks.CENTRE))
        for text in texts:
            plans.plain.run(text, planner)
        wanted = plans.plain.run(expected.LOOK, planner)
        for name in names:
            self.assertEqual(expected.of_file(self.plan(name)), wanted, name)
