"""A fault on the last line of what a desk answers: whoever sends statements takes none of them for done."""

import json
import tempfile
import time
import unittest
from pathlib import Path
from unittest import mock

from support import plans
from support.agents import Served

from opcplan.commands import desk_stream, roll, send
from opcplan.desk import client
from opcplan.errors import Unreadable
from opcplan.library import Desk

STREAM = "cp-start --app AA --ia 2024-01-01/08.00\ncp-complete --app AA --ia 2024-01-01/08.00\n"
REPLIES = ["ok serial 1 status S", "fault 41"]


class Faulty:
    """A desk that answers statements, `good` times as it should after a fault on the last line."""

    def __init__(self, replies=REPLIES):
        self.replies, self.keys = replies, []

    def request(self, method, path, body, heads):
        if (method, path) != ("POST", "/statements"):
            raise client.RequestRefused(404, "there is nothing")
        self.keys.append(heads["Idempotency-Key"])
        if "json" not in heads.get("Accept", ""):
            return {}, "".join(f"{reply}\n" for reply in self.replies).encode()
        lines = [{"seq": place, "statement": line, "job": place, "rows": [], "reply": reply, "at": None, "key": None}
                 for place, (line, reply) in enumerate(zip(STREAM.splitlines(), self.replies), 1)]
        return {}, "".join(json.dumps(line) + "\n" for line in lines).encode()


class Faults(unittest.TestCase):
    def setUp(self):
        room = tempfile.TemporaryDirectory(prefix="faults-")
        self.addCleanup(room.cleanup)
        self.desk = Faulty()
        served = Served(self.desk, Path(room.name) / "desk.socket")
        self.addCleanup(served.close)
        self.path = served.path
        self.client = client.Client(self.path)

    def mended(self):
        """The desk answers as it should once it has answered twice."""
        answered = self.desk.request

        def request(*words):
            if len(self.desk.keys) >= 2:
                self.desk.replies = ["ok serial 1 status S", "ok serial 1 status C"]
            return answered(*words)
        self.desk.request = request

    def test_a_client(self):
        for heads in ({}, {"Accept": "application/x-ndjson"}):
            with self.assertRaises(client.DeskUnreachable) as caught:
                self.client.statements(STREAM.encode(), "key", time.monotonic(), heads)
            self.assertEqual((str(caught.exception), caught.exception.may_be_done),
                             (f"{self.path}: its answer ends with `fault 41`", True))
        self.mended()
        answer = self.client.statements(STREAM.encode(), "key", time.monotonic() + 300)
        self.assertEqual(answer, b"ok serial 1 status S\nok serial 1 status C\n")
        self.assertEqual(set(self.desk.keys), {"key"})

    def test_rows_that_look_like_a_fault_are_none(self):
        for data in (b"", b"fault 41\nok rows 1\n", b'{"rows": ["fault 41"], "reply": "ok rows 1"}\n', b"null\n"):
            self.assertEqual(client.fault_of(data), "", data)
        self.assertEqual(client.fault_of(b'{"rows": [], "reply": "fault 7"}\n'), "fault 7")

    def test_send(self):
        ran = plans.plan("send", "--desk", self.path, "--key", "k", text=STREAM)
        self.assertEqual((ran.returncode, ran.stdout), (8, ""))
        self.assertRegex(ran.stderr, r"^plan: .*: its answer ends with `fault 41`[^\n]*\n$")

    def test_send_that_waits(self):
        self.mended()
        ran = plans.plan("send", "--desk", self.path, "--key", "k", "--wait", "300", text=STREAM)
        self.assertEqual((ran.returncode, ran.stdout), (0, "ok serial 1 status S\nok serial 1 status C\n"))

    def test_roll(self):
        with self.assertRaises(send.StreamNotSent) as caught:
            roll.done(mock.Mock(), self.client, STREAM, time.monotonic())
        self.assertIn("its answer ends with `fault 41`; it may be done all the same: run it", str(caught.exception))

    def test_run(self):
        with self.assertRaises(Unreadable) as caught:
            desk_stream.answers(self.client, STREAM.encode(), "key", '"tag"')
        self.assertIn("its answer ends with `fault 41`; it may be done all the same", str(caught.exception))

    def test_a_script(self):
        with self.assertRaises(Desk.Away) as caught:
            Desk(self.path).statements(STREAM, wait=0)
        self.assertTrue(caught.exception.may_be_done)


if __name__ == "__main__":
    unittest.main()
