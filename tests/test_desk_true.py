"""./plan desk: what it reports is true of what it serves, around restarts, copies, events and keys."""

import json
import re
import signal
import sqlite3
import threading
import time
import unittest
from contextlib import closing

from support import desks

START, FAIL, COMPLETE = (f"cp-{what} --app APP00 --ia 2024-01-01/08.00" for what in ("start", "fail", "complete"))
# what an index of one's own doesn't let opcplan do, so that it faults each time
FAULTS = "cp-add --app APP05 --ia 2024-01-01/08.06"
AT = "2024-01-01T08:00:00.000Z"


def job(number, line):
    return f"{line} --job {500_000_000 + number}\n"


@unittest.skipIf(desks.why_not(), desks.why_not())
class Positions(desks.Case):
    def index(self, text):
        """Makes or drops an index on the plan, between two tries of a desk."""
        until = time.monotonic() + 60
        while time.monotonic() < until:
            try:
                with closing(sqlite3.connect(self.plan, timeout=0)) as db:
                    return db.execute(text)
            except sqlite3.OperationalError:
                time.sleep(0.02)
        raise AssertionError(text)

    def test_a_desk_that_begins_is_not_ahead_of_its_plan(self):
        desk = self.desk()
        desk.posted(START)
        self.end(desk)
        self.index("CREATE UNIQUE INDEX mine ON cp_row (ia)")
        with closing(sqlite3.connect(f"{self.plan}.journal")) as db:  # as a desk that is killed leaves it
            db.execute("INSERT INTO entry (seq, at, who, key, job, text) VALUES (2, ?, 'me', NULL, 500000002, ?)",
                       (AT, job(2, FAULTS)))
            db.commit()
        desk = self.desk()
        found = desk.comes(lambda found: found.get("status") == "stopped")
        self.assertEqual(found["position"], 1)
        status, heads, body = self.got(desk, "/page/data")
        self.assertEqual((status, heads["X-Opcplan-Position"], body["desk"]["position"]), (200, "1", 1))
        # opcplan may have done entry 2 before it ended, so nobody may take the file for that of entry 1
        self.assertEqual(self.got(desk, "/snapshot")[0], 503)
        tag = heads["ETag"]
        self.index("DROP INDEX mine")
        desk.comes(lambda found: found.get("status") == "ok" and found["position"] == 2)
        self.assertEqual(desk.posted(COMPLETE, If_Match=tag)[0], 412)
        tag = desk.asked("GET", "/rows?list=cp")[1]["ETag"]
        self.assertEqual(desk.posted(COMPLETE, If_Match=tag)[2], "ok serial 1 status C\n")
        self.end(desk)
        self.assert_plan((job(1, START) + job(2, FAULTS) + job(3, COMPLETE)).encode())

    def got(self, desk, path):
        """Status, headers and what JSON says of an answer."""
        text = f"GET {path} HTTP/1.0\r\nHost: 127.0.0.1:{desk.port}\r\n\r\n"
        with closing(desks.raw(desk.port, text.encode())) as one:
            head, _, body = one.makefile("rb").read().partition(b"\r\n\r\n")
        status, *heads = head.decode().split("\r\n")
        named = dict(line.split(": ", 1) for line in heads)
        return int(status.split()[1]), named, json.loads(body) if "json" in named["Content-Type"] else None


@unittest.skipIf(desks.why_not(), desks.why_not())
class Answered(desks.Case):
    def test_what_is_answered_is_in_the_journal_at_once(self):
        desk = self.desk()
        stop = threading.Event()
        other = threading.Thread(target=self.call, args=(desk, stop))
        other.start()
        lacking = []
        for place in range(150):
            body = desk.posted(f"cp-add --app APP00 --ia 2024-01-02/{place // 60:02}.{place % 60:02}",
                               Accept="application/x-ndjson")[2]
            seq = json.loads(body)["seq"]
            found = desk.asked("GET", f"/journal?from={seq}")[2].splitlines()
            if not found or json.loads(found[0])["seq"] != seq:
                lacking.append(seq)
        stop.set()
        other.join()
        self.assertEqual(lacking, [])
        body = [json.loads(line)["seq"] for line in desk.asked("GET", "/journal")[2].splitlines()]
        self.assertEqual(body, list(range(1, len(body) + 1)))
        self.end(desk)

    @staticmethod
    def call(desk, stop):
        while not stop.is_set():
            desk.posted(START)

    def test_events_have_each_entry_once_for_whoever_comes_when(self):
        desk = self.desk()
        stop = threading.Event()
        other = threading.Thread(target=self.call, args=(desk, stop))
        other.start()
        for _ in range(40):
            seq = json.loads(desk.posted(START, Accept="application/x-ndjson")[2])["seq"]
            head = f"GET /events HTTP/1.0\r\nHost: 127.0.0.1:{desk.port}\r\nLast-Event-ID: {max(0, seq - 3)}\r\n\r\n"
            with closing(desks.raw(desk.port, head.encode())) as listener:
                lines = listener.makefile()
                seen = []
                while len(seen) < 5 and (line := lines.readline()):
                    if found := re.match("id: ([0-9]+)", line):
                        seen.append(int(found[1]))
            self.assertEqual(seen, list(range(max(1, seq - 2), max(1, seq - 2) + 5)))
        stop.set()
        other.join()
        self.end(desk)


@unittest.skipIf(desks.why_not(), desks.why_not())
class Keys(desks.Case):
    def test_a_key_stands_for_one_stream(self):
        desk = self.desk()
        first, second = f"list cp --app APP19\n{START}\n", f"{FAIL}\n"
        found = {}
        for key, text in (("k", f"{START}\n"), ("l", first)):
            found[key] = desk.posted(text, Idempotency_Key=key)[2]
        for turn in range(3):
            self.refused(desk, "k", f"{START}\n{FAIL}\n")
            self.refused(desk, "l", second)
            self.refused(desk, "l", f"{START}\n")
            for key, text in (("k", f"{START}\n"), ("l", first)):
                self.assertEqual(desk.posted(text, Idempotency_Key=key)[2], found[key])
            if turn == 1:
                desk.ended(signal.SIGKILL)
                desk = self.desk()
            time.sleep(0.6)  # the journal has the replies
        self.assertEqual(desk.health()["position"], 2)
        self.end(desk)
        self.assert_plan((job(1, START) + job(2, START)).encode())

    def refused(self, desk, key, text):
        status, _, body = desk.posted(text, Idempotency_Key=key)
        self.assertEqual((status, body.count("\n")), (409, 1), (key, text))


@unittest.skipIf(desks.why_not(), desks.why_not())
class Heads(desks.Case):
    def test_head_has_no_body(self):
        desk = self.desk()
        desk.posted(START)
        for path in ("/rows?list=cp", "/journal", "/snapshot", "/events", "/health", "/metrics", "/status",
                     "/page/data", "/"):
            host = f"Host: 127.0.0.1:{desk.port}\r\n"
            text = f"HEAD {path} HTTP/1.1\r\n{host}\r\nGET /health HTTP/1.1\r\n{host}Connection: close\r\n\r\n"
            with closing(desks.raw(desk.port, text.encode())) as one:
                found = one.makefile("rb").read()
            _, _, behind = found.partition(b"\r\n\r\n")
            self.assertTrue(behind.startswith(b"HTTP/1.1 200"), (path, behind[:60]))
        self.end(desk)


if __name__ == "__main__":
    unittest.main()
