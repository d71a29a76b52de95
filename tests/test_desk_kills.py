"""./plan desk: twenty callers at once while opcplan and the desk are killed. Nothing is lost, nothing doubled: the
journal, run again over the plan as it was by tools/reference/plain_planner.py, has the same replies and the same
lists."""

import collections
import os
import signal
import sqlite3
import threading
import time
import unittest
from contextlib import closing

from support import desks, plans

from opcplan.desk import client


CALLERS, EACH = 20, 50
# after so many answers one of the two is killed
KILLS = {150: "opcplan", 330: "desk", 510: "opcplan", 690: "desk", 850: "opcplan"}
STATUSES = ("start", "fail", "reset", "start", "complete")


def statement(caller, place):
    """A statement of a caller: all kinds, some of which are refused."""
    app, turn = desks.APPS[caller], place // 10
    kind = place % 10
    if kind < 5:
        return f"cp-{STATUSES[kind]} --app {app} --ia 2024-01-0{1 + turn % 2}/08.{caller:02}"
    return (
        f"cp-add --app {app} --ia 2024-01-02/1{turn}.{caller:02}",
        f"ltp-add --app {app} --ia 2024-01-0{5 + turn % 3}/12.{caller:02}",
        f"ltp-delete --app {app} --ia 2024-01-{20 + turn}/08.{caller:02}",
        f"cp-delete --app {app} --ia 2024-01-02/1{turn}.{caller:02} --job {1_000 + 100 * caller + place}",
        f"list cp --app {app}",
    )[kind - 5]


@unittest.skipIf(desks.why_not(), desks.why_not())
class Kills(desks.Case):
    def test_nothing_is_lost_and_nothing_doubled(self):
        self.serving = self.desk()
        self.answers, self.lock = {}, threading.Lock()
        callers = [threading.Thread(target=self.call, args=(caller,)) for caller in range(CALLERS)]
        for caller in callers:
            caller.start()
        self.kill()
        for caller in callers:
            caller.join(300)
        self.assertEqual(len(self.answers), CALLERS * EACH)
        self.end(self.serving)
        with closing(sqlite3.connect(f"{self.plan}.journal")) as db:
            entries = db.execute("SELECT seq, who, key, job, text, reply FROM entry ORDER BY seq").fetchall()
            happened = db.execute("SELECT serial, status, seq FROM happened ORDER BY seq").fetchall()
        changes = {place for place in self.answers if not statement(*place).startswith("list")}
        self.assertEqual([seq for seq, *_ in entries], list(range(1, len(changes) + 1)))
        self.assertEqual(sorted(key for _, _, key, *_ in entries), sorted(f"{a}-{b}" for a, b in changes))
        self.assertEqual(len({job for _, _, _, job, *_ in entries}), len(changes))
        again = "".join(text for _, _, _, _, text, _ in entries).encode()
        planner = plans.plain.Planner()
        plans.plain.run(desks.CENTRE, planner)
        replies = plans.plain.run(again, planner)
        self.assertEqual([reply for *_, reply in entries], replies)
        self.assertGreater(collections.Counter(reply.split()[0] for reply in replies)["ok"], 500)
        self.assert_plan(again)
        by_key = {key: reply for _, _, key, _, _, reply in entries}
        self.assertEqual({f"{a}-{b}": self.answers[a, b] for a, b in changes},
                         {key: f"{reply}\n" for key, reply in by_key.items()})
        self.assertEqual(happened, [(int(reply.split()[2]), reply.split()[4], seq) for seq, *_, reply in entries
                                    if " status " in reply])

    def call(self, caller):
        to_desk = client.Client(self.serving.socket)
        for place in range(EACH):
            text = f"{statement(caller, place)}\n".encode()
            answer = to_desk.statements(text, f"{caller}-{place}", time.monotonic() + 240).decode()
            with self.lock:
                self.answers[caller, place] = answer

    def kill(self):
        for count, what in KILLS.items():
            while len(self.answers) < count:
                time.sleep(0.01)
            if what == "opcplan":
                os.kill(self.serving.open(), signal.SIGKILL)
            else:
                self.serving.ended(signal.SIGKILL)
                self.serving = self.desk("--listen", f"127.0.0.1:{self.serving.port}")


if __name__ == "__main__":
    unittest.main()
