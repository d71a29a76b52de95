"""./plan desk --log: desks compare what they answered. One whose plan was changed by another program stops; two that
differ are held until somebody takes a vote away. A copy says which entry it has, and the digest. What decides this goes
through small worlds in tests/test_digest_states.py."""

import hashlib
import json
import signal
import socket
import sqlite3
import subprocess
import time
import unittest
from contextlib import closing
from pathlib import Path

from support import desks, etcds, plans
from support.logs import ADDS, COMPLETE, Case, START, numbered


class Digests(Case):
    def by_hand(self, name, line):
        """Does something in a plan while it has no desk."""
        subprocess.run([plans.PROGRAM, "--db", self.plan(name)], input=f"{line}\n".encode(), capture_output=True,
                       check=True)

    def test_a_plan_that_was_changed_by_hand_isn_t_served(self):
        first, second = self.desk("a"), self.desk("b")
        first.posted(START)
        self.caught_up(second, 1)
        self.end(second)
        self.by_hand("b", "cp-add --app APP07 --ia 2024-01-02/23.59 --job 77")
        first.posted(ADDS[0])
        message = self.refused("b")
        self.assertIn("has job 77", message)
        self.assertIn("--from", message)
        self.end(first)

    def differing(self, name):
        """A desk over a plan that another program changed, which neither its journal nor its jobs show."""
        self.by_hand(name, "cp-add --app APP07 --ia 2024-01-02/23.59 --job 77")
        with closing(sqlite3.connect(self.plan(name))) as db:
            db.execute("DELETE FROM job WHERE number = 77")
            db.commit()
        return self.desk(name)

    def copy(self, source, name, *words):
        """A desk that begins with another one's plan."""
        found = self.begun(self.room / f"{name}.db", "--from", f"http://127.0.0.1:{source.port}", *words)
        self.assertIsNotNone(found.port, found.said)
        return found

    def confirmed(self, desk):
        """The heads of a list once a majority of the desks has published what it depends on."""
        until = time.monotonic() + desks.PATIENCE
        while (found := desk.asked("GET", "/rows?list=cp&fresh=2"))[0] != 200:
            self.assertIn("no majority of the desks has published", found[2])
            self.assertLess(time.monotonic(), until, found)
        return found[1]

    def said_of(self, name):
        """The lines of ./plan log about desks whose plan has this file."""
        found = {key.rpartition("/")[2]: json.loads(value)["plan"] for key, value in
                 self.etcd.values(f"/opcplan/{self.name}/desk/")}
        lines = plans.plan("log", self.log).stdout.splitlines()
        return [line for line in lines if any(line.startswith(f"desk {one}:") and path == str(self.plan(name))
                                              for one, path in found.items())]

    def test_a_desk_that_answers_otherwise_stops_and_its_machine_is_replaced(self):
        serving = [self.desk("a"), self.desk("b"), self.desk("c")]
        serving[0].posted(START)
        self.caught_up(serving[2], 1)
        self.end(serving[2])
        third = self.differing("c")
        self.caught_up(third, 1)
        serving[0].posted("\n".join([COMPLETE, *ADDS[:3]]))
        found = third.comes(lambda found: found.get("status") == "stopped")
        self.assertIn("a majority of the desks answered entry 3 differently from this desk", found["why"])
        self.assertIn("--from", found["why"])
        for path in ("/rows?list=cp", "/snapshot", "/page/data"):
            self.assertEqual(third.asked("GET", path)[0], 503, path)
        self.assertEqual(third.posted(START)[0], 503)
        third.ended()
        third = self.desk("c")  # it stays so
        self.assertIn("had, by entry 3, answered differently", third.asked("GET", "/health")[2])
        self.assertIn("stopped by entry 3", self.said_of("c")[0])
        self.assertIn("No desk can begin with it", plans.plan("backup", self.plan("c"), self.room / "wrong.db").stdout)
        third.process.send_signal(signal.SIGKILL)
        # another machine takes the place of the one that was wrong, first with a copy that nothing marks
        self.caught_up(serving[0], 5)
        self.snapshot(serving[0], "d")
        with closing(sqlite3.connect(self.plan("d"))) as db:
            db.execute("DROP TABLE copy_mark")
            db.commit()
        self.assertIn("no digest of its answers", self.refused("d"))
        self.plan("d").unlink()
        made = plans.plan("backup", self.plan("b"), self.room / "d.db")
        self.assertEqual((made.returncode, made.stdout.count("No desk")), (0, 0), made.stderr)
        fourth, fifth = self.desk("d"), self.copy(serving[0], "e")
        serving[1].posted("\n".join(ADDS[3:20]))
        for desk in (*serving[:2], fourth, fifth):
            self.caught_up(desk, 22)
        serving[0].posted(ADDS[20])
        for desk in (*serving[:2], fourth, fifth):
            self.caught_up(desk, 23)
            self.assertEqual(self.confirmed(desk)["X-Opcplan-Position"], "23")
        self.end(*serving[:2], fourth, fifth)
        self.assert_plans("abde", numbered(START, COMPLETE, *ADDS[:21]))

    def test_two_desks_that_differ_are_held_until_one_isn_t_trusted(self):
        first, second = self.desk("a"), self.desk("b")
        first.posted(START)
        self.caught_up(second, 1)
        self.end(second)
        second = self.differing("b")
        self.caught_up(second, 1)
        for line in (COMPLETE, *ADDS[:2]):
            self.assertEqual(first.posted(line)[0], 200)
        for desk in (first, second):
            found = desk.comes(lambda found: " there, and `" in found.get("why", ""))
            self.assertRegex(found["why"], r"desk \S+ answered entry 3 differently from this desk, \S+: "
                             r"`ok .*` there, and `ok .*` here; neither has a majority")
            self.assertEqual(found["position"], 4)
            status, _, text = desk.posted(ADDS[5], Idempotency_Key="k")
            self.assertEqual((status, "entry 3" in text), (503, True), text)
            self.assertEqual(desk.asked("GET", "/rows?list=cp&fresh=1")[0], 503)
            self.assertEqual(desk.asked("GET", "/rows?list=cp")[0], 200)
        line = self.said_of("b")[0]
        self.assertIn("held by entry 3", line)
        self.end(second)
        second = self.desk("b")  # which is held before it accepts anything
        self.assertEqual(second.posted(ADDS[5], Idempotency_Key="k")[0], 503)
        name = line.removeprefix("desk ").partition(":")[0]
        self.assertIn("no desk of this name", plans.plan("log", self.log, "--distrust", "nobody").stderr)
        self.assertIn("has no vote any more", plans.plan("log", self.log, "--distrust", name).stdout)
        self.caught_up(first, 4)
        second.comes(lambda found: "a majority of the desks" in found.get("why", ""))
        self.assertIn("without a vote", self.said_of("b")[0])
        self.assertEqual(first.posted(ADDS[5], Idempotency_Key="k")[0], 200)
        second.ended()
        for tail in ("", "-wal", "-shm"):  # its journal stays
            Path(f"{self.plan('b')}{tail}").unlink(missing_ok=True)
        second = self.copy(first, "b")
        self.caught_up(second, 5)
        self.assertEqual(second.posted(ADDS[6])[0], 200)
        self.end(first, second)
        self.assert_plans("ab", numbered(START, COMPLETE, *ADDS[:2], *ADDS[5:7]))

    def test_a_plan_and_a_journal_of_version_1_0(self):
        first = self.desk("a")
        first.posted("\n".join(ADDS[:3]))
        self.end(first)
        with closing(sqlite3.connect(f"{self.plan('a')}.journal")) as db:
            (log,) = db.execute("SELECT log FROM begun").fetchone()
            db.executescript(f"""DROP TABLE begun;
                CREATE TABLE begun (log TEXT NOT NULL, seq INTEGER NOT NULL, jobs INTEGER NOT NULL, digest TEXT);
                INSERT INTO begun VALUES ('{log}', 0, 6, NULL)""")
        ((key, _),) = self.etcd.values(f"/opcplan/{self.name}/desk/")
        self.etcd.asked("/v3/kv/deleterange", {"key": etcds.b64(key)})
        old = {"position": 3, "plan": str(self.plan("a")), "version": "1.0", "at": "", "answered": 3, "chain": "0" * 32,
               "digests": {"3": "0" * 8}}
        machine = Path("/etc/machine-id").read_bytes() if Path("/etc/machine-id").exists() else b""
        letters = hashlib.sha256(machine + str(self.plan("a").resolve()).encode()).hexdigest()[:8]
        self.etcd.asked("/v3/kv/put", {
            "key": etcds.b64(f"/opcplan/{self.name}/desk/{socket.gethostname()}-{letters}"),
            "value": etcds.b64(json.dumps(old))})
        first = self.desk("a")
        self.assertEqual(first.posted(ADDS[3])[0], 200)
        second = self.copy(first, "b")
        self.caught_up(second, 4)
        self.confirmed(first)
        self.assertEqual(len(self.etcd.values(f"/opcplan/{self.name}/desk/")), 2)
        self.end(first, second)
        self.assert_plans("ab", numbered(*ADDS[:4]))

    def test_what_a_desk_publishes_comes_again_after_its_lease(self):
        serving = [self.desk("a"), self.desk("b")]
        serving[0].posted(START)
        before = self.published(lambda found: sorted(one["position"] for one in found.values()) == [1, 1])
        self.revoke_leases()
        self.assertEqual(self.published(bool), before)  # though nothing has changed
        self.confirmed(serving[0])
        self.end(*serving)

    def published(self, are_there):
        """What desks publish, by their ids and without the time, once it is there."""
        until = time.monotonic() + desks.PATIENCE
        while True:
            found = {key: {**json.loads(value), "at": ""} for key, value in
                     self.etcd.values(f"/opcplan/{self.name}/desk/")}
            if are_there(found) and len(found) == 2:
                return found
            self.assertLess(time.monotonic(), until, found)
            time.sleep(0.1)

    def test_a_desk_by_snapshot_has_the_digest_of_the_others(self):
        first = self.desk("a")
        first.posted("\n".join(ADDS[:20]))
        second = self.begun(self.room / "b.db", "--from", f"http://127.0.0.1:{first.port}")
        first.posted(START)
        self.caught_up(second, 21)
        self.end(first, second)
        found = []
        for name in "ab":
            with closing(sqlite3.connect(f"{self.plan(name)}.journal")) as db:
                found.append(db.execute("SELECT digest FROM entry WHERE seq = 21").fetchone()[0])
        self.assertEqual(len(found[0]), 32)
        self.assertEqual(found[0], found[1])


if __name__ == "__main__":
    unittest.main()
