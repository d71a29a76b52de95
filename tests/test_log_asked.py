"""./plan desk --log: what is asked of several desks at once, and what each does where its node, the majority, its own
file or etcd's room goes wrong."""

import resource
import shutil
import sqlite3
import subprocess
import tempfile
import threading
import time
import unittest
from contextlib import closing
from pathlib import Path

from support import desks, etcds, expected, machines
from support.logs import ADDS, COMPLETE, Case, START, numbered, rows_of


class Asked(Case):
    def test_a_key_is_done_once_at_whichever_desk(self):
        serving = [self.desk("a"), self.desk("b"), self.desk("c")]
        found, text = [], "\n".join(ADDS[:30])
        askers = [threading.Thread(target=lambda desk=desk: found.append(desk.posted(text, Idempotency_Key="k")[::2]))
                  for desk in serving for _ in range(3)]
        for asker in askers:
            asker.start()
        for asker in askers:
            asker.join()
        self.assertEqual(len(found), 9)
        self.assertEqual(len(set(found)), 1, found)
        self.assertEqual(found[0][1].count("ok"), 30)
        for desk in serving:
            self.caught_up(desk, 30)
            self.assertEqual(desk.posted(START, Idempotency_Key="k")[0], 409)
        self.end(*serving)
        self.assert_plans("abc", numbered(*ADDS[:30]))

    def test_what_is_asked_afresh_is_newest(self):
        first, second = self.desk("a"), self.desk("b")
        before = rows_of("APP00")
        for count, line in enumerate(ADDS[:40], 1):
            first.posted(line)
            status, heads, body = second.asked("GET", "/rows?list=cp&app=APP00&fresh=1")
            self.assertEqual(status, 200, body)
            self.assertGreaterEqual(int(heads["X-Opcplan-Position"]), count)
            self.assertEqual(body.count("\n"), before + count)
        self.end(first, second)

    def test_a_log_of_a_job_whose_start_another_desk_answered(self):
        first, second = self.desk("a"), self.desk("b")
        for place, app in enumerate(desks.APPS[:10:2]):
            serial = 2 * place + 1
            self.assertEqual(second.asked("PUT", f"/logs/{serial}", "text", X_Opcplan="desk")[0], 409)
            first.posted(START.replace("APP00", app).replace("08.00", f"08.{app[3:]}"))
            self.assertEqual(second.asked("PUT", f"/logs/{serial}", "text", X_Opcplan="desk")[0], 204)
        self.end(first, second)

    def test_a_change_asks_for_the_state_that_another_desk_showed(self):
        first, second = self.desk("a"), self.desk("b")
        tag = first.asked("GET", "/rows?list=cp")[1]["ETag"]
        second.posted(START)
        self.assertEqual(first.posted(COMPLETE, If_Match=tag)[0], 412)
        self.assertEqual(second.posted(COMPLETE, If_Match=tag)[0], 412)
        tag = second.asked("GET", "/rows?list=cp&fresh=1")[1]["ETag"]
        self.assertEqual(first.asked("GET", "/rows?list=cp&fresh=1")[1]["ETag"], tag)
        self.assertEqual(first.posted(COMPLETE, If_Match=tag)[2], "ok serial 1 status C\n")
        self.assertEqual(second.posted(COMPLETE, If_Match=tag)[0], 412)
        self.caught_up(second, 2)
        self.end(first, second)
        self.assert_plans("ab", numbered(START, COMPLETE))

    def test_a_condition_holds_while_another_desk_changes_the_plan(self):
        serving = [self.desk("a"), self.desk("b")]
        tag, body = serving[0].asked("GET", "/rows?list=cp")[1]["ETag"], []
        askers = [threading.Thread(target=lambda place=place: body.append(
            serving[place % 2].posted(ADDS[place], If_Match=tag)[0])) for place in range(8)]
        for asker in askers:
            asker.start()
        for asker in askers:
            asker.join()
        self.assertEqual(sorted(body), [200] + [412] * 7)
        self.end(*serving)


class Lost(Case):
    """What passes between a desk and its node is lost, while another desk appends."""

    def test_a_change_that_etcd_never_got(self):
        self.append_beside("question", [*ADDS[:5], START])

    def test_an_answer_of_etcd_that_never_came(self):
        self.append_beside("answer", [START, *ADDS[:5]])

    def append_beside(self, loses, lines):
        between = etcds.Between(self.etcd.clients[0])
        self.addCleanup(between.end)
        first = self.desk("a")
        second = self.desk("b", log=f"etcd://127.0.0.1:{between.port}/{self.name}")
        between.loses, seen = loses, []
        asker = threading.Thread(target=lambda: seen.append(second.posted(START, Idempotency_Key="s")[2]))
        asker.start()
        self.assertTrue(between.lost.wait(desks.PATIENCE))
        self.assertEqual(first.posted("\n".join(ADDS[:5]))[2].count("ok"), 5)
        asker.join(desks.PATIENCE)
        self.assertEqual(seen, ["ok serial 1 status S\n"])
        self.assertEqual(first.posted(START, Idempotency_Key="s")[2], "ok serial 1 status S\n")
        for desk in (first, second):
            self.caught_up(desk, 6)
        self.end(first, second)
        found = machines.entries(self.etcd, self.name)
        self.assertEqual(b"".join(one.text for one in found), numbered(*lines))
        self.assert_plans("ab", numbered(*lines))


class Alone(Case):
    def test_a_desk_whose_file_faults_stops_alone(self):
        first = self.desk("a")
        with closing(sqlite3.connect(self.plan("b"))) as db:
            db.execute("CREATE UNIQUE INDEX mine ON cp_row (ia)")
        second = self.desk("b")
        line = "cp-add --app APP05 --ia 2024-01-01/08.06"
        self.assertTrue(first.posted(line)[2].startswith("ok"))
        found = second.comes(lambda found: found.get("status") == "stopped")
        self.assertIn("41", found["why"])
        self.assertEqual(second.posted(START)[0], 503)
        self.assertEqual(first.posted(START)[2], "ok serial 1 status S\n")
        self.assertEqual(first.health()["status"], "ok")
        self.drop_index("b")
        self.caught_up(second, 2)
        self.assertEqual(second.posted(COMPLETE)[2], "ok serial 1 status C\n")
        self.caught_up(first, 3)
        self.end(first, second)
        self.assert_plans("ab", numbered(line, START, COMPLETE))

    def drop_index(self, name):
        """Mends the plan between two tries of the desk."""
        until = time.monotonic() + 60
        while time.monotonic() < until:
            try:
                with closing(sqlite3.connect(self.plan(name), timeout=0)) as db:
                    db.execute("DROP INDEX mine")
                return
            except sqlite3.OperationalError:
                time.sleep(0.02)

    def test_a_desk_whose_disk_is_full_stops_alone(self):
        first, second = self.desk("a"), self.desk("b")
        limits = resource.prlimit(second.process.pid, resource.RLIMIT_FSIZE)
        for number in (second.process.pid, second.open()):
            resource.prlimit(number, resource.RLIMIT_FSIZE, (4096, limits[1]))
        body = first.posted("\n".join(ADDS[:20]))[2]
        self.assertEqual(body.count("ok"), 20)
        second.comes(lambda found: found.get("status") == "stopped")
        self.assertEqual(second.posted(START, Idempotency_Key="s")[0], 503)
        self.assertEqual(first.posted(COMPLETE)[2], "refused 29\n")
        resource.prlimit(second.process.pid, resource.RLIMIT_FSIZE, limits)
        self.caught_up(second, 21)
        self.assertTrue(second.posted(START, Idempotency_Key="s")[2].startswith("ok"))
        last = first.comes(lambda found: found["position"] >= 22)["position"]
        self.caught_up(second, last)
        self.end(first, second)
        self.assertEqual(expected.of_file(self.plan("a")), expected.of_file(self.plan("b")))


class Majority(Case):
    NODES = 3

    def test_without_a_majority_nothing_is_acknowledged(self):
        first, second = self.desk("a"), self.desk("b")
        first.posted(START)
        self.caught_up(second, 1)
        for place in (0, 1):
            self.etcd.stop(place)
        seen = []
        asker = threading.Thread(target=lambda: seen.append(first.posted(COMPLETE, Idempotency_Key="c")))
        asker.start()
        second.comes(lambda found: found.get("status") != "ok")
        for desk in (first, second):
            status, _, rows = desk.asked("GET", "/rows?list=cp&app=APP00")
            self.assertEqual((status, rows.count("\n")), (200, rows_of("APP00")))
        self.assertEqual(second.asked("GET", "/rows?list=cp&fresh=1")[0], 503)
        asker.join(60)
        self.assertEqual(seen[0][0], 503, seen)
        for place in (0, 1):
            self.etcd.go_on(place)
        until = time.monotonic() + desks.PATIENCE
        while (found := second.posted(COMPLETE, Idempotency_Key="c"))[0] == 503 and time.monotonic() < until:
            time.sleep(0.2)
        self.assertEqual(found[::2], (200, "ok serial 1 status C\n"))
        self.assertEqual(first.posted(COMPLETE, Idempotency_Key="c")[::2], (200, "ok serial 1 status C\n"))
        self.caught_up(first, 2)
        self.end(first, second)
        self.assert_plans("ab", numbered(START, COMPLETE))


class Full(Case):
    WORDS = ("--quota-backend-bytes", str(2 << 20))

    def test_an_etcd_that_is_full_takes_changes_again_once_it_is_trimmed(self):
        desk = self.desk("a")
        self.assertEqual(desk.posted(START)[2], "ok serial 1 status S\n")
        filler = {"key": etcds.b64("/filler"), "value": etcds.b64("x" * 100_000)}
        with self.assertRaisesRegex(etcds.Silent, "space exceeded"):
            for _ in range(100):
                self.etcd.ask(0, "/v3/kv/put", filler)
        status, _, body = desk.posted(COMPLETE, Idempotency_Key="c")
        self.assertEqual((status, body.count("\n")), (503, 1), body)
        self.assertIn("--trim", body)
        self.assertIn("--trim", desk.comes(lambda found: found.get("status") == "stopped")["why"])
        self.assertEqual(desk.asked("GET", "/rows?list=cp&app=APP00&fresh=1")[0], 200)
        self.etcd.ask(0, "/v3/kv/deleterange", {"key": etcds.b64("/filler")})
        self.trim()
        self.assertEqual(desk.posted(COMPLETE, Idempotency_Key="c")[2], "ok serial 1 status C\n")
        desk.comes(lambda found: found["status"] == "ok")
        self.end(desk)
        self.assert_plans("a", numbered(START, COMPLETE))


@unittest.skipIf(shutil.which("openssl") is None, "there is no openssl here: Debian's package openssl has it")
class Tls(Case):
    @classmethod
    def setUpClass(cls):
        room = tempfile.TemporaryDirectory(prefix="etcd-test-", dir=etcds.IN_MEMORY)
        cls.addClassCleanup(room.cleanup)
        cls.keys = Path(room.name)
        for name in ("ca", "other", "own"):
            words = ["-CA", cls.keys / "ca.pem", "-CAkey", cls.keys / "ca.key"] if name == "own" else []
            subprocess.run(["openssl", "req", "-x509", "-newkey", "ec", "-pkeyopt", "ec_paramgen_curve:P-256", "-nodes",
                            "-subj", f"/O={name}", "-addext", "subjectAltName=IP:127.0.0.1", *words,
                            "-keyout", cls.keys / f"{name}.key", "-out", cls.keys / f"{name}.pem"],
                           capture_output=True, check=True)
        cls.etcd = etcds.Cluster(room.name, 1, "--trusted-ca-file", cls.keys / "ca.pem", "--client-cert-auth",
                                 "--cert-file", cls.keys / "own.pem", "--key-file", cls.keys / "own.key",
                                 scheme="https")
        cls.addClassCleanup(cls.etcd.end)
        cls.etcd.start(0)
        cls.etcd.listens(0)

    def words(self, authority, name):
        return ("--etcd-ca", self.keys / f"{authority}.pem", "--etcd-cert", self.keys / f"{name}.pem", "--etcd-key",
                self.keys / f"{name}.key")

    def test_nodes_and_desks_show_certificates(self):
        first = self.desk("a", *self.words("ca", "own"))
        self.assertEqual(first.posted(START)[2], "ok serial 1 status S\n")
        for words in (self.words("other", "own"), self.words("ca", "other"), ("--etcd-ca", self.keys / "ca.pem"), ()):
            self.assertIn("etcd doesn't answer", self.refused("b", *words))
        self.end(first)


if __name__ == "__main__":
    unittest.main()
