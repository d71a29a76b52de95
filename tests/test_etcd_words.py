"""./plan desk --log and ./plan log: their words, what is refused before etcd is asked, how entries stand there, and
what the journal keeps of a log that others append to too."""

import argparse
import base64
import json
import os
import socket
import tempfile
import time
import unittest
from contextlib import closing
from pathlib import Path

from support import desks, plans

from opcplan.desk import client, log_entries, log_words, versions
from opcplan.errors import LogUnwritable
from opcplan.plans import entry, journal


ETCD = "etcd://127.0.0.1:9/NAME"  # where nobody listens
WRONG_LOGS = ["", "etcd:", "etcd://", "etcd:///NAME", "http://h:1/NAME", "h:1/NAME", "etcd://h:1", "etcd://h:1/",
              "etcd://h/NAME", "etcd://h:/NAME", "etcd://h:0/NAME", "etcd://h:65536/NAME", "etcd://:1/NAME",
              "etcd://h:1,/NAME", "etcd://h:1,h:1/NAME", "etcd://h:1/A/B", "etcd://h:1/-A", "etcd://h:1/A B",
              "etcd://h:1/" + "x" * 101, "etcd://u@h:1/NAME", "etcd://h:1/NAME?x", "etcd://::1:1/NAME",
              "etcd://" + ",".join(f"h:{port}" for port in range(1, 11)) + "/NAME"]
MOMENT = "2024-01-01T08.00".replace(".", ":") + ":00.000Z"


def free_port():
    with closing(socket.create_server(("127.0.0.1", 0))) as listener:
        return listener.getsockname()[1]


class Words(unittest.TestCase):
    def setUp(self):
        room = tempfile.TemporaryDirectory(prefix="etcd-words-")
        self.addCleanup(room.cleanup)
        self.room = Path(room.name)

    def error_of(self, status, *words):
        """What is told in one line on standard error, where the status is as asked."""
        ran = plans.plan(*words)
        self.assertEqual((ran.returncode, ran.stdout, ran.stderr.count("\n")), (status, "", 1), (words, ran.stderr))
        return ran.stderr

    def test_a_log_is_named_by_nodes_and_a_name(self):
        for text, endpoints, name in (
            ("etcd://10.0.0.1:2379/plan", ("10.0.0.1:2379",), "plan"),
            ("etcd://a:1,b.example:2,[::1]:65535/A.b_c-9", ("a:1", "b.example:2", "[::1]:65535"), "A.b_c-9"),
        ):
            found = log_words.address(text)
            self.assertEqual((found.endpoints, found.name, str(found)), (endpoints, name, text))

    def test_other_names_are_refused(self):
        for text in WRONG_LOGS:
            with self.subTest(text), self.assertRaises(argparse.ArgumentTypeError):
                log_words.address(text)
        self.assertIn("argument LOG", self.error_of(2, "log", WRONG_LOGS[-1]))
        self.assertIn("argument --log", self.error_of(2, "desk", self.room / "p.db", "--log", WRONG_LOGS[-1]))

    def test_words_that_go_together(self):
        plan = self.room / "p.db"
        for words in (["--from", "http://h:1"], ["--etcd-ca", "ca.pem"], ["--etcd-user", "user"],
                      ["--etcd-cert", "c", "--etcd-key", "k"], ["--log", ETCD, "--etcd-cert", "c.pem"],
                      ["--log", ETCD, "--etcd-key", "k.pem"]):
            self.error_of(2, "desk", plan, *words)
        for words in (["--etcd-cert", "c.pem"], ["--keep", "-1"], ["--keep", "x"], ["--trim", "--version"],
                      ["--trim", "--begin", plan]):
            self.error_of(2, "log", ETCD, *words)
        self.assertFalse(plan.exists())

    def test_who_is_asked_as_whom(self):
        for name, text, is_right in (("one", "desk secret\n", True), ("none", "", False), ("long", "a b c", False)):
            path = self.room / name
            path.write_text(text, encoding="utf-8")
            if is_right:
                self.assertEqual(log_words.user_of(path), ("desk", "secret"))
            else:
                self.assertIn(str(path), self.error_of(1, "log", ETCD, "--etcd-user", path))
        self.assertIn("nobody", self.error_of(1, "log", ETCD, "--etcd-user", self.room / "nobody"))
        self.error_of(1, "log", ETCD, "--etcd-ca", self.room / "nobody.pem")
        self.error_of(1, "log", ETCD, "--etcd-ca", self.room / "one")


@unittest.skipIf(desks.why_not(), desks.why_not())
class Nobody(desks.Case):
    """Nobody answers where a desk or etcd is named."""

    def refused(self, *words):
        begun = time.monotonic()
        ran = plans.plan(*words)
        self.assertEqual((ran.returncode, ran.stdout, ran.stderr.count("\n")), (1, "", 1), ran.stderr)
        self.assertLess(time.monotonic() - begun, desks.PATIENCE)
        return ran.stderr

    def test_no_etcd(self):
        log = f"etcd://127.0.0.1:{free_port()},127.0.0.1:{free_port()}/NAME"
        before = plans.prints(self.plan)
        for words in (["log", log], ["log", log, "--trim"], ["log", log, "--version", "--program", plans.PROGRAM],
                      ["log", log, "--begin", self.plan, "--program", plans.PROGRAM],
                      ["desk", self.plan, "--log", log, "--program", plans.PROGRAM, "--listen", "127.0.0.1:0"]):
            self.assertIn("etcd doesn't answer", self.refused(*words))
        self.assertEqual(plans.prints(self.plan), before)

    def test_no_desk_to_begin_with(self):
        new = self.room / "new.db"
        for source in (f"http://127.0.0.1:{free_port()}", str(self.room / "none.socket"), "ftp://h"):
            message = self.refused("desk", new, "--log", ETCD, "--from", source, "--program", plans.PROGRAM)
            self.assertIn("the plan of this desk can't be fetched", message)
        alone = self.desk()
        message = self.refused("desk", new, "--log", ETCD, "--from", alone.socket, "--program", plans.PROGRAM)
        self.assertIn("this desk shares no log", message)
        self.end(alone)
        self.assertEqual([name for name in os.listdir(self.room) if name.startswith("new")], [])

    def test_what_is_left_of_another_plan(self):
        for tail in ("-wal", "-journal"):
            new = self.room / f"new{tail}.db"
            Path(f"{new}{tail}").write_bytes(b"x" * 100)
            message = self.refused("desk", new, "--log", ETCD, "--from", "http://127.0.0.1:9", "--program",
                                   plans.PROGRAM)
            self.assertIn(f"{new}{tail}: this file is left from another plan", message)
            self.assertFalse(new.exists())

    def test_no_plan_and_no_desk_named(self):
        message = self.refused("desk", self.room / "new.db", "--log", ETCD, "--program", plans.PROGRAM)
        self.assertIn("there is no such file", message)

    def test_the_next_desk_is_asked_where_one_is_away(self):
        desk = self.desk()
        near, away = desk.socket, f"http://127.0.0.1:{free_port()}"
        for names in (f"{away},{near}", f"{near},{away}", f"{away},{self.room}/none.socket,{near}"):
            ran = plans.plan("send", "--desk", names, "list", "cp", "--app", "APP00")
            self.assertEqual((ran.returncode, ran.stdout.splitlines()[-1]), (0, "ok rows 2"), ran.stderr)
        ran = plans.plan("send", "--desk", f"{away},{away}/", "list", "cp")
        self.assertEqual((ran.returncode, ran.stdout), (8, ""))
        self.assertIn("nothing was sent", ran.stderr)
        self.end(desk)

    def test_a_program_that_is_no_opcplan(self):
        message = self.refused("desk", self.plan, "--log", ETCD, "--program", "/bin/false", "--listen", "127.0.0.1:0")
        self.assertIn("/bin/false", message)


class Names(unittest.TestCase):
    def test_desks_with_commas_between_them(self):
        for text, places in (
            ("h:1", [("http", "h", 1)]),
            ("http://a:1,https://b", [("http", "a", 1), ("https", "b", None)]),
            ("/run/a,b.socket", [("socket", "/run/a,b.socket", None)]),
            ("/run/a,/run/b,http://c:3", [("socket", "/run/a", None), ("socket", "/run/b", None), ("http", "c", 3)]),
        ):
            self.assertEqual(client.Client(text).places, places)
        for text in ("", "http://", "http://a:1,https://", "http://a:1/x", "ftp://a,http://b"):
            with self.subTest(text), self.assertRaises(client.InvalidAddress):
                client.Client(text)


class Entries(unittest.TestCase):
    TEXTS = [b"cp-start --app A --ia 2024-01-01/08.00 --job 5\n", "define calendars --job 6\nD\u00e4\n/*\n".encode(),
             b"define calendars --job 7\n\xff\xfe\x00\n/*\n",
             b"define calendars --job 8\n" + b"\x01" * 262_000 + b"/*\n"]

    def test_they_come_back_as_they_went(self):
        put = [entry.Entry(41 + place, MOMENT, "who/else", key, place + 5, text)
               for place, (key, text) in enumerate(zip(("k", None, "k#2", None), self.TEXTS))]
        text = log_entries.batch_text("mark", put)
        kv = {"key": log_entries.in_base64("/opcplan/NAME/log/0000000041"), "value": log_entries.in_base64(text)}
        self.assertEqual(log_entries.batch_of(kv), ("mark", put))

    def test_odd_bytes_take_a_third_more_at_most(self):
        for text in self.TEXTS:
            self.assertLess(len(json.dumps(log_entries.text_value(text), ensure_ascii=False).encode()),
                            len(text) * 4 // 3 + 40)
        self.assertEqual(log_entries.text_value(self.TEXTS[0]), {"text": self.TEXTS[0].decode()})
        self.assertEqual(log_entries.text_value(self.TEXTS[2]),
                         {"base64": base64.b64encode(self.TEXTS[2]).decode()})

    def test_numbers_are_those_of_the_entries(self):
        wanted = [entry.Wanted("w", None, "cp-start --app A --ia 2024-01-01/08.00", None, None, MOMENT),
                  entry.Wanted("w", None, "cp-start --app A --ia 2024-01-01/08.00 --job 7", None, 7, MOMENT)]
        self.assertEqual([(one.seq, one.job) for one in entry.placed(wanted, 9)], [(10, 500_000_010), (11, 7)])
        entry.placed(wanted[:1], 99_999_998)
        with self.assertRaises(LogUnwritable):
            entry.placed(wanted[:1], 99_999_999)

    def test_the_version_of_an_entry(self):
        known = {1: "a", 10: "b", 20: "a"}
        self.assertEqual("".join(versions.version_at(known, seq) for seq in (1, 9, 10, 19, 20, 999)), "aabbaa")
        self.assertEqual(versions.version_at({8: "a"}, 3), "a")


class Kept(unittest.TestCase):
    def setUp(self):
        room = tempfile.TemporaryDirectory(prefix="etcd-words-")
        self.addCleanup(room.cleanup)
        self.path = f"{room.name}/j"
        self.journal = journal.Journal(self.path)
        self.addCleanup(lambda: self.journal.close())

    def put(self, seq, key=None, text="cp-start --app A --ia 2024-01-01/08.00 --job 5", replies=(), at=MOMENT):
        self.journal.put([entry.Entry(seq, at, "w", key, 5, f"{text}\n".encode())], replies)

    def test_it_begins_where_the_plan_does(self):
        self.assertEqual((self.journal.begun(), self.journal.position()), (None, 0))
        self.journal.begin("one", 700, 5, "c", "p")
        self.assertEqual((self.journal.begun(), self.journal.position()), (
            ("one", 700, 5, "c", "p", 700, 0, None), 700))
        self.put(701)
        self.journal.stop(701)
        self.assertEqual(self.journal.begun(), ("one", 700, 5, "c", "p", 700, 701, None))
        self.journal.begin("two", 701, 6, "d", "q")
        self.journal.close()
        self.journal = journal.Journal(self.path)
        self.assertEqual((self.journal.begun(), self.journal.position()), (
            ("two", 701, 6, "d", "q", 701, 0, "p"), 701))

    def test_a_journal_of_version_1_0_gets_what_it_lacks(self):
        self.journal.db.execute("CREATE TABLE begun (log TEXT NOT NULL, seq INTEGER NOT NULL, jobs INTEGER NOT NULL)")
        self.journal.db.execute("INSERT INTO begun VALUES ('one', 700, 5)")
        self.journal.close()
        self.journal = journal.Journal(self.path)
        self.assertEqual(self.journal.begun(), ("one", 700, 5, None, None, 700, 0, None))
        self.journal.name_plan("p", "host", "c")
        self.assertEqual(self.journal.begun(), ("one", 700, 5, "c", "p", 700, 0, "host"))

    def test_an_entry_that_comes_again_stays(self):
        self.put(3, "k")
        self.put(3, "k", replies=[(3, "ok serial 1 status S", "d")])
        with self.assertRaises(LogUnwritable):
            self.put(3, "k", "another one", [(3, "refused 27", "e")])
        self.put(4)
        self.assertEqual([(one.seq, one.key, one.line[:8], one.reply) for one in self.journal.every()],
                         [(3, "k", "cp-start", "ok serial 1 status S"), (4, None, "cp-start", None)])

    def test_a_key_stands_for_its_first_entry(self):
        self.put(3, "k")
        self.put(9, "k")
        self.put(12, "other")
        self.assertEqual([(one.seq, one.key) for one in self.journal.every()], [(3, "k"), (9, None), (12, "other")])
        self.assertEqual(self.journal.find("w", "k").seq, 3)
        self.assertIsNone(self.journal.find("v", "k"))

    def test_an_old_key_may_be_used_again(self):
        """After a week; a second before that it stands for its first entry."""
        self.put(3, "k", at="2024-01-01T08:00:00.000Z")
        self.put(9, "k", at="2024-01-08T07:59:59.000Z")
        self.assertEqual(self.journal.find("w", "k").seq, 3)
        self.put(12, "k", at="2024-01-08T08:00:01.000Z")
        self.assertEqual([(one.seq, one.key) for one in self.journal.every()], [(3, None), (9, None), (12, "k")])
        self.assertEqual(self.journal.find("w", "k").seq, 12)


if __name__ == "__main__":
    unittest.main()
