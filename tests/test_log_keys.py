"""./plan desk --log: a stream under a key is done once, and each retry gets the first answer: at a desk that hasn't
taken the entry when the retry comes, at one that began with a copy, after a trim, and though etcd has lost all its
leases. tests/test_key_states.py goes through the interleavings of what decides this."""

import hashlib
import json
import signal
import threading
import time
import unittest

from support import desks, etcds, machines
from support.logs import ADDS, COMPLETE, Case, START, numbered

from opcplan.desk import keys
from opcplan.plans import entry


class Once(Case):
    def sent(self, desk, text, key):
        """The lines of JSON that answer a stream."""
        status, _, body = desk.posted(text, Idempotency_Key=key, Accept="application/x-ndjson")
        self.assertEqual(status, 200, body)
        return [json.loads(line) for line in body.splitlines()]

    def keyed(self):
        """The numbers of the log's entries, and their keys."""
        return [(one.seq, one.key) for one in machines.entries(self.etcd, self.name)]

    def written(self, seq, change):
        """Puts an entry's batch into etcd once more, after `change` did something to the entry."""
        for key, value in self.etcd.values(f"/opcplan/{self.name}/log/"):
            batch, first = json.loads(value), int(key.rpartition("/")[2])
            if first <= seq < first + len(batch["batch"]):
                change(batch["batch"][seq - first])
                self.etcd.asked("/v3/kv/put", {"key": etcds.b64(key), "value": etcds.b64(json.dumps(batch))})

    def copy(self, first, name="b"):
        """A desk that begins with another one's plan."""
        found = self.begun(self.room / f"{name}.db", "--from", f"http://127.0.0.1:{first.port}")
        self.assertIsNotNone(found.port, found.said)
        return found

    def test_a_retry_at_a_desk_that_lacks_the_entry_when_it_comes(self):
        first, second = self.desk("a"), self.desk("b")
        self.caught_up(second, 0)
        for turn, line in enumerate(ADDS[:8]):
            second.process.send_signal(signal.SIGSTOP)
            (told,) = self.sent(first, line, f"k{turn}")
            self.revoke_leases()
            seen = []
            asker = threading.Thread(target=lambda: seen.extend(self.sent(second, line, f"k{turn}")))
            asker.start()
            time.sleep(0.2)  # the request is on its way when the desk goes on
            second.process.send_signal(signal.SIGCONT)
            asker.join(desks.PATIENCE)
            self.assertEqual(seen, [told])
            self.assertEqual(self.sent(first, line, f"k{turn}"), [told])
        self.assertEqual(self.keyed(), [(seq, f"k{seq - 1}") for seq in range(1, 9)])
        self.end(first, second)
        self.assert_plans("ab", numbered(*ADDS[:8]))

    def test_a_retry_at_a_desk_that_began_with_a_copy(self):
        first = self.desk("a")
        self.sent(first, ADDS[0], "other")
        told = self.sent(first, f"list cp\n{START}\n{ADDS[1]}", "k")
        self.revoke_leases()
        second = self.copy(first)
        self.assertEqual(second.posted(COMPLETE, Idempotency_Key="k")[0], 409)
        self.assertEqual(second.posted(COMPLETE, Idempotency_Key="other")[0], 409)
        found = self.sent(second, f"list cp\n{START}\n{ADDS[1]}", "k")
        self.assertEqual(found[1:], told[1:])
        tag = second.asked("GET", "/rows?list=cp")[1]["ETag"]
        self.sent(first, COMPLETE, None)
        again = second.posted(ADDS[0], Idempotency_Key="other", If_Match=tag)
        self.assertEqual((again[0], again[2][:2]), (200, "ok"))
        self.end(second)
        second = self.desk("b")  # which has a journal by now, and began after its copy
        self.assertEqual(self.sent(second, f"list cp\n{START}\n{ADDS[1]}", "k")[1:], told[1:])
        self.assertEqual(self.keyed(), [(1, "other"), (2, "k#1"), (3, "k#2"), (4, None)])
        self.end(first, second)
        self.assert_plans("ab", numbered(ADDS[0], START, ADDS[1], COMPLETE))

    def test_a_trim_leaves_keys_of_a_week(self):
        first = self.desk("a")
        first.posted("\n".join(ADDS[:6]))
        for number, line in enumerate(ADDS[6:12]):
            self.sent(first, line, f"k{number}")
            first.posted(ADDS[20 + number])
        old = entry.moment_text(time.time() - keys.KEPT - 60)
        for seq in range(7, 11):  # k0 and k1 are so old that nobody sends them again
            self.written(seq, lambda one: one.update(at=old))
        lines = ""
        until = time.monotonic() + desks.PATIENCE
        while "entry 11 has a caller's key" not in lines:  # until the desk has said that it has all
            self.assertLess(time.monotonic(), until, lines)
            lines = self.trim("--keep", "1")
        self.assertEqual(self.keyed()[0], (11, "k2"))
        second = self.copy(first)
        self.assertEqual(self.sent(second, ADDS[8], "k2"), self.sent(first, ADDS[8], "k2"))
        self.assertEqual(len(self.keyed()), 8)
        self.end(first, second)

    def test_what_an_earlier_program_left_of_keys(self):
        first = self.desk("a")
        told = [*self.sent(first, ADDS[0], "k"), *self.sent(first, ADDS[1], "l")]
        for one in told:
            text = f"{one['statement']}\n".encode()
            value = {"seq": one["seq"], "job": one["job"], "at": one["at"], "sum": hashlib.sha256(text).hexdigest()}
            self.written(one["seq"], lambda found: found.pop("key"))
            self.etcd.asked("/v3/kv/put", {
                "key": etcds.b64(f"/opcplan/{self.name}/key/{desks.own_name()}/{one['key']}"),
                "value": etcds.b64(json.dumps(value))})
        second = self.copy(first)
        self.assertEqual(self.sent(second, ADDS[0], "k")[0], told[0])
        self.assertEqual(second.posted(ADDS[0], Idempotency_Key="l")[0], 409)
        self.assertEqual(len(machines.entries(self.etcd, self.name)), 2)
        self.end(first, second)
        self.assert_plans("ab", numbered(*ADDS[:2]))


if __name__ == "__main__":
    unittest.main()
