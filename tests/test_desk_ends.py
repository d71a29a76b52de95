"""./plan desk: a signal while a desk starts, bodies that aren't what their headers say, and pages of two desks on one
host. Standard error has no traceback."""

import contextlib
import gzip
import hashlib
import http.client
import os
import signal
import subprocess
import time
import unittest
import zlib

from support import bare_python, desks, plans

TOKEN = "t" * 40


@unittest.skipIf(desks.why_not(), desks.why_not())
class Ends(desks.Case):
    def test_a_signal_ends_a_desk_that_starts(self):
        """A desk with a log first asks its program for a version, and here the program takes a minute for that."""
        program, begun = self.room / "program", self.room / "begun"
        program.write_text(f"#!/bin/sh\n: > {begun}\nexec sleep 60\n", encoding="ascii")
        program.chmod(0o755)
        # a shell that starts the tests behind it has them ignore this signal, and a desk leaves it so
        before = signal.signal(signal.SIGINT, signal.default_int_handler)
        self.addCleanup(signal.signal, signal.SIGINT, before)
        for number in (signal.SIGTERM, signal.SIGINT):
            begun.unlink(missing_ok=True)
            words = [plans.TOP / "plan", "desk", self.plan, "--log", "etcd://127.0.0.1:1/plan", "--program", program]
            with subprocess.Popen(words, stderr=subprocess.PIPE, text=True) as desk:
                until = time.monotonic() + desks.PATIENCE
                while not begun.exists():
                    self.assertLess(time.monotonic(), until)
                    time.sleep(0.05)
                desk.send_signal(number)
                said = desk.communicate(timeout=desks.PATIENCE)[1]
            self.assertEqual((desk.returncode, said), (0, ""))

    @unittest.skipUnless(os.access(bare_python.DEBIAN, os.X_OK), "there is no Python of Debian's")
    def test_a_python_without_aiohttp_leaves_it_to_debians(self):
        python = bare_python.made(self.room)
        lacks = subprocess.run([python, "-c", "import aiohttp"], capture_output=True, check=False)
        self.assertEqual(lacks.returncode, 1)
        desk = self.desk(command=(python, plans.TOP / "plan"))
        self.assertEqual(desk.posted("list cp --app NONE")[0], 200)
        self.end(desk)

    def desk_with_token(self):
        """A desk that knows one token."""
        tokens = self.room / "tokens"
        tokens.write_text(f"{hashlib.sha256(TOKEN.encode()).hexdigest()} anna plan\n", encoding="ascii")
        return self.desk("--tokens", tokens)

    def test_a_body_that_can_not_be_decoded(self):
        desk = self.desk_with_token()
        zeros = b"\0" * (40 << 20)  # more than any body may have
        bodies = (("gzip", gzip.compress(zeros), 413), ("deflate", zlib.compress(zeros), 413),
                  ("gzip", b"nothing that is compressed", 400))
        for encoding, body, wanted in bodies:
            for path in ("/statements", "/session"):
                heads = {"Content-Encoding": encoding, "X-Opcplan": "desk"}
                self.assertEqual(self.status(desk, path, body, heads), 401)
            heads["Authorization"] = f"Bearer {TOKEN}"
            self.assertEqual(self.status(desk, "/statements", body, heads), wanted)
            self.assertEqual(self.status(desk, "/statements", gzip.compress(b"list cp --app APP00\n"),
                                         {**heads, "Content-Encoding": "gzip"}), 200)
        self.end(desk)
        self.assertEqual(len(desk.said), 2, desk.said)

    @staticmethod
    def status(desk, path, body, heads):
        """The status of the answer to a body."""
        connection = http.client.HTTPConnection("127.0.0.1", desk.port, timeout=60)
        with contextlib.closing(connection):
            connection.request("POST", path, body, heads)
            return connection.getresponse().status

    def test_pages_of_two_desks_on_one_host(self):
        """A browser sends all cookies of a host to each port of it."""
        first = self.desk_with_token()
        self.plan, plan = plans.copy_of(plans.of_stream(self.TEXT), self.room, "other.db"), self.plan
        second = self.desk_with_token()
        jar = {}
        for desk in (first, second):
            status, heads, _ = desk.asked("POST", "/session", Authorization=f"Bearer {TOKEN}", X_Opcplan="desk")
            self.assertEqual(status, 200)
            name, _, value = heads["Set-Cookie"].partition(";")[0].partition("=")
            jar[name] = value
        cookies = "; ".join(f"{name}={value}" for name, value in jar.items())
        for desk in (first, second):
            self.assertEqual(desk.asked("GET", "/journal", Cookie=cookies)[0], 200)
        self.assertEqual(second.asked("DELETE", "/session", Cookie=cookies, X_Opcplan="desk")[0], 204)
        self.assertEqual([desk.asked("GET", "/journal", Cookie=cookies)[0] for desk in (first, second)], [200, 401])
        self.end(second)
        self.plan = plan
        self.end(first)


if __name__ == "__main__":
    unittest.main()
