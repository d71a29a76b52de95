"""./plan desk: callers who say nothing, hang up, or ask for lists all the time, and what they cost others."""

import contextlib
import os
import resource
import signal
import subprocess
import sys
import tempfile
import time
import unittest
from contextlib import closing

from support import desks

# each changes the plan where they come in this order, again and again
START, *_ = CHANGES = [f"cp-{what} --app APP00 --ia 2024-01-01/08.00" for what in ("start", "fail", "reset")]
# asks a port for something again and again, and prints how many bytes came each time
READER = """
import http.client, os, sys
while True:
    connection = http.client.HTTPConnection("127.0.0.1", int(sys.argv[1]))
    connection.request("GET", sys.argv[2])
    answer, size = connection.getresponse(), 0
    while data := answer.read(1 << 18):
        size += len(data)
    os.write(1, b"%d\\n" % size)  # in one call: all readers write into one file
"""


@unittest.skipIf(desks.why_not(), desks.why_not())
class Silent(desks.Case):
    def test_a_thousand_who_say_nothing_keep_nobody_out(self):
        soft, hard = resource.getrlimit(resource.RLIMIT_NOFILE)
        resource.setrlimit(resource.RLIMIT_NOFILE, (min(4096, hard), hard))
        self.addCleanup(resource.setrlimit, resource.RLIMIT_NOFILE, (soft, hard))
        desk = self.desk()
        resource.prlimit(desk.process.pid, resource.RLIMIT_NOFILE, (1024, 1024))
        with contextlib.ExitStack() as silent:
            for place in range(1100):
                text = b"" if place % 2 else b"GET /rows HTTP/1.1\r\nHost: 127"
                with contextlib.suppress(OSError):  # the oldest have to go
                    silent.enter_context(closing(desks.raw(desk.port, text)))
                if place % 100 == 0:
                    self.assertEqual(desk.asked("GET", "/health")[0], 200)
            os.kill(desk.open(), signal.SIGKILL)  # there are descriptors for the next one
            self.assertEqual(desk.posted(START)[2], "ok serial 1 status S\n")
        self.end(desk)
        self.assertLess(len(desk.said), 6, desk.said)

    def test_half_a_header_is_waited_for_ten_seconds(self):
        desk = self.desk()
        with closing(desks.raw(desk.port, b"GET /rows HTTP/1.1\r\nHost: 127")) as one:
            begun = time.monotonic()
            with contextlib.suppress(ConnectionResetError):
                self.assertEqual(one.recv(100), b"")
            self.assertGreater(time.monotonic() - begun, 8)  # no less on a slower machine
        self.end(desk)

    def test_callers_who_hang_up_leave_no_traceback(self):
        desk = self.desk()
        host = f"Host: 127.0.0.1:{desk.port}\r\nX-Opcplan: desk\r\n"
        text = "list cp\n" * 2000
        for head in (f"POST /statements HTTP/1.1\r\n{host}Content-Length: {len(text)}\r\n\r\n{text}",
                     f"POST /statements HTTP/1.1\r\n{host}Content-Length: {len(text)}\r\n\r\n{text[:500]}",
                     f"GET /rows?list=ltp HTTP/1.1\r\n{host}\r\n" * 20, f"GET /snapshot HTTP/1.1\r\n{host}\r\n" * 5,
                     f"GET /events HTTP/1.1\r\n{host}\r\n", "GET /\x00 HTTP/9\r\n\r\n", "\x16\x03\x01\x00\r\n\r\n"):
            for _ in range(5):
                with closing(desks.raw(desk.port, head.encode("latin-1"))) as one:
                    time.sleep(0.02)
                    one.setsockopt(desks.socket.SOL_SOCKET, desks.socket.SO_LINGER, b"\1\0\0\0\0\0\0\0")
        desk.posted(START)
        self.end(desk)
        self.assertEqual([line for line in desk.said if "listening" not in line], [])


@unittest.skipIf(desks.why_not(), desks.why_not())
class Reader(desks.Case):
    """A plan of 3,600 rows, and some who ask for all of them all the time. What they cost callers with changes, in
    seconds, `tools/soak/seconds rates` prints."""

    TEXT = desks.CENTRE.replace(b"--to 2024-01-31", b"--to 2024-06-28")

    def test_changes_go_on_beside_lists(self):
        self.beside("/rows?list=ltp", 1)

    def test_changes_go_on_beside_copies(self):
        self.beside("/snapshot", 6)

    def beside(self, path, count):
        """Asks that changes and so many readers of a path go on beside each other, and each answer is whole."""
        desk, turns = self.desk(), 0
        with tempfile.TemporaryFile("w+") as found:
            words = [sys.executable, "-c", READER, str(desk.port), path]
            readers = [subprocess.Popen(words, stdout=found) for _ in range(count)]
            try:
                until = time.monotonic() + desks.PATIENCE
                while turns < 30 or not os.fstat(found.fileno()).st_size:
                    self.assertTrue(desk.posted(CHANGES[turns % 3])[2].startswith("ok"), turns)
                    self.assertLess(time.monotonic(), until)
                    turns += 1
            finally:
                for reader in readers:
                    reader.kill()
                    reader.wait()
            found.seek(0)
            sizes = list(map(int, found))
        self.end(desk)
        self.assertGreater(min(sizes), 3_500 * 50)


if __name__ == "__main__":
    unittest.main()
