"""Desks over copies of plans, and callers of them, for tests: each desk listens on a free port and on a socket."""

import contextlib
import functools
import http.client
import json
import os
import pwd
import re
import signal
import socket
import subprocess
import sys
import tempfile
import threading
import time
import unittest
from pathlib import Path

from support import expected, plans

from opcplan.desk import client


APPS = [f"APP{number:02}" for number in range(20)]
# twenty applications on each day of January: of every two the second waits for the first
CENTRE = "\n".join([
    "define periods --job 1", "DAY,A,2024-01-01,1", "/*",
    "define applications --job 2", *(f"{app},A," for app in APPS), "/*",
    "define run-cycles --job 3", *(f"{app},RC,N,DAY,3,1,2024-01-01,,08.{place:02},0,20.00"
                                   for place, app in enumerate(APPS)), "/*",
    "define predecessors --job 4", *(f"{later},{app}" for app, later in zip(APPS[::2], APPS[1::2])), "/*",
    "ltp-create --from 2024-01-01 --to 2024-01-31 --job 5", "dp-extend --to 2024-01-03/00.00 --job 6", ""]).encode()
# in seconds, ten times what it takes on a busy machine: how long a desk that begins or ends is waited for, and an
# answer, which is less than a slow reader of a long list has
PATIENCE, ANSWER = 300, 60
# a place in memory, so that a busy disk doesn't count
IN_MEMORY = "/dev/shm" if os.access("/dev/shm", os.W_OK) else None
LISTENS = re.compile(r"desk: listening on http://127\.0\.0\.1:([0-9]+)")


# whether a Python has what a desk needs, without the half second that it takes to import that
HAS = "import importlib.util, sys; sys.exit(importlib.util.find_spec('aiohttp') is None)"


@functools.cache
def python():
    """The path of a Python that has what a desk needs, or nothing where there is none."""
    for one in (sys.executable, "/usr/bin/python3"):
        with contextlib.suppress(OSError):
            if not subprocess.run([one, "-c", HAS], capture_output=True, check=False).returncode:
                return one
    return ""


def why_not():
    """Why no desk can be tried here, or nothing."""
    if not plans.PROGRAM.exists():
        return "opcplan is not built"
    return "" if python() else "there is no aiohttp here: Debian's package python3-aiohttp has it"


class Desk:
    """A desk that runs."""

    def __init__(self, plan, *words, program=plans.PROGRAM, command=(plans.TOP / "plan",)):
        self.plan, self.socket = Path(plan), f"{plan}.socket"
        given = [*command, "desk", plan, "--program", program, "--socket", self.socket, *words]
        if "--listen" not in words:
            given += ["--listen", "127.0.0.1:0"]
        self.process = subprocess.Popen(given, stderr=subprocess.PIPE, text=True)
        self.said = []
        self.listens = threading.Event()
        self.reader = threading.Thread(target=self.read, daemon=True)
        self.reader.start()
        if not self.listens.wait(PATIENCE) or not self.said:
            raise AssertionError(f"no desk: {self.said}")
        found = LISTENS.search("".join(self.said))
        self.port = int(found.group(1)) if found else None

    def read(self):
        for line in self.process.stderr:
            self.said.append(line)
            if self.socket in line:
                self.listens.set()
        self.listens.set()

    def asked(self, method, path, body=None, **heads):
        """Status, headers and body of an answer by the address; `heads` have underscores for hyphens."""
        with contextlib.closing(http.client.HTTPConnection("127.0.0.1", self.port, timeout=ANSWER)) as connection:
            named = {name.replace("_", "-"): value for name, value in heads.items() if value is not None}
            connection.request(method, path, body, named)
            answer = connection.getresponse()
            return answer.status, answer.headers, answer.read().decode()

    def posted(self, text, **heads):
        return self.asked("POST", "/statements", text, **{"X_Opcplan": "desk", **heads})

    def health(self):
        """What /health says, an empty one where nobody answers."""
        try:
            return json.loads(client.Client(self.socket).request("GET", "/health")[1])
        except client.RequestRefused as why:
            return json.loads(str(why))
        except client.DeskUnreachable:
            return {}

    def comes(self, holds):
        """Waits until /health is as asked, and answers it."""
        until = time.monotonic() + PATIENCE
        while not holds(found := self.health()):
            if time.monotonic() > until:
                raise AssertionError(found)
            time.sleep(0.05)
        return found

    def open(self):
        """The process id of the opcplan that has the plan open."""
        return self.comes(lambda found: found.get("planner"))["planner"]

    def ended(self, how=signal.SIGTERM):
        """Its exit status."""
        with contextlib.suppress(ProcessLookupError):
            self.process.send_signal(how)
        status = self.process.wait(timeout=PATIENCE)
        self.reader.join(10)
        self.process.stderr.close()
        return status


class Case(unittest.TestCase):
    """A test with a room of its own, a plan in it, and desks that end with it."""

    TEXT = CENTRE

    def setUp(self):
        room = tempfile.TemporaryDirectory(prefix="desk-test-", dir=IN_MEMORY)
        self.addCleanup(room.cleanup)
        self.room = Path(room.name)
        self.plan = plans.copy_of(plans.of_stream(self.TEXT), self.room)
        self.desks = []
        self.addCleanup(self.end_all)

    def end_all(self):
        for desk in self.desks:
            if desk.process.poll() is None:
                desk.ended(signal.SIGKILL)

    def desk(self, *words, **how):
        found = Desk(self.plan, *words, **how)
        self.desks.append(found)
        return found

    def end(self, desk, how=signal.SIGTERM):
        """Ends a desk as it has to end: the plan is one file."""
        self.assertEqual(desk.ended(how), 0, desk.said)
        for tail in ("-wal", ".journal-wal"):
            beside = f"{self.plan}{tail}"
            self.assertTrue(not os.path.exists(beside) or os.path.getsize(beside) < 64, tail)

    def assert_plan(self, *texts):
        """Asks that the plan is what these streams make of the first one."""
        self.assertEqual(expected.of_file(self.plan), expected.of_stream(self.TEXT, *texts))


def own_name():
    """The name of the user that runs these tests."""
    return pwd.getpwuid(os.getuid()).pw_name


def raw(port, text):
    """A connection over which a text was sent."""
    found = socket.create_connection(("127.0.0.1", port), timeout=ANSWER)
    found.sendall(text)
    return found
