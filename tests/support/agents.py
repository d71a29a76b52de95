"""An agent over a plain planner that answers as a desk does, and a room with jobs for it."""

import contextlib
import dataclasses
import http.server
import io
import json
import socketserver
import tempfile
import threading
import time
import unittest
from pathlib import Path

from support import plans
from support.plans import plain

from opcplan.agent import executor
from opcplan.desk import client

FIRST_JOB = 500_000_001
# in seconds: what a busy machine may take
PATIENCE = 300


def day_stream(apps):
    """A stream that plans one day of applications, each with the others that it waits for."""
    lines = {"calendars": ["DEFAULT,2024-01-01,WORK"], "periods": ["DAY,A,2024-01-01,1"],
             "applications": [f"{app},A," for app in apps],
             "run-cycles": [f"{app},DAILY,N,DAY,3,1,2024-01-01,,08.{at:02},0,10.00" for at, app in enumerate(apps)],
             "predecessors": [f"{app},{other}" for app, others in apps.items() for other in others.split()]}
    blocks = [f"define {kind} --job {job}\n" + "".join(f"{line}\n" for line in found) + "/*\n"
              for job, (kind, found) in enumerate(lines.items(), 1) if found]
    planned = "ltp-create --from 2024-01-01 --to 2024-01-05 --job 8\ndp-extend --to 2024-01-02/00.00 --job 9\n"
    return "".join(blocks) + planned


class PlainDesk:
    """A desk that is a plain planner, as an agent asks it. `faults` are done in turn at the next statements."""

    name, life = "plain", "log"
    turn = 0

    def __init__(self, text):
        self.planner, self.log, self.keys, self.faults = plans.planner_from(text), [], {}, []
        self.tails = {}  # the ends of logs by serial and try, each with how far the log was

    def request(self, method, path, body=None, heads=()):
        position = len(self.log)
        if method == "POST":
            return {}, self.statement(body.decode(), heads["Idempotency-Key"], heads.get("If-Match"))
        word, _, query = path.partition("?")
        if method == "PUT":
            self.tails[word.removeprefix("/logs/"), query.removeprefix("try=")] = body, position
            return {}, b""
        if word == "/health":
            return {}, json.dumps({"position": position, "tag": f"{self.life}-{position}"}).encode()
        if word == "/journal":
            found = self.log[int(query.removeprefix("from=")) - 1:]
        else:
            found = self.rows() if query == "list=cp" else [
                {"successor": first, "predecessor": last} for first, last in self.planner.pairs]
        return {"X-Opcplan-Position": str(position)}, "".join(json.dumps(one) + "\n" for one in found).encode()

    def rows(self):
        return [{"serial": row[0], "app": row[1], "ia": plain.moment_text(row[2], "/"), "status": status,
                 "deadline": plain.moment_text(row[3], "/")} for row, status in self.planner.current.values()]

    def go_over(self):
        self.turn += 1

    def statement(self, text, key, condition):
        fault = self.faults.pop(0) if self.faults else None
        if fault == "before":
            raise client.DeskUnreachable("it is away", False)
        if key not in self.keys and condition not in (None, f'"{self.life}-{len(self.log)}"'):
            raise client.RequestRefused(412, "the plan is no longer in the state that If-Match names; nothing was done")
        if key not in self.keys:
            self.keys[key] = self.put(text.strip(), key)
        if fault == "after":
            raise client.DeskUnreachable("the answer broke off", True)
        if fault == "killed":
            raise SystemExit
        return json.dumps(self.keys[key]).encode() + b"\n"

    def put(self, text, key=None, job=None):
        """An entry of the log, with what the planner replies."""
        job = job or FIRST_JOB + len(self.log)
        reply = plain.run(f"{text} --job {job}\n".encode(), self.planner)[-1]
        self.log.append({"seq": len(self.log) + 1, "statement": f"{text} --job {job}", "job": job, "reply": reply,
                         "key": key})
        return self.log[-1]

    def status(self, app):
        return next(status for row, status in self.planner.current.values() if row[1] == app)

    def asked(self):
        """The statements that were asked, without their numbers, each once."""
        return [one["statement"].partition(" --job")[0] for one in self.log]


class Served:
    """A desk behind a socket, for agents that are processes of their own. `heads` has the headers of each request."""

    def __init__(self, desk, path):
        self.desk, self.path, self.heads = desk, str(path), []
        self.lock = threading.Lock()
        served = self

        class Handler(http.server.BaseHTTPRequestHandler):
            """Answers what `desk` answers."""

            def do_GET(self):
                body = self.rfile.read(int(self.headers.get("Content-Length", 0)))
                with served.lock:
                    served.heads.append(dict(self.headers))
                    try:
                        heads, data = served.desk.request(self.command, self.path, body, self.headers)
                        status = 200
                    except client.RequestRefused as why:
                        heads, data, status = {}, str(why).encode(), why.status
                self.send_response(status)
                for name, value in {**heads, "Content-Length": str(len(data))}.items():
                    self.send_header(name, value)
                self.end_headers()
                self.wfile.write(data)

            do_POST = do_PUT = do_GET

            def log_message(self, *_):
                pass

            def address_string(self):
                return "agent"

        class Server(socketserver.ThreadingMixIn, socketserver.UnixStreamServer):
            """Listens on a socket."""

            daemon_threads = True

            def handle_error(self, *_):
                """Who hangs up says nothing."""

        self.server = Server(self.path, Handler)
        threading.Thread(target=self.server.serve_forever, kwargs={"poll_interval": 0.05}, daemon=True).start()

    def close(self):
        self.server.shutdown()
        self.server.server_close()


class Room(unittest.TestCase):
    """A folder with jobs, and agents over them."""

    def setUp(self):
        room = tempfile.TemporaryDirectory(prefix="agent-")
        self.addCleanup(room.cleanup)
        self.room = Path(room.name)
        self.jobs, self.logs = self.room / "jobs", self.room / "logs"
        self.jobs.mkdir(mode=0o755)
        self.logs.mkdir(mode=0o755)

    def job(self, name, text="true"):
        path = self.jobs / name
        path.write_text(f"#!/bin/sh\n{text}\n", encoding="utf-8")
        path.chmod(0o755)

    def agent(self, desk, **more):
        given = executor.Settings(str(self.jobs), str(self.logs), now=plain.read_moment("2024-01-01/12.00"))
        found = executor.Agent(dataclasses.replace(given, **more), desk)
        found.load()
        return found

    def until(self, is_so, agent=None):
        """Has an agent look until something is so; what it tells."""
        end = time.monotonic() + PATIENCE
        with contextlib.redirect_stderr(io.StringIO()) as stderr:
            while True:
                if agent:
                    agent.step()
                if is_so():
                    return stderr.getvalue()
                self.assertLess(time.monotonic(), end, stderr.getvalue() + self.printed_text())
                time.sleep(0.05)

    def printed_text(self):
        """What the commands told."""
        return "".join(path.read_text(encoding="utf-8") for path in sorted(self.room.glob("told-*")))

    @property
    def wait(self):
        """What a job does until `go`."""
        return f"until [ -e {self.room}/go ]; do sleep 0.05; done"

    def go(self):
        (self.room / "go").touch()

    def runs(self):
        """The words of each line that the jobs wrote into the file `runs`."""
        path = self.room / "runs"
        return [line.split() for line in path.read_text(encoding="utf-8").splitlines()] if path.exists() else []
