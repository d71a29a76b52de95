"""Several desks over one log in etcd, each with a plan file of its own; callers who go from one desk to another; and
what has to hold once they are answered: each answer is that of the log, which tools/reference/plain_planner.py runs
once more."""

import contextlib
import dataclasses
import http.client
import json
import os
import random
import signal
import sqlite3
import tempfile
import threading
import time
import unittest
from pathlib import Path

from support import desks, etcds, expected, plans

NAME = "plan"
# in seconds: one answer, after which a caller goes to another desk, and all answers of a caller
ANSWER, PATIENCE = 12, 500
STATUSES = ("start", "fail", "reset", "start", "complete")


def why_not():
    """Why no desks over etcd can be tried here, or nothing."""
    return desks.why_not() or etcds.why_not()


def stream(caller, turn):
    """What a caller sends in one turn, some statements each: all kinds, and some are refused."""
    app, number, minute = desks.APPS[caller % len(desks.APPS)], 1_000 + 100 * caller + turn, f"{caller:02}"
    on_day = f"--app {app} --ia 2024-01-0{1 + turn % 2}/08.{minute}"
    added = f"--app {app} --ia 2024-01-02/{10 + turn % 14}.{minute}"
    calendar, new = f"CAL{minute}", f"NEW{minute}"
    yield from ([f"cp-{status} {on_day}"] for status in STATUSES)
    yield [f"cp-add {added}"]
    yield [f"ltp-add --app {app} --ia 2024-01-{5 + turn % 20:02}/12.{minute}", f"list cp --app {app}",
           f"ltp-delete --app {app} --ia 2024-01-{31 - turn % 20}/08.{minute}"]
    yield [f"cp-delete {added} --job {number}", f"cp-delete {added} --job {number}", f"cp-reset {added} --job {number}"]
    yield [f"define calendars\n{calendar},MON,WORK\n{calendar},2024-01-{1 + turn % 31:02},FREE\n/*",
           f"define applications\n{new},A,{calendar if turn % 2 else ''}\n/*",
           f"define run-cycles\n{new},RC,N,DAY,1,1,2024-01-01,,09.{minute},0,20.00\n/*",
           f"define predecessors\n{new},{app}\n/*", f"ltp-modify-one --app {new if caller % 10 == turn else 'NONE'}"]
    yield [f"undefine calendars --name {calendar if turn % 2 else 'NONE'}"]
    yield [f"define applications\n{new},X,\n/*"]
    yield ["cp-start --app", f"days --app {app} --from 2024-01-01 --to 2024-01-03"]
    yield ["dp-extend --days 1 --count A" if (caller, turn) == (0, 1) else
           f"cp-complete --app {app} --ia 2024-01-01/07.{minute}"]


EACH_TURN = sum(map(len, stream(0, 0)))


class Machines:
    """A cluster of etcd, and desks over one log in it, numbered from 0; all ends by `end`."""

    def __init__(self, room, plan, count=3, nodes=3):
        self.room = Path(room)
        self.etcd = etcds.Cluster(self.room, nodes)
        self.plans = [plans.copy_of(plan, self.room, f"plan{place}.db") for place in range(count)]
        self.ports = etcds.free_ports(count)
        self.desks = [None] * count

    def begin(self):
        self.etcd.begin()
        for place in range(len(self.desks)):
            self.start(place)

    def start(self, place):
        """A desk begins; its first node of etcd is the one beside it."""
        words = ["--log", self.etcd.log(NAME, place % len(self.etcd.names))]
        self.desks[place] = desks.Desk(self.plans[place], *words, "--listen", f"127.0.0.1:{self.ports[place]}")
        if self.desks[place].port is None:
            raise AssertionError(self.desks[place].said)

    def kill(self, place):
        self.desks[place].ended(signal.SIGKILL)

    def kill_planner(self, place):
        os.kill(self.desks[place].open(), signal.SIGKILL)

    def stop(self, place):
        self.desks[place].process.send_signal(signal.SIGSTOP)

    def go_on(self, place):
        self.desks[place].process.send_signal(signal.SIGCONT)

    def lose_disk(self, place):
        """Takes away what a desk that is killed had."""
        for path in self.room.glob(f"plan{place}.db*"):
            path.unlink()

    def take_snapshot(self, place, other):
        """A plan's file from another desk."""
        with contextlib.closing(http.client.HTTPConnection("127.0.0.1", self.ports[other], timeout=60)) as connection:
            connection.request("GET", "/snapshot")
            answer = connection.getresponse()
            data = answer.read()
        if answer.status != 200:
            raise AssertionError(data)
        self.plans[place].write_bytes(data)

    def catch_up(self):
        """Waits until each desk has what the log has: its last position."""
        last = entries(self.etcd)[-1].seq
        for desk in self.desks:
            desk.comes(lambda found: found.get("status") == "ok" and found["position"] >= last)
        return last

    def size(self):
        """Bytes that etcd's database takes at the node where it takes the most."""
        found = [self.etcd.ask(place, "/v3/maintenance/status", {}) for place in range(len(self.etcd.names))]
        return max(int(one["dbSize"]) for one in found)

    def end_desks(self):
        """Ends the desks as they have to end, and says with what status."""
        return [desk.ended() for desk in self.desks]

    def end(self):
        for desk in self.desks:
            if desk is not None and desk.process.poll() is None:
                desk.ended(signal.SIGKILL)
        self.etcd.end()


class Callers:
    """Callers who send at once, each one stream after another under keys of its own, to any desk, and to the next one
    where it is away. `answers` has what each got: by caller and place the stream and the lines of its answer."""

    def __init__(self, ports, count, turns, seed=1, first=0):
        self.ports, self.count, self.turns, self.seed = ports, count, turns, seed
        self.answers, self.waits, self.again, self.wrong = {}, [], 0, []
        self.lock = threading.Lock()
        self.threads = [threading.Thread(target=self.call, args=(caller,), daemon=True)
                        for caller in range(first, first + count)]
        self.statements = count * turns * EACH_TURN

    def start(self):
        for thread in self.threads:
            thread.start()

    def join(self):
        until = time.monotonic() + PATIENCE
        for thread in self.threads:
            thread.join(max(0, until - time.monotonic()))
        if self.wrong:
            raise AssertionError(self.wrong[0])
        if any(thread.is_alive() for thread in self.threads):
            raise AssertionError(f"{len(self.answers)} streams are answered, and the others aren't")

    def answered(self):
        """How many statements are answered."""
        with self.lock:
            return sum(len(one) for one, _ in self.answers.values())

    def changes(self):
        """How many statements that change something are answered."""
        with self.lock:
            return sum(is_change(text) for one, _ in self.answers.values() for text in one)

    def wait(self, share):
        """Waits until such a share of all statements is answered."""
        until = time.monotonic() + PATIENCE
        while self.answered() < share * self.statements:
            if self.wrong or time.monotonic() > until:
                raise AssertionError(self.wrong or f"{self.answered()} of {self.statements} are answered")
            time.sleep(0.01)

    def call(self, caller):
        choice = random.Random(f"{self.seed}/{caller}")
        try:
            place = 0
            for turn in range(self.turns):
                for one in stream(caller, turn):
                    begun = time.monotonic()
                    answer = self.send(choice, "\n".join(one) + "\n", f"{caller}-{place}")
                    with self.lock:
                        self.waits.append(time.monotonic() - begun)
                        self.answers[caller, place] = one, answer
                    place += 1
        except Exception as error:  # pylint: disable=broad-exception-caught
            self.wrong.append(f"caller {caller}: {error!r}")

    def send(self, choice, text, key):
        """The lines that answer a stream, from whichever desk answers."""
        place, until = choice.randrange(len(self.ports)), time.monotonic() + PATIENCE
        heads = {"X-Opcplan": "desk", "Idempotency-Key": key, "Accept": "application/x-ndjson"}
        while True:
            connection = http.client.HTTPConnection("127.0.0.1", self.ports[place], timeout=ANSWER)
            with contextlib.closing(connection):
                try:
                    connection.request("POST", "/statements", text, heads)
                    answer = connection.getresponse()
                    data = answer.read().decode()
                    if answer.status == 200:
                        return [json.loads(line) for line in data.splitlines()]
                    why = f"{answer.status} {data}"
                    if answer.status != 503:
                        raise AssertionError(why)
                except (OSError, http.client.HTTPException) as error:
                    why = repr(error)
            if time.monotonic() > until:
                raise AssertionError(why)
            with self.lock:
                self.again += 1
            place = (place + 1) % len(self.ports)
            time.sleep(0.1)


@dataclasses.dataclass(frozen=True)
class Entry:
    """What the log has of a statement."""

    seq: int
    who: str
    key: str
    job: int
    text: bytes


def entries(etcd, name=NAME):
    """The Entries of a log, in their order, as they stand in etcd."""
    found = []
    for key, value in etcd.values(f"/opcplan/{name}/log/"):
        for seq, one in enumerate(json.loads(value)["batch"], int(key.rpartition("/")[2])):
            text = one["text"].encode() if "text" in one else etcds.unb64(one["base64"])
            found.append(Entry(seq, one["who"], one.get("key"), one["job"], text))
    return found


def jobs(path):
    """What a plan's file keeps of jobs."""
    with contextlib.closing(sqlite3.connect(f"file:{path}?mode=ro", uri=True)) as db:
        return db.execute("SELECT number, body, reply FROM job ORDER BY number").fetchall()


def is_change(text):
    return not text.startswith(("list", "days")) and text != "cp-start --app"


def joined(first, second):
    """The Entries of a log that was read twice, in their order."""
    return [one for _, one in sorted({one.seq: one for one in (*first, *second)}.items())]


def wrong(over, callers, before=(), after=lambda seq, planner, reply: None):
    """What doesn't hold once the desks are ended, some texts: each answer is that of the log and of the plain planner,
    each key stands once in the log, and all plans are what the log makes of the first one. `before` has Entries that
    are trimmed; `after` gets each entry's number, the planner behind it and its reply."""
    found = joined(before, entries(over.etcd))
    seen = []
    if [one.seq for one in found] != list(range(1, len(found) + 1)):
        seen.append("the log has gaps")
    by_key = {one.key: one for one in found}
    if len(by_key) != len(found):
        seen.append(f"{len(found) - len(by_key)} keys stand in the log twice")
    planner = plans.planner_from(desks.CENTRE)
    replies = {}
    for one in found:
        replies[one.seq] = plans.plain.run(one.text, planner)[0]
        after(one.seq, planner, replies[one.seq])
    kept = 0
    for (caller, place), (texts, answers) in callers.answers.items():
        if len(texts) != len(answers):
            seen.append(f"{caller}-{place}: {len(answers)} answers to {len(texts)} statements")
        for number, (text, answer) in enumerate(zip(texts, answers)):
            if not is_change(text):
                continue
            key = f"{caller}-{place}" + (f"#{number}" if number else "")
            one = by_key.get(key)
            kept += one is not None
            wanted = one and {"seq": one.seq, "job": one.job, "reply": replies[one.seq], "key": key}
            if wanted != {name: answer[name] for name in ("seq", "job", "reply", "key")}:
                seen.append(f"{key}: told {answer}, and the log has {wanted}")
    if kept != len(found):
        seen.append(f"the log has {len(found)} statements, and callers know of {kept}")
    lists, first = plans.plain.run(expected.LOOK, planner), jobs(over.plans[0])
    for path in over.plans:
        if expected.of_file(path) != lists:
            seen.append(f"{path.name} lists otherwise than the log run again")
        if jobs(path) != first:
            seen.append(f"{path.name} has other jobs than {over.plans[0].name}")
    return seen


class Case(unittest.TestCase):
    """A test with a room of its own and machines that end with it."""

    def machines(self, plan, count=3, nodes=3):
        """Desks over etcd that run, each with a copy of a plan."""
        room = tempfile.TemporaryDirectory(prefix="machines-", dir=desks.IN_MEMORY)
        self.addCleanup(room.cleanup)
        found = Machines(room.name, plan, count, nodes)
        self.addCleanup(found.end)
        found.begin()
        return found
