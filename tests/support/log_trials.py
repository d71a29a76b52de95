"""What tools/soak/log-trial runs: desks over one log in etcd that meet faults, callers who send streams again under
their keys at other desks and read lists afresh, and what has to hold of all that they were told."""

import contextlib
import http.client
import http.server
import json
import random
import socket
import threading
import time

from support import TOP, desks, etcds, machines, plans

from opcplan.desk import keys
from opcplan.plans import entry

CHANGED = TOP / "tests" / "support" / "changed_plan.py"
# of the streams of a caller that are answered, how many may still be sent again, and how often one is
UNSETTLED, AGAIN, LOOKS = 3, 0.4, 0.3
MOST_TURNS = 99  # of a caller
PAUSE = 0.4  # seconds between two streams of a caller
# how many entries a trim keeps
KEPT = 20


class Callers(machines.Callers):
    """Callers who send some of their last streams once more, at any desk, and read lists afresh in between. `told` has
    by key when each stream was first sent and first answered; `again` what a second answer was; `looks` has lists."""

    def __init__(self, ports, count, turns, seed):
        super().__init__(ports, count, turns, seed)
        self.told, self.repeats, self.looks, self.settled, self.newest = {}, [], [], set(), 0
        self.preferred = None  # the desk to which most of them go
        self.is_over = threading.Event()

    def call(self, caller):
        choice = random.Random(f"{self.seed}/{caller}")
        try:
            unsettled, place = [], 0
            for turn in range(self.turns):
                for one in machines.stream(caller, turn):
                    if self.is_over.wait(PAUSE):
                        break
                    begun = time.monotonic()
                    answer = self.send(choice, text_of(one), f"{caller}-{place}")
                    with self.lock:
                        self.waits.append(time.monotonic() - begun)
                        self.answers[caller, place] = one, answer
                        self.told[caller, place] = begun, time.monotonic()
                        self.newest = max([self.newest, *(each["seq"] for each in answer if each["seq"] is not None)])
                    unsettled.append((place, one))
                    if choice.random() < AGAIN:
                        where, what = choice.choice(unsettled)
                        found = self.send(choice, text_of(what), f"{caller}-{where}")
                        with self.lock:
                            self.repeats.append((caller, where, found))
                    if choice.random() < LOOKS:
                        self.look(choice)
                    if len(unsettled) > UNSETTLED:
                        self.settle(caller, unsettled.pop(0)[0])
                    place += 1
            for place, _ in unsettled:
                self.settle(caller, place)
        except Exception as error:  # pylint: disable=broad-exception-caught
            self.wrong.append(f"caller {caller}: {error!r}")

    def wait_for(self, count):
        """Waits until so many more statements are answered."""
        until, wanted = time.monotonic() + machines.PATIENCE, self.answered() + count
        while self.answered() < wanted:
            if self.wrong or time.monotonic() > until:
                raise AssertionError(self.wrong or f"{self.answered()} of {wanted} are answered")
            time.sleep(0.02)

    def settle(self, caller, place):
        """Notes that a stream isn't sent again."""
        with self.lock:
            self.settled.add(f"{caller}-{place}")

    def send(self, choice, text, key):
        """The lines that answer a stream, from whichever desk answers."""
        if self.preferred is not None and choice.random() < 0.7:
            choice = random.Random(0)
            choice.randrange = lambda _, place=self.preferred: place
        return super().send(choice, text, key)

    def look(self, choice):
        """Reads a list afresh at some desk, and notes what it has to have: all that was answered before."""
        app = choice.choice(desks.APPS)
        with self.lock:
            least = self.newest
        place = self.preferred if self.preferred is not None else choice.randrange(len(self.ports))
        connection = http.client.HTTPConnection("127.0.0.1", self.ports[place], timeout=machines.ANSWER)
        with contextlib.closing(connection), contextlib.suppress(OSError, http.client.HTTPException):
            connection.request("GET", f"/rows?list=cp&app={app}&fresh=1")
            answer = connection.getresponse()
            data = answer.read().decode()
            if answer.status == 200:
                rows = {(row["serial"], row["status"]) for row in map(json.loads, data.splitlines())}
                with self.lock:
                    self.looks.append((int(answer.headers["X-Opcplan-Position"]), least, app, rows))


def text_of(one):
    return "\n".join(one) + "\n"


class Between(etcds.Between):
    """A node as one desk sees it, which goes on when the node is away for a while."""

    def meet(self):
        with contextlib.suppress(OSError):
            while True:
                desk, _ = self.listener.accept()
                try:
                    node = socket.create_connection(("127.0.0.1", self.node), timeout=2)
                    node.settimeout(None)
                except OSError:
                    desk.close()
                    continue
                self.ends += [desk, node]
                loses = threading.Event()
                for what, given in ((self.ask, (desk, node, loses)), (self.through, (node, desk, loses))):
                    threading.Thread(target=what, args=given, daemon=True).start()

    def through(self, node, desk, loses):
        """Gives answers to the desk; once the node has ended the connection, so has the desk's."""
        self.answer(node, desk, loses)
        with contextlib.suppress(OSError):
            desk.shutdown(socket.SHUT_RDWR)


class Machines(machines.Machines):
    """Desks whose ways to etcd can lose what they carry; with a bug planted, if there is one."""

    def __init__(self, room, plan, plant=None):
        super().__init__(room, plan)
        self.plant = plant
        self.ways = []

    def command(self):
        return (desks.python(), CHANGED, self.plant) if self.plant else (TOP / "plan",)

    def begin(self):
        self.etcd.begin()
        self.ways = [[Between(port) for port in self.etcd.clients] for _ in self.desks]
        for place in range(len(self.desks)):
            self.start(place)

    def start(self, place, *more):
        """A desk begins, again and again while etcd is away. Raises AssertionError with what it says if it doesn't."""
        count = len(self.etcd.clients)
        ports = [self.ways[place][(place + node) % count].port for node in range(count)]
        log = f"etcd://{','.join(f'127.0.0.1:{port}' for port in ports)}/{machines.NAME}"
        until = time.monotonic() + desks.PATIENCE
        while True:
            found = self.desks[place] = desks.Desk(
                self.plans[place], "--log", log, "--listen", f"127.0.0.1:{self.ports[place]}", *more,
                command=self.command())
            if found.port is not None:
                return
            found.ended()
            if "etcd doesn't answer" not in "".join(found.said) or time.monotonic() > until:
                raise AssertionError(f"desk {place}: {found.said}")

    def snapshot(self, place):
        """Headers and body of a desk's copy."""
        with contextlib.closing(http.client.HTTPConnection("127.0.0.1", self.ports[place], timeout=60)) as connection:
            connection.request("GET", "/snapshot")
            answer = connection.getresponse()
            data = answer.read()
            if answer.status != 200:
                raise AssertionError(data)
            return answer.getheaders(), data

    def end(self):
        super().end()
        for way in (way for ways in self.ways for way in ways):
            way.end()


@contextlib.contextmanager
def replayed(heads, data):
    """The address of something that answers GET /snapshot as a desk did some time ago, with its position and digest."""
    class Handler(http.server.BaseHTTPRequestHandler):
        def do_GET(self):
            self.send_response(200 if self.path == "/snapshot" else 404)
            for name, text in heads:
                if name not in ("Transfer-Encoding", "Content-Length", "Date", "Server"):
                    self.send_header(name, text)
            self.send_header("Content-Length", str(len(data)))
            self.end_headers()
            self.wfile.write(data)

        def log_message(self, *_):  # pylint: disable=arguments-differ
            pass

    with http.server.ThreadingHTTPServer(("127.0.0.1", 0), Handler) as server:
        threading.Thread(target=server.serve_forever, daemon=True).start()
        try:
            yield f"http://127.0.0.1:{server.server_address[1]}"
        finally:
            server.shutdown()


class Faults:
    """What goes wrong while callers ask. Each fault returns what a line says of it."""

    def __init__(self, over, callers, choice):
        self.over, self.callers, self.choice = over, callers, choice
        self.entries, self.wrong, self.trimmed = [], [], 0
        self.backup = over.room / "before.db"
        ran = plans.plan("backup", over.plans[0], self.backup, "--program", plans.PROGRAM)
        assert not ran.returncode, ran.stderr
        self.before = over.snapshot(1)

    def one(self):
        return self.choice.randrange(len(self.over.desks))

    def again(self, place, *more):
        """Starts a desk again; how long it took until it served."""
        begun = time.monotonic()
        self.over.start(place, *more)
        self.over.desks[place].open()
        return f"served again after {time.monotonic() - begun:.1f} s"

    def a_desk_is_killed(self):
        place = self.one()
        self.over.kill(place)
        return f"desk {place} {self.again(place)}"

    def a_desk_stands(self):
        place = self.one()
        self.over.stop(place)
        time.sleep(3)
        self.over.go_on(place)
        return f"desk {place} for 3 s"

    def an_opcplan_is_killed(self):
        place = self.one()
        self.over.kill_planner(place)
        return f"that of desk {place}"

    def a_node_is_killed(self):
        place = self.one()
        self.over.etcd.kill(place)
        time.sleep(1)
        self.over.etcd.start(place)
        return f"node {place}"

    def the_leading_node_stands(self):
        place = self.over.etcd.leader()
        self.over.etcd.stop(place)
        time.sleep(4)
        self.over.etcd.go_on(place)
        return f"node {place} for 4 s"

    def two_nodes_stand(self):
        places = self.choice.sample(range(3), 2)
        for place in places:
            self.over.etcd.stop(place)
        time.sleep(1)
        before = self.callers.changes()
        time.sleep(2)
        found = self.callers.changes() - before
        for place in places:
            self.over.etcd.go_on(place)
        if found:
            self.wrong.append(f"{found} changes were answered without a majority of the nodes")
        return f"nodes {places[0]} and {places[1]} for 3 s"

    def leases_are_revoked(self):
        """All leases, again and again."""
        until, count = time.monotonic() + 2, 0
        while time.monotonic() < until:
            with contextlib.suppress(etcds.Silent):
                for one in self.over.etcd.asked("/v3/lease/leases", {}).get("leases", ()):
                    self.over.etcd.asked("/v3/lease/revoke", {"ID": one["ID"]})
                    count += 1
            time.sleep(0.01)
        return f"{count} of them within 2 s"

    def a_member_is_gone(self):
        """A node and its disk are lost, and an empty one takes its place."""
        place = self.one()
        self.over.etcd.kill(place)
        self.over.etcd.replace(place)
        return f"node {place}, and an empty one took its place"

    def a_desk_is_killed_before_its_append(self):
        return self.killed_at("question")

    def a_desk_is_killed_between_append_and_answer(self):
        return self.killed_at("answer")

    def killed_at(self, what):
        """A desk whose next append, or the answer to it, never arrives, is killed then."""
        place = self.one()
        ways = self.over.ways[place]
        for way in ways:
            way.lost.clear()
            way.loses = what
        until = time.monotonic() + 15
        while not any(way.lost.is_set() for way in ways) and time.monotonic() < until:
            time.sleep(0.002)
        came = any(way.lost.is_set() for way in ways)
        self.over.kill(place)
        for way in ways:
            way.loses = None
        return f"desk {place}{'' if came else ', which appended nothing'}, {self.again(place)}"

    def the_log_is_trimmed(self):
        """What nobody sends again is eight days old by now, and goes."""
        found = machines.entries(self.over.etcd)
        self.entries = machines.joined(self.entries, found)
        aged = self.age()
        ran = plans.plan("log", self.over.etcd.log(machines.NAME), "--trim", "--keep", KEPT)
        if ran.returncode:
            self.wrong.append(f"--trim: {ran.stderr}")
        left = machines.entries(self.over.etcd)
        self.trimmed += max(0, left[0].seq - found[0].seq)
        self.renew(self.one())
        return f"{aged} of {len(found)} entries were old, and {left[0].seq - found[0].seq} are removed"

    def age(self):
        """Makes those entries older than any key that a desk has to know, which no caller sends again, up to the first
        that may be sent; how many are old."""
        old, count = entry.moment_text(time.time() - keys.KEPT - 60), 0
        with self.callers.lock:
            settled = set(self.callers.settled)
        for key, value in self.over.etcd.values(f"/opcplan/{machines.NAME}/log/"):
            batch = json.loads(value)
            if any(one["key"].partition("#")[0] not in settled for one in batch["batch"]):
                break
            for one in batch["batch"]:
                one["at"] = old
            self.over.etcd.asked("/v3/kv/put", {"key": etcds.b64(key), "value": etcds.b64(json.dumps(batch))})
            count += len(batch["batch"])
        return count

    def a_desk_is_replaced_by_a_backup(self):
        """By a copy of before, which `./plan backup` made."""
        return self.replaced("restore")

    def a_desk_is_replaced_by_a_snapshot_of_before(self):
        """By an earlier answer to GET /snapshot."""
        return self.replaced("replay")

    def a_desk_is_replaced_by_another_ones_plan(self):
        return self.replaced("from")

    def replaced(self, how):
        """A desk's disk is lost, and it begins with a copy; then callers go there. A copy that is too old for the log
        is refused, and then it begins with another desk's plan."""
        place = self.one()
        self.over.kill(place)
        self.over.lose_disk(place)
        self.callers.preferred = place
        first = machines.entries(self.over.etcd)[0].seq
        said = ""
        try:
            if how == "restore":
                ran = plans.plan("restore", self.backup, self.over.plans[place], "--program", plans.PROGRAM)
                assert not ran.returncode, ran.stderr
                said = self.again(place)
            elif how == "replay":
                with replayed(*self.before) as address:
                    said = self.again(place, "--from", address)
        except AssertionError as why:
            if first == 1:
                self.wrong.append(f"a copy of before begins no desk though the log has all entries: {why}")
            self.over.lose_disk(place)
            how = f"{how}, too old for the log, and then from"
        if not said:
            said = self.again(place, "--from", f"http://127.0.0.1:{self.over.ports[(place + 1) % 3]}")
        time.sleep(2)
        self.callers.preferred = None
        self.renew((place + 1) % 3)
        return f"desk {place} by {how}, {said}"

    def renew(self, place):
        """Makes new copies of before, so that the next one isn't too old for the log."""
        with contextlib.suppress(AssertionError):
            self.before = self.over.snapshot(place)
        plans.plan("backup", self.over.plans[place], self.backup, "--force", "--program", plans.PROGRAM)


ALWAYS = (Faults.leases_are_revoked, Faults.a_desk_is_killed_between_append_and_answer, Faults.the_log_is_trimmed)
COPIES = (Faults.a_desk_is_replaced_by_a_backup, Faults.a_desk_is_replaced_by_a_snapshot_of_before,
          Faults.a_desk_is_replaced_by_another_ones_plan)
OTHERS = (Faults.a_desk_is_killed, Faults.a_desk_stands, Faults.an_opcplan_is_killed, Faults.a_node_is_killed,
          Faults.the_leading_node_stands, Faults.two_nodes_stand, Faults.a_member_is_gone,
          Faults.a_desk_is_killed_before_its_append)


def chosen(choice):
    """The faults of a run, in their order: those that each run has, a replacement, and another one."""
    found = [*ALWAYS, choice.choice(COPIES), choice.choice(OTHERS)]
    choice.shuffle(found)
    return found


def wrong(over, callers, before):
    """What doesn't hold once the desks are ended, some texts: besides what `machines.wrong` asks, each second answer is
    the first, each fresh list is that of its entry and has all that was answered before it was asked for, and what was
    answered before something else was sent is before it in the log."""
    looks = {}
    for position, least, app, rows in callers.looks:
        looks.setdefault(position, []).append((least, app, rows))
    listed, changed = [], []  # what is wrong with lists, and the entries that changed something

    def look(seq, planner, reply):
        changed.extend([seq] if reply.startswith("ok") else [])
        for _, app, rows in looks.pop(seq, ()):
            wanted = plans.plain.run(f"list cp --app {app}\n".encode(), planner)[:-1]
            if rows != {(int(row.split()[0]), row.split()[-1]) for row in wanted}:
                listed.append(f"the list of {app} at entry {seq} isn't that of the log: {sorted(rows)}, not {wanted}")

    planner = plans.plain.Planner()
    plans.plain.run(desks.CENTRE, planner)
    look(0, planner, "")
    seen = machines.wrong(over, callers, before, look) + listed
    seen += [f"a list of entry {position}, which the log lacks" for position in looks]
    for position, least, app, _ in callers.looks:  # a list is given again after an entry that changed nothing
        if lacking := [seq for seq in changed if position < seq <= least]:
            seen.append(f"a fresh list of {app} at entry {position} lacks entries {lacking}, answered before")
    for caller, place, found in callers.repeats:
        texts, answers = callers.answers[caller, place]
        for text, first, again in zip(texts, answers, found):
            if machines.is_change(text) and any(first[name] != again[name] for name in ("seq", "job", "reply")):
                seen.append(f"{caller}-{place}: told {first} first, and {again} then")
    last = sorted((ended, max(seqs)) for key, (_, ended) in callers.told.items() if (seqs := seqs_of(callers, key)))
    newest, turn = 0, 0
    for begun, key in sorted((begun, key) for key, (begun, _) in callers.told.items() if seqs_of(callers, key)):
        while turn < len(last) and last[turn][0] < begun:
            newest, turn = max(newest, last[turn][1]), turn + 1
        if min(seqs_of(callers, key)) <= newest:
            seen.append(f"{key} was sent after entry {newest} was answered, and is entry {min(seqs_of(callers, key))}")
    return seen


def seqs_of(callers, key):
    """The entries of a stream."""
    return [one["seq"] for one in callers.answers[key][1] if one["seq"] is not None]
