"""Clusters of etcd on this machine, for tests: free ports, data in memory, and each process is gone when its test ends,
however it ends."""

import base64
import contextlib
import http.client
import json
import os
import random
import re
import shutil
import signal
import socket
import subprocess
import tempfile
import threading
import time
from pathlib import Path

# in seconds: how long a cluster that begins is waited for, one answer, after which another node is asked, and a process
# that is to end
PATIENCE, ANSWER, LAST = 300, 10, 100
# below those that the system gives to whoever connects: a port that is free for a while is nobody's by chance
PORTS = range(12_000, 32_000)
IN_MEMORY = "/dev/shm" if os.access("/dev/shm", os.W_OK) else None


def why_not():
    """Why no cluster can be tried here, or nothing."""
    lacking = [command for command in ("etcd", "setpriv") if shutil.which(command) is None]
    if not lacking:
        return ""
    package = {"etcd": "etcd-server", "setpriv": "util-linux"}[lacking[0]]
    return f"there is no {lacking[0]} here: Debian's package {package} has it"


def free_ports(count):
    """So many ports of the loopback address that nobody listens on."""
    found = []
    while len(found) < count:
        port = random.choice(PORTS)
        with socket.socket() as one, contextlib.suppress(OSError):
            one.bind(("127.0.0.1", port))
            if port not in found:
                found.append(port)
    return found


class Silent(Exception):
    """Why a node gives no answer."""


class Cluster:
    """So many nodes of etcd with data in a folder, numbered from 0. They begin by `begin`, and all end by `end`."""

    def __init__(self, folder, count=3, *words, scheme="http"):
        self.folder, self.words, self.scheme = Path(folder), words, scheme
        ports = free_ports(2 * count)
        self.clients, self.peers = ports[:count], ports[count:]
        self.processes = [None] * count

    @property
    def names(self):
        """HOST:PORT of each node."""
        return [f"127.0.0.1:{port}" for port in self.clients]

    def log(self, name="plan", first=0):
        """The word that names a log in it, with one node's address before the others."""
        names = self.names[first:] + self.names[:first]
        return f"etcd://{','.join(names)}/{name}"

    def begin(self):
        """Starts all nodes and waits for their leader."""
        for place in range(len(self.processes)):
            self.start(place)
        self.comes()

    def start(self, place, state="new"):
        """Starts a node, of a cluster in a state. It is killed with the thread that starts it, if not sooner."""
        client, peer = self.clients[place], self.peers[place]
        members = ",".join(f"n{number}=http://127.0.0.1:{port}" for number, port in enumerate(self.peers))
        given = ["setpriv", "--pdeathsig", "KILL", "etcd", "--name", f"n{place}",
                 "--data-dir", self.folder / f"n{place}", "--listen-client-urls", f"{self.scheme}://127.0.0.1:{client}",
                 "--advertise-client-urls", f"{self.scheme}://127.0.0.1:{client}",
                 "--listen-peer-urls", f"http://127.0.0.1:{peer}",
                 "--initial-advertise-peer-urls", f"http://127.0.0.1:{peer}",
                 "--initial-cluster", members, "--initial-cluster-state", state, "--log-level", "warn", *self.words]
        with open(self.folder / f"n{place}.said", "ab") as said:
            self.processes[place] = subprocess.Popen(given, stdin=subprocess.DEVNULL, stdout=said, stderr=said)

    def listens(self, place):
        """Waits until a node listens."""
        until = time.monotonic() + PATIENCE
        while time.monotonic() < until:
            with contextlib.suppress(OSError), socket.create_connection(("127.0.0.1", self.clients[place])):
                return
            time.sleep(0.05)
        raise AssertionError(self.said())

    def kill(self, place):
        """Kills a node; what it wrote stays."""
        self.processes[place].kill()
        self.processes[place].wait(LAST)

    def stop(self, place):
        """Lets a node stand: it keeps its connections and answers nothing."""
        self.processes[place].send_signal(signal.SIGSTOP)

    def go_on(self, place):
        self.processes[place].send_signal(signal.SIGCONT)

    def forget(self, place):
        """Takes away what a node that is killed wrote."""
        shutil.rmtree(self.folder / f"n{place}")

    def replace(self, place):
        """Has an empty node take the place of one that is killed, as another member."""
        until = time.monotonic() + PATIENCE
        for ask in (self.remove_member, self.add_member):
            while True:  # etcd refuses it while it has no leader, or too few nodes are up
                try:
                    ask(place)
                    break
                except Silent as why:
                    if time.monotonic() > until:
                        raise AssertionError(f"{why}; {self.said()}") from None
                    time.sleep(0.1)
        self.forget(place)
        self.start(place, "existing")

    def remove_member(self, place):
        """Removes a node from the cluster, if it is in it. Raises Silent."""
        url = f"http://127.0.0.1:{self.peers[place]}"
        for one in self.asked("/v3/cluster/member/list", {})["members"]:
            if url in one["peerURLs"]:
                self.asked("/v3/cluster/member/remove", {"ID": one["ID"]})

    def add_member(self, place):
        """Adds a node to the cluster. Raises Silent."""
        self.asked("/v3/cluster/member/add", {"peerURLs": [f"http://127.0.0.1:{self.peers[place]}"]})

    def end(self):
        """Kills all that runs, and waits for it."""
        for process in self.processes:
            if process is not None and process.poll() is None:
                process.kill()
        for process in self.processes:
            if process is not None:
                process.wait(LAST)

    def ask(self, place, path, said):
        """What a node answers by its JSON gateway. Raises Silent."""
        connection = http.client.HTTPConnection("127.0.0.1", self.clients[place], timeout=ANSWER)
        with contextlib.closing(connection):
            try:
                connection.request("POST", path, json.dumps(said), {"Content-Type": "application/json"})
                answer = connection.getresponse()
                text = answer.read()
            except (OSError, http.client.HTTPException) as error:
                raise Silent(f"etcd {place}: {error!r}") from None
        if answer.status != 200:
            raise Silent(f"etcd {place}: {answer.status} {text.decode()}")
        return json.loads(text)

    def asked(self, path, said):
        """What the first node answers that does. Raises Silent."""
        why = Silent("there is no node")
        for place in range(len(self.processes)):
            try:
                return self.ask(place, path, said)
            except Silent as error:
                why = error
        raise why

    def comes(self):
        """Waits until a majority answers."""
        until = time.monotonic() + PATIENCE
        while True:
            try:
                return self.asked("/v3/kv/range", {"key": b64("/")})
            except Silent as why:
                if time.monotonic() > until:
                    raise AssertionError(f"{why}; {self.said()}") from None
                time.sleep(0.05)

    def leader(self):
        """The number of the node that leads."""
        until = time.monotonic() + PATIENCE
        while time.monotonic() < until:
            for place in range(len(self.processes)):
                with contextlib.suppress(Silent):
                    found = self.ask(place, "/v3/maintenance/status", {})
                    if found.get("leader") == found["header"]["member_id"]:
                        return place
            time.sleep(0.05)
        raise AssertionError(f"nobody leads; {self.said()}")

    def said(self):
        """The last of what the nodes said."""
        return [path.read_text(errors="replace")[-300:] for path in sorted(self.folder.glob("*.said"))]

    def values(self, prefix):
        """All keys that begin so, in their order, each with its value: [(text, bytes)]. Raises Silent."""
        found, since = [], prefix
        while True:
            said = {"key": b64(since), "range_end": b64(prefix[:-1] + chr(ord(prefix[-1]) + 1)), "limit": "1000"}
            answer = self.asked("/v3/kv/range", said)
            found += [(unb64(one["key"]).decode(), unb64(one.get("value", ""))) for one in answer.get("kvs", ())]
            if not answer.get("more"):
                return found
            since = found[-1][0] + "\0"


class Between:
    """A node as a desk sees it that asks it at `port`: where `loses` says so, the question of the next change, or the
    answer to it, is lost. `lost` tells that it was."""

    def __init__(self, port):
        self.node, self.loses, self.lost = port, None, threading.Event()
        self.listener = socket.create_server(("127.0.0.1", 0))
        self.port = self.listener.getsockname()[1]
        self.ends = [self.listener]
        threading.Thread(target=self.meet, daemon=True).start()

    def meet(self):
        with contextlib.suppress(OSError):
            while True:
                desk, _ = self.listener.accept()
                node = socket.create_connection(("127.0.0.1", self.node))
                self.ends += [desk, node]
                loses = threading.Event()
                threading.Thread(target=self.ask, args=(desk, node, loses), daemon=True).start()
                threading.Thread(target=self.answer, args=(node, desk, loses), daemon=True).start()

    def ask(self, desk, node, loses):
        """Gives questions to the node; behind a lost one the connection stands."""
        with contextlib.suppress(OSError), desk.makefile("rb") as questions:
            while head := b"".join(iter(questions.readline, b"\r\n")):
                length = re.search(rb"(?i)content-length: ([0-9]+)", head)
                body = questions.read(int(length.group(1))) if length else b""
                if b"/kv/txn " in head and b"request_put" in body and self.loses:
                    loses.set()
                    if self.loses == "answer":
                        node.sendall(head + b"\r\n" + body)
                    self.loses = None
                    self.lost.set()
                    return
                node.sendall(head + b"\r\n" + body)

    @staticmethod
    def answer(node, desk, loses):
        with contextlib.suppress(OSError):
            while data := node.recv(1 << 16):
                if not loses.is_set():
                    desk.sendall(data)

    def end(self):
        for one in self.ends:
            with contextlib.suppress(OSError):
                one.shutdown(socket.SHUT_RDWR)
            one.close()


def b64(text):
    return base64.b64encode(text if isinstance(text, bytes) else text.encode()).decode()


def unb64(text):
    return base64.b64decode(text)


@contextlib.contextmanager
def cluster(count=3, *words, folder=None):
    """A cluster that runs, with a leader; nothing is left of it when the context ends."""
    with tempfile.TemporaryDirectory(prefix="etcd-test-", dir=folder or IN_MEMORY) as room:
        found = Cluster(room, count, *words)
        try:
            found.begin()
            yield found
        finally:
            found.end()
