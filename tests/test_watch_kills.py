"""A watch that is killed at each of its system calls, and what it does between its calls: it stores and syncs before it
calls, pauses from the end of a call, and gives none up. A watch that lacks one of these has to be caught."""

import contextlib
import io
import itertools
import json
import os
import tempfile
import time
import unittest
from pathlib import Path
from unittest import mock

from support import traced

from opcplan.watch import calls, files, service
from opcplan.watch.state import Found, Looked, State
from opcplan.watch.workers import Inline

RULES = """
[who.me]
command = ["sh", "-c", "cat >> %(room)s/calls"]
[[rule]]
on = "desk"
call = "me"
"""
DAY, TRY = 86_400.0, 60.0  # a call takes a minute
STRIDE = 2  # of the system calls at which it is killed
WRITES = {"fsync", "replace"}
PUT, SYNC = files.put, files.sync_folder


class Violation(Exception):
    """What a watch does that it must not."""


class Room(unittest.TestCase):
    def setUp(self):
        room = tempfile.TemporaryDirectory(prefix="watch-test-")
        self.addCleanup(room.cleanup)
        self.room = Path(room.name)
        self.rules, self.state = self.room / "rules.toml", self.room / "state"
        self.rules.write_text(RULES % {"room": self.room})
        self.given = service.Settings(str(self.room / "nowhere"), str(self.rules), str(self.state))

    def watch(self, cls=service.Watch, **how):
        return cls(self.given, service.rules_of(str(self.rules)), None, crew=Inline(), **how)

    def noted(self, watch):
        """Has a watch find one thing, whatever it polls."""
        watch.take_look = lambda: watch.state.take(0, "desk", ("me",), Looked((Found("desk:x", 0, "x"),)))
        return watch


@unittest.skipUnless(traced.can_trace(), "no process may be traced here")
class Kills(Room):
    def step(self):
        with contextlib.redirect_stderr(io.StringIO()):
            watch = self.noted(self.watch())
            watch.load()
            watch.step()

    def ids(self):
        path = self.room / "calls"
        return [json.loads(line)["id"] for line in path.read_text().splitlines()] if path.exists() else []

    def wait_for_commands(self):
        """Waits until no command runs that the watch of this room began. It may outlive its watch."""
        while any(str(self.room).encode() in environment for environment in environments()):
            time.sleep(0.01)

    def test_at_each_system_call(self):
        """Nothing is lost, at most one call comes twice, and that under one id; and no file is left behind."""
        counts, is_killed = [], True
        for number in itertools.count(1, STRIDE):
            for path in self.room.iterdir():
                if path != self.rules:
                    path.unlink()
            is_killed = traced.killed_at(number, self.step)
            self.wait_for_commands()
            if is_killed:
                self.step()
            ids = self.ids()
            self.assertIn(len(ids), (1, 2), number)
            self.assertEqual(len(set(ids)), 1, number)
            self.step()
            self.assertEqual(self.ids(), ids, number)
            kept = json.loads(self.state.read_text())["watch"]
            self.assertEqual((kept["calls"], kept["pending"]["me"]), ({}, []), number)
            self.assertEqual({path.name for path in self.room.iterdir()}, {"rules.toml", "state", "calls"}, number)
            counts.append(len(ids))
            if not is_killed:
                break
        print(f"killed at {len(counts) - 1} of {number} system calls; {counts.count(2)} calls came twice")
        self.assertEqual(set(counts), {1, 2})
        self.assertGreater(len(counts), 20)
        self.assertEqual(counts[-1], 1)


def environments():
    """The environments of all other processes that may be read."""
    for name in os.listdir("/proc"):
        if name.isdigit() and int(name) != os.getpid():
            with contextlib.suppress(OSError):
                yield Path(f"/proc/{name}/environ").read_bytes()


def order_of(room, cls, put=files.put):
    """What a watch does, in its order: what it syncs, replaces and calls, with what its state has then."""
    found, state = [], room.state

    def recorded(name, function):
        def call(*words, **more):
            result = function(*words, **more)
            what = os.readlink(f"/proc/self/fd/{words[0]}") if name == "fsync" else str(words[1])
            found.append((name, what))
            return result
        return call

    def deliver(target, call, caller):
        kept = json.loads(state.read_text())["watch"] if state.exists() else {"calls": {}}
        found.append(("call", [one for one, _ in kept["calls"].values()] == [call.id]))

    with contextlib.redirect_stderr(io.StringIO()), mock.patch("os.fsync", recorded("fsync", os.fsync)), \
            mock.patch("os.replace", recorded("replace", os.replace)), mock.patch.object(files, "put", put):
        room.noted(room.watch(cls, deliver=deliver)).step()
    kept = json.loads(state.read_text())["watch"] if state.exists() else None
    return found, kept


def ask_order(room, cls=service.Watch, put=files.put):
    """Asks that the state with a call is on the disk before the call is made, file and name, and after it without."""
    found, kept = order_of(room, cls, put)
    names = [name for name, _ in found]
    place = names.index("call")
    if not found[place][1]:
        raise Violation(f"the state lacks a call that is made: {found}")
    for part in (found[:place], found[place + 1:]):
        part = [one for one in part if one[0] in WRITES]
        if [name for name, _ in part[-3:]] != ["fsync", "replace", "fsync"]:
            raise Violation(f"not synced, renamed and synced: {part}")
        (_, file), (_, target), (_, folder) = part[-3:]
        if (os.path.dirname(file), target, folder) != (str(room.room), str(room.state), str(room.room)):
            raise Violation(f"not the state: {part}")
    if kept is None or kept["calls"]:
        raise Violation(f"the state has a call that was made: {kept}")


def tries_of(room, cls=service.Watch, state_cls=State):
    """When a target is tried by the steady clock in a day in which it doesn't answer; each try takes a minute."""
    now, tries = 0.0, []

    def deliver(target, call, caller):
        nonlocal now
        tries.append((now, call.id))
        now += TRY
        if now < DAY:
            raise calls.Undelivered("no answer")

    watch = room.noted(room.watch(cls, deliver=deliver, steady=lambda: now))
    watch.state.__class__ = state_cls
    watch.keep = lambda: None  # what it keeps is another test's
    watch.take_look()
    with contextlib.redirect_stderr(io.StringIO()):
        while now < DAY:
            watch.call_all()
            again = watch.state.next_try()
            if again is None:
                break
            now = max(now, again)
        watch.call_all()
    return tries, watch


def ask_tries(room, cls=service.Watch, state_cls=State):
    """Asks that the pauses are 10, 20, 40 .. 600 s from the end of each try, and that it is delivered in the end."""
    tries, watch = tries_of(room, cls, state_cls)
    if len({name for _, name in tries}) != 1 or watch.state.calls or tries[-1][0] < DAY - TRY:
        raise Violation(f"{len(tries)} tries, the last at {tries[-1]}")
    for count, ((before, _), (after, _)) in enumerate(itertools.pairwise(tries)):
        if after - (before + TRY) != min(10.0 * 2 ** count, 600.0):
            raise Violation(f"try {count + 2} comes {after - before - TRY} s after the end of the one before")


class Rash(service.Watch):
    """It calls before it stores."""

    def call_due(self, steady):
        self.state.tick(self.clock(), self.steady())
        for call in self.state.due(steady):
            self.begin(call)


class Forgetful(service.Watch):
    """It doesn't store that a call was made."""

    def ended(self, target, why):
        with mock.patch.object(self, "keep"):
            super().ended(target, why)
        self.state.is_changed = False


class FromBegin(service.Watch):
    """A pause counts from the begin of a try."""

    began = 0.0

    def begin(self, call):
        self.began = self.steady()
        super().begin(call)

    def ended(self, target, why):
        steady, self.steady = self.steady, lambda: self.began
        try:
            super().ended(target, why)
        finally:
            self.steady = steady


class Weary(State):
    """A call is dropped after twenty tries."""

    def failed(self, target, steady, why=""):
        super().failed(target, steady, why)
        if self.fails[target] >= 20:
            self.sent(target)


def put_unsynced(path, data, mode, is_synced):
    """No sync before a rename."""
    with mock.patch.object(os, "fsync"):
        PUT(path, data, mode, is_synced)


def put_file_unsynced(path, data, mode, is_synced):
    """The file isn't synced before its rename, and the folder is after it."""
    with mock.patch.object(files, "sync_folder"), mock.patch.object(os, "fsync"):
        PUT(path, data, mode, is_synced)
    SYNC(os.path.dirname(path))


def put_folder_unsynced(path, data, mode, is_synced):
    """The folder isn't synced after a rename."""
    with mock.patch.object(files, "sync_folder"):
        PUT(path, data, mode, is_synced)


class Order(Room):
    def test_it_stores_and_syncs_before_and_after_a_call(self):
        ask_order(self)

    def test_pauses_count_from_the_end_and_none_is_given_up(self):
        ask_tries(self)
        tries, _ = tries_of(self)
        self.assertGreater(len(tries), 100)

    def test_planted_bugs_are_caught(self):
        for name, ask in (
            ("state not stored before a call", lambda: ask_order(self, Rash)),
            ("state not stored after a call", lambda: ask_order(self, Forgetful)),
            ("a call dropped after 20 tries", lambda: ask_tries(self, state_cls=Weary)),
            ("the pause counted from the begin", lambda: ask_tries(self, FromBegin)),
            *((put.__doc__, lambda put=put: ask_order(self, put=put))
              for put in (put_unsynced, put_file_unsynced, put_folder_unsynced)),
        ):
            self.state.unlink(missing_ok=True)
            with self.subTest(name), self.assertRaises(Violation):
                ask()


if __name__ == "__main__":
    unittest.main()
