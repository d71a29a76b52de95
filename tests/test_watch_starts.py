"""./plan watch as its users meet it: what it refuses at its start, a test call, an acknowledgement, heartbeats, its
metrics, and its signals."""

import contextlib
import io
import json
import os
import shutil
import signal
import socket
import subprocess
import tempfile
import threading
import time
import unittest
from pathlib import Path
from unittest import mock

from support import TOP
from support.webhooks import Receiver, request_of, Webhook

from opcplan.watch import checks, metrics, rulebook, service
from opcplan.watch.state import Found, Looked, Route, State
from opcplan.watch.workers import Inline

RULE = '[[rule]]\non = "desk"\nminutes = 0\ncall = "me"\n'
LATER = '[who.other]\ncommand = ["true"]\n'


def who(*lines):
    return "\n".join(["[who.me]", *lines, RULE])


class Room(unittest.TestCase):
    def setUp(self):
        room = tempfile.TemporaryDirectory(prefix="watch-test-")
        self.addCleanup(room.cleanup)
        self.room = Path(room.name)
        self.rules, self.state = self.room / "rules.toml", self.room / "state"

    def plan(self, *words, **more):
        return subprocess.run([TOP / "plan", "watch", "--rules", self.rules, "--state", self.state, *words],
                              capture_output=True, text=True, check=False, env={**os.environ, **more})

    def called(self):
        path = self.room / "calls"
        return [json.loads(line) for line in path.read_text().splitlines()] if path.exists() else []

    def command(self, then="true"):
        return f"""command = ["sh", "-c", "cat >> {self.room}/calls && {then}"]"""


class Refused(Room):
    def refused(self, text, word, reason):
        """Asks that a watch refuses rules in each of its ways, before it polls or sends anything, and names the line
        that begins with a word."""
        self.rules.write_text(text)
        taken = []
        desk = Receiver(lambda receiver, connection: taken.append(1))
        self.addCleanup(desk.close)
        for how in (["--try"], ["--once"], [], ["--test", "me"]):
            ran = self.plan("--desk", desk.url().rstrip("/"), *how)
            self.assertEqual((ran.returncode, ran.stdout, ran.stderr.count("\n")), (2, "", 1), (how, ran.stderr))
            line = text.splitlines().index(next(one for one in text.splitlines() if one.startswith(word))) + 1
            self.assertTrue(ran.stderr.startswith(f"plan: watch: {self.rules}: line {line}: [who.me]: "), ran.stderr)
            self.assertIn(reason, ran.stderr)
        self.assertEqual((taken, self.called()), ([], []))

    def test_commands(self):
        plain, folder = self.room / "plain", self.room / "folder"
        plain.write_text("#!/bin/sh\n")
        folder.mkdir()
        for word, reason in ((self.room / "nothing", "isn't there"), (folder, "isn't there"),
                             (plain, "isn't executable"), ("no-such-command", "is in no folder of PATH")):
            self.refused(who(f'command = ["{word}"]'), "command", reason)

    def test_secrets(self):
        secret = self.room / "secret"
        lines = 'webhook = "http://127.0.0.1:9/"', f'secret = "{secret}"'
        self.refused(who(*lines), "secret", f"{secret}: the secret can't be read: No such file")
        secret.write_text(" \n")
        self.refused(who(*lines), "secret", f"{secret}: the file has no secret")
        if os.geteuid():
            secret.chmod(0)
            self.refused(who(*lines), "secret", "the secret can't be read: Permission denied")

    def test_hosts(self):
        self.refused(who('webhook = "http://a..b/"'), "webhook", "the host a..b has no address")

    def test_mail_without_sendmail(self):
        self.refused(f'sendmail = "{self.room}/sendmail"\n' + who('mail = "a@b"'), "mail", "isn't there")

    def test_who_is_only_called_later_counts_too(self):
        self.rules.write_text(who('command = ["true"]', 'then = "other"') + LATER.replace("true", "no-such"))
        ran = self.plan("--desk", "/nowhere/x", "--once")
        self.assertEqual((ran.returncode, ran.stderr.count("\n")), (2, 1), ran.stderr)
        self.assertIn("line 9: [who.other]: the command 'no-such' is in no folder of PATH", ran.stderr)


class Hosts(unittest.TestCase):
    """What name servers may say: a host that has no address is refused, and where none answers only --try refuses."""

    def check(self, is_strict, resolve):
        rules = rulebook.of_text(who('webhook = "https://chat.example/x"'))
        return checks.check(rules, ["me"], is_strict, resolve)

    def test_a_host_without_an_address(self):
        for number in (socket.EAI_NONAME, socket.EAI_FAIL, socket.EAI_NODATA):
            with mock.patch("socket.getaddrinfo", side_effect=socket.gaierror(number, "why")):
                for is_strict in (False, True):
                    with self.assertRaisesRegex(rulebook.InvalidRules,
                                                r"^line 2: \[who.me\]: the host chat.example has no address: why$"):
                        self.check(is_strict, None)

    def test_name_servers_that_say_nothing(self):
        with mock.patch("socket.getaddrinfo", side_effect=socket.gaierror(socket.EAI_AGAIN, "why")):
            self.assertEqual(self.check(False, None), ["line 2: [who.me]: the host chat.example has no address: why"])
            with self.assertRaises(rulebook.InvalidRules):
                self.check(True, None)

    def test_name_servers_that_hang(self):
        held = threading.Event()
        self.addCleanup(held.set)
        with mock.patch.object(checks, "PATIENCE", 0.5):
            (said,) = self.check(False, lambda host: held.wait())
            with self.assertRaises(rulebook.InvalidRules):
                self.check(True, lambda host: held.wait())
        self.assertIn("no name server said within 0.5 s", said)

    def test_hosts_that_hang_take_one_deadline_together(self):
        """Each is looked for at once, so the watch begins no later for many of them; what is known of others counts."""
        held, looked = threading.Event(), threading.Barrier(4)
        self.addCleanup(held.set)
        names = [f"w{number}" for number in range(4)]
        rules = rulebook.of_text("".join(f'[who.{name}]\nwebhook = "https://{name}.example/x"\n' for name in names)
                                 + RULE.replace("me", "w0"))

        def resolve(host):
            looked.wait(60)  # all four are under way
            if host != "w3.example":
                held.wait()
            return ("w3 is nowhere", True)

        with mock.patch.object(checks, "PATIENCE", 5.0):
            with self.assertRaisesRegex(rulebook.InvalidRules, r"^line 8: \[who.w3\]: w3 is nowhere$"):
                checks.check(rules, names, False, resolve)


class Routes(unittest.TestCase):
    """What rules may say of who comes next, and of heartbeats."""

    def test_each_word_has_its_place(self):
        found = rulebook.of_text(who('command = ["true"]', 'then = ["other", "other"]', "minutes = 2.5",
                                     "acknowledge = true") + LATER + '[who.far]\nmail = "a@b"\n'
                                 '[[heartbeat]]\ncall = "far"\nminutes = 3\n')
        self.assertEqual(found.targets["me"].route, Route(("other",), 150.0, True))
        self.assertEqual(found.routes(), {"me": Route(("other",), 150.0, True), "other": Route()})
        self.assertEqual(found.heartbeats, (rulebook.Heartbeat("far", 3.0),))

    def test_what_is_wrong_is_reported(self):
        good = who('command = ["true"]', "%s") + LATER
        for text, reason in (
            (good % 'then = "nobody"', "[who.me]: `then` calls 'nobody', but there is no table [who.nobody]"),
            (good % 'then = "othr"', "did you mean other?"), (good % 'then = "me"', "`then` names 'me' itself"),
            (good % "minutes = 3", "`minutes` needs the line `then`"),
            (good % "acknowledge = true", "`acknowledge` needs the line `then`"),
            (good % 'then = "other"\nacknowledge = 1', "`acknowledge` must be true or false"),
            (good % 'then = "other"\nminutes = -1', "a number from 0"), (good % "then = 3", "`then` must be a text"),
            (good % "" + "[[heartbeat]]\nminutes = 3\n", "heartbeat 1 lacks the line `call`"),
            (good % "" + '[[heartbeat]]\ncall = "othr"\n', "did you mean other?"),
            (good % "" + '[[heartbeat]]\ncall = "me"\nminutes = 0\n', "`minutes` must be 1 at least"),
            (good % "" + '[[heartbeat]]\ncall = "me"\n' * 2, "heartbeat 2: another heartbeat calls 'me'"),
            (good % "" + '[[heartbeat]]\ncall = "me"\nsecond = 1\n', "can't have the word `second`"),
            ("heartbeat = 1\n" + good % "", "must be a table [[heartbeat]]"),
        ):
            with self.subTest(text), self.assertRaises(rulebook.InvalidRules) as why:
                rulebook.of_text(text)
            self.assertIn(reason, str(why.exception))
            self.assertEqual(str(why.exception).count("\n"), 0)


class Tested(Room):
    def test_a_test_call(self):
        self.rules.write_text(who(self.command()))
        ran = self.plan("--plan", "main", "--test", "me", OPCPLAN_DESK="")
        self.assertEqual((ran.returncode, ran.stderr), (0, ""))
        self.assertRegex(ran.stdout, r"^A test call was delivered to me \(run sh\) in [0-9.]+ s\.\n$")
        (call,) = self.called()
        self.assertEqual((call["kind"], call["plan"]), ("test", "main"))
        self.assertTrue(call["text"].startswith("main: test: "), call["text"])
        self.assertFalse(self.state.exists())

    def test_one_that_is_not_delivered(self):
        self.rules.write_text(who(self.command("exit 3")))
        ran = self.plan("--test", "me")
        self.assertEqual((ran.returncode, ran.stdout), (1, ""))
        self.assertEqual(ran.stderr, "plan: watch: me: sh: it ended with status 3\n")

    def test_somebody_whom_nobody_knows(self):
        self.rules.write_text(who(self.command()))
        ran = self.plan("--test", "you")
        self.assertEqual((ran.returncode, ran.stderr.count("\n")), (2, 1))
        self.assertIn("there is no table [who.you]; it has me", ran.stderr)


class Acknowledged(Room):
    def test_by_a_command(self):
        """Who has to acknowledge does, and the next one isn't called; else it is."""
        for does in (True, False):
            for path in self.room.iterdir():
                shutil.rmtree(path) if path.is_dir() else path.unlink()
            self.rules.write_text(who(self.command(), 'then = "other"', "minutes = 0.01", "acknowledge = true")
                                  + '[who.other]\n' + self.command() + "\n")
            for _ in range(2):
                self.plan("--desk", "/nowhere/x", "--once")
            (call,) = self.called()
            if does:
                ran = self.plan("--acknowledge", call["id"])
                self.assertEqual((ran.returncode, ran.stderr), (0, ""))
                self.assertIn(f"Call {call['id']} is acknowledged", ran.stdout)
            given = service.Settings("/nowhere/x", str(self.rules), str(self.state))
            with contextlib.redirect_stderr(io.StringIO()):
                watch = service.made(given)
                steady = time.monotonic()
                watch.steady = lambda: steady
                watch.step()
                steady += 60
                watch.step()
            self.assertEqual(len(self.called()), 1 if does else 2)
            self.assertEqual(os.listdir(f"{self.state}.acknowledged"), [])
        self.assertIn("me hasn't acknowledged it", self.called()[1]["text"])

    def test_what_is_wrong_is_reported(self):
        self.rules.write_text(who(self.command()))
        for word, status, reason in (("../x", 2, "isn't the id of a call"), ("", 2, "isn't the id of a call"),
                                     ("0123456789ab-1", 1, "no watch uses this state")):
            ran = self.plan("--acknowledge", word)
            self.assertEqual((ran.returncode, ran.stdout, ran.stderr.count("\n")), (status, "", 1), ran.stderr)
            self.assertIn(reason, ran.stderr)
        self.plan("--desk", "/nowhere/x", "--once")
        self.assertIn("is about nothing", self.plan("--acknowledge", "0123456789ab-1").stderr)
        self.assertEqual(os.listdir(f"{self.state}.acknowledged"), [])
        self.state.write_text("x")
        self.assertIn("isn't the state of a watch", self.plan("--acknowledge", "0123456789ab-1").stderr)


STATUS = json.dumps({"position": 3, "now": "2024-01-02/12.00", "plan_end": "2024-01-02/18.00", "needs": [],
                     "followers": {}, "is_whole": True, "agents": {}, "etcd": [], "trouble": ""}).encode()


def is_desk(receiver, connection):
    request_of(connection)
    connection.sendall(b"HTTP/1.1 200 OK\r\nContent-Length: %d\r\n\r\n%s" % (len(STATUS), STATUS))
    connection.close()


class Service(Room):
    """A watch that runs, with a clock that is set by hand."""

    def setUp(self):
        super().setUp()
        self.now = 1000.0
        self.desk, self.hook = Receiver(is_desk), Webhook()
        self.addCleanup(self.desk.close)
        self.addCleanup(self.hook.close)

    def watch(self, more=""):
        self.rules.write_text(who(self.command()) + f'[who.dead]\nwebhook = "{self.hook.url}"\n[[heartbeat]]\n'
                              f'call = "dead"\nminutes = 5\n{more}')
        given = service.Settings(self.desk.url().rstrip("/"), str(self.rules), str(self.state), every=30.0, plan="main",
                                 metrics=str(self.room / "watch.prom"))
        return service.Watch(given, service.rules_of(str(self.rules)), None, clock=lambda: 1e9 + self.now,
                             steady=lambda: self.now, crew=Inline())

    def run_for(self, watch, seconds):
        """Runs a watch up to a moment; each wait of it passes as much time as it would take."""
        end = self.now + seconds

        def wait(pause, of_crew=watch.crew.__class__.wait):
            done = of_crew(watch.crew, pause)
            if done is None:
                self.now += pause
            return done

        watch.crew.wait = wait
        with contextlib.redirect_stderr(io.StringIO()) as said:
            watch.run(lambda: self.now >= end)
        return said.getvalue()

    def test_heartbeats_come_while_a_desk_answers(self):
        """In 59 minutes twelve: at once, and each five minutes. None while no desk answers."""
        watch = self.watch()
        self.run_for(watch, 3540)
        beats = self.hook.taken_values()
        self.assertEqual(len(beats), 12)
        self.assertEqual({(one["kind"], one["plan"], len(one["events"])) for one in beats}, {("heartbeat", "main", 1)})
        self.assertEqual(len({one["id"] for one in beats}), 12)
        self.desk.close()
        self.run_for(watch, 3600)
        self.assertEqual(len(self.hook.taken), 12)

    def test_no_heartbeat_while_nobody_is_reached(self):
        watch = self.watch()
        self.run_for(watch, 1)
        (self.room / "calls").mkdir()
        watch.state.take(0, "desk", ("me",), Looked((Found("desk:x", 0, "x"),)))
        watch.take_look = lambda: watch.heart.polled(True)  # what isn't over
        self.run_for(watch, 3600)
        self.assertEqual(len(self.hook.taken), 2)  # at 0 s and 300 s: the call was unheard for less than 300 s
        (self.room / "calls").rmdir()
        self.run_for(watch, 1200)
        self.assertEqual(len(self.called()), 1)
        self.assertGreaterEqual(len(self.hook.taken), 4)

    def test_metrics(self):
        """Worked by hand; promtool has nothing to say of them."""
        watch = self.watch()
        self.run_for(watch, 61)
        (self.room / "calls").mkdir()
        watch.state.take(0, "desk", ("me",), Looked((Found("desk:x", 0, "x"),)))
        watch.take_look = lambda: watch.heart.polled(True)
        self.run_for(watch, 119)
        path = self.room / "watch.prom"
        text = path.read_text()
        self.assertEqual(path.stat().st_mode & 0o777, 0o644)
        samples = [line.rpartition(" ") for line in text.splitlines() if line[0] != "#"]
        found = {name: float(value) for name, _, value in samples}
        tries = watch.state.fails["me"]
        self.assertEqual(set(metrics.METRICS), {name.partition("{")[0] for name in found})
        for name, labels, value in (
            ("events", ',rule="desk"', 1), ("undelivered_calls", ',who="me"', 1), ("calls_total", ',who="me"', 0),
            ("failed_tries_total", ',who="me"', tries), ("calls_total", ',who="dead"', 1),
            ("last_poll_timestamp_seconds", "", 1e9 + 1060), ("heartbeat_timestamp_seconds", ',who="dead"', 1e9 + 1000),
        ):
            self.assertEqual(found[f'opcplan_watch_{name}{{plan="main"{labels}}}'], value, name)
        for name in ("unheard_age_seconds", "undelivered_age_seconds"):
            (age,) = (value for key, value in found.items() if key.startswith(f"opcplan_watch_{name}"))
            self.assertGreaterEqual(age, 30, name)
        if shutil.which("promtool"):
            ran = subprocess.run(["promtool", "check", "metrics"], input=text, capture_output=True, text=True,
                                 check=False)
            self.assertEqual((ran.returncode, ran.stdout + ran.stderr), (0, ""))

    def test_names_with_quotes(self):
        rules = rulebook.of_text(who('command = ["true"]'))
        text = metrics.text('a"b\\c\nd', rules, State(), metrics.Counts())
        self.assertIn('opcplan_watch_events{plan="a\\"b\\\\c\\nd",rule="desk"} 0\n', text)

    def test_the_clock_that_people_set_decides_no_pause(self):
        """It jumps by a year, back and forth: a call that fails is tried after 10, 20, 40, 80 s of the steady one."""
        watch, tries = self.watch(), []
        watch.clock = lambda: 1e9 + self.now + (-3e7 if len(tries) % 2 else 3e7)

        def deliver(target, call, caller):
            if target.name == "me":
                tries.append(self.now)
                raise service.calls.Undelivered("no")

        watch.deliver = deliver
        watch.take_look = lambda: None
        watch.state.take(0, "desk", ("me",), Looked((Found("desk:x", 0, "x"),)))
        self.run_for(watch, 160)
        self.assertEqual([round(one - 1000) for one in tries], [0, 10, 30, 70, 150])


class Signals(Room):
    def begun(self):
        found = subprocess.Popen([TOP / "plan", "watch", "--desk", "/nowhere/x", "--rules", self.rules, "--state",
                                  self.state, "--every", "0.1"], stderr=subprocess.PIPE, text=True)
        self.addCleanup(found.stderr.close)
        self.addCleanup(lambda: found.poll() is None and (found.kill(), found.wait()))
        return found

    def test_a_call_that_hangs_ends_with_the_watch_and_is_made_again(self):
        self.rules.write_text(who(self.command(f"echo $$ > {self.room}/pid; sleep 987")))
        watch = self.begun()
        pid = self.room / "pid"
        while not pid.exists() or not pid.read_text():
            self.assertIsNone(watch.poll())
            time.sleep(0.05)
        watch.send_signal(signal.SIGTERM)
        watch.wait()
        self.assertEqual(watch.returncode, 0)
        group = int(pid.read_text())
        until = time.monotonic() + 60
        while time.monotonic() < until:
            with contextlib.suppress(ProcessLookupError):
                os.killpg(group, 0)
                time.sleep(0.05)
                continue
            break
        else:
            self.fail("the command goes on")
        self.rules.write_text(who(self.command()))
        self.plan("--desk", "/nowhere/x", "--once")
        self.assertEqual([one["kind"] for one in self.called()], ["new"] * 2)
        self.assertEqual(len({one["id"] for one in self.called()}), 1)


if __name__ == "__main__":
    unittest.main()
