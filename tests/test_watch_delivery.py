"""How a call is delivered, seen from outside: receivers that hang, drip, redirect, fail and lose their answers,
commands that leave children with their pipes, what a command sees of the watch, and mail by SMTP. A deadline is
shortened where a test waits for its end; nothing here asks that anything is quick."""

import contextlib
import io
import json
import os
import signal
import socket
import ssl
import subprocess
import sys
import tempfile
import threading
import time
import unittest
from pathlib import Path
from unittest import mock

from support import TOP, webhooks
from support.webhooks import Receiver

from opcplan.watch import calls, processes, service
from opcplan.watch.rulebook import Target
from opcplan.watch.state import Call, Found, Looked, Mention

FROM = calls.From("main", "the desk", "/state", "/nowhere/sendmail")
SHORT = 1.0  # a deadline that is waited for, in seconds
HANG = "sleep 987"


def call_of(text="PAY is in error"):
    return Call("0123456789ab-1", "me", (Mention("e:1", "e", "new", 0, text, 60.0, 120.0, "look"),))


def running(group):
    """Whether a process of a group runs that hasn't ended."""
    for name in os.listdir("/proc"):
        if name.isdigit():
            with contextlib.suppress(OSError):
                fields = Path(f"/proc/{name}/stat").read_text().rpartition(")")[2].split()
                if int(fields[2]) == group and fields[0] not in "ZX":
                    return True
    return False


def is_gone(group):
    """Whether all processes of a group have ended; those that were killed have some time for it."""
    until = time.monotonic() + 120
    while running(group) and time.monotonic() < until:
        time.sleep(0.05)
    return not running(group)


class Room(unittest.TestCase):
    def setUp(self):
        room = tempfile.TemporaryDirectory(prefix="watch-test-")
        self.addCleanup(room.cleanup)
        self.room = Path(room.name)
        self.groups = []
        self.addCleanup(self.end_groups)

    def end_groups(self):
        for group in self.groups:
            with contextlib.suppress(ProcessLookupError):
                os.killpg(group, signal.SIGKILL)

    def script(self, text, name="script"):
        path = self.room / name
        path.write_text(f"#!/bin/sh\n{text}\n")
        path.chmod(0o755)
        return str(path)

    def group(self, name="pid"):
        """The process group that a script wrote into a file, with `echo $$`."""
        found = int((self.room / name).read_text())
        self.groups.append(found)
        return found

    def undelivered(self, target, call=None, **how):
        with self.assertRaises(calls.Undelivered) as why:
            calls.deliver(target, call or call_of(), FROM._replace(**how))
        self.assertEqual(str(why.exception).count("\n"), 0)
        return str(why.exception)


class Webhooks(Room):
    def receiver(self, serve):
        found = Receiver(serve)
        self.addCleanup(found.close)
        return found

    def test_what_never_answers_whole_is_undelivered_at_the_deadline(self):
        large = call_of("x" * 20_000_000)  # more than a connection takes unread
        for serve, call, scheme in (
            (webhooks.hangs, None, "http"), (webhooks.hangs, large, "http"), (webhooks.hangs, None, "https"),
            (webhooks.is_silent, None, "http"), (webhooks.drips, None, "http"), (webhooks.continues, None, "http"),
        ):
            with self.subTest(serve.__name__, scheme=scheme), mock.patch.object(calls, "LONGEST_POST", SHORT):
                url = self.receiver(serve).url(scheme)
                begun = time.monotonic()
                why = self.undelivered(Target("me", webhook=url), call)
                self.assertEqual(why, f"{url}: no complete answer came within 1 s")
                self.assertGreaterEqual(time.monotonic() - begun, SHORT)

    def test_a_connection_that_nobody_takes(self):
        """A host that takes no more connections, as one that drops them: the deadline ends the connecting."""
        listening = socket.socket()
        self.addCleanup(listening.close)
        listening.bind(("127.0.0.1", 0))
        listening.listen(0)
        waiting = [socket.socket() for _ in range(4)]
        for one in waiting:
            self.addCleanup(one.close)
            one.setblocking(False)
            one.connect_ex(listening.getsockname())
        with mock.patch.object(calls, "LONGEST_POST", SHORT):
            why = self.undelivered(Target("me", webhook=f"http://127.0.0.1:{listening.getsockname()[1]}/"))
        self.assertIn("no complete answer came within 1 s", why)

    def test_what_answers_otherwise(self):
        for serve, said in (
            (webhooks.loses, "no complete answer came: Remote end closed connection without response"),
            (webhooks.talks, "no complete answer came: 220 mail.example ESMTP"),
            (webhooks.answers(500), "it answered with status 500"), (webhooks.answers(404), "status 404"),
            (webhooks.answers(199), "status 199"),
        ):
            with self.subTest(said):
                self.assertIn(said, self.undelivered(Target("me", webhook=self.receiver(serve).url())))

    def test_a_redirection_is_not_followed(self):
        elsewhere = self.receiver(webhooks.answers(200))
        for status in (301, 302, 303, 307, 308):
            more = f"Location: {elsewhere.url()}\r\n".encode()
            why = self.undelivered(Target("me", webhook=self.receiver(webhooks.answers(status, more)).url()))
            self.assertIn(f"it answered with status {status}, and the watch follows no redirection", why)
        self.assertEqual(elsewhere.connections, [])

    def test_a_head_is_enough(self):
        """The status says that the call came; its body may drip for ever."""
        for serve in (webhooks.drips_body, webhooks.answers(200), webhooks.answers(204), webhooks.answers(299)):
            calls.deliver(Target("me", webhook=self.receiver(serve).url()), call_of(), FROM)

    def test_a_certificate_that_nobody_signed(self):
        if subprocess.run(["openssl", "version"], capture_output=True, check=False).returncode:
            self.skipTest("there is no openssl")
        key, pem = self.room / "key", self.room / "pem"
        words = ["req", "-x509", "-newkey", "rsa:2048", "-nodes", "-keyout", key, "-out", pem, "-subj", "/CN=localhost",
                 "-addext", "subjectAltName=IP:127.0.0.1"]
        subprocess.run(["openssl", *words], capture_output=True, check=True)
        context = ssl.SSLContext(ssl.PROTOCOL_TLS_SERVER)
        context.load_cert_chain(pem, key)

        def serve(receiver, connection):
            webhooks.answers(200)(receiver, context.wrap_socket(connection, server_side=True))

        target = Target("me", webhook=self.receiver(serve).url("https"))
        self.assertIn("certificate verify failed", self.undelivered(target))
        with mock.patch.dict(os.environ, {"SSL_CERT_FILE": str(pem)}):
            calls.deliver(target, call_of(), FROM)


class Commands(Room):
    def run_script(self, text):
        return Target("me", (self.script(text),))

    def test_it_counts_by_its_exit_whatever_it_leaves_behind(self):
        """A child has all pipes of the command, and goes on after it."""
        target = self.run_script(f"echo $$ > {self.room}/pid; {HANG} & {HANG} 1>&2 & exit 0")
        calls.deliver(target, call_of(), FROM)
        self.assertTrue(running(self.group()))

    def test_what_fails_leaves_nothing_behind(self):
        for text, said in (("exit 7", "it ended with status 7: no luck"), ("kill -TERM $$", "it ended by signal 15")):
            target = self.run_script(f"echo $$ > {self.room}/pid; echo no luck >&2; {HANG} & {text}")
            self.assertIn(said, self.undelivered(target))
            self.assertTrue(is_gone(self.group()))

    def test_at_the_deadline_the_whole_group_is_killed(self):
        for text in (f"{HANG}", f"trap '' TERM INT HUP; {HANG} & wait", f"({HANG}; :) & ({HANG}; :) & wait",
                     "while :; do echo still here >&2; done"):
            with self.subTest(text), mock.patch.object(calls, "LONGEST_RUN", SHORT):
                why = self.undelivered(self.run_script(f"echo $$ > {self.room}/pid; {text}"))
                self.assertTrue(why.endswith("it didn't end within 1 s, and was killed"), why)
                self.assertTrue(is_gone(self.group()))

    def test_what_reads_nothing_and_what_writes_much(self):
        large = call_of("x" * 1_000_000)
        calls.deliver(self.run_script("exec 0<&-; exit 0"), large, FROM)
        calls.deliver(self.run_script("exit 0"), large, FROM)
        much = "head -c 3000000 /dev/zero | tr '\\0' 'x' >&2; echo >&2; echo the end >&2"
        self.assertIn("status 1: the end", self.undelivered(
            self.run_script(f"{much}; cat > {self.room}/in; exit 1"), large))
        self.assertEqual(json.loads((self.room / "in").read_text())["events"][0]["text"], "x" * 1_000_000)
        with self.assertRaises(calls.Undelivered):
            calls.deliver(Target("me", (str(self.room),)), call_of(), FROM)

    def test_its_environment(self):
        secret = {"OPCPLAN_TOKEN": "t0ken", "OPCPLAN_TOKEN_FILE": "/t0ken", "CREDENTIALS_DIRECTORY": "/t0ken",
                  "ANYTHING": "t0ken", "TZ": "Europe/Berlin"}
        target = self.run_script(f"tr '\\0' '\\n' < /proc/$$/environ > {self.room}/environ")
        with mock.patch.dict(os.environ, secret):
            calls.deliver(target, call_of(), FROM)
        found = dict(line.split("=", 1) for line in (self.room / "environ").read_text().splitlines())
        self.assertLessEqual(set(found), {*processes.KEPT, "OPCPLAN_CALL", "OPCPLAN_TEXT", "OPCPLAN_PLAN", "PWD"})
        self.assertEqual((found["TZ"], found["OPCPLAN_PLAN"], found["OPCPLAN_CALL"]),
                         ("Europe/Berlin", "main", "0123456789ab-1"))
        self.assertEqual(found["OPCPLAN_TEXT"], "main: PAY is in error. First: look")
        self.assertNotIn("t0ken", (self.room / "environ").read_text())

    def test_nothing_of_a_token_is_in_the_environment_of_the_watch(self):
        """A command reads that of its parent in /proc, for each way in which the watch may get a token."""
        (self.room / "t0ken").write_text("t0ken\n")
        rules = self.room / "rules.toml"
        script = self.script(f"tr '\\0' '\\n' < /proc/$PPID/environ > {self.room}/environ")
        rules.write_text(f'[who.me]\ncommand = ["{script}"]\n[[rule]]\non = "desk"\nminutes = 0\ncall = "me"\n')
        for given in ({"OPCPLAN_TOKEN": "t0ken"}, {"OPCPLAN_TOKEN_FILE": str(self.room / "t0ken")},
                      {"CREDENTIALS_DIRECTORY": "/t0ken", "OPCPLAN_TOKEN_FILE": str(self.room / "t0ken")}):
            (self.room / "environ").unlink(missing_ok=True)
            watch = subprocess.Popen([TOP / "plan", "watch", "--desk", self.room / "nowhere", "--rules", rules,
                                      "--every", "0.1"], env={**os.environ, **given}, stderr=subprocess.DEVNULL)
            with contextlib.ExitStack() as ends:
                ends.callback(watch.wait)
                ends.callback(watch.kill)
                while not (self.room / "environ").exists() or not (self.room / "environ").read_text():
                    self.assertIsNone(watch.poll())
                    time.sleep(0.05)
            text = (self.room / "environ").read_text()
            self.assertIn("PATH=", text)
            for word in ("t0ken", "OPCPLAN_TOKEN", "CREDENTIALS_DIRECTORY"):
                self.assertNotIn(word, text)
            Path(f"{rules}.state").unlink()

    def test_a_token_still_reaches_the_desk(self):
        """In each of these ways."""
        (self.room / "t0ken").write_text("t0ken\n")
        rules = self.room / "rules.toml"
        rules.write_text('[who.me]\ncommand = ["true"]\n[[rule]]\non = "desk"\ncall = "me"\n')
        heads = []

        def serve(receiver, connection):
            data = connection.recv(1 << 16)
            heads.append([line for line in data.split(b"\r\n") if line.startswith(b"Authorization")])
            connection.close()

        desk = Receiver(serve)
        self.addCleanup(desk.close)
        for given in ({"OPCPLAN_TOKEN": "t0ken"}, {"OPCPLAN_TOKEN_FILE": str(self.room / "t0ken")}, {}):
            subprocess.run([TOP / "plan", "watch", "--desk", desk.url().rstrip("/"), "--rules", rules, "--try"],
                           env={**os.environ, **given}, capture_output=True, check=True)
        self.assertEqual(heads, [[b"Authorization: Bearer t0ken"]] * 2 + [[]])


class Mails(Room):
    def test_a_mail_by_smtp(self):
        """A sendmail that speaks SMTP to a sink; and one whose server refuses, or hangs."""
        taken = []

        def serve(receiver, connection):
            file = connection.makefile("rwb")

            def say(text):
                file.write(text + b"\r\n")
                file.flush()

            say(b"220 sink ESMTP")
            for line in file:
                word = line.split()[0].upper()
                if word == b"DATA":
                    say(b"354 go on")
                    taken.append(b"".join(iter(file.readline, b".\r\n")))
                say(b"550 nobody" if b"refused@" in line else b"221 bye" if word == b"QUIT" else b"250 ok")
                if word == b"QUIT":
                    return

        sink = Receiver(serve)
        self.addCleanup(sink.close)
        sendmail = self.room / "sendmail"
        sendmail.write_text(f"#!{sys.executable}\nimport smtplib, sys\nassert sys.argv[1:3] == ['-i', '--']\n"
                            f"with smtplib.SMTP('127.0.0.1', {sink.port}) as to:\n"
                            "    to.sendmail('watch@example', sys.argv[3:], sys.stdin.read())\n")
        sendmail.chmod(0o755)
        calls.deliver(Target("me", mail="ops@example.org"), call_of(), FROM._replace(sendmail=str(sendmail)))
        (mail,) = taken
        self.assertIn(b"\r\nSubject: [opcplan main] PAY is in error\r\n", b"\r\n" + mail)
        self.assertIn(b"\r\nFirst: look\r\n", mail)
        self.assertIn(b"\r\nX-Opcplan-Call: 0123456789ab-1\r\n", mail)
        why = self.undelivered(Target("me", mail="refused@example.org"), sendmail=str(sendmail))
        self.assertIn("it ended with status 1", why)
        self.assertEqual(len(taken), 1)
        sendmail.write_text(f"#!/bin/sh\n{HANG}\n")
        with mock.patch.object(calls, "LONGEST_RUN", SHORT):
            why = self.undelivered(Target("me", mail="a@b"), sendmail=str(sendmail))
        self.assertIn("it didn't end within 1 s", why)


class Together(Room):
    """Several who are called at once by a whole watch."""

    RULES = """
        [who.a]
        webhook = "%(a)s"
        [who.b]
        command = ["%(b)s"]
        [who.c]
        command = ["%(c)s"]
        [[rule]]
        on = "desk"
        call = ["a", "b", "c"]
        """

    def watch(self, text, cls=service.Watch, **how):
        rules = self.room / "rules.toml"
        rules.write_text(text)
        given = service.Settings(str(self.room / "nowhere"), str(rules), str(self.room / "state"), plan="main")
        found = cls(given, service.rules_of(str(rules)), None, **how)
        (rule,) = found.rules.rules
        found.state.take(0, rule.name, rule.call, Looked((Found("x", 0, "x"),)))
        return found

    def test_two_who_hang_do_not_keep_a_third_waiting(self):
        """The third one is called, and again once it is over, while the two are still being called."""
        hanging = Receiver(webhooks.hangs)
        self.addCleanup(hanging.close)
        with contextlib.redirect_stderr(io.StringIO()), mock.patch("opcplan.watch.driver.GRACE", 0.1):
            watch = self.watch(self.RULES % {
                "a": hanging.url(), "b": self.script(f"echo $$ > {self.room}/pid; {HANG}", "b"),
                "c": self.script(f"cat >> {self.room}/calls", "c")})
            for kinds in (["new"], ["new", "over"]):
                watch.call_due(watch.steady())
                while "c" in watch.state.in_flight:
                    watch.pump(60)
                told = [json.loads(line)["kind"] for line in (self.room / "calls").read_text().splitlines()]
                self.assertEqual((told, watch.state.in_flight), (kinds, {"a", "b"}))
                watch.state.take(1, "desk", ("a", "b", "c"), Looked(()))
            while not (self.room / "pid").exists() or not (self.room / "pid").read_text():
                time.sleep(0.05)
            watch.end()
        until = time.monotonic() + 60
        while running(self.group()) and time.monotonic() < until:
            time.sleep(0.05)
        self.assertTrue(is_gone(self.group()))
        self.assertEqual([len(watch.state.pending[name]) + len(watch.state.calls[name].mentions) for name in "ab"],
                         [2, 2])

    def test_one_look_ends_though_two_fail_by_turns(self):
        """Each is tried once: a step doesn't go on as long as somebody's pause is over while another one is called."""
        with contextlib.redirect_stderr(io.StringIO()):
            watch = self.watch(self.RULES % {
                "a": "http://127.0.0.1:9/", "b": self.script("exit 1", "b"),
                "c": self.script(f"cat >> {self.room}/calls", "c")})
            tries = []

            def deliver(target, call, caller, of_calls=watch.deliver):
                tries.append(target.name)
                watch.later += 100  # longer than the first pauses
                of_calls(target, call, caller)

            watch.later, watch.deliver, watch.steady = 0.0, deliver, lambda: watch.later
            watch.call_all()
        self.assertEqual(sorted(tries), ["a", "b", "c"])

    def test_a_desk_and_a_disk_that_hang_delay_no_call(self):
        desk = Receiver(webhooks.hangs)
        self.addCleanup(desk.close)
        held = threading.Event()
        self.addCleanup(held.set)
        rules = self.room / "rules.toml"
        rules.write_text(f'[who.c]\ncommand = ["{self.script(f"cat >> {self.room}/calls")}"]\n'
                         '[[rule]]\non = "disk"\npath = "/"\ncall = "c"\n')
        given = service.Settings(desk.url().rstrip("/"), str(rules), str(self.room / "state"))
        is_over = threading.Event()
        with contextlib.redirect_stderr(io.StringIO()), \
                mock.patch("opcplan.desk.live_facts.shutil.disk_usage", lambda path: held.wait()):
            watch = service.Watch(given, service.rules_of(str(rules)), None)
            watch.state.take(0, "disk", ("c",), Looked((Found("x", 0, "x"),)))
            thread = threading.Thread(target=watch.run, args=(is_over.is_set,), daemon=True)
            thread.start()
            while not (self.room / "calls").exists():
                time.sleep(0.05)
            self.assertEqual(len(watch.poll.left), 2)
            is_over.set()
            watch.crew.wake()
            thread.join()

    def test_an_answer_of_a_desk_that_drips_is_given_up(self):
        def serve(receiver, connection):
            connection.recv(1 << 16)
            connection.sendall(b"HTTP/1.0 200 OK\r\n\r\n")
            while not receiver.is_over.wait(0.02):
                connection.sendall(b" ")

        desk = Receiver(serve)
        self.addCleanup(desk.close)
        rules = self.room / "rules.toml"
        rules.write_text('[who.c]\ncommand = ["true"]\n[[rule]]\non = "desk"\ncall = "c"\n')
        given = service.Settings(desk.url().rstrip("/"), str(rules), str(self.room / "state"))
        with contextlib.redirect_stderr(io.StringIO()) as said, mock.patch("opcplan.watch.polls.PATIENCE", SHORT):
            watch = service.Watch(given, service.rules_of(str(rules)), None)
            watch.look()
            self.assertEqual(list(watch.sightings.desks), [given.desk])
            while watch.poll.busy:  # its thread is free again
                watch.pump(60)
        self.assertIn("no whole answer came within", said.getvalue())


if __name__ == "__main__":
    unittest.main()
