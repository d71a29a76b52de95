"""./plan watch: what rules may have, what they find, how somebody is called, and a watch that is killed, refused, begun
twice and asked to end."""

import contextlib
import hashlib
import http.server
import io
import json
import os
import signal
import socket
import subprocess
import tempfile
import threading
import time
import unittest
from pathlib import Path

from support import desks, plans
from support.webhooks import Webhook

from opcplan.needs import need
from opcplan.rules import moments
from opcplan.watch import calls, conditions, rulebook, service
from opcplan.watch.rulebook import Rule, Target
from opcplan.watch.sightings import Sightings
from opcplan.watch.state import Call, Event, Mention, State
from opcplan.watch.workers import Inline

WHO = '[who.me]\ncommand = ["true"]\n'
GOOD = f'{WHO}[[rule]]\non = "error"\ncall = "me"\n'
STATUS = {"position": 3, "now": "2024-01-02/12.00", "plan_end": "2024-01-02/18.00", "needs": [], "followers": {},
          "is_whole": True, "agents": {}, "etcd": [], "trouble": ""}
NOON = moments.moment_of(STATUS["now"])


def listed(name, level=0, since=NOON, **more):
    """A need as a desk lists it."""
    kind, _, about = name.partition(":")
    serial = int(about.partition(":")[0]) if kind in ("error", "unstarted", "unknown", "late", "risk") else None
    apps = ("PAY",) if serial else ()
    one = need.Need(name, kind, level, since, f"{name} is the case", "do it", serial=serial, apps=apps)
    return one._replace(**more).values()


class Rules(unittest.TestCase):
    def test_each_word_has_its_place(self):
        text = """
            sendmail = "/bin/cat"
            [who.night]
            mail = "night@example.org"
            [who.chat]
            webhook = "https://chat.example.org:8443/hook?x=1"
            secret = "/etc/secret"
            [who.pager]
            command = ["page", "now"]
            [[rule]]
            on = "error"
            apps = ["PAY*", "bill"]
            call = ["night", "chat", "night"]
            [[rule]]
            name = "late-1"
            on = "late"
            minutes = 15
            call = "pager"
            [[rule]]
            on = "disk"
            path = "/var"
            percent = 85.5
            call = "chat"
            [[rule]]
            on = "agent"
            minutes = 2
            names = "batch*"
            call = "chat"
            [[rule]]
            on = ["plan-end", "roll"]
            hours = 6
            call = "chat"
            [[rule]]
            on = "any"
            call = "night"
            """
        found = rulebook.of_text(text)
        self.assertEqual(found.sendmail, "/bin/cat")
        self.assertEqual(found.targets["chat"], Target("chat", webhook="https://chat.example.org:8443/hook?x=1",
                                                       secret="/etc/secret"))
        self.assertEqual(found.targets["pager"].command, ("page", "now"))
        error, late, disk, agent, end, every = found.rules
        self.assertEqual((error.name, error.apps, error.call), ("error", ("PAY*", "BILL"), ("night", "chat")))
        self.assertEqual((late.name, late.kinds, late.minutes, late.call), ("late-1", ("late",), 15, ("pager",)))
        self.assertEqual((disk.path, disk.percent), ("/var", 85.5))
        self.assertEqual((agent.minutes, agent.names, end.hours), (2, ("batch*",), 6))
        self.assertEqual((end.name, end.kinds), ("plan-end", ("plan-end", "roll")))
        self.assertEqual((every.name, every.kinds), ("any", tuple(rulebook.WORDS)[1:]))
        self.assertEqual([error.minutes_of("error"), every.minutes_of("late"), every.minutes_of("desk"),
                          late.minutes_of("late")], [0, 15, 5, 15])
        self.assertEqual(found.calls()["late-1"], ("pager",))

    def test_what_is_wrong_is_reported(self):
        for text, reason in (
            ("x", "isn't valid TOML"), ("", "[who.NAME]"), (WHO, "[[rule]]"),
            ('rules = 1\n' + GOOD, "did you mean rule?"),
            (GOOD.replace('"me"\n', '"you"\n'), "there is no table [who.you]"),
            (GOOD.replace('"error"', '"errors"'), "did you mean error?"),
            (GOOD.replace('"error"', '["error", "lat"]'), "did you mean late?"),
            (GOOD.replace('"error"', '[]'), "`on` is None"),
            (GOOD.replace('"error"', '[["late"]]'), "`on` is ['late']"),
            (GOOD.replace('"error"', '["late", "risk"]') + "minutes = 3\n", "can't have the word `minutes`"),
            (GOOD.replace('"error"', '"disk"') + "percent = 3\n", "lacks the line `path`"),
            (GOOD.replace('call = "me"\n', ""), "lacks the line `call`"),
            (GOOD + "hours = 3\n", "can't have the word `hours`"), (GOOD + 'apps = []\n', "`apps` must be"),
            (GOOD + 'name = ""\n', "`name` must be a text"), (GOOD + 'name = "a b"\n', "`name` is 'a b'; it must"),
            (GOOD + '[[rule]]\non = "error"\ncall = "me"\n', "another rule has the name 'error'"),
            (GOOD.replace('["true"]', '[]'), "`command` must be"),
            (GOOD.replace('["true"]', '["a\\u0000"]'), "`command`"),
            (GOOD.replace("command", "comand"), "did you mean command?"),
            (GOOD.replace('command = ["true"]', ""), "one of command"),
            (GOOD.replace('command = ["true"]', 'mail = "a b"'), "is not a mail address"),
            (GOOD.replace('command = ["true"]', 'mail = "-oQ/tmp"'), "is not a mail address"),
            *((GOOD.replace('command = ["true"]', f'webhook = "{url}"'), "is not the address of a webhook")
              for url in ("chat", "ftp://a/b", "http:///x", "http://a:b@c/", "http://a:99999/", "http://a/ b",
                          "http://a/#x")),
            (GOOD.replace('command = ["true"]', 'mail = "a@b"\nsecret = "/x"'), "only a webhook has a secret"),
            (GOOD.replace("who.me", 'who."a b"'), "the name must have"),
            *((f'{WHO}[[rule]]\non = "late"\ncall = "me"\nminutes = {value}\n', "a number from 0")
              for value in ('"1"', "true", "-1", "inf", "nan", "1000001")),
            (f'{WHO}rule = 3\n', "[[rule]]"), (f'rule = [1]\n{WHO}', "must be one of"),
        ):
            with self.subTest(text), self.assertRaises(rulebook.InvalidRules) as why:
                rulebook.of_text(text)
            self.assertIn(reason, str(why.exception))
            self.assertEqual(str(why.exception).count("\n"), 0)

    def test_what_is_wrong_has_its_line(self):
        text = """sendmail = "/bin/cat"
[who.me]
command = ["true"]
then = "other"

[who.other]
webhook = "https://chat.example/x"

[[heartbeat]]
call = "other"
minutes = 5
[[rule]]
on = ["late",
      "error"]
minutes = 3
call = "me"

[[rule]]
on = "disk"
path = "/"
percent = 80
call = ["me", "other"]
"""
        rulebook.of_text(text)
        for old, new, said in (
            ('"/bin/cat"', "1", "line 1: the file: `sendmail` must be a text"),
            ("[who.me]", '[who."m e"]', "line 2: [who.m e]: the name must have"),
            ('["true"]', "[]", "line 3: [who.me]: `command` must be"),
            ('then = "other"', 'then = "me"', "line 4: [who.me]: `then` names 'me' itself"),
            ('then = "other"', 'then = "othr"', "line 4: [who.me]: `then` calls 'othr' (did you mean other?)"),
            ('then = "other"', "acknowledge = true", "line 4: [who.me]: `acknowledge` needs the line `then`"),
            ("command", "mail = 'a@b'\ncommand", "line 3: [who.me] must have exactly one of"),
            ("webhook", "hook", "line 7: [who.other] can't have the word `hook`"),
            ("https://chat", "https//chat", "line 7: [who.other]: 'https//chat.example/x' is not the address"),
            ('other"\nminutes', 'me"\nminute', "line 11: heartbeat 1 can't have the word `minute`"),
            ("minutes = 5", "minutes = 0.5", "line 11: heartbeat 1: `minutes` must be 1 at least"),
            ('"error"]', '"eror"]', "line 13: rule 1: `on` is 'eror' (did you mean error?)"),
            ("minutes = 3", "minutes = -3", "line 15: rule 1: `minutes` must be a number"),
            ('"me"\n\n[[rule]]', '"him"\n\n[[rule]]', "line 16: rule 1 calls 'him', but there is no table [who.him]"),
            ("percent = 80\ncall", "percent = 80\ncal", "line 22: rule 2 on disk can't have the word `cal`"),
            ('path = "/"\n', "", "line 20: rule 2 on disk lacks the line `path`"),
            ('call = ["me", "other"]\n', "", "line 18: rule 2 on disk lacks the line `call`"),
            ("percent = 80", 'name = "late"', "line 21: rule 2: another rule has the name 'late'"),
        ):
            self.assertEqual(text.count(old), 1, old)
            with self.subTest(new), self.assertRaises(rulebook.InvalidRules) as why:
                rulebook.of_text(text.replace(old, new))
            self.assertTrue(str(why.exception).startswith(said), why.exception)


class Conditions(unittest.TestCase):
    def found(self, rule, now=0.0, status=None, sightings=None, disks=None, known=()):
        """What a rule finds: levels by event; None where it can't be looked at."""
        seen = conditions.Seen(status, sightings or Sightings(), disks or {})
        looked = conditions.looked(rule, seen, now, known)
        return None if looked is None else {one.key: one.level for one in looked.found}

    def opened(self, rule, *needs, **more):
        """The events that a rule opens."""
        looked = conditions.looked(rule, conditions.Seen({**STATUS, "needs": needs, **more}, Sightings(), {}), 0)
        return [one.key for one in looked.found if one.opens]

    def test_rules_may_be_on_each_kind_of_needs(self):
        self.assertEqual(set(rulebook.WORDS), {rulebook.ANY, *need.KINDS})

    def test_what_cannot_be_looked_at(self):
        for kind in need.KINDS:
            if kind != "desk":
                self.assertIsNone(self.found(Rule("r", (kind,), ())), kind)
        self.assertEqual(self.found(Rule("r", ("desk",), ())), {})
        # a desk that is away is found by a rule on more, and nothing else is over
        seen = Sightings()
        seen.take(0, {"a": "away"})
        looked = conditions.looked(Rule("r", ("desk", "error"), ()), conditions.Seen(None, seen, {}), 300)
        self.assertEqual(([one.key for one in looked.found], looked.is_whole), (["r:desk:a"], False))

    def test_kinds_and_applications(self):
        needs = [listed("error:1:7", 0), listed("error:2:8", 1), listed("error:6:9", apps=("BILL", "TAX")),
                 listed("unknown:3:4"), listed("plan-end:2024-01-02/18.00")]
        status = {**STATUS, "needs": needs}
        self.assertEqual(self.found(Rule("error", ("error",), (), ("P*",)), 0, status),
                         {"error:1:7": 0, "error:2:8": 1})
        self.assertEqual(self.found(Rule("e", ("error",), (), ("TAX", "X")), 0, status), {"e:error:6:9": 0})
        self.assertEqual(len(self.found(Rule("any", tuple(need.KINDS), ()), 0, status)), 5)
        part = conditions.looked(Rule("e", ("error",), ()), conditions.Seen({**status, "is_whole": False}, Sightings(),
                                                                            {}), 0)
        self.assertFalse(part.is_whole)
        self.assertEqual({one.first for one in part.found}, {"do it"})

    def test_minutes_hours_and_days(self):
        unstarted = listed("unstarted:1:0", since=NOON - 20)
        self.assertEqual(self.opened(Rule("r", ("unstarted",), (), minutes=20), unstarted), ["r:unstarted:1:0"])
        self.assertEqual(self.opened(Rule("r", ("unstarted",), (), minutes=21), unstarted), [])
        to_come = listed("error:1:7", since=NOON + 60)  # the clock was set back since
        self.assertEqual(self.opened(Rule("r", ("error",), (), minutes=9), to_come), ["r:error:1:7"])
        late = [listed("late:1", 1, NOON - 14), listed("late:2", 1, NOON - 15)]
        self.assertEqual(self.opened(Rule("r", ("late",), ()), *late), ["r:late:2"])
        self.assertEqual(self.opened(Rule("r", ("late",), (), minutes=0), *late), ["r:late:1", "r:late:2"])
        for hours, opens in ((0, True), (5, False), (6, True)):
            for kind in ("plan-end", "roll"):
                one = listed(f"{kind}:2024-01-02/18.00")
                self.assertEqual(self.opened(Rule(kind, (kind,), (), hours=hours), one), [one["name"]] * opens)
        for days, opens in ((0, True), (7, False), (8, True)):
            for name in ("long-term-end:2024-01-10", "definitions:ends:MONTH:2024-01-10"):
                kind = name.partition(":")[0]
                self.assertEqual(self.opened(Rule(kind, (kind,), (), days=days), listed(name)), [name] * opens)

    def test_a_chain_at_risk_that_is_late_then(self):
        """The event of a risk gets worse when it comes true; a rule on risks alone opens none for what is late."""
        risk, late = listed("late:1", kind="risk"), listed("late:1", 3, NOON - 60)
        for kinds, found in ((("risk",), [("late:1", 0, True), ("late:1", 1, False)]),
                             (("late",), [("late:1", 0, False), ("late:1", 3, True)]),
                             (("risk", "late"), [("late:1", 0, True), ("late:1", 3, True)])):
            for one, wanted in zip((risk, late), found):
                seen = conditions.Seen({**STATUS, "needs": [one]}, Sightings(), {})
                looked = conditions.looked(Rule("late", kinds, ()), seen, 0)
                first = looked.found[0]
                self.assertEqual((first.key, first.level, first.opens), wanted, kinds)

    def test_what_another_need_counts_is_not_over(self):
        status = {**STATUS, "needs": [listed("late:4", 1, NOON - 20, serial=5), listed("agent:etl")],
                  "followers": {"6": "late:4", "7": "agent:etl"}}
        rule, seen = Rule("r", ("late", "unstarted"), ()), conditions.Seen(status, Sightings(), {})
        known = ["r:late:5", "r:late:6", "r:late:9", "r:unstarted:6:0", "r:unstarted:7:0"]
        looked = conditions.looked(rule, seen, 0, known)
        self.assertEqual(looked.kept, {"r:late:5", "r:late:6", "r:unstarted:7:0"})
        watch = State()
        for key in known:
            watch.events[key] = Event("r", 0, key, 0)
        watch.take(1, "r", ("me",), looked)
        self.assertEqual(set(watch.events), {"r:late:4", *looked.kept})

    def test_disks(self):
        for used, level in ((89.9, None), (90, 0), (94.9, 0), (95, 1), (97.6, 2), (100, 6), ("no such file", 0)):
            found = self.found(Rule("disk", ("disk",), (), path="/x"), disks={"/x": used})
            self.assertEqual(found, {} if level is None else {"disk:/x": level}, used)
        status = {**STATUS, "needs": [listed("disk:/var")]}
        self.assertEqual(self.found(Rule("d", ("disk",), ()), 0, status), {"d:disk:/var": 0})
        self.assertEqual(self.found(Rule("d", ("disk",), (), path="/x"), 0, status, disks={"/x": 1.0}), {})

    def test_who_does_not_answer(self):
        seen, down = Sightings(), {**STATUS, "etcd": [{"endpoint": "e1", "answers": False, "why": "gone"},
                                                      {"endpoint": "e2", "answers": True}]}
        desk, etcd = Rule("desk", ("desk",), (), minutes=2), Rule("etcd", ("etcd",), (), minutes=2)
        seen.take(0, {"a": "away", "b": down})
        self.assertEqual(self.found(desk, 119, sightings=seen), {})
        self.assertEqual(self.found(desk, 120, sightings=seen), {"desk:a": 0})
        self.assertEqual(self.found(etcd, 120, STATUS, seen), {"etcd:e1": 0})
        seen.take(240, {"a": "away", "b": {**STATUS, "trouble": "the disk is full"}})
        self.assertEqual(self.found(desk, 240, sightings=seen), {"desk:a": 1})
        self.assertEqual(self.found(desk, 360, sightings=seen), {"desk:a": 1, "desk:b": 0})
        # what a desk itself lists of this isn't listed again
        status = {**STATUS, "needs": [listed("desk:main"), listed("etcd:e9"), listed("agent:x")]}
        every = Rule("any", tuple(need.KINDS), ())
        self.assertEqual(self.found(every, 660, status, seen), {"any:desk:a": 1, "any:desk:b": 0})
        seen.take(400, {"a": STATUS, "b": STATUS})
        self.assertEqual((seen.desks, seen.members), ({}, {}))

    def test_agents_that_share_a_user(self):
        status = {**STATUS, "needs": [listed("agent:batch"), listed("agent:batch/etl-2", 1)]}
        self.assertEqual(self.found(Rule("agent", ("agent",), ()), 0, status), {"agent:batch/etl-2": 1})
        self.assertEqual(self.found(Rule("agent", ("agent",), (), names=("x*",)), 0, status), {})

    def test_agents(self):
        """One is seen when it contacted a desk, as that desk says; while no desk runs its time stands still."""
        rule, seen = Rule("agent", ("agent",), (), minutes=1), Sightings()

        def look(now, **contacts):
            agents = {name: one and {"batch": dict(zip(("looks", "age"), one))} for name, one in contacts.items()}
            seen.take(now, {name: {**STATUS, "agents": one} if one else "away" for name, one in agents.items()})
            return self.found(rule, now, STATUS, seen)

        self.assertEqual(look(0, a=(5, 0)), {})
        self.assertEqual(look(59, a=(5, 59)), {})
        self.assertEqual(look(60, a=(5, 60)), {"agent:batch": 0})
        self.assertEqual(look(120, a=(5, 120)), {"agent:batch": 1})
        self.assertEqual(look(130, a=(6, 0)), {})
        self.assertEqual(look(160, a=(0, 30)), {})  # the desk was begun again: no contact yet
        self.assertEqual(look(190, a=(0, 60)), {"agent:batch": 0})
        self.assertEqual(look(200, a=(0, 70), b=(1, 0)), {})  # it contacts another desk of the log
        self.assertEqual(look(220, a=None, b=None), {})
        seen.take(820, {"a": "away", "b": "away"})
        self.assertEqual(look(850, a=(0, 20), b=(0, 30)), {})  # ten minutes in which no desk ran don't count
        self.assertEqual(look(880, a=(0, 50), b=(0, 60)), {"agent:batch": 0})
        self.assertEqual(self.found(rule._replace(names=("other*",)), 880, STATUS, seen), {})
        again = Sightings.of_kept(json.loads(json.dumps(seen.kept())))
        self.assertEqual(again.kept(), seen.kept())


def call_of(kind="new", texts=("PAY is in error",)):
    return Call("life-1", "me", tuple(Mention(f"e:{place}", "e", kind, 0, text, 60.0, 120.0, "look")
                                      for place, text in enumerate(texts)))


FROM = calls.From("main", "the desk", "/state", "/nowhere/sendmail")


class Calls(unittest.TestCase):
    def setUp(self):
        room = tempfile.TemporaryDirectory(prefix="watch-test-")
        self.addCleanup(room.cleanup)
        self.room = Path(room.name)

    def deliver(self, target, call=None, sendmail="/nowhere/sendmail"):
        calls.deliver(target, call or call_of(), FROM._replace(sendmail=sendmail))

    def undelivered(self, target, **how):
        with self.assertRaises(calls.Undelivered) as why:
            self.deliver(target, **how)
        return str(why.exception)

    def test_a_command(self):
        script = self.room / "script"
        script.write_text(f'#!/bin/sh\ncat > {self.room}/in\n'
                          f'echo "$OPCPLAN_CALL $1 $OPCPLAN_PLAN $OPCPLAN_TEXT" > {self.room}/words\n')
        script.chmod(0o755)
        self.deliver(Target("me", (str(script), "a word")), call_of("over", ("one", "two")))
        self.assertEqual((self.room / "words").read_text(), "life-1 a word main main: over: one (and 1 more)\n")
        self.assertEqual(json.loads((self.room / "in").read_text()), {
            "id": "life-1", "plan": "main", "rule": "e", "kind": "over", "desk": "the desk",
            "text": "main: over: one (and 1 more)",
            "events": [{"event": f"e:{place}", "level": 0, "text": text, "first": "",
                        "since": "1970-01-01T00:01:00.000Z", "at": "1970-01-01T00:02:00.000Z"}
                       for place, text in enumerate(("one", "two"))]})
        self.deliver(Target("me", (str(script), "a word")), call_of("worse", ("one", "two")))
        self.assertEqual((self.room / "words").read_text(),
                         "life-1 a word main main: worse: one (and 1 more). First: look\n")
        self.assertEqual([one["first"] for one in json.loads((self.room / "in").read_text())["events"]], ["look"] * 2)
        self.assertIn("it can't be run: No such file", self.undelivered(Target("me", ("/nowhere/x",))))
        failing = Target("me", ("sh", "-c", "echo no luck >&2; exit 3"))
        self.assertIn("with status 3: no luck", self.undelivered(failing))
        self.assertIn("by signal 9", self.undelivered(Target("me", ("sh", "-c", "kill -9 $$"))))

    def test_a_mail(self):
        sendmail = self.room / "sendmail"
        sendmail.write_text(f'#!/bin/sh\necho "$@" > {self.room}/words\ncat > {self.room}/mail\n')
        sendmail.chmod(0o755)
        self.deliver(Target("me", mail="ops@example.org"), call_of("worse", ("é\n\x1b[31mred",)), str(sendmail))
        self.assertEqual((self.room / "words").read_text(), "-i -- ops@example.org\n")
        text = (self.room / "mail").read_text()
        self.assertRegex(text, "(?m)^To: ops@example.org$")
        self.assertRegex(text, r"(?m)^Subject: \[opcplan main\] worse: ")
        self.assertRegex(text, "(?m)^First: look$")
        self.assertEqual(text.count("\nSubject: "), 1)
        self.assertNotIn("\x1b", text)
        self.assertIn("it can't be run", self.undelivered(Target("me", mail="a@b")))

    def test_a_webhook(self):
        hook = Webhook(refuses=1, drops=1)
        self.addCleanup(hook.close)
        secret = self.room / "secret"
        target = Target("me", webhook=hook.url, secret=str(secret))
        self.assertIn("the secret can't be read: No such file", self.undelivered(target))
        secret.write_text("\n")
        self.assertIn("the file has no secret", self.undelivered(target))
        secret.write_text("key\n")
        self.assertIn("it answered with status 503", self.undelivered(target))
        self.assertIn("no complete answer came", self.undelivered(target))
        self.deliver(target)
        self.assertEqual([body for _, body in [*hook.refused, *hook.taken]], [calls.payload(call_of(), FROM)] * 3)
        # the HMAC of RFC 2104 over the body, by openssl
        if os.path.exists("/usr/bin/openssl"):
            words = ["openssl", "dgst", "-sha256", "-hmac", "key"]
            ran = subprocess.run(words, input=hook.taken[1][1], capture_output=True, check=False)
            self.assertEqual(hook.taken[1][0]["X-Opcplan-Signature"], f"sha256={ran.stdout.decode().split()[-1]}")
        self.deliver(target._replace(secret=""))
        self.assertIsNone(hook.taken[2][0]["X-Opcplan-Signature"])
        hook.server.shutdown()
        hook.server.server_close()
        self.assertIn("no complete answer came: ", self.undelivered(target))

    def test_a_webhook_that_leads_elsewhere(self):
        class Elsewhere(http.server.BaseHTTPRequestHandler):
            def do_POST(self):
                self.send_response(302)
                self.send_header("Location", "http://127.0.0.1:1/")
                self.end_headers()

            def log_message(self, *_):
                pass

        with http.server.HTTPServer(("127.0.0.1", 0), Elsewhere) as server:
            threading.Thread(target=server.serve_forever, daemon=True).start()
            target = Target("me", webhook=f"http://127.0.0.1:{server.server_port}")
            self.assertIn("status 302", self.undelivered(target))
            server.shutdown()


RULES = """
[who.me]
command = ["sh", "-c", "cat >> %(room)s/calls; %(then)s"]
[[rule]]
on = "late"
minutes = 15
call = "me"
[[rule]]
on = "desk"
minutes = 0
call = "me"
"""
NOW = "2024-01-02/09.00"  # REPORT of Monday was due an hour before


@unittest.skipIf(desks.why_not(), desks.why_not())
class Watches(desks.Case):
    TEXT = plans.stream("monday") + b"cp-start --app REPORT --ia 2024-01-01/20.00 --job 90\n"

    def setUp(self):
        super().setUp()
        self.rules, self.state = self.room / "rules.toml", self.room / "state"
        self.write()

    def write(self, then="true"):
        self.rules.write_text(RULES % {"room": self.room, "then": then})

    def words(self, desk, *more):
        return ["watch", "--desk", desk, "--rules", self.rules, "--state", self.state, "--now", NOW, *more]

    def calls(self):
        """What was called: kind and event."""
        path = self.room / "calls"
        sent = map(json.loads, path.read_text().splitlines()) if path.exists() else ()
        return [(one["kind"], event["event"]) for one in sent for event in one["events"]]

    def once(self):
        """What was called, each id once: a watch that is killed while it calls makes that call again."""
        path = self.room / "calls"
        sent = {one["id"]: one for one in map(json.loads, path.read_text().splitlines())} if path.exists() else {}
        return [(one["kind"], event["event"]) for one in sent.values() for event in one["events"]]

    def ids(self):
        return [json.loads(line)["id"] for line in (self.room / "calls").read_text().splitlines()]

    def test_once_and_again(self):
        desk = self.desk()
        ran = plans.plan(*self.words(desk.socket, "--try"))
        self.assertEqual((ran.returncode, ran.stderr), (0, ""))
        self.assertEqual(ran.stdout, "me: run sh\n  REPORT 2024-01-01 20.00 (serial 2) is late by 1 h, started\n"
                         "  First: see with `./plan why` what it waits for, and whether its job hangs\n")
        self.assertEqual((self.calls(), self.state.exists()), ([], False))
        for _ in range(2):
            ran = plans.plan(*self.words(desk.socket, "--once"))
            self.assertEqual(ran.returncode, 0, ran.stderr)
        self.assertEqual(self.calls(), [("new", "late:2")])
        self.assertEqual(plans.plan(*self.words(desk.socket, "--try")).stdout, "Nothing would be sent.\n")
        desk.posted("cp-complete --app REPORT --ia 2024-01-01/20.00\n")
        plans.plan(*self.words(desk.socket, "--once"))
        self.assertEqual(self.calls(), [("new", "late:2"), ("over", "late:2")])
        self.end(desk)
        for _ in range(2):
            plans.plan(*self.words(desk.socket, "--once"))
            time.sleep(0.01)
        self.assertEqual(self.calls()[2:], [("new", f"desk:{desk.socket}")])

    def test_a_call_that_fails_is_sent_again_under_its_id(self):
        desk = self.desk()
        self.write("exit 1")
        for _ in range(2):
            ran = plans.plan(*self.words(desk.socket, "--once"))
            self.assertEqual(ran.returncode, 1)
            self.assertIn("watch: me: sh: it ended with status 1; the watch tries again", ran.stderr)
        self.write()
        self.assertEqual(plans.plan(*self.words(desk.socket, "--once")).returncode, 0)
        self.assertEqual(self.calls(), [("new", "late:2")] * 3)
        self.assertEqual(len(set(self.ids())), 1)
        self.end(desk)

    def test_a_watch_that_is_killed_while_it_calls(self):
        """Between the call and its note: it comes again, under the same id, and not once more."""
        desk = self.desk()
        self.write("kill -9 $PPID; sleep 1")
        ran = plans.plan(*self.words(desk.socket, "--once"))
        self.assertEqual(ran.returncode, -signal.SIGKILL)
        self.write()
        for _ in range(2):
            self.assertEqual(plans.plan(*self.words(desk.socket, "--once")).returncode, 0)
        self.assertEqual((self.calls(), len(set(self.ids()))), ([("new", "late:2")] * 2, 1))
        self.end(desk)

    def test_each_stop_of_the_driver(self):
        """Killed at each call of what it keeps and sends: nothing is lost, and at most one call comes twice."""
        desk = self.desk()
        given = service.Settings(str(desk.socket), str(self.rules), str(self.state), now=NOW)
        for stop in range(1, 20):
            for path in (self.state, self.room / "calls"):
                path.unlink(missing_ok=True)
            count = 0

            class Killed(BaseException):
                pass

            class Dying(service.Watch):
                def tick(self):
                    nonlocal count
                    count += 1
                    if count == stop:
                        raise Killed

                def keep(self):
                    self.tick()
                    super().keep()
                    self.tick()

                def begin(self, call):
                    self.tick()
                    super().begin(call)
                    self.tick()

                def take_end(self, done):
                    self.tick()
                    super().take_end(done)
                    self.tick()

            with contextlib.redirect_stderr(io.StringIO()):
                watch = Dying(given, service.rules_of(given.rules), None, crew=Inline())
                with contextlib.suppress(Killed):
                    watch.load()
                    watch.step()
                is_over = count < stop
                again = service.Watch(given, service.rules_of(given.rules), None)
                again.load()
                again.step()
            self.assertEqual(set(self.calls()), {("new", "late:2")}, stop)
            self.assertLessEqual(len(self.ids()), 2)
            self.assertEqual(len(set(self.ids())), 1, stop)
            if is_over:
                self.assertEqual(len(self.ids()), 1)
                break
        else:
            self.fail("it never came to its end")
        self.end(desk)

    def begun(self, desk, *more):
        found = subprocess.Popen([plans.TOP / "plan", *map(str, self.words(desk, "--every", "0.2", *more))],
                                 stderr=subprocess.PIPE, text=True)
        self.addCleanup(lambda: found.poll() is None and found.kill())
        while "watches" not in (line := found.stderr.readline()):  # from then on it heeds signals
            self.assertTrue(line)
        return found

    def comes(self, holds):
        until = time.monotonic() + desks.PATIENCE
        while not holds():
            self.assertLess(time.monotonic(), until, self.calls())
            time.sleep(0.05)

    def test_a_watch_as_a_service(self):
        desk = self.desk()
        watch = self.begun(desk.socket)
        self.comes(lambda: self.once() == [("new", "late:2")])
        second = plans.plan(*self.words(desk.socket, "--once"))
        self.assertEqual((second.returncode, second.stdout), (1, ""))
        self.assertIn("another watch uses this state", second.stderr)
        self.end(desk)
        self.comes(lambda: self.once()[1:] == [("new", f"desk:{desk.socket}")])
        watch.send_signal(signal.SIGKILL)
        watch.communicate()
        watch = self.begun(desk.socket)
        desk = self.desk()
        self.comes(lambda: self.once()[2:] == [("over", f"desk:{desk.socket}")])
        for number in (signal.SIGTERM, signal.SIGINT):
            watch.send_signal(number)
            said = watch.communicate(timeout=60)[1]
            self.assertEqual(watch.returncode, 0, said)
            watch = self.begun(desk.socket)
        watch.send_signal(signal.SIGTERM)
        watch.communicate(timeout=60)
        self.assertEqual(len(self.once()), 3)
        self.end(desk)

    def test_a_disk_that_takes_nothing_is_no_reason_not_to_call(self):
        desk = self.desk()
        given = service.Settings(str(desk.socket), str(self.rules), str(self.room / "nowhere" / "state"), now=NOW)
        printed = io.StringIO()
        with contextlib.redirect_stderr(printed):
            watch = service.Watch(given, service.rules_of(given.rules), None)
            for _ in range(2):
                watch.step()
        self.assertEqual(self.calls(), [("new", "late:2")])
        self.assertEqual(printed.getvalue().count("it can't be written"), 1)
        self.end(desk)

    def test_what_is_wrong_is_reported(self):
        for words, status, reason in (
            (["--rules", self.rules], 2, "give --desk DESK"),
            (["--desk", "x y", "--rules", self.rules, "--once"], 2, "doesn't name a desk"),
            (["--desk", "/x", "--rules", self.room / "nothing"], 1,
             "nothing: there is no such file; docs/use/MONITORING.md has an example"),
            (["--desk", "/x", "--rules", self.room], 1, "it can't be read: Is a directory"),
            (["--desk", "/x", "--rules", self.plan], 2, "isn't text in UTF-8"),
            (["--desk", "/x", "--rules", self.rules, "--every", "0"], 2, "is not a number of seconds"),
            (["--desk", "/x", "--rules", self.rules, "--state", self.room / "no" / "x"], 1,
             "the state can't be stored there"),
            (["--desk", "/x"], 2, "give --rules FILE"),
            (["--desk", "/x", "--rules", self.rules, "--try", "--once"], 2, "not allowed"),
        ):
            ran = plans.plan("watch", *words)
            self.assertEqual((ran.returncode, ran.stdout, ran.stderr.count("\n")), (status, "", 1), ran.stderr)
            self.assertIn(reason, ran.stderr)
        for text in ("", "{", "[]", '{"watch": {}}', json.dumps({"watch": State().kept()}),
                     json.dumps({"watch": {**State().kept(), "version": 7}, "sightings": {}})):
            self.state.write_text(text)
            ran = plans.plan(*self.words("/x", "--once"))
            self.assertEqual((ran.returncode, ran.stderr.count("\n")), (1, 1), ran.stderr)
            self.assertIn("move the file away", ran.stderr)
            self.assertEqual(self.state.read_text(), text)
        self.rules.write_text('on = "error"\n')
        ran = plans.plan(*self.words("/x", "--once"))
        self.assertEqual((ran.returncode, ran.stderr.count("\n")), (2, 1), ran.stderr)

    def test_desks_hear_of_calls_that_are_not_delivered(self):
        heard = []

        class Hears(http.server.BaseHTTPRequestHandler):
            def do_PUT(self):
                heard.append((self.path, json.loads(self.rfile.read(int(self.headers["Content-Length"])))))
                self.send_response(204 if len(heard) < 3 else 404)  # an older desk takes no report
                self.end_headers()

            def do_GET(self):
                self.send_response(200)
                self.end_headers()
                self.wfile.write(json.dumps({**STATUS, "needs": [listed("late:2", 1, NOON - 60)]}).encode())

            def log_message(self, *_):
                pass

        self.write("exit 1")
        with http.server.HTTPServer(("127.0.0.1", 0), Hears) as server, contextlib.redirect_stderr(io.StringIO()):
            threading.Thread(target=server.serve_forever, daemon=True).start()
            given = service.Settings(f"http://127.0.0.1:{server.server_port}", str(self.rules), str(self.state))
            watch = service.Watch(given, service.rules_of(given.rules), None)
            for _ in range(3):
                watch.step()
            watch.look()
            count = len(heard)
            service.tried(given)  # a trial reports nothing, so no desk takes it for the watch
            server.shutdown()
        self.assertEqual(({path for path, _ in heard}, len(heard)), ({"/reports/calls"}, count))
        name = hashlib.sha256(f"{socket.gethostname()}:{self.state}".encode()).hexdigest()[:16]
        self.assertEqual({found["watch"] for _, found in heard}, {name})
        self.assertEqual(heard[0][1]["undelivered"], [])
        (one,) = heard[-1][1]["undelivered"]
        self.assertEqual((one["id"], one["target"], one["tries"]), (watch.state.calls["me"].id, "me", 1))
        self.assertIn("with status 1", one["why"])
        self.assertLess(abs(one["since"] - time.time()), desks.PATIENCE)
        self.assertEqual(watch.sightings.desks, {})

    def test_answers_that_no_desk_gives(self):
        """Each counts as a desk that doesn't answer, and nothing of the plan is over."""
        answers = [b"", b"{}", b"[]", b"\xff", json.dumps({**STATUS, "needs": [{}]}).encode(),
                   json.dumps({**STATUS, "needs": [{**listed("late:1"), "kind": "x"}]}).encode(),
                   json.dumps({**STATUS, "now": "today"}).encode(), json.dumps({**STATUS, "agents": {"a": 1}}).encode(),
                   json.dumps({**STATUS, "etcd": [1]}).encode()]

        class Odd(http.server.BaseHTTPRequestHandler):
            def do_GET(self):
                self.send_response(200)
                self.end_headers()
                self.wfile.write(answers[0])

            def log_message(self, *_):
                pass

        with http.server.HTTPServer(("127.0.0.1", 0), Odd) as server, contextlib.redirect_stderr(io.StringIO()):
            threading.Thread(target=server.serve_forever, daemon=True).start()
            given = service.Settings(f"http://127.0.0.1:{server.server_port}", str(self.rules), str(self.state))
            while answers:
                watch = service.Watch(given, service.rules_of(given.rules), None)
                watch.look()
                self.assertEqual(list(watch.sightings.desks), [given.desk], answers[0])
                answers.pop(0)
            server.shutdown()


if __name__ == "__main__":
    unittest.main()
