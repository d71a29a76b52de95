"""Acts at a desk that are stopped halfway: by somebody else's change before each statement, by a kill of the desk, by
one of the caller; and the same call again, by the command line, the library and the route."""

import contextlib
import dataclasses
import json
import os
import unittest
from unittest import mock

from support import desks
from test_acting import plan, PLAN

from opcplan.commands import acting_desk
from opcplan.desk import client

import opcplan

DAYS = range(1, 15)
# one day for each case: in December PAY, BANK and MAIL wait in the current plan
TEXT = PLAN.replace("--to 2026-11-30", "--to 2026-12-31") + "".join(
    f"dp-extend --to {day}/00.00 --job {number}\n" for number, day in enumerate(
        [f"2026-11-{day}" for day in (27, 29)] + [f"2026-12-{day:02}" for day in range(1, 20, 2)], 100))
CHAIN = [f"cp-{what} --app {app} --ia DAY/0{hour}.00" for app, hour in (("PAY", 6), ("BANK", 7), ("MAIL", 8))
         for what in ("start", "complete")]
RERUN = [f"cp-add --app {app} --ia DAY/0{hour}.01" for app, hour in (("PAY", 6), ("BANK", 7), ("MAIL", 8))]
MOVE = ["cp-add --app BANK --ia DAY/09.30", "cp-delete --app BANK --ia DAY/07.00"]
# a verb with its words; its statements; and what is done before
ACTS = {"rerun": (("PAY", "DAY", "--with-followers"), RERUN, CHAIN),
        "complete": (("MAIL", "DAY", "--chain"), CHAIN, []),
        "move": (("BANK", "DAY/07.00", "09.30"), MOVE, CHAIN[:2])}
APART = "cp-add --app PAY --ia DAY/23.00"
# for each case a verb; how many of its statements are done when it is cut; by what; and, by the rules, why the rest
# can't be done any more, or nothing
CASES = (
    ("rerun", 1, APART, ""), ("rerun", 2, APART, ""),
    ("rerun", 1, "cp-add --app BANK --ia DAY/07.01", "would be refused 27 now"),
    ("rerun", 2, "cp-delete --app PAY --ia DAY/06.01", "what was done of it has been taken back since"),
    ("complete", 1, APART, ""), ("complete", 3, APART, ""),
    ("complete", 2, "cp-delete --app BANK --ia DAY/07.00", "would be refused 28 now"),
    ("complete", 1, "cp-fail --app PAY --ia DAY/06.00", ""),
    ("complete", 2, "cp-add --app PAY --ia DAY/06.30", "would be refused 30 "),
    ("move", 1, APART, ""), ("move", 1, "cp-start --app BANK --ia DAY/07.00", "would be refused 29 now"),
)
AGAIN = "type the same command again, and it goes on with what is left"


class Stopped(Exception):
    """The caller is killed."""


@unittest.skipIf(desks.why_not(), desks.why_not())
class Stops(desks.Case):
    TEXT = TEXT.encode()

    def setUp(self):
        super().setUp()
        given = mock.patch.dict(os.environ, {"XDG_STATE_HOME": str(self.room / "state"), "CUT_FOLDER": str(self.room)})
        given.start()
        self.addCleanup(given.stop)
        self.serving = self.cut_desk()

    def cut_desk(self):
        return self.desk(command=(desks.python(), "-B", desks.plans.TOP / "tests" / "support" / "cut_desk.py"))

    def begin(self, verb, day, at=None, by=None):
        """Does what comes before an act of a day, and says where it is cut; its words and its lines."""
        words, lines, before = ACTS[verb]
        day = f"2026-12-{day:02}"
        if before:
            status, _, text = self.serving.posted("".join(f"{one}\n" for one in before).replace("DAY", day))
            self.assertEqual((status, text.count("refused")), (200, 0), text)
        self.first = self.serving.health()["position"] + 1
        if at is not None:
            cut = json.dumps({"at": at, "by": by and f"{by}\n".replace("DAY", day)})
            (self.room / "CUT.json").write_text(cut, encoding="ascii")
        return [word.replace("DAY", day) for word in words], [one.replace("DAY", day) for one in lines]

    def entries(self):
        """The lines that were done since the act began, without job numbers: of somebody else, and of the act."""
        text = client.Client(str(self.serving.socket)).request("GET", f"/journal?from={self.first}")[1].decode()
        found = {True: [], False: []}
        for one in map(json.loads, text.splitlines()):
            self.assertTrue(one["reply"].startswith("ok"), one)
            found[(one["key"] or "").startswith("act-")].append(one["statement"].partition(" --job")[0])
        return found[False], found[True]

    def ask(self, verb, words, status=0):
        ran = plan(verb, "--desk", self.serving.socket, *words, "--yes")
        self.assertEqual(ran.returncode, status, (ran.stdout, ran.stderr))
        self.assertNotIn("Traceback", ran.stderr)
        return ran

    def test_somebody_else_changes_the_plan_before_each_statement(self):
        for (verb, at, by, why), day in zip(CASES, DAYS):
            with self.subTest(verb=verb, at=at, by=by):
                words, lines = self.begin(verb, day, at, by)
                ran = self.ask(verb, words, status=1 if why else 0)
                others, done = self.entries()
                self.assertEqual((len(others), done), (1, lines[:at] if why else lines))
                self.assertIn(f"{at} of its {len(lines)} statements {'is' if at == 1 else 'are'} done", ran.stderr)
                if why:
                    self.assertIn(why, ran.stderr)
                    self.assertIn("nothing more was done", ran.stderr)
                else:
                    self.assertEqual(ran.stdout.count("\nok "), len(lines))
        self.end(self.serving)

    def test_the_desk_is_killed_before_each_statement(self):
        for (verb, at), day in zip((("rerun", 0), ("rerun", 2), ("complete", 4), ("move", 1)), DAYS):
            with self.subTest(verb=verb, at=at):
                words, lines = self.begin(verb, day, at)
                ran = self.ask(verb, words, status=1)
                self.assertIn(AGAIN, ran.stderr)
                self.serving.process.wait(timeout=60)
                self.serving = self.cut_desk()
                ran = self.ask(verb, words)
                self.assertEqual(self.entries(), ([], lines))
                self.assertEqual(f"was stopped: {at} of its {len(lines)} statements" in ran.stdout, at > 0, ran.stdout)
        self.end(self.serving)

    def test_the_caller_is_killed_and_somebody_else_changes_the_plan(self):
        real = acting_desk.asked

        def asked(desk, body, heads=client.NO_HEADS):
            found = real(desk, body, heads)
            if "If-Match" in heads:
                raise Stopped
            return found

        for (verb, at, by, why), day in zip((CASES[0], CASES[3], CASES[6], CASES[10]), DAYS):
            with self.subTest(verb=verb, at=at, by=by):
                words, lines = self.begin(verb, day, at, by)
                with mock.patch.object(acting_desk, "asked", asked), contextlib.suppress(Stopped):
                    plan(verb, "--desk", self.serving.socket, *words, "--yes")
                self.assertEqual(self.entries()[1], lines[:at])
                ran = self.ask(verb, words, status=1 if why else 0)
                self.assertIn(f"was stopped: {at} of its {len(lines)} statements", ran.stdout)
                self.assertIn(why, ran.stderr)
                self.assertEqual(self.entries()[1], lines[:at] if why else lines)
        self.end(self.serving)

    def test_scripts_go_on(self):
        script = opcplan.Desk(self.serving.socket)
        for (verb, at, by, why), day in zip((CASES[1], CASES[2], CASES[5]), DAYS):
            words, lines = self.begin(verb, day, at, by)
            act = script.act(verb, " ".join(words[:2]), followers=verb == "rerun", chain=verb == "complete")
            self.assertEqual((act.ok, len(act.answers)), (not why, at if why else len(lines)))
            self.assertIn(why, act.stopped)
            self.assertEqual(script.do(act).answers, act.answers)
            self.assertEqual(self.entries()[1], lines[:at] if why else lines)
        words, lines = self.begin("rerun", 4, 1)
        act = script.act("rerun", " ".join(words[:2]), followers=True, dry_run=True)
        with self.assertRaises(opcplan.Desk.Away):
            script.do(act, wait=0)
        self.serving.process.wait(timeout=60)
        self.serving = self.cut_desk()
        self.assertTrue(script.do(act).ok)
        self.assertEqual(self.entries(), ([], lines))
        self.end(self.serving)

    def test_the_route_says_what_is_left_and_what_a_refusal_means(self):
        words, lines = self.begin("rerun", 1, 2, APART)
        found = self.posted({"verb": "rerun", "of": " ".join(words[:2]), "followers": True})
        body, key = {"stream": found["act"]["stream"]}, {"Idempotency_Key": "act-1"}
        cut = self.posted(body, If_Match=found["tag"], **key)
        self.assertEqual((cut["is_whole"], cut["left"], len(cut["answers"])), (False, lines[2:], 2))
        self.assertIn("somebody else changed the plan after statement 2 of 3", cut["why_not"])
        left = self.posted(body, **key)
        self.assertEqual((left["act"]["statements"], left["left"], left["answers"]), (lines[2:], lines[2:],
                                                                                      cut["answers"]))
        self.serving.posted(f"{lines[2]}\n")
        refused = self.posted(body, **key)
        self.assertEqual((refused["act"], refused["is_whole"]), (None, False))
        self.assertIn(f"`{lines[2]}` would be refused 27 now: ", refused["why_not"])
        whole = self.posted(body, If_Match=refused["tag"], **key)  # though the desk said that it would be refused
        self.assertEqual(([one["reply"] for one in whole["answers"]][2], whole["is_whole"]), ("refused 27", True))
        self.assertEqual([bool(one["means"]) for one in whole["answers"]], [False, False, True])
        self.assertIn(whole["answers"][2]["means"], whole["why_not"])
        self.assertIn("MAIL 2026-12-01 08.01", whole["answers"][2]["means"])
        for body in ({"stream": "list cp\n"}, {"stream": "no statement\n"}, {"stream": ""}):
            self.assertEqual(self.posted(body, If_Match=whole["tag"]), 400)
        self.end(self.serving)

    def test_an_act_goes_no_further_than_its_first_refusal(self):
        _, lines = self.begin("move", 1)
        body, key = {"stream": "".join(f"{one}\n" for one in lines)}, {"Idempotency_Key": "act-1"}
        self.serving.posted(f"{lines[0]}\n")
        tag = self.serving.health()["tag"]
        for _ in range(2):  # the second time under the same key
            found = self.posted(body, If_Match=tag, **key)
            self.assertEqual([one["reply"] for one in found["answers"]], ["refused 27"])
            self.assertEqual((found["left"], found["is_whole"], found["position"]), (lines[1:], False, self.first + 1))
            self.assertRegex(found["why_not"], "`cp-add .*` was refused 27: .*; so the rest wasn't done")
        left = self.posted(body, **key)
        self.assertEqual((left["act"], left["why_not"], left["left"]), (None, found["why_not"], lines[1:]))
        act = opcplan.Desk(self.serving.socket).act("start", "BANK 2026-12-01/07.00", dry_run=True)
        stopped = opcplan.Desk(self.serving.socket).do(dataclasses.replace(act, stream=body["stream"]))
        self.assertEqual(([one.reply for one in stopped.answers], stopped.ok), (["refused 27"], False))
        self.assertIn(" was refused 27: ", stopped.stopped)
        text = client.Client(str(self.serving.socket)).request("GET", f"/journal?from={self.first}")[1].decode()
        self.assertEqual([(one["statement"].split(" --job")[0], one["reply"].split()[0]) for one in map(
            json.loads, text.splitlines())], [(lines[0], "ok"), *2 * [(lines[0], "refused")]])
        status, _, text = self.serving.posted(body["stream"])  # a stream that is no act goes on
        self.assertEqual((status, [one.split()[0] for one in text.splitlines()[-2:]]), (200, ["refused", "ok"]))
        self.end(self.serving)

    def posted(self, body, **heads):
        status, _, text = self.serving.asked("POST", "/acts", json.dumps(body), **{"X_Opcplan": "desk", **heads})
        return json.loads(text) if status == 200 else status


if __name__ == "__main__":
    unittest.main()
