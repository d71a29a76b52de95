"""`POST /edits` of a desk, and `edit` of the library; and two editors, in each order of their requests.

What always holds: an edit is done in the state of a preview that shows the same as the one that its editor saw, or not
at all. So what two editors leave is what their edits leave one after the other, in the order in which they were done,
and no edit that was done is lost. The plain planner does both."""

import functools
import json
import unittest
from unittest import mock

from support import act_worlds, desks, plans
from support.plans import plain

from opcplan.acts.world import World
from opcplan.desk import client
from opcplan.edits import previews
from opcplan.rules.statements import Role

import opcplan
from opcplan import library

PLAN = """define calendars --job 1
DEFAULT,SAT,FREE
DEFAULT,SUN,FREE
/*
define periods --job 2
DAY,A,2026-01-01,1
/*
define applications --job 3
PAY,A,
BANK,A,
/*
define run-cycles --job 4
PAY,RC,N,DAY,E,1,2026-01-01,,06.00,0,22.00
BANK,RC,N,DAY,3,1,2026-01-01,,07.00,0,23.00
/*
ltp-create --from 2026-11-23 --to 2026-12-31 --job 5
dp-extend --to 2026-11-25/00.00 --job 6
"""
HOLIDAY = ("calendar", "DEFAULT", "2026-12-24", "free")
# what each of two editors wants
PAIRS = (
    (HOLIDAY, ("calendar", "DEFAULT", "2026-12-28", "free")),
    (HOLIDAY, HOLIDAY),
    (HOLIDAY, ("calendar", "DEFAULT", "2026-12-24", "work")),
    (("run-cycle", "PAY", "RC", "ia=05.00"), ("run-cycle", "PAY", "RC", "deadline=0/20.00")),
    (("run-cycle", "PAY", "RC", "rename", "DAILY"), ("run-cycle", "PAY", "RC", "ia=05.00")),
    (("application", "PAY", "pending"), ("run-cycle", "PAY", "RC", "remove")),
    (("application", "PAY", "remove"), ("predecessor", "BANK", "add", "PAY")),
    (("options", "max_extension_hours=48"), ("run-cycle", "BANK", "LATE", "new", "period=DAY", "ia=20.00",
                                             "deadline=1/06.00")),
)


@functools.cache
def previewed(text, words):
    """The preview of an edit after a stream."""
    return json.dumps(previews.answer(World(act_worlds.Source(text)), {"edit": list(words)}, 0))


@functools.cache
def done(text, stream):
    """A stream with another one at its end, which gets job numbers, and the replies to that."""
    numbers = iter(range(text.count(" --job ") + 10, 10_000))
    lines = [f"{line} --job {next(numbers)}" if line.startswith(("define ", "undefine ")) else line
             for line in stream.splitlines()]
    more = "".join(f"{line}\n" for line in lines)
    return text + more, plain.run(more.encode(), plans.planner_from(text))


class Served:
    """A desk as editors see it: the stream of its plan, its tag, and who has done something."""

    def __init__(self):
        self.text, self.changes, self.done = PLAN, 0, []

    def copy(self):
        other = Served()
        other.text, other.changes, other.done = self.text, self.changes, list(self.done)
        return other

    @property
    def planner(self):
        """What the plain planner knows."""
        return plans.planner_of(self.text)

    def answer(self, who, body, heads):
        """The answer to a request: an object, or HTTP's status."""
        state = {"tag": f"t-{self.changes}", "position": self.changes}
        if "edit" in body:
            found = json.loads(previewed(self.text, tuple(body["edit"])))
            return {**found, **state, "answers": [], "is_whole": False}
        if heads["If-Match"] != state["tag"]:
            return 412
        self.text, replies = done(self.text, body["stream"])
        self.changes += len(replies)
        self.done.append(who)
        answers = [{"statement": "", "reply": reply, "seq": 1, "job": 1, "rows": []} for reply in replies]
        return {"edit": None, "why_not": "", **state, "answers": answers, "is_whole": True}

    def start(self):
        """Another caller changes something that no edit is about."""
        self.changes += 1


class Waits(Exception):
    """An editor that waits for an answer: what was asked."""

    def __init__(self, body, heads):
        super().__init__()
        self.asked = body, heads


class Editor:
    """The library's editor, which is run anew with the answers that it has had so far."""

    def __init__(self, words):
        self.words = words

    def after(self, answers):
        """What it asks next, or how it ended."""
        left = list(answers)

        def request(_, method, path, body, heads=client.NO_HEADS):
            self_asked = json.loads(body), dict(heads)
            if not left:
                raise Waits(*self_asked)
            found = left.pop(0)
            if isinstance(found, int):
                raise client.RequestRefused(found, "the plan has changed")
            return None, json.dumps(found).encode()

        desk = library.Desk.__new__(library.Desk)
        desk._client = mock.Mock()
        desk._client.request = lambda *words: request(None, *words)
        try:
            return "done", desk.edit(*self.words)
        except Waits as wait:
            return "asks", wait.asked
        except opcplan.Desk.NotDoable as why:
            return "not doable", str(why)
        except client.RequestRefused:
            return "changed", None


def defined(planner):
    """All that a plain planner has of definitions."""
    return planner.defined, planner.options


class Interleavings(unittest.TestCase):
    def explore(self, editors, others=0, bug=None):
        """Goes through each order of the editors' requests, and of what others change; yields each end: the world,
        how each editor ended."""
        left = [(Served(), tuple(() for _ in editors), others)]
        while left:
            world, heard, more = left.pop()
            states = [editor.after(answers) for editor, answers in zip(editors, heard)]
            waiting = [place for place, state in enumerate(states) if state[0] == "asks"]
            if not waiting:
                yield world, states
                continue
            for place in waiting:
                body, heads = states[place][1]
                after = world.copy()
                if bug and "stream" in body:
                    heads = bug(after, heads)
                found = after.answer(place, body, heads)
                left.append((after, (*heard[:place], (*heard[place], found), *heard[place + 1:]), more))
            if more:
                after = world.copy()
                after.start()
                left.append((after, heard, more - 1))

    def sequence(self, words):
        """The definitions after edits, one after the other; None if one can't be done."""
        world = Served()
        for one in words:
            found = world.answer(0, {"edit": list(one)}, {})
            if found["edit"] is None:
                return None
            world.answer(0, {"stream": found["edit"]["stream"]}, {"If-Match": found["tag"]})
        return defined(world.planner)

    def check(self, pair, others, bug=None):
        """Checks each end of two editors; how each ended."""
        ends = set()
        for world, states in self.explore([Editor(words) for words in pair], others, bug):
            ends.add(tuple(sorted(state[0] for state in states)))
            ended = [place for place, state in enumerate(states) if state[0] == "done"]
            self.assertEqual(sorted(world.done), ended)
            self.assertEqual(defined(world.planner), self.sequence([pair[place] for place in world.done]), pair)
            self.assertTrue(all(states[place][1].ok for place in ended))
        return ends

    def test_each_order_of_two_editors(self):
        ends = set()
        for number, pair in enumerate(PAIRS):
            with self.subTest(pair=pair):
                found = self.check(pair, 1 if number < 2 else 0)
                ends |= found
                self.assertIn("done", {state for end in found for state in end})
        self.assertTrue({("done", "done"), ("changed", "done"), ("done", "not doable")} <= ends, ends)

    def test_a_desk_that_ignores_the_state_is_found(self):
        """Then the second of two editors takes back what the first did."""
        with self.assertRaises(AssertionError):
            self.check(PAIRS[0], 0, lambda world, heads: {**heads, "If-Match": f"t-{world.changes}"})


@unittest.skipIf(desks.why_not(), desks.why_not())
class AtADesk(desks.Case):
    TEXT = PLAN.encode()

    def asked(self, body, **heads):
        """The answer of a desk, or HTTP's status."""
        status, _, text = self.serving.asked("POST", "/edits", json.dumps(body), **{"X_Opcplan": "desk", **heads})
        return json.loads(text) if status == 200 else status

    def test_it_is_shown_and_done_in_its_state_alone_and_once(self):
        self.serving = self.desk()
        found = self.asked({"edit": list(HOLIDAY), "from": "2026-12-01", "to": "2026-12-31"})
        with_plan = previews.answer(World(act_worlds.Source(PLAN)), {"edit": list(HOLIDAY), "from": "2026-12-01",
                                                                     "to": "2026-12-31"}, 0)
        said = found["edit"].pop("sentences")
        self.assertEqual((found["edit"], len(said)), (with_plan["edit"], len(with_plan["edit"].pop("sentences"))))
        self.assertEqual([(one["app"], one["goes"]) for one in found["edit"]["apps"]], [("PAY", 1), ("BANK", 0)])
        do = {"stream": found["edit"]["stream"]}
        self.serving.posted("cp-start --app PAY --ia 2026-11-24/06.00\n")
        self.assertEqual(self.asked(do, If_Match=found["tag"]), 412)
        again = self.asked({"edit": list(HOLIDAY), "from": "2026-12-01", "to": "2026-12-31"})
        self.assertEqual({**found["edit"], "sentences": said}, again["edit"])
        done = self.asked(do, If_Match=again["tag"], Idempotency_Key="act-1")
        self.assertEqual(([one["reply"] for one in done["answers"]], done["is_whole"]), (["ok defined 1"], True))
        self.assertEqual(self.asked(do, If_Match=again["tag"], Idempotency_Key="act-1")["answers"], done["answers"])
        self.assertIn("nothing would change", self.asked({"edit": list(HOLIDAY)})["why_not"])
        script = opcplan.Desk(self.serving.socket)
        back = script.edit(*found["edit"]["edit_back"])
        self.assertTrue(back.ok)
        self.assertEqual([days.app for days in back.days if days.comes], ["PAY"])
        self.assertEqual(script.edit(*HOLIDAY, dry_run=True).stream, do["stream"])
        self.end(self.serving)

    def test_what_is_wrong_is_said(self):
        self.serving = self.desk()
        found = self.asked({"edit": list(HOLIDAY)})
        for body, heads in (({"edit": "calendar"}, {}), ({"edit": list(HOLIDAY)}, {"If_Match": found["tag"]}),
                            ({"stream": "define x"}, {}), ({"stream": "x", "edit": []}, {}), ([], {}),
                            ({"stream": "cp-start --app PAY --ia 2026-11-24/06.00\n"}, {"If_Match": found["tag"]}),
                            ({"stream": "* nothing\n"}, {"If_Match": found["tag"]})):
            self.assertEqual(self.asked(body, **heads), 400, body)
        self.assertEqual(self.serving.asked("POST", "/edits", "{", X_Opcplan="desk")[0], 400)
        with self.assertRaises(opcplan.Desk.NotDoable):
            opcplan.Desk(self.serving.socket).edit("calendar", "NONE", "2026-12-24", "free")
        with self.assertRaises(ValueError):
            opcplan.Desk(self.serving.socket).edit()
        self.end(self.serving)

    def test_roles_are_those_of_define(self):
        users = self.room / "users"
        users.write_text("anna operate\nbert read\npaul plan\nzoe none\n".replace("zoe none\n", ""), encoding="ascii")
        self.serving = self.desk("--users", str(users), "--proxy", desks.own_name(), "--host", "localhost")

        def asked(who, body, **heads):
            caller = client.Client(str(self.serving.socket))
            try:
                return json.loads(caller.request("POST", "/edits", json.dumps(body).encode(),
                                                 {"X-Forwarded-User": who, **heads})[1])
            except client.RequestRefused as why:
                return why.status

        self.assertEqual(asked("zoe", {"edit": list(HOLIDAY)}), 403)
        for who, status in (("bert", 403), ("anna", 403), ("paul", 200)):
            found = asked(who, {"edit": list(HOLIDAY)})
            self.assertEqual(found["edit"]["role"], Role.PLAN.name.lower())
            done = asked(who, {"stream": found["edit"]["stream"]}, **{"If-Match": found["tag"]})
            self.assertEqual(done if isinstance(done, int) else 200, status, who)
        self.end(self.serving)


class OverAFile(unittest.TestCase):
    def test_scripts_have_it(self):
        with opcplan.Plan(str(plans.of_stream(PLAN))) as plan:
            found = plan.edit(*HOLIDAY, first="2026-12-01", last="2026-12-31")
            with self.assertRaises(opcplan.Plan.NotDoable):
                plan.edit("calendar", "NONE", "2026-12-24", "free")
        planner = plans.planner_from(PLAN)
        stream = found.stream.replace("define calendars", "define calendars --job 90")
        self.assertEqual(plain.run(stream.encode(), planner), ["ok defined 1"])
        before = {day for day, _ in plans.planner_of(PLAN).named("PAY", 20788, 20818)}
        after = {day for day, _ in planner.named("PAY", 20788, 20818)}
        pay = {days.app: days for days in found.days}["PAY"]
        self.assertEqual([str(day) for day in pay.goes], ["2026-12-24"])
        self.assertEqual((len(pay.stays), len(pay.comes)), (len(before & after), 0))
        self.assertEqual(found.edit_back, ("calendar", "DEFAULT", "2026-12-24", "unlist"))
        self.assertEqual(found.modify, "ltp-modify-all")


if __name__ == "__main__":
    unittest.main()
