"""What is wanted of several occurrences at once, over random plans and states, by the plain planner.

What always holds: each occurrence that is named is in one part, once. All statements of the act are accepted one after
the other, and do what the preview says. A part has the statements that its verb has alone in the plan that the parts
before it leave, as the plain planner makes it; or none, and says why. What is left of an act, whatever of it is done,
has the statements that aren't done, with the replies that the plain planner gives."""

import unittest
from collections import Counter

from support import act_worlds

from opcplan.acts import previews, several, steps, verbs
from opcplan.acts.verbs import Intention
from opcplan.acts.world import World
from opcplan.rules import moments

SEEDS = range(60)
EACH = 5
VERBS = [verb for verb, known in verbs.VERBS.items() if known.places]


def intentions(rnd, planner):
    """Intentions of several rows at random, most of them of rows for which the verb is."""
    rows = list(act_worlds.rows_of(planner).values())
    fits = {verb: [row for row in rows if any(row.place in group for group in verbs.VERBS[verb].places)]
            for verb in VERBS}
    near = {}  # by serial: the rows before and behind it
    for first, last in planner.pairs:
        near.setdefault(first, []).append(last)
        near.setdefault(last, []).append(first)
    found = act_worlds.rows_of(planner)
    for _ in range(EACH):
        often = (*VERBS, "fail", "reset", "rerun", "rerun", "complete")
        verb, more = rnd.choice([verb for verb in often if fits[verb]]), {}
        chosen = [rnd.choice(fits[verb])]
        for _ in range(rnd.randrange(1, 4)):
            beside = [found[one] for one in near.get(chosen[0].serial, ())]
            beside = [row for row in beside if row in fits[verb]] or beside
            among = beside if beside and rnd.random() < 0.5 else fits[verb] if rnd.random() < 0.8 else rows
            chosen.append(rnd.choice(among))
        if verb == "move":
            ia = rnd.choice(act_worlds.KEYS)[1] + rnd.randrange(3)
            more["to"] = rnd.choice((moments.moment_word(ia), moments.minute_text(ia % moments.DAY),
                                     moments.day_text(ia // moments.DAY)))
        if verb == "complete" and rnd.random() < 0.8:
            more["chain"] = True
        if verb == "rerun" and rnd.random() < 0.8:
            more["followers"] = True
        yield Intention(verb, each=tuple(str(row.serial) for row in chosen), **more)


class Several(unittest.TestCase):
    def setUp(self):
        self.seen = Counter()

    def test_each_part_does_what_its_verb_does_alone(self):
        for seed in SEEDS:
            plan = act_worlds.Random(seed)
            text = plan.stream()
            world, planner = act_worlds.world_of(text)
            for wanted in intentions(plan.rnd, planner):
                with self.subTest(seed=seed, wanted=wanted):
                    self.check(text, world, planner, wanted, plan.rnd)
        for what in (*VERBS, "parts", "left out", "rest", "rest refused"):
            self.assertGreater(self.seen[what], 5, (what, self.seen))

    def check(self, text, world, planner, wanted, rnd):
        """Asks all of one intention."""
        try:
            act = several.act_of(world, wanted)
        except verbs.NotDoable as why:
            self.assertTrue(str(why))
            return
        found = previews.of_act(world, act)
        rows = act_worlds.rows_of(planner)
        self.assertEqual(sorted(part.of for part in act.parts), sorted(set(wanted.each)))
        self.assertEqual(act.steps, tuple(step for part in act.parts for step in part.steps))
        then, replies = act_worlds.after(planner, found.stream)
        self.assertEqual(tuple(replies), found.replies)
        self.assertTrue(all(reply.startswith("ok") for reply in replies), replies)
        later = act_worlds.rows_of(then)
        self.assertEqual({one.row.serial: (one.was, one.row) for one in found.changes},
                         {serial: (rows.get(serial), row) for serial, row in later.items() if rows.get(serial) != row})
        self.check_parts(text, planner, wanted, act)
        self.check_rest(world, planner, act, rnd)
        self.seen[wanted.verb] += 1
        self.seen["parts"] += sum(bool(part.steps) for part in act.parts) > 1

    def check_parts(self, text, planner, wanted, act):
        """Asks of each part that its verb alone has these statements after those before it."""
        done, whole = [], planner
        for part in act.parts:
            if part.why_not.startswith("it runs again with"):
                self.seen["again"] += 1
                continue
            if part.why_not.startswith("it is done with the runs"):
                was, now = (act_worlds.rows_of(one)[int(part.of)] for one in (planner, whole))
                self.assertNotEqual(was, now)
                self.seen["with the runs before"] += 1
                continue
            alone = Intention(wanted.verb, part.of, wanted.to, wanted.due, wanted.chain, wanted.followers)
            if any(step.name == "define" for step in done):
                continue  # the plain planner's definitions of then aren't those of the stream
            then = World(act_worlds.Source(text, whole))
            if not part.steps:
                self.seen["left out"] += 1
                with self.assertRaises((verbs.NotDoable, verbs.Ambiguous)):
                    verbs.act_of(then, alone)
                continue
            self.assertEqual(part.steps, verbs.act_of(then, alone).steps)
            done += part.steps
            whole = act_worlds.after(planner, steps.text_of(done))[0]

    def check_rest(self, world, planner, act, rnd):
        """Asks of what is left of it, once some is done and somebody else has changed a row."""
        stream = steps.text_of(act.steps)
        self.assertEqual([step.text for step in steps.of_text(stream)], [step.text for step in act.steps])
        count = rnd.randrange(len(act.steps))
        between, _ = act_worlds.after(planner, steps.text_of(act.steps[:count]))
        live = [row for row in act_worlds.rows_of(between).values() if row.place in "WSE"]
        if any(step.name in ("define", "undefine") for step in act.steps) or not live:
            return
        row = rnd.choice([one for one in live if one.app == act.steps[count].app] or live)
        name = rnd.choice(("cp-start", "cp-fail", "cp-complete", "cp-delete"))
        between, _ = act_worlds.after(between, f"{name} --app {row.app} --ia {moments.moment_word(row.ia)}\n",
                                      800_000_500)
        left = steps.of_text(stream)[count:]
        source = act_worlds.Source.__new__(act_worlds.Source)
        source.__dict__ = {**world.source.__dict__, "planner": between, "found": act_worlds.rows_of(between)}
        source.sizes = type(source.sizes)(len(between.planned) + len(between.current), between.issued)
        found = previews.of_rest(World(source), tuple(left))
        _, replies = act_worlds.after(between, steps.text_of(left), 800_001_000)
        self.assertEqual(tuple(replies), found.replies)
        self.seen["rest"] += 1
        refused = [reply for reply in replies if not reply.startswith("ok")]
        self.seen["rest refused"] += bool(refused)
        self.assertEqual(len([note for note in found.notes if "is refused with" in note]), len(refused))


# B runs before A, though both arrive at once; and C after them
BY_HAND = """define periods --job 1
DAY,A,2026-01-01,1
/*
define applications --job 2
A,A,
B,A,
C,A,
/*
define run-cycles --job 3
A,RC,N,DAY,3,1,2026-01-01,,06.00,0,22.00
B,RC,N,DAY,3,1,2026-01-01,,06.00,0,23.00
C,RC,N,DAY,3,1,2026-01-01,,08.00,1,06.00
/*
define predecessors --job 4
A,B
C,A
/*
ltp-create --from 2026-11-23 --to 2026-11-26 --job 5
dp-extend --to 2026-11-25/00.00 --job 6
""" + "".join(f"cp-{what} --app {app} --ia 2026-11-23/0{hour}.00 --job {number}\n" for hour, app, what, number in (
    (6, "B", "start", 60), (6, "B", "complete", 61), (6, "A", "start", 70), (6, "A", "complete", 71),
    (8, "C", "start", 80), (8, "C", "complete", 81)))


class ByHand(unittest.TestCase):
    """Worked by hand from the rules of the statements."""

    def parts(self, verb, *each, **more):
        """What is done with each, by its name: the statements, or why there are none."""
        act = several.act_of(act_worlds.world_of(BY_HAND)[0], Intention(verb, each=each, **more))
        return [(part.of, [step.line.replace(" --app", "").replace(" --ia 2026-11-", " ") for step in part.steps]
                 or part.why_not) for part in act.parts], list(act.notes)

    def test_what_an_earlier_part_does_is_not_done_again(self):
        found = self.parts("complete", "B 2026-11-24", "A 2026-11-24", chain=True)
        self.assertEqual(found, ([("A 2026-11-24", ["cp-start B 24/06.00", "cp-complete B 24/06.00",
                                                    "cp-start A 24/06.00", "cp-complete A 24/06.00"]),
                                  ("B 2026-11-24", "it is done with the runs before it")], []))

    def test_what_runs_again_with_another_runs_once(self):
        found = self.parts("rerun", "C 2026-11-23", "B 2026-11-23", followers=True)
        self.assertEqual(found, ([("B 2026-11-23", ["cp-add B 23/06.01", "cp-add A 23/06.01", "cp-add C 23/08.01"]),
                                  ("C 2026-11-23", "it runs again with B 2026-11-23 06.00")], []))
        found, notes = self.parts("rerun", "C 2026-11-23", "B 2026-11-23")
        self.assertEqual(found, [("B 2026-11-23", ["cp-add B 23/06.01"]), ("C 2026-11-23", ["cp-add C 23/08.01"])])
        self.assertEqual(notes, ["A 2026-11-23 06.00 is complete, and doesn't run again; `--with-followers` runs it "
                                 "too"])

    def test_what_names_none_or_several_is_left_out(self):
        found = self.parts("start", "B", "A", "C 2026-11-25", "NO", "A 2026-11-24")
        self.assertEqual([of for of, steps_ in found[0] if isinstance(steps_, list)], ["B"])
        self.assertEqual(dict(found[0])["NO"], "The application NO isn't defined.")
        self.assertIn("waits for B 2026-11-24 06.00", dict(found[0])["A"])
        self.assertIn("a daily plan has to take it into the current plan", dict(found[0])["C 2026-11-25"])
        with self.assertRaisesRegex(verbs.NotDoable, "isn't defined; C 2026-11-25 08.00 is in the long-term plan"):
            self.parts("start", "NO", "C 2026-11-25")


class Words(unittest.TestCase):
    def test_what_is_wrong(self):
        for wanted, why in ((Intention("add", each=("1", "2")), "isn't for several"),
                            (Intention("undo", each=("1",)), "isn't for several"),
                            (Intention("reset", "3", each=("1",)), "either `of` or `each`"),
                            (Intention("reset", each=("1",) * (verbs.MOST_EACH + 1)), "at most 200")):
            with self.assertRaisesRegex(verbs.InvalidIntention, why):
                verbs.check(wanted)

    def test_no_text_of_an_act(self):
        for text in ("dp-replan\n", "cp-go --app A\n", "define periods\nA,B\n", "cp-start --app A --ia x\n",
                     "list cp\n"):
            with self.assertRaises(steps.NoSteps):
                steps.of_text(text)


if __name__ == "__main__":
    unittest.main()
