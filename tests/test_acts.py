"""Acts over random plans and states: each does by the plain planner what its verb means and its preview says, and its
inverse gives the lists back. What a world says after any statement is what the planner says."""

import unittest
from collections import Counter

from support import act_meanings, act_worlds

from opcplan.acts import inverses, previews, steps, verbs
from opcplan.acts.steps import Step
from opcplan.acts.world import World
from opcplan.rules import moments

import plain_planner as plain

SEEDS = range(50)
EACH, ROUNDS = 14, 3
# AA at 08.00, then BB at 09.00, on each day
DAY = """define periods --job 1
DAY,A,2024-01-01,1
/*
define applications --job 2
AA,A,
BB,A,
/*
define run-cycles --job 3
AA,R,N,DAY,3,1,2024-01-01,,08.00,0,22.00
BB,R,N,DAY,3,1,2024-01-01,,09.00,0,22.00
/*
define predecessors --job 4
BB,AA
/*
ltp-create --from 2024-01-01 --to 2024-01-05 --job 5
dp-extend --to 2024-01-02/00.00 --job 6
"""
A, B = "--app AA --ia 2024-01-01/08.00", "--app BB --ia 2024-01-01/09.00"
STATEMENTS, MOST_WORLDS = 30, 60
PLACES = {"cp-start": "W", "cp-complete": "SE", "cp-fail": "S", "cp-reset": "E", "cp-delete": "WE"}
# what takes a statement back, if it can be, by the place of the row before it
BACK = {"cp-add": ("cp-delete",), "ltp-add": ("ltp-delete",), "ltp-delete": ("ltp-add",), "cp-delete W": ("cp-add",),
        "cp-delete E": ("cp-add", "cp-start", "cp-fail"), "cp-start": ("cp-fail", "cp-reset"),
        "cp-fail": ("cp-reset", "cp-start"), "cp-reset": ("cp-start", "cp-fail")}


def intentions(rnd, world, planner):
    """Intentions at random, most of them about rows that there are."""
    rows = [row for row in act_worlds.rows_of(planner).values()]
    for _ in range(EACH):
        verb = rnd.choice([verb for verb in verbs.VERBS if verb != "undo"])
        fitting = [row for row in rows if any(row.place in group for group in verbs.VERBS[verb].places)]
        row = rnd.choice(fitting if fitting and rnd.random() < 0.9 else rows)
        of, more = rnd.choice((str(row.serial), row.key)), {}
        app, ia = rnd.choice(act_worlds.KEYS)
        if verb == "add":
            of = f"{app} {moments.moment_word(ia)}"
        if verb == "move":
            more["to"] = rnd.choice((moments.moment_word(ia), moments.minute_text(ia % moments.DAY),
                                     moments.day_text(ia // moments.DAY)))
        if verb in ("move", "add") and rnd.random() < 0.6:
            more["due"] = rnd.choice(("22.00", moments.moment_word(ia + rnd.randrange(0, 3000))))
        if verb == "complete" and rnd.random() < 0.6:
            more["chain"] = True
        if verb == "rerun" and rnd.random() < 0.7:
            more["followers"] = True
        yield verbs.Intention(verb, of, **more)


def live_lists(planner):
    """The live rows of both plans without their serials, and the pairs of their keys."""
    rows = {serial: row for serial, row in act_worlds.rows_of(planner).items() if row.place in "LWSECH"}
    found = sorted((row.ia, row.app, row.deadline, row.cycle or "", row.place) for row in rows.values())
    pairs = sorted((rows[first].key, rows[last].key) for first, last in planner.pairs)
    return found, pairs, planner.in_force


class Acts(unittest.TestCase):
    def setUp(self):
        self.seen = Counter()

    def test_an_act_does_what_its_preview_says(self):
        for seed in SEEDS:
            plan = act_worlds.Random(seed)
            text = plan.stream()
            world, planner = act_worlds.world_of(text)
            for number in range(ROUNDS):  # an act after acts that were done
                last = None
                for wanted in intentions(plan.rnd, world, planner):
                    with self.subTest(seed=seed, number=number, wanted=wanted):
                        found = self.check(world, planner, wanted)
                    last = found if last is None or found and "define" in found.stream else last
                if last is not None:
                    stream = act_worlds.numbered(last.stream, 810_000_000 + 1000 * number)
                    plain.run(stream.encode(), planner)
                    text += stream
                    world = World(act_worlds.Source(text, planner))
        for verb in verbs.VERBS:
            if verb != "undo":
                self.assertGreater(self.seen[verb], 5, (verb, self.seen))
        for what in ("inverse", "no inverse", "note", "one day", "chain", "followers", "not doable"):
            self.assertGreater(self.seen[what], 5, (what, self.seen))

    def check(self, world, planner, wanted):
        """Asks all of one intention; its preview, or None."""
        try:
            act = verbs.act_of(world, wanted)
        except (verbs.NotDoable, verbs.Ambiguous) as why:
            self.assertTrue(str(why))
            self.seen["not doable"] += 1
            return None
        found = previews.of_act(world, act)
        then, replies = act_worlds.after(planner, found.stream)
        self.assertEqual(tuple(replies), found.replies)
        self.assertTrue(all(reply.startswith("ok") for reply in replies), replies)
        rows, later = act_worlds.rows_of(planner), act_worlds.rows_of(then)
        self.assertEqual({one.row.serial: (one.was, one.row) for one in found.changes},
                         {serial: (rows.get(serial), row) for serial, row in later.items() if rows.get(serial) != row})
        before, after = act_worlds.pairs_of(planner), act_worlds.pairs_of(then)
        wanted_pairs = {serial: (before.get(serial, ()), after.get(serial, ())) for serial in {*before, *after}
                        if before.get(serial, ()) != after.get(serial, ())}
        self.assertEqual({one.row.serial: (tuple(sorted(row.serial for row in one.was)),
                                           tuple(sorted(row.serial for row in one.now))) for one in found.waits},
                         wanted_pairs)
        self.assertEqual(act_meanings.wrong(wanted, act, act_meanings.Change(planner, then)), "")
        self.note(wanted, found)
        self.check_inverse(planner, then, found)
        return found

    def check_inverse(self, planner, then, found):
        """Asks that an inverse gives the lists back; and if there is none, that there is a reason, and that the
        statements which could take the act back don't."""
        if not found.inverse.steps:
            self.assertTrue(found.inverse.why_not)
            self.assertFalse(self.is_back(planner, then, self.back(planner, found.act.steps)), found.inverse.why_not)
            return
        self.assertTrue(self.is_back(planner, then, found.inverse.steps))

    def is_back(self, planner, then, back):
        """Whether statements are accepted and give the lists back; None are no statements."""
        if back is None:
            return False
        other, replies = act_worlds.after(then, steps.text_of(back), 800_001_000)
        return all(reply.startswith("ok") for reply in replies) and live_lists(other) == live_lists(planner)

    def back(self, planner, done):
        """The statements that could take others back, by the table of changes; None if some have none."""
        found = []
        for step in done:
            row = next((row for row in act_worlds.rows_of(planner).values() if (row.app, row.ia) == (step.app, step.ia)
                        and row.place in "LWSECH"), None)
            names = BACK.get(step.name, BACK.get(f"{step.name} {row.place if row else ''}"))
            if names is None:
                return None
            found = [*(Step(name, step.app, step.ia) for name in names), *found]
            planner, _ = act_worlds.after(planner, step.text, 800_002_000)
        return found

    def note(self, wanted, found):
        """Counts what was tried."""
        self.seen[wanted.verb] += 1
        self.seen["inverse" if found.inverse.steps else "no inverse"] += 1
        self.seen["note"] += bool(found.notes)
        self.seen["one day"] += any(step.name == "ltp-modify-one" for step in found.act.steps)
        self.seen["chain"] += len(found.act.steps) > 2 and wanted.chain
        self.seen["followers"] += len(found.act.steps) > 1 and wanted.followers


class Inverses(unittest.TestCase):
    """Worked by hand from the rules of pairs."""

    def test_a_reset_whose_run_would_follow_others_has_none(self):
        text = DAY + "".join(f"cp-{name} --job {number}\n" for number, name in enumerate((
            f"start {A}", f"complete {A}", f"start {B}", f"fail {B}"), 10))
        near = "--app AA --ia 2024-01-01/08.30"
        nearer = "".join(f"cp-{name} {near} --job {number}\n" for number, name in enumerate(
            ("add", "start", "complete"), 20))
        for stream, wanted in ((text, ""), (text + nearer, "BB 2024-01-01 09.00 would have other predecessors")):
            world, _ = act_worlds.world_of(stream)
            found = inverses.of_steps(world, [Step("cp-reset", "BB", moments.moment_of("2024-01-01/09.00"))])
            self.assertEqual((found.why_not, len(found.steps)), (wanted, 0 if wanted else 2))


class Worlds(unittest.TestCase):
    def test_a_world_does_what_the_planner_does(self):
        """Random statements one after the other, also such as are refused: the reply, each row, what it has as
        predecessors and as successors, and the lists in force."""
        replies = Counter()
        for seed in range(MOST_WORLDS):
            plan = act_worlds.Random(seed)
            source = act_worlds.Source(plan.stream())
            world, planner = World(source), source.planner.copy()
            for number in range(STATEMENTS):
                step = self.step(plan, planner)
                with self.subTest(seed=seed, number=number, step=step.line):
                    (reply,) = plain.run(step.numbered(f" --job {700_000_000 + number}").encode(), planner)
                    self.assertEqual(world.apply(step), reply)
                    self.assert_alike(world, planner)
                replies[step.name, reply.partition(" ")[0]] += 1
        for name in ("cp-start", "cp-complete", "cp-fail", "cp-reset", "cp-delete", "cp-add", "ltp-add", "ltp-delete",
                     "ltp-modify-one", "undefine"):
            self.assertGreater(min(replies[name, "ok"], replies[name, "refused"]), 2, (name, replies))

    def step(self, plan, planner):
        """A statement at random."""
        rnd, (app, ia) = plan.rnd, plan.rnd.choice(act_worlds.KEYS)
        rows = list(act_worlds.rows_of(planner).values())
        name = rnd.choice(("define", "undefine", "ltp-modify-one", *("cp-add", "ltp-add", "ltp-delete") * 2,
                           *PLACES, *PLACES, "cp-start", "cp-start"))
        if rnd.random() < 0.8:
            fitting = [row for row in rows if row.place in PLACES.get(name, row.place)]
            app, ia = rnd.choice(fitting if fitting and rnd.random() < 0.8 else rows)[1:3]
        if name == "define":
            kind = rnd.choice(("run-cycles", "predecessors", "applications"))
            data = {"run-cycles": plan.cycles(app), "predecessors": plan.lists() or "AA,AA,\n",
                    "applications": f"{app},{rnd.choice('AAAP')},\n"}[kind]
            return Step(name, app, None, kind, data)
        if name == "undefine":
            return Step(name, app, None, rnd.choice(("run-cycles", "predecessors")))
        return Step(name, app, None if name == "ltp-modify-one" else ia)

    def assert_alike(self, world, planner):
        """Asks that a world has all that a planner has."""
        rows, pairs = act_worlds.rows_of(planner), act_worlds.pairs_of(planner)
        self.assertEqual({serial: row for app in act_worlds.APPS for serial, row in world.rows(app).items()}, rows)
        self.assertEqual({serial: before for serial, row in rows.items() if (before := world.before(row))}, pairs)
        behind = {}
        for serial in pairs:
            for other in pairs[serial]:
                behind.setdefault(other, set()).add(serial)
        self.assertEqual({serial: {one.serial for one in found} for serial, row in rows.items()
                          if (found := world.behind(row))}, behind)
        self.assertEqual(world.in_force, {app: listed for app, listed in planner.in_force.items() if listed})


if __name__ == "__main__":
    unittest.main()
