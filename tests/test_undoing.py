"""Changes that are undone afterwards, by the entries of a journal: over random plans and acts, and case by case."""

import unittest
from collections import Counter

from support import act_worlds, plans

from opcplan.acts import previews, steps, undoing, verbs
from opcplan.acts.undoing import Done
from opcplan.acts.verbs import Intention, NotDoable
from opcplan.acts.world import World
from opcplan.rules import moments
from test_acts import A, B, DAY, intentions

SEEDS = range(40)
UNDO = Intention("undo")


def entries_of(text, replies, first=1, key=None, who="anna"):
    """The entries of a stream that was answered."""
    found = []
    items = [item for item in plans.items_of(text)]
    for place, (item, reply) in enumerate(zip(items, replies, strict=True)):
        data = item.data.decode() if item.data is not None else ""
        own = None if key is None else key if not place else f"{key}#{place}"
        found.append(Done(item.text.decode(), data, reply, first + place, who, own))
    return found


def live_rows(planner):
    """The live rows of both plans without their serials, and the pairs of those that wait."""
    rows = act_worlds.rows_of(planner)
    pairs = sorted((rows[first].key, rows[last].key) for first, last in planner.pairs if rows[first].place in "LW")
    return sorted((row.ia, row.app, row.deadline, row.cycle or "", row.place)
                  for row in rows.values() if row.place in "LWSECH"), pairs


class Random(unittest.TestCase):
    def test_what_is_undone_at_once_is_as_it_was(self):
        seen = Counter()
        for seed in SEEDS:
            plan = act_worlds.Random(seed)
            text = plan.stream()
            source = act_worlds.Source(text)
            for wanted in intentions(plan.rnd, World(source), source.planner):
                with self.subTest(seed=seed, wanted=wanted):
                    self.check(text, source, wanted, seen)
        for verb in ("start", "fail", "reset", "cancel", "move", "add", "rerun"):
            self.assertGreater(seen[verb, True], 2, (verb, seen))
        self.assertEqual(seen["complete", True], 0)

    def check(self, text, source, wanted, seen):
        """Asks that an act that is done and undone leaves all as it was, or that there is a reason."""
        try:
            act = verbs.act_of(World(source), wanted)
        except (NotDoable, verbs.Ambiguous):
            return
        stream = act_worlds.numbered(steps.text_of(act.steps), 600_000_000)
        then = source.planner.copy()
        replies = plans.plain.run(stream.encode(), then)
        first = [source.planner.jobs[item.statement.job][1] for item in plans.items_of(text)]
        entries = entries_of(text, first)
        entries += entries_of(stream, replies, len(entries) + 1, "act-0123")
        world = World(act_worlds.Source(text + stream, then))
        done = undoing.last_of(entries, "anna")
        self.assertEqual(len(done), len(act.steps))
        inverse = previews.of_act(World(source), act).inverse
        try:
            undo = undoing.act_of(world, UNDO, done, entries)
        except NotDoable as why:
            self.assertTrue(str(why))
            if wanted.verb not in ("reset", "rerun"):  # pairs of before aren't known here
                self.assertFalse(inverse.steps, why)
            seen[wanted.verb, False] += 1
            return
        back, answers = act_worlds.after(then, steps.text_of(undo.steps))
        self.assertTrue(all(answer.startswith("ok") for answer in answers), answers)
        self.assertEqual(live_rows(back), live_rows(source.planner))
        seen[wanted.verb, True] += 1


class Others(unittest.TestCase):
    """Somebody else changes the plan between an act and `undo`."""

    def test_what_others_changed_stays(self):
        """What is undone is as it was before the act, all else is as others left it, and what of the act others have
        changed since isn't undone."""
        seen = Counter()
        for seed in range(45):
            plan = act_worlds.Random(1000 + seed)
            text = plan.stream()
            source = act_worlds.Source(text)
            for wanted in intentions(plan.rnd, World(source), source.planner):
                try:
                    act = verbs.act_of(World(source), wanted)
                except (NotDoable, verbs.Ambiguous):
                    continue
                others = self.statements(plan.rnd, act, source.planner)
                is_of_one_day = any(step.name == "define" for step in act.steps)
                with self.subTest(seed=seed, wanted=wanted, others=others):
                    is_undone = self.check(text, source, act, others)
                    seen[wanted.verb, is_undone] += 1
                    seen["one day", is_undone] += is_of_one_day
        for verb in ("start", "fail", "cancel", "move", "add", "rerun", "one day"):
            self.assertGreater(min(seen[verb, True], seen[verb, False]), 1, (verb, seen))

    def statements(self, rnd, act, planner):
        """What somebody else does, about the runs of an act and others."""
        was, now = live_keys(planner), live_keys(act_worlds.after(planner, steps.text_of(act.steps))[0])
        keys = [key for key in {**was, **now} if was.get(key) != now.get(key)] + [rnd.choice(act_worlds.KEYS)]
        found = []
        for _ in range(rnd.choice((1, 1, 2, 3))):
            app, ia = rnd.choice(keys)
            name = rnd.choice(("cp-start", "cp-complete", "cp-fail", "cp-reset", "cp-delete", "cp-add", "ltp-add",
                               "ltp-delete", "ltp-modify-one", "dp-extend", "dp-extend"))
            end = moments.moment_word(planner.bounds[2] + rnd.choice((60, 720, 1440)))
            found.append({"dp-extend": f"{name} --to {end}", "ltp-modify-one": f"{name} --app {app}"}.get(
                name, f"{name} --app {app} --ia {moments.moment_word(ia)}"))
        return "".join(f"{one}\n" for one in found)

    def check(self, text, source, act, others):
        """Asks all of one act that is undone after others; whether it is."""
        states, entries = [source.planner], []
        for stream, who, key in ((steps.text_of(act.steps), "anna", "act-0123"), (others, "bert", None)):
            stream = act_worlds.numbered(stream, 600_000_000 + 1000 * len(states))
            states.append(states[-1].copy())
            replies = plans.plain.run(stream.encode(), states[-1])
            entries += entries_of(stream, replies, len(entries) + 1, key, who)
            text += stream
        try:
            undo = undoing.act_of(World(act_worlds.Source(text, states[-1])), UNDO, undoing.last_of(entries, "anna"),
                                  entries)
        except NotDoable as why:
            self.assertTrue(str(why))
            return False
        back, replies = act_worlds.after(states[-1], steps.text_of(undo.steps), 700_000_000)
        self.assertTrue(all(reply.startswith("ok") for reply in replies), replies)
        before, done, left, then = map(live_keys, (*states, back))
        is_extended = any(one.who == "bert" and one.line.startswith("dp-") for one in entries if
                          one.reply.startswith("ok"))
        plain_of = (lambda one: one and (*one[:2], one[2].translate(str.maketrans("LH", "WC")))) if is_extended else \
            (lambda one: one)
        for key in {*before, *done, *left, *then}:
            if before.get(key) != done.get(key):
                self.assertEqual(plain_of(left.get(key)), plain_of(done.get(key)), f"{key} was changed since")
                self.assertEqual(plain_of(then.get(key)), plain_of(before.get(key)), f"{key} isn't as before")
            else:
                self.assertEqual(then.get(key), left.get(key), f"{key} isn't as others left it")
        return True


def live_keys(planner):
    """By application and input arrival each live row: its deadline, its run cycle and its place."""
    return {(row.app, row.ia): (row.deadline, row.cycle, row.place) for row in act_worlds.rows_of(planner).values()
            if row.place in "LWSECH"}


class Cases(unittest.TestCase):
    def undone(self, *lines, **how):
        """The statements that take the last change back after some lines, or why there are none."""
        stream = "".join(f"{line} --job {number}\n" for number, line in enumerate(lines, 10))
        planner = plans.planner_from(DAY)
        replies = plans.plain.run(stream.encode(), planner)
        entries = [one._replace(**how) if place == len(lines) - 1 else one
                   for place, one in enumerate(entries_of(stream, replies))]
        try:
            done = undoing.last_of(entries, "anna")
            act = undoing.act_of(World(act_worlds.Source(DAY + stream, planner)), UNDO, done, entries)
        except NotDoable as why:
            return str(why)
        return [step.line for step in act.steps]

    def test_by_the_table_of_changes(self):
        start, fail = f"cp-start {A}", f"cp-fail {A}"
        self.assertEqual(self.undone(start), [f"cp-fail {A}", f"cp-reset {A}"])
        self.assertEqual(self.undone(start, fail), [f"cp-reset {A}", f"cp-start {A}"])
        self.assertEqual(self.undone(start, fail, f"cp-reset {A}"), [f"cp-start {A}", f"cp-fail {A}"])
        self.assertIn("what is complete stays complete", self.undone(start, f"cp-complete {A}"))
        self.assertIn("and was due 2024-01-01 22.00", self.undone(f"cp-delete {A}"))
        self.assertIn("`add AA 2024-01-01/08.00` adds it all the same", self.undone(f"cp-delete {A}"))
        self.assertEqual(self.undone("cp-add --app AA --ia 2024-01-01/09.00"),
                         ["cp-delete --app AA --ia 2024-01-01/09.00"])
        self.assertEqual(self.undone("cp-add --app AA --ia 2024-01-01/09.00", "cp-delete --app AA --ia "
                                     "2024-01-01/09.00"), ["cp-add --app AA --ia 2024-01-01/09.00"])

    def test_what_was_in_error_is_again(self):
        """Also if no entry of the journal says that it was."""
        key = "--app AA --ia 2024-01-01/09.00"
        add, start, fail, reset, delete = (f"cp-{name} {key}" for name in ("add", "start", "fail", "reset", "delete"))
        self.assertEqual(self.undone(add, start, fail, delete), [add, start, fail])
        self.assertEqual(self.undone(add, start, fail, reset, delete), [add])
        self.assertEqual(self.undone(add, start, fail, reset, start, fail, delete), [add, start, fail])

    def test_what_an_agent_did_and_what_was_refused_is_not_the_last_change(self):
        start = f"cp-start {A}"
        self.assertIn("has changed since: it is in error",
                      self.undone(start, f"cp-fail {A}", key="agent-main-" + "0" * 24))
        self.assertEqual(self.undone(start, f"cp-start {B}"), [f"cp-fail {A}", f"cp-reset {A}"])
        self.assertIn("there is no change of anna", self.undone(start, who="bert"))

    def test_what_has_changed_since_is_not_undone(self):
        stream = f"cp-start {A} --job 10\ncp-complete {A} --job 11\n"
        planner = plans.planner_from(DAY)
        entries = entries_of(stream, plans.plain.run(stream.encode(), planner))
        world = World(act_worlds.Source(DAY + stream, planner))
        for seq, text in ((1, "has changed since: it is complete"), (2, "what is complete stays complete"),
                          (9, "the journal has no entry 9")):
            with self.assertRaisesRegex(NotDoable, text):
                undoing.act_of(world, UNDO, undoing.of_entry(entries, seq), entries)
        stream += f"cp-start {B} --job 12\ncp-fail {B} --job 13\ncp-reset {B} --job 14\n"
        stream += "cp-add --app AA --ia 2024-01-01/08.30 --job 15\n"
        entries = entries_of(stream, plans.plain.run(stream.encode(), planner))
        world = World(act_worlds.Source(DAY + stream, planner))
        with self.assertRaisesRegex(NotDoable, "`cp-start .*` would be refused with 30 11: it waits for AA 2024-01-01 "
                                    "08.30 now"):
            undoing.act_of(world, UNDO, undoing.of_entry(entries, 5), entries)

    def test_a_move_by_run_cycles_that_others_changed_is_not_undone(self):
        """Worked by hand: AA of the 3rd is moved to 10.00, by run cycles of one day."""
        move = Intention("move", "AA 2024-01-03", "10.00")
        for others, wanted in (
            ("dp-extend --to 2024-01-04/00.00\n", "AA 2024-01-03/08.00 isn't made again, because the current plan"),
            ("dp-extend --to 2024-01-03/09.00\n", "AA 2024-01-03/08.00 isn't made again, because the current plan"),
            ("ltp-delete --app AA --ia 2024-01-03/10.00\n", "AA 2024-01-03/10.00 has changed since: it is deleted"),
            ("ltp-add --app AA --ia 2024-01-03/08.00\n", "AA 2024-01-03/08.00 is there again"),
            ("define predecessors\nAA,AA\n/*\n", "other definitions of AA have changed since"),
            ("define periods\nDAY,A,2024-01-01,2\n/*\n", "other definitions of AA have changed since"),
            ("define run-cycles\nAA,R,N,DAY,3,1,2024-01-01,,08.00,0,22.00\n/*\n",
             "the run cycles of AA have"),
            ("dp-extend --to 2024-01-03/00.00\n", ["define run-cycles", "ltp-modify-one --app AA"]),
            ("ltp-modify-all\n", ["define run-cycles", "ltp-modify-one --app AA"]),
        ):
            source = act_worlds.Source(DAY)
            act = verbs.act_of(World(source), move)
            streams = [act_worlds.numbered(one, number) for one, number in (
                (steps.text_of(act.steps), 600_000_000), (others, 700_000_000))]
            replies = [plans.plain.run(one.encode(), source.planner) for one in streams]
            entries = entries_of(streams[0], replies[0], 1, "act-1")
            entries += entries_of(streams[1], replies[1], 3, None, "bert")
            world = World(act_worlds.Source(DAY + "".join(streams), source.planner))
            try:
                found = [step.line for step in undoing.act_of(
                    world, UNDO, undoing.last_of(entries, "anna"), entries).steps]
            except NotDoable as why:
                found = str(why)
            self.assertIn(wanted, found) if isinstance(wanted, str) else self.assertEqual(found, wanted)

    def test_other_statements_have_no_inverse(self):
        self.assertIn("the statements have none that takes `dp-extend` back",
                      self.undone("dp-extend --to 2024-01-03/00.00"))
        self.assertIn("what the definitions were before isn't known", self.undone("ltp-modify-one --app AA"))


if __name__ == "__main__":
    unittest.main()
