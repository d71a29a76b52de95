"""The state of the plan that an answer to a stream names: a writer who sends each stream on the condition of the answer
before it gets through if nobody else changed the plan in between, and only then."""

import dataclasses
import json
import unittest

from support import desks
from support.tag_worlds import explored, InvariantViolated, Kind, LIST, NONE, OK, REFUSED, WorldDesk

from opcplan.desk import body, routes

START, COMPLETE = (f"cp-{what} --app APP00 --ia 2024-01-01/08.00" for what in ("start", "complete"))
LATER = "cp-add --app APP00 --ia 2024-01-02/09.00"
WORLDS = {
    "changes": Kind(((OK, OK), (OK,)), (OK,)),
    "a refused change at the end": Kind(((OK, REFUSED), (OK,)), (OK,)),
    "no statement at the end": Kind(((OK, NONE), (NONE, OK)), (OK,)),
    "a list at the end": Kind(((OK, LIST), (OK,)), (OK,)),
    "a list first": Kind(((LIST,), (OK, OK)), (OK,)),
    "a lost answer": Kind(((OK, OK), (OK,)), (OK,), answers_lost=1),
    "a lost answer, and a key that is known late": Kind(((OK, REFUSED), (OK,)), (OK,), answers_lost=1, is_late=True),
    "others who are refused": Kind(((OK, NONE), (LIST, OK), (OK,)), (REFUSED,)),
}


class EarlyState(body.Body):
    """What isn't a statement has the state in which the stream came."""

    def ask(self, one, place):
        found = super().ask(one, place)
        if one.reply is not None:
            found.tag, found.position = self.desk.tag(), self.desk.position
        return found


class LaterState(WorldDesk):
    """A change that was done before has the state of now."""

    def answer(self, one):
        super().answer(dataclasses.replace(one, tag=self.tag(), position=self.position))


class Worlds(unittest.TestCase):
    def test_every_order_of_two_writers(self):
        for name, kind in WORLDS.items():
            counts = explored(kind)
            self.assertEqual(max(counts), len(kind.streams), name)
            if OK not in kind.others:
                self.assertEqual(min(counts), len(kind.streams), name)
            print(f"{name}: {len(counts):,} orders")

    def test_mutants_are_caught(self):
        for name, how in (("changes", {"tag_of": lambda states: states[0]}),
                          ("no statement at the end", {"body_of": EarlyState}),
                          ("a lost answer, and a key that is known late", {"desk_of": LaterState})):
            with self.assertRaises(InvariantViolated, msg=name):
                explored(WORLDS[name], **how)


@unittest.skipIf(desks.why_not(), desks.why_not())
class Answers(desks.Case):
    def test_headers_and_lines_name_the_state_after_each_statement(self):
        desk = self.desk()
        text = f"{START}\nlist cp --app APP00\n{START}\n{COMPLETE}\nx\n"
        _, heads, answer = desk.posted(text, Accept=routes.LINES)
        lines = [json.loads(line) for line in answer.splitlines()]
        life = lines[0]["tag"].rpartition("-")[0]
        self.assertEqual([(one["tag"], one["position"]) for one in lines], [
            (f"{life}-{changed}", position) for changed, position in ((1, 1), (1, 1), (1, 2), (3, 3), (3, 3))])
        self.assertEqual((heads["ETag"], heads["X-Opcplan-Position"]), (f'"{life}-3"', "3"))
        self.assertEqual(desk.posted("")[1]["ETag"], f'"{life}-3"')
        self.assertEqual(desk.posted("list cp\n")[1]["ETag"], f'"{life}-3"')
        self.end(desk)

    def test_streams_that_are_chained_by_their_tags_get_through(self):
        desk = self.desk()
        tag = desk.posted("list cp --app APP00\n")[1]["ETag"]
        for place, text in enumerate((f"{START}\n{START}\n", f"{COMPLETE}\nlist cp\nx\n", f"x\n{LATER}\n")):
            for _ in range(2):  # the second time as if the first answer was lost
                status, heads, answer = desk.posted(text, If_Match=tag, Idempotency_Key=f"k{place}")
                self.assertEqual((status, answer.count("ok serial")), (200, 1), answer)
            tag = heads["ETag"]
        desk.posted("cp-start --app APP02 --ia 2024-01-01/08.02\n")
        status, heads, answer = desk.posted(f"x\n{LATER[:-1]}1\n", If_Match=tag)
        self.assertEqual((status, answer), (200, "refused 10\n"))
        self.assertEqual(desk.posted(f"{LATER[:-1]}2\n", If_Match=tag)[0], 412)
        self.end(desk)

    def test_a_long_answer_has_no_state_in_its_headers(self):
        desk = self.desk()
        text = f"{START}\n" + "list ltp\n" * 60  # of 620 rows each
        _, heads, answer = desk.posted(text, Accept=routes.LINES)
        self.assertGreater(len(answer), body.MOST_HELD)
        self.assertEqual((heads["ETag"], heads["X-Opcplan-Position"]), (None, None))
        self.assertTrue(json.loads(answer.splitlines()[-1])["tag"].endswith("-1"))
        _, heads, answer = desk.posted("list ltp\n" * 2)
        self.assertTrue(heads["ETag"].endswith('-1"'))
        self.end(desk)


if __name__ == "__main__":
    unittest.main()
