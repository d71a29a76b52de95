"""Whose turn it is at a desk: every order of small worlds, and long ones by counted steps."""

import dataclasses
import io
import itertools
import json
import unittest
from contextlib import closing

from support import desks
from support.random_streams import text_of

from opcplan.desk import requests
from opcplan.desk.shares import MOST_ENTRIES, MOST_HELD, next_count, Shares, SLICE
from opcplan.rules import stream


def run(callers, steps, is_busy=lambda now: True):
    """Lets callers who always have work take turns for so many steps: by caller how long each turn takes. The turns as
    (caller, begin, end), and how many steps nobody had one."""
    shares, now, turns, idle = Shares(), 0, [], 0
    names = list(callers)
    while now < steps:
        place = shares.choose(names, now, is_busy(now))
        if place is None:
            now, idle = now + 1, idle + 1
            continue
        who = names[place]
        turns.append((who, now, now + callers[who]))
        now += callers[who]
        shares.over(who, callers[who], now)
    return turns, idle


class Turns(unittest.TestCase):
    def test_every_order_of_small_worlds(self):
        """Up to three callers come, in each order, and have turns of 1 or 3 steps; changes are in progress all the
        time, never, or by turns."""
        count = 0
        for lengths in itertools.chain.from_iterable(itertools.product((1, 3), repeat=many) for many in (1, 2, 3)):
            for busy in (lambda now: True, lambda now: False, lambda now: now % 7 < 4):
                turns, idle = run({f"caller {place}": took for place, took in enumerate(lengths)}, 200, busy)
                self.check(turns, len(lengths), busy)
                if not busy(0) and not busy(1):
                    self.assertEqual(idle, 0)
                count += len(turns)
        print(f"{count:,} turns")

    def check(self, turns, many, busy):
        """Asks of each turn that it is where it may be."""
        last = {}
        for place, (who, begin, end) in enumerate(turns):
            if busy(begin) and place:
                _, before_begin, before_end = turns[place - 1]
                self.assertGreaterEqual(begin - before_end, before_end - before_begin)
            if busy(begin) and who in last:
                self.assertGreaterEqual(begin - last[who][1], 3 * (last[who][1] - last[who][0]))
            last[who] = begin, end
        for place, (one, begin, end) in enumerate(turns):
            may_go = end + 3 * (end - begin)
            later = itertools.takewhile(lambda turn: turn[0] != one, turns[place + 1 :])
            others = [who for who, begun, _ in later if begun >= may_go]
            self.assertEqual(len(others), len(set(others)), turns[place])  # each other one has one turn before it
        self.assertEqual(len({who for who, *_ in turns}), many)

    def test_what_callers_get_of_a_busy_desk(self):
        for many, took in ((1, 1), (1, 3), (2, 3), (3, 2), (10, 3)):
            turns, _ = run({f"caller {place}": took for place in range(many)}, 20_000)
            each = [sum(end - begin for who, begin, end in turns if who == f"caller {place}") / 20_000
                    for place in range(many)]
            wanted = min(0.25, 0.5 / many)
            self.assertLessEqual(max(each), wanted + 0.001)
            self.assertGreaterEqual(min(each), wanted * 0.9)

    def test_a_caller_with_little_work_does_not_wait_for_one_with_much(self):
        shares = Shares()
        shares.over("much", 2.0, 100.0)
        self.assertIsNone(shares.choose(["much", "little"], 101.0, True))  # the last turn of all is followed by others
        self.assertEqual(shares.choose(["much", "much", "little"], 102.0, True), 2)
        self.assertIsNone(shares.choose(["much"], 105.9, True))
        self.assertEqual(shares.choose(["much"], 105.9, False), 0)
        self.assertEqual(shares.choose(["much"], 106.0, True), 0)
        shares.over("much", 1000.0, 2000.0)
        self.assertEqual(shares.choose(["much"], 2000.0 + MOST_HELD, True), 0)
        self.assertIsNone(shares.choose([], 5000.0, True))

    def test_a_slice_becomes_as_long_as_it_has_to_be(self):
        self.assertEqual([next_count(32, took) for took in (SLICE, SLICE / 2, SLICE / 100, 4 * SLICE, 1000.0)],
                         [32, 64, 64, 8, 1])
        self.assertEqual(next_count(MOST_ENTRIES, 0.0), MOST_ENTRIES)
        for each in (0.00001, 0.001, 0.1):  # of an entry
            count = 32
            for _ in range(20):
                count = next_count(count, count * each)
            self.assertLessEqual(count * each, max(SLICE, each) * 1.01)


class Steps(unittest.TestCase):
    def test_a_stream_in_memory_has_the_items_that_it_has_line_by_line(self):
        for seed in range(500):
            text = text_of(seed)
            wanted = [dataclasses.replace(one, odd_ends=(), wrong="")
                      for one in stream.items(stream.Source(io.BytesIO(text), "it"))]
            found = [dataclasses.replace(one, wrong="") for one in stream.steps(text, "it") if one is not None]
            self.assertEqual(found, wanted, (seed, text[:500]))

    def test_a_step_is_short_whatever_a_stream_has(self):
        """Of 3 MB each step takes at most so many bytes, or lines of data that look like their end."""
        for text in (b"* a comment\n" * 250_000, b"\n" * 900_000, b"x\n" * 99_000, b"  \n*\n" * 180_000):
            count = sum(1 for _ in requests.steps(text))
            self.assertGreaterEqual(count, len(text) // stream.STEP)
        ends = b"define periods\n" + b"/*x\n" * 700_000
        found = []
        with self.assertRaises(requests.BadStream):
            found.extend(requests.steps(ends))
        self.assertEqual(sum(1 for _ in stream.steps(ends, "it")), 1 + 700_000 // stream.STEP_LINES)

    def test_a_stream_has_bounds(self):
        for text, why in ((b"\n" * 1_000_001, "1,000,000 lines"), (b"x\n" * 100_001, "100,000 statements")):
            with self.assertRaises(requests.BadStream) as caught:
                requests.of_stream(text)
            self.assertIn(why, str(caught.exception))


@unittest.skipIf(desks.why_not(), desks.why_not())
class Answers(desks.Case):
    def test_a_reader_who_waits_keeps_nobody_from_a_turn(self):
        """A whole slice of events comes, so the reader had a turn, and then waits for the next event."""
        desk = self.desk()
        desk.posted("".join(f"cp-add --app APP00 --ia 2024-01-02/{place // 60:02}.{place % 60:02}\n"
                            for place in range(96)))
        head = b"GET /events?since=0 HTTP/1.1\r\nHost: 127.0.0.1:%d\r\n\r\n" % desk.port
        with closing(desks.raw(desk.port, head)) as one:
            found = b""
            while b"event: state" not in found:
                found += one.recv(1 << 16)
            self.assertEqual(found.count(b"event: entry"), 96)
            lines = desk.asked("GET", "/journal?from=3")[2].splitlines()
            self.assertEqual([json.loads(line)["seq"] for line in lines], list(range(3, 97)))
            answer = desk.posted("* a comment\n" * 20_000 + "x\n" * 20_000)[2]
            self.assertEqual(answer, "refused 10\n" * 20_000)
        self.end(desk)


if __name__ == "__main__":
    unittest.main()
