"""What several desks over one log know of callers' keys, in every interleaving of small worlds: callers who send a
stream again at another desk, appends whose answers are lost or that come late, desks that are killed or replaced by a
copy, trims, and a week that passes.

Each state of a world is met once. What lacks one of the rules of `opcplan.desk.keys` has to be caught: the mutants."""

import dataclasses
import itertools
import tempfile
import unittest
from contextlib import closing
from pathlib import Path

from support.key_worlds import explored, InvariantViolated, Kind, Left, QUESTION, Rules, Stream, walked

from opcplan.desk import keys, log
from opcplan.desk.log_entries import holder_of
from opcplan.plans import entry
from opcplan.plans.entry import Entry, Wanted
from opcplan.plans.journal import Journal

MOST = 40_000  # states of all worlds together, which stay small
K, L, M = (Stream(name, ("a",)) for name in "KLM")
WORLDS = {
    "a caller goes over": Kind(2, ((K,),), Left(overs=2, losses=1, kills=1)),
    "a caller goes over, of three desks": Kind(3, ((K,),), Left(overs=1, losses=1)),
    "two callers": Kind(2, ((K,), (L,)), Left(overs=1)),
    "an answer is lost beside another caller": Kind(2, ((K,), (L,)), Left(losses=1)),
    "one stream of two callers": Kind(2, ((K,), (K,)), Left(kills=1)),
    "two streams under one key": Kind(2, ((K,), (Stream("K", ("b",)),)), Left(overs=1, losses=1)),
    "a stream that begins with a list": Kind(2, ((Stream("K", (QUESTION, "a")),), (Stream("K", ("b",)),)), Left(
        losses=1)),
    "a stream of two changes": Kind(2, ((Stream("K", ("a", "b")),),), Left(overs=1, losses=1, kills=1)),
    "a desk begins with a copy": Kind(2, ((K, M),), Left(answers=1, lost=1, copies=1, losses=1)),
    "a desk with a copy is killed": Kind(2, ((K,),), Left(answers=1, lost=1, copies=1, kills=1)),
    "a copy, and a key of two streams": Kind(2, ((Stream("K", (QUESTION, "a")),), (Stream("K", ("b",)),)), Left(
        lost=1, copies=1)),
    "a trim, and a copy": Kind(2, ((K, M),), Left(answers=1, lost=1, copies=1, trims=1)),
    "a week, a trim and a copy": Kind(2, ((K, M),), Left(answers=1, lost=1, copies=1, trims=1, weeks=1)),
}
# for walks
LARGER = Kind(3, ((K, Stream("N", (QUESTION, "a", "b"))), (L, M, K), (Stream("N", ("b",)), M)), Left(
    overs=4, answers=3, losses=3, kills=3, lost=2, copies=3, trims=3, weeks=1))


class OnlyWhenAsked(keys.Keys):
    """A desk looks a key up when a caller comes, and not again before it appends: so the index of etcd decided, whose
    lease may be over."""

    def used(self, batch):
        return {}


class OneEarly(keys.Keys):
    """The last entry that the desk took isn't looked at."""

    def placed(self, batch, given, head):
        try:
            return super().placed(batch, given, head)
        except log.KeysInUse as why:
            if all(one is not None and one.seq == given for one in why.found.values()):
                return entry.placed(batch, head)
            raise


class NotLevel(keys.Keys):
    """A desk appends after an entry of which it heard, though it hasn't taken all entries before."""

    def placed(self, batch, given, head):
        return super().placed(batch, head, head)


class ByWholeKey(keys.Keys):
    """A key belongs to a stream only if the stream's first statement has it."""

    def stream_of(self, who, key):
        known = self.stored.find(who, key)
        return None if known is None else known.stream


class BeforeOneEarly(keys.Keys):
    """Of the entries before a journal the last one isn't looked at."""

    def learn(self, entries):
        super().learn([one for one in entries if one.seq < self.stored.begins])


class BeforeByWholeKey(keys.Keys):
    """Of the entries before a journal a stream is found only by its first statement."""

    def learn_holder(self, who, key, holder):
        self.before.setdefault((who, key), holder)


def trimmed_without_keys(wanted, positions, young):
    return keys.trimmed_to(wanted, positions, None)


def trimmed_behind_key(wanted, positions, young):
    return keys.trimmed_to(wanted, positions, young and young + 1)


def one_late(first, last, since):
    """Looks for the first young entry, and finds the one after it."""
    found = yield from keys.first_since(first, last, since)
    return found + 1


class States(unittest.TestCase):
    def test_every_interleaving_of_small_worlds(self):
        total = 0
        for name, kind in WORLDS.items():
            count = explored(kind)
            self.assertGreater(count, 100, name)
            print(f"{name}: {count:,} states")
            total += count
        print(f"{total:,} states of {len(WORLDS)} worlds")
        self.assertLess(total, MOST)

    def test_walks_at_random_through_a_larger_world(self):
        for seed in range(200):
            self.assertGreater(walked(LARGER, seed), 15)


class Mutants(unittest.TestCase):
    """Desks that lack a rule are caught."""

    def caught(self, name, **mutant):
        with self.assertRaises(InvariantViolated) as caught:
            explored(WORLDS[name]._replace(rules=Rules(**mutant)))
        return str(caught.exception)

    def test_a_look_up_that_is_too_early(self):
        for name in ("a caller goes over", "a caller goes over, of three desks", "one stream of two callers"):
            for mutant in (OnlyWhenAsked, OneEarly):
                self.assertIn("K is done twice", self.caught(name, known=mutant))
        self.assertIn("K is done twice", self.caught("two callers", known=OnlyWhenAsked))

    def test_an_append_after_entries_that_the_desk_lacks(self):
        self.assertIn("K is done twice", self.caught("a caller goes over", known=NotLevel))

    def test_a_key_of_another_stream(self):
        self.assertIn("K belongs to", self.caught("a stream that begins with a list", known=ByWholeKey))
        self.assertIn("K belongs to", self.caught("a copy, and a key of two streams", known=BeforeByWholeKey))

    def test_keys_before_a_journal(self):
        for mutant in ({"known": BeforeOneEarly}, {"reads_keys": False}, {"first_since": one_late}):
            for name in ("a desk begins with a copy", "a desk with a copy is killed"):
                self.assertIn("K is done twice", self.caught(name, **mutant))

    def test_a_trim_of_keys_that_may_come_again(self):
        for mutant in (trimmed_without_keys, trimmed_behind_key):
            self.assertIn("K is done twice", self.caught("a trim, and a copy", trimmed_to=mutant))


def moment(number):
    """A moment so many seconds after another one."""
    return entry.moment_text(1_704_100_000 + number)


def change(seq, key, stream="s", text="cp-add"):
    return Entry(seq, moment(seq), "me", key, entry.number_of(seq), f"{text} --job {entry.number_of(seq)}\n".encode(),
                 None, stream)


def wanted(key, stream="s", text="cp-add"):
    return Wanted("me", key, text, None, None, moment(0), stream)


class Parts(unittest.TestCase):
    def test_the_first_entry_that_is_young(self):
        """Of each list of up to six entries, some of which are removed: the first that is no older."""
        for count, removed, old in itertools.product(range(7), range(7), range(7)):
            if removed > old or old > count:
                continue
            search = keys.first_since(1, count, moment(100))
            try:
                seq = next(search)
                while True:
                    self.assertLessEqual(seq, count)
                    seq = search.send(None if seq <= removed else moment(99 if seq <= old else 100))
            except StopIteration as found:
                self.assertEqual(found.value, old + 1, (count, removed, old))

    def test_what_a_trim_leaves(self):
        self.assertEqual(keys.trimmed_to(9, {}, None), 9)
        self.assertEqual(keys.trimmed_to(9, {"a": 7, "b": 12}, None), 7)
        self.assertEqual(keys.trimmed_to(9, {"a": 7}, 3), 3)
        self.assertEqual(keys.trimmed_to(9, {"a": 7}, 8), 7)

    def journal(self):
        room = tempfile.TemporaryDirectory(prefix="keys-")
        self.addCleanup(room.cleanup)
        found = self.enterContext(closing(Journal(str(Path(room.name) / "journal"))))
        return found

    def test_keys_of_a_journal_and_before_it(self):
        journal = self.journal()
        journal.put([change(8, "K#1"), change(9, "K#10"), change(10, "N")])
        found = keys.Keys(journal)
        found.learn([change(5, None), change(6, "L#2"), change(7, "M", None)])
        for known, seq in (("K#1", 8), ("K#10", 9), ("L#2", 6)):
            (one,) = found.used([wanted(known)]).values()
            self.assertEqual((one.seq, one.text), (seq, change(seq, known).text))
        self.assertEqual(found.used([wanted("M", None)])[0].seq, 7)
        self.assertEqual(found.used([wanted("K"), wanted("K#2"), wanted("J"), wanted("K-", "t"), wanted(None)]), {})
        # of another stream, though no statement has the stream's own key, and another statement without a stream
        self.assertEqual(found.used([wanted("K", "t"), wanted("K#1", "t"), wanted("L", "t"), wanted("L#2", "t")]),
                         dict.fromkeys(range(4)))
        self.assertEqual(found.used([wanted("M", None, "cp-delete"), wanted("N", "s", "cp-delete")]),
                         {0: None, 1: None})

    def test_keys_before_a_journal_that_are_old_are_dropped(self):
        found = keys.Keys(self.journal())
        found.learn([change(1, "K"), change(2, "L", "t"), change(3, "M", "u")])
        found.forget(moment(3))
        self.assertEqual((found.before, found.streams), ({("me", "M"): holder_of(change(3, "M", "u"))},
                                                         {("me", "M"): "u"}))

    def test_the_first_entry_of_a_week_has_the_key_in_a_journal(self):
        """Where a log has a key twice, as desks of an earlier program left it."""
        journal, week = self.journal(), 7 * 24 * 3600
        journal.put([change(1, "K"), change(2, "K")])
        self.assertEqual(journal.find("me", "K").seq, 1)
        journal.put([dataclasses.replace(change(3, "K"), at=moment(week))])
        self.assertEqual(journal.find("me", "K").seq, 1)
        journal.put([dataclasses.replace(change(4, "K"), at=moment(week + 2))])
        self.assertEqual(journal.find("me", "K").seq, 4)
        self.assertEqual([one.key for one in journal.every()], [None, None, None, "K"])
        journal.put([change(seq, "K") for seq in range(1, 5)])  # they are there already
        self.assertEqual(journal.find("me", "K").seq, 4)

    def test_a_gap_in_a_journal(self):
        journal = self.journal()
        journal.put([change(3, "K"), change(4, "L"), change(6, "M")])
        for begins, last, wanted_one in ((2, 4, 2), (2, 2, 2), (1, 4, 4), (2, 6, 6), (5, 6, 5)):
            self.assertEqual(journal.lacks_upto(begins, last), wanted_one)


if __name__ == "__main__":
    unittest.main()
