#!/usr/bin/env python3
"""tests/support/changed_plan.py NAME WORD..: runs ./plan WORD.. with one thing in its package changed: an older state
of it, or a bug that tools/soak/log-trial has to find."""

import os
import sys

sys.path[0] = os.path.join(os.path.dirname(os.path.realpath(__file__)), "..", "..", "python")
sys.dont_write_bytecode = True

from opcplan.__main__ import run_words  # noqa: E402


def earlier_rules():
    """A desk of the rules before keys were in the log, which a log doesn't name."""
    from opcplan.desk import versions

    versions.RULES = 1


def keys_not_looked_up():
    """Before an append, no key is looked up: done twice, if a retry comes to a desk that lacks the entry."""
    from opcplan.desk import keys

    keys.Keys.used = lambda self, batch: {}


def copy_without_keys():
    """A desk that begins with a copy reads no keys of the log."""
    from opcplan.desk import bootstrap, keys

    async def none(_store, _state, record, _given):
        return keys.Keys(record)

    bootstrap.keys_of = none


def no_answer_is_done():
    """An append without an answer is taken for done: lost, if etcd never got it."""
    from opcplan.desk import etcd_log, store
    from opcplan.desk.etcd import EtcdUnreachable

    async def appended(self, head, entries, until):
        try:
            return await self.store.append(head, "mark", entries, until)
        except EtcdUnreachable:
            return store.Appended(True, head._replace(last=entries[-1].seq), [])

    etcd_log.EtcdLog.appended = appended


def fresh_is_not_asked():
    """What is asked for afresh is what the desk has: older than what another one answered."""
    from opcplan.desk import etcd_log

    async def ask_last(self, _until):
        return self.given

    etcd_log.EtcdLog.ask_last = ask_last


CHANGES = {"earlier-rules": earlier_rules, "keys-not-looked-up": keys_not_looked_up,
           "copy-without-keys": copy_without_keys, "no-answer-is-done": no_answer_is_done,
           "fresh-is-not-asked": fresh_is_not_asked}


if __name__ == "__main__":
    CHANGES[sys.argv.pop(1)]()
    run_words()
