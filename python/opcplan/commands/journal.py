"""./plan journal: what a desk was asked, by whom and when, and what it answered."""

import argparse
import datetime
import json
import sys
from typing import NamedTuple

from opcplan.cli import words
from opcplan.commands import journal_prune
from opcplan.errors import Error, UsageError
from opcplan.plans import journal
from opcplan.plans.entry import Entry
from opcplan.rules import moments, printable

SUMMARY = "what callers sent to a desk, who and when, and what it answered"


class Choice(NamedTuple):
    """Which entries are asked for: of an application, from a day to another one."""

    app: str | None
    first: int | None
    last: int | None

    def has(self, one: Entry) -> bool:
        """Whether an entry is one of them."""
        day = (local(one.at).date() - moments.EPOCH.date()).days
        if self.first is not None and day < self.first or self.last is not None and day > self.last:
            return False
        return self.app is None or journal.options(one.text).get("app") == self.app


def add_words(parser: words.Parser) -> None:
    """Adds its words to a parser."""
    parser.description = (
        "Shows the journal of the desk that serves PLAN.db, also while it runs: a line for each change, with its "
        "number, when the desk accepted it, who sent it, the statement and the reply. Days and times are those of this "
        "machine. With --stream it prints the statements as they were done, which opcplan can run again over the plan "
        "as it was. With --prune it says what goes of an old journal and of old logs of jobs, and what stays, asks, "
        "and does it; no desk may have the plan then. The exit status is 1 if there is no journal, or nothing was done."
    )
    words.add_plan(parser, "; with --prune and --logs you may leave it out")
    add_journal(parser)
    parser.add_argument("--app", type=words.name, metavar="A", help="only statements on this application")
    parser.add_argument("--from", dest="first", type=words.day, metavar="D", help="those of this day or later")
    parser.add_argument("--to", dest="last", type=words.day, metavar="D", help="those of this day or before")
    form = parser.add_mutually_exclusive_group()
    form.add_argument("--json", action="store_true", help="a line of JSON for each")
    form.add_argument("--stream", action="store_true", help="the statements alone, as a job stream")
    form.add_argument("--prune", action="store_true", help="remove what is old from the journal, and old logs")
    journal_prune.add_words(parser)


def add_journal(parser: words.Parser, usual: str = "PLAN.db.journal beside the plan") -> None:
    """The option that names a journal, as `words.journal`."""
    parser.add_argument("--journal", type=words.file, metavar="FILE", help=f"the journal of the desk (else {usual})")


def run(given: argparse.Namespace) -> int:
    """Does what the words ask for; the exit status."""
    if given.prune:
        return journal_prune.run(given)
    if journal_prune.is_named(given):
        raise UsageError("--keep, --logs, --size and --yes go with --prune; ./plan journal --help says more")
    if given.plan is None:
        raise UsageError("give PLAN.db; ./plan journal --help says more")
    choice, found = Choice(given.app, given.first, given.last), 0
    with journal.opened(given.journal or journal.beside(given.plan)) as held:
        for one in filter(choice.has, held.every()):
            found += 1
            if given.stream:
                sys.stdout.flush()
                sys.stdout.buffer.write(one.text)
            else:
                print(json.dumps(one.values()) if given.json else line_of(one))
    if not found:
        raise Error("the journal has no such statement")
    return 0


def local(at: str) -> datetime.datetime:
    """A moment of the journal by the clock of this machine."""
    return datetime.datetime.fromisoformat(at.replace("Z", "+00:00")).astimezone()


def line_of(one: Entry) -> str:
    """A line for a reader, fit for a terminal."""
    reply = one.reply if one.reply is not None else "not answered yet"
    return printable.fit(f"{one.seq}  {local(one.at):%Y-%m-%d %H.%M.%S}  {one.who}  {one.line}  {reply}")
