"""`./plan page`: one HTML file that shows a plan."""

import argparse
import gc
import sys

from opcplan.cli import output, words
from opcplan.errors import UsageError
from opcplan.webpage import page_data, page_html

SUMMARY = "one HTML file: what is late and why, each day's order of work, the months"


def add_words(parser: words.Parser) -> None:
    """Adds its words to a parser."""
    words.add_plan(parser)
    words.add_now(parser)
    parser.add_argument("--since", metavar="OLD.db", type=words.file, help="an older copy, to show what changed since")
    parser.add_argument("--from", dest="first", type=words.day, metavar="D",
                        help="the first day to show (else that of this month; the current plan is shown whole)")
    parser.add_argument("--to", dest="last", type=words.day, metavar="D",
                        help="the last day to show (else that of the next month)")
    words.add_journal(parser)
    output.add_words(parser, "the page")


def run(given: argparse.Namespace) -> int:
    """Does what the words ask for; the exit status."""
    if None not in (given.first, given.last) and given.last < given.first:
        raise UsageError("--to is before --from")
    own = [given.plan, given.since or given.plan, given.journal or given.plan]
    if given.out and (why := output.objection(given.out, given.force, *own)):
        raise UsageError(why)
    gc.disable()  # it looks through 200,000 rows again and again, and finds nothing to throw away
    data = page_data.data_of(given.plan, given.now, given.first, given.last, given.since, given.journal)
    page = page_html.page_of(data)
    if given.out:
        output.write(given.out, page.encode("utf-8", "replace"), given.force, *own)
    else:
        sys.stdout.write(page)
    return 0
