"""./plan edit: the job stream that makes one change of a plan's definitions."""

import argparse
import contextlib
import functools
import sys
from collections.abc import Sequence
from typing import Protocol

from opcplan.acts import loaded
from opcplan.cli import words
from opcplan.commands import (
    edit_application, edit_calendar, edit_change, edit_options, edit_period, edit_predecessor, edit_run_cycle,
    edit_words,
)
from opcplan.edits import edit
from opcplan.edits.changes import ChangeRefused, Unsound
from opcplan.edits.edit import Edit
from opcplan.errors import Unreadable
from opcplan.plans import plan_definitions, plan_file

SUMMARY = "the job stream that makes one change of a plan's definitions"


class Kind(Protocol):
    """A kind of change: the module of its words."""

    SUMMARY: str

    @property
    def WORDS(self) -> tuple[str, ...]:
        """Its arguments, in their order."""

    def add_words(self, parser: words.Parser) -> None:
        """Adds its words to a parser."""


# what somebody may call a change, by its first word without an s
MEANT = {
    "remove": "application NAME remove` removes an application; run-cycle, calendar and period have it too",
    "rename": "application NAME rename NEW` renames an application; run-cycle, calendar and period have it too",
    "copy": "application NEW like OTHER` copies an application; run-cycle, calendar and period have it too",
    "holiday": "calendar DEFAULT 2027-12-24 free` makes a day a holiday",
    "day": "calendar DEFAULT 2027-12-24 free` makes a day free",
    "app": "application NAME ..` changes an application",
    "runcycle": "run-cycle APP NAME FIELD=VALUE ..` changes a run cycle",
    "cycle": "run-cycle APP NAME FIELD=VALUE ..` changes a run cycle",
    "deadline": "run-cycle APP NAME deadline=0/16.00` changes a deadline",
    "dependency": "predecessor APP add P` lets APP wait for P",
    "successor": "predecessor APP add P` lets APP wait for P",
    "option": "options KEY=VALUE ..` changes an option",
    "month": "period NAME months ..2027-12` lists more months",
}
KINDS: dict[str, Kind] = {
    "calendar": edit_calendar,
    "period": edit_period,
    "application": edit_application,
    "run-cycle": edit_run_cycle,
    "predecessor": edit_predecessor,
    "options": edit_options,
}


def add_words(parser: words.Parser) -> None:
    """Adds its words to a parser."""
    parser.description = (
        "Prints the job stream that makes one change of the definitions of PLAN.db: the whole block of what changes, "
        "as the plan has it, with that change in it. Standard error says what changes, what stays, and which statement "
        "puts it into the long-term plan. `remove`, `rename NEW` and `like OTHER` are about a whole application, run "
        "cycle, calendar or period, with each place that names it. The plan itself stays as it is: `./plan edit "
        "PLAN.db .. | ./opcplan --db PLAN.db` changes it. The exit status is 1 if a name isn't known, a thing is in "
        "use, nothing would change, or planning would be refused; 2 if a value is wrong. Then nothing is printed."
    )
    words.add_plan(parser)
    parser.likely = kind_meant
    kinds = parser.add_subparsers(metavar="WHAT", dest="what", required=True)
    for name, module in KINDS.items():
        about = f"{module.SUMMARY[0].upper()}{module.SUMMARY[1:]}."
        kind = kinds.add_parser(name, help=module.SUMMARY, description=about)
        module.add_words(kind)
        kind.likely = functools.partial(name_lacked, parser, module)
        edit_words.add_job(kind)


def kind_meant(typed: Sequence[str]) -> str:
    """Which kind of change a word means that is none, or nothing."""
    what = next(iter([word for word in typed if not word.startswith("-")][1:]), "").lower()
    if what in KINDS:
        return ""
    other = MEANT.get(what.removesuffix("s"))
    return f"there is no WHAT {what!r}: `./plan edit PLAN.db {other}" if other else ""


def name_lacked(parser: words.Parser, module: Kind, typed: Sequence[str]) -> str:
    """That a name is missing before what was typed, and which names the plan has; or nothing."""
    plan = next(iter(parser.typed), "")
    lacks = getattr(module, "name_lacked", None)
    if lacks is None or not words.is_database(plan):
        return ""
    with contextlib.suppress(Unreadable), plan_file.opened(plan) as held:
        return str(lacks(plan_definitions.of_plan(held), list(typed)))
    return ""


def run(given: argparse.Namespace) -> int:
    """Does what the words ask for; the exit status."""
    typed = [given.what]
    for name in KINDS[given.what].WORDS:
        value = getattr(given, name)
        typed += value if isinstance(value, list) else [] if value is None else [str(value)]
    try:
        wanted = edit.read(typed)
    except ChangeRefused as wrong:
        raise ChangeRefused(f"{wrong}; ./plan edit PLAN.db {given.what} --help says more", 2) from None
    return edited(given.plan, wanted, given.job)


def edited(path: str, wanted: Edit, first_job: int | None) -> int:
    """Prints the job stream of an edit; the exit status."""
    with plan_file.opened(path) as plan:
        try:
            changes = edit.change_of(loaded.world_of(plan), wanted).all
        except Unsound as wrong:
            raise Unreadable(f"{path}: {wrong}") from None
        text, job = edit_change.stream_of(plan, changes, first_job)
        sentences = [*(sentence for one in changes for sentence in one.sentences),
                     *edit_change.way_into(plan, changes, job)]
    edit_words.print_sentences(sentences)
    sys.stdout.write(text)
    return 0
