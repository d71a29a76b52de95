"""What `./plan roll` reports to its desk when it ends, and what it shows of what needs a person."""

import argparse
import dataclasses
import json
import os

from opcplan.cli import words
from opcplan.commands import desk_needs
from opcplan.desk import client
from opcplan.errors import Unreadable
from opcplan.needs.need import Need
from opcplan.plans import plan_file
from opcplan.rules import moments, printable

MOST_TEXT = 500


@dataclasses.dataclass
class Reached:
    """How far a run of `roll` found that the current plan reaches, None if it didn't find that."""

    end: int | None = None


def send(given: argparse.Namespace, desk: client.Client | None, reach: Reached, outcome: str, why: str) -> None:
    """Reports to a desk how a run ended. If the desk doesn't accept that, a line on standard error says so."""
    if desk is None or given.is_trial or reach.end is None:
        return
    found = {"outcome": outcome, "why": why.removeprefix("nothing was done: ")[:MOST_TEXT],
             "end": moments.moment_word(reach.end), "ahead": given.ahead, "reserve": given.reserve,
             "every": given.every}
    try:
        desk.request("PUT", "/reports/roll", json.dumps(found).encode(), {"Content-Type": "application/json"})
    except (client.DeskUnreachable, client.RequestRefused) as error:
        words.print_message(f"{desk.name}: the desk didn't accept the report of this run: {error}")


def show_needs(given: argparse.Namespace, desk: client.Client | None, is_quiet: bool = False) -> None:
    """Prints what needs a person after a run, and after its report. If that isn't known, a line on standard error says
    so, unless it is quiet."""
    try:
        found = needs(given, desk)
    except Unreadable as why:
        if not is_quiet:
            words.print_message(f"what needs a person isn't known: {why}")
        return
    for one in found:
        print(printable.fit(f"Needs a person: {one.text}. First: {one.advice}."), flush=True)


def needs(given: argparse.Namespace, desk: client.Client | None) -> tuple[Need, ...]:
    """What needs a person, by a desk or by the file of the plan. Raises Unreadable."""
    now = moments.now() if given.now is None else given.now
    if desk is not None:  # of a moment that is named a desk makes the list anew, so it knows what this run did
        return desk_needs.of_desk(desk, now)
    with plan_file.opened(given.plan) as plan:
        return desk_needs.of_file(plan, os.path.abspath(given.plan), now).needs
