"""./plan check: what a stream drops, what it lacks and what is refused of it, over a plan."""

import argparse
import dataclasses
from collections.abc import Iterator

from opcplan.cli import colours, words
from opcplan.commands import lint, trial_words
from opcplan.plans import trial
from opcplan.plans.stream_state import Known
from opcplan.rules import explanations, lint_checks, printable, stream
from opcplan.rules.stream import Item, Source

SUMMARY = "what a stream would drop, what it lacks and what would be refused, over a plan"


@dataclasses.dataclass
class Checked:
    """All that is to be told of a stream over a plan, by line, and what it was answered in short."""

    findings: list[lint_checks.Finding]
    answered: int = 0
    refused: int = 0
    kept: int = 0  # jobs that the plan keeps
    end: tuple[str, ...] = ()  # the lines on a fault, or on an output that ends too early


def add_words(parser: words.Parser) -> None:
    """Adds its words to a parser."""
    parser.description = (
        "Runs STREAM over a private copy of PLAN.db, and reports what it finds by line. It reports what each block "
        "drops or changes of what is defined, because a definition is replaced whole. It reports what neither stream "
        "nor plan defines, loops of predecessors with their members, and what else `./plan lint` finds. It reports "
        "each statement that would be refused, with the reason. The plan stays as it is. The exit status is 1 if there "
        "is something to report. " + stream.BOUND
    )
    words.add_plan(parser)
    trial_words.add_words(parser, "runs")
    colours.add_words(parser)


def run(given: argparse.Namespace) -> int:
    """Does what the words ask for; the exit status."""
    with trial.tried(given.plan, given.stream, checked, given.program) as tried:
        print(colours.text("\n".join(lines_of(tried.found)), given.color))
    trial_words.print_end(tried)
    return 0 if tried.status == 0 and not tried.found.findings else 1


def checked(items: Iterator[Item], output: Source, now: Known) -> Checked:
    """A Checked of a stream and its output, from what is known before it on."""
    walk, found = lint.Walk(now), Checked([])
    for item, reply in explanations.answered(items, output, now.see):
        if item is None or reply is None or explanations.is_end(reply):
            found.end = tuple(explanations.end_lines(item, reply))
            break
        found.answered += 1
        found.kept += is_answered_again(now, item)
        if reply.startswith("refused"):
            found.refused += 1
            text = "; ".join(explanations.refusal_sentences(item, reply, now))
            found.findings.append(lint_checks.Finding("refused", (), item.line, f"{reply}: {text}"))
        walk.take(item, reply)
    found.findings = sorted([*walk.ended(), *found.findings], key=lambda finding: finding.line or 0)
    return found


def is_answered_again(now: Known, item: Item) -> bool:
    """Whether the plan keeps the job of a statement with the same text."""
    kept = now.kept(item)
    return kept is not None and (item.is_whole or not item.has_data) and kept[0] == stream.text_of_job(item)


def lines_of(found: Checked) -> list[str]:
    """A Checked in lines fit for a terminal: its findings, how many statements were accepted, refused and kept, and how
    the output ended where it ended early."""
    lines = [line for finding in found.findings for line in lint.finding_lines(finding)]
    count = f"{found.answered - found.refused} accepted, {found.refused} refused"
    if found.kept:
        jobs = "is a job" if found.kept == 1 else "are jobs"
        count += f"; {found.kept} of them {jobs} that the plan keeps, with the same answer again"
    return [*lines, *([""] if lines else []), count, *map(printable.fit, found.end)]
