"""./plan explain: each refusal in the output of a job stream, with its line, its statement, and what it means."""

import argparse
import contextlib
import os
from collections.abc import Iterator

from opcplan.cli import words
from opcplan.plans import plan_file, stream_file, stream_state
from opcplan.rules import explanations, stream

MOST_LOOKED_AT = 100_000  # bytes of a file that may be another one than is said
SUMMARY = "each refusal of a stream's output: its line, its statement, what it means"


def add_words(parser: words.Parser) -> None:
    """Adds its words to a parser."""
    parser.description = (
        "Compares the output of a job stream with its statements, and explains each refusal. With --plan it also knows "
        "what is in the plan: how far it reaches, which status an occurrence has. The exit status is 0 if all "
        f"statements were accepted, and 1 if some were refused, or the two don't fit. {stream.BOUND[:-1]}, nor an "
        f"output of more than {explanations.OF_OUTPUT}."
    )
    words.add_stream(parser)
    parser.add_argument("output", metavar="OUTPUT", type=words.file, help="the file of what opcplan answered to it")
    add_known_plan(parser)


def add_known_plan(parser: words.Parser) -> None:
    """The option that names the plan which a stream goes on with, as `words.plan`."""
    parser.add_argument("--plan", metavar="PLAN.db", type=words.file, help="the plan that the stream is run over")


@contextlib.contextmanager
def known_at_first(path: str | None) -> Iterator[stream_state.Known]:
    """What is known before a stream, where a plan is named by that plan."""
    if path is None:
        yield stream_state.Known()
        return
    with plan_file.opened(path) as plan:
        yield stream_state.of_plan(plan)


def exchanged_text(stream_path: str, output_path: str) -> str:
    """That stream and output may be exchanged, where the one looks like the other; else nothing."""
    if is_answers(stream_path) and not is_answers(output_path):
        return "; the output comes after the stream; did you swap them?"
    return ""


def is_answers(path: str) -> bool:
    """Whether one of the first lines of a file is a reply as opcplan prints it."""
    if not os.path.isfile(path):
        return False
    with open(path, "rb") as file:
        lines = file.read(MOST_LOOKED_AT).decode("latin-1").splitlines()
    return any(map(explanations.REPLY.match, lines))


def run(given: argparse.Namespace) -> int:
    """Does what the words ask for; the exit status."""
    return printed(given.stream, given.output, given.plan)


def printed(stream_path: str, output_path: str, plan_path: str | None) -> int:
    """Prints what the refusals of a stream's output mean; the exit status."""
    try:
        with known_at_first(plan_path) as now, stream_file.opened(stream_path) as text:
            with stream_file.opened(output_path, explanations.OF_OUTPUT) as output:
                lines, refused, answered = explanations.explained(stream.items(text), output, now)
    except explanations.OutputMismatch as why:
        raise explanations.OutputMismatch(
            f"{output_path} isn't the output "
            f"of {stream_path}: {why}{exchanged_text(stream_path, output_path)}") from None
    if not answered and (guess := exchanged_text(stream_path, output_path)):
        raise explanations.OutputMismatch(f"{output_path} isn't the output of {stream_path}: it has no answers{guess}")
    count = f"{answered} statement{'' if answered == 1 else 's'}"
    were = "was" if refused == 1 else "were"
    print("\n".join([*lines, f"{refused} of {count} {were} refused." if refused else f"{count}, none refused."]))
    return 1 if lines else 0
