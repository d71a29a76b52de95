"""What the commands that try a stream ask and tell alike."""

from typing import Any

from opcplan.cli import words
from opcplan.plans.trial import SOUND, Trial


def add_words(parser: words.Parser, does: str) -> None:
    """The words of what tries a stream: the stream, and the planner with what it does."""
    words.add_stream(parser)
    parser.add_argument("--program", metavar="FILE", type=words.file,
                        help=f"the planner that {does} it (else the one that is built here)")


def print_end(trial: Trial[Any]) -> None:
    """Tells what the planner said, and how it ended where that was no sound end."""
    for line in trial.said.splitlines():
        words.print_message(f"the planner says: {line.removeprefix('opcplan: ')}")
    if trial.status not in SOUND:
        how = f"by signal {-trial.status}" if trial.status < 0 else f"with status {trial.status}"
        words.print_message(f"the planner ended {how}; what is shown is what it did before")
