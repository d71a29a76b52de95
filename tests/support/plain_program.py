#!/usr/bin/env python3
"""What opcplan does with `--db FILE` and without, by tools/reference/plain_planner.py: FILE is made anew at the end of
each run.

What the plain planner knows is kept in FILE.planner beside it."""

import pickle
import sys
from pathlib import Path

sys.path[0] = str(Path(__file__).resolve().parents[1])

from support import plans  # noqa: E402

import plain_planner as plain  # noqa: E402


def main(words):
    file = Path(words[1]) if words else None
    kept = Path(f"{file}.planner") if words else None
    planner = pickle.loads(kept.read_bytes()) if words and kept.exists() else plain.Planner()
    answers = plain.run(sys.stdin.buffer.read(), planner)
    if words:
        file.unlink(missing_ok=True)
        plans.write(planner, file)
        kept.write_bytes(pickle.dumps(planner))
    print(*answers, sep="\n")
    return plain.status_of(answers)


if __name__ == "__main__":
    sys.exit(main(sys.argv[1:]))
