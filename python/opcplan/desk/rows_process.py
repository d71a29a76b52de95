"""The process that turns the rows of a long list into lines of JSON.

Its arguments are those of a selection (`rows.Selection.words`). Standard input is a file with the lines that opcplan
printed, which other processes read too; standard output is the file for the JSON. The process yields to the desk if
processors are short."""

import os
import sys

from opcplan.desk import rows

PIECE = 1 << 20
NICE = 5


def main(words: list[str]) -> int:
    """Turns all lines into JSON; the exit status."""
    os.nice(NICE)
    selection, place = rows.of_words(words), 0
    try:
        while data := os.pread(0, PIECE, place):
            data = data[: data.rfind(b"\n") + 1]
            place += len(data)
            found = memoryview(selection.lines(data))
            while found:
                found = found[os.write(1, found) :]
    except (OSError, rows.InvalidSelection) as error:
        print(getattr(error, "strerror", None) or error, file=sys.stderr)
        return 1
    return 0


if __name__ == "__main__":
    sys.exit(main(sys.argv[1:]))
