"""The process that makes the live page.

Its arguments are a copy of the plan, the plan's name, and a moment (or `-` for the clock). It prints 1 if the page
keeps its moment, else 0; then the page up to the plan's data, the data, and the rest of the page, with NULs between
them."""

import gc
import os
import sys

from opcplan.desk import live_parts
from opcplan.errors import Unreadable
from opcplan.webpage import page_data, page_html

NICE = 5  # the desk and opcplan go first if processors are short
OUTSIDE = "This machine's clock is outside this plan, so the page shows the end of the current plan."


def main(copy: str, name: str, moment: str) -> int:
    """Prints the parts of the page; the exit status."""
    os.nice(NICE)
    gc.disable()
    try:
        data = page_data.data_of(copy, None if moment == "-" else int(moment), has_needs=False)
    except Unreadable as error:
        print(error, file=sys.stderr)
        return 1
    stands = moment != "-" or bool(data["note"])
    data.update({"file": name, "sample": True, "note": OUTSIDE if data["note"] else ""})
    begin, end = page_html.framed(data, "\0", live_parts.STYLES, live_parts.SCRIPTS, live_parts.MORE).split("\0")
    parts = "1" if stands else "0", begin, page_html.data_text(data), end
    sys.stdout.buffer.write("\0".join(parts).encode("utf-8", "replace"))
    return 0


if __name__ == "__main__":
    sys.exit(main(*sys.argv[1:]))
