"""A ./plan desk in which acts are cut: before a statement of an act somebody else changes the plan, or a kill ends it.

The file CUT.json beside the plan says where: `at` is the number of statements of the act that are done then, and `by` a
stream of somebody else, or nothing for a kill. The first act removes the file, and each statement of that act waits for
the answer to the one before."""

import asyncio
import json
import os
import signal
import sys
from pathlib import Path

sys.path.insert(0, str(Path(__file__).resolve().parents[2] / "python"))

from opcplan import __main__ as program  # noqa: E402
from opcplan.desk import body, requests  # noqa: E402

NAME = "CUT.json"
REAL = body.Body.take


async def take(self):
    """As Body.take, cut where the file says so."""
    file = Path(os.environ["CUT_FOLDER"]) / NAME
    if not (self.key or "").startswith("act-") or not file.exists():
        return await REAL(self)
    cut = json.loads(file.read_text(encoding="ascii"))
    file.unlink()
    try:
        for place, one in enumerate(self.asked):
            if place == cut["at"]:
                await somebody(self.desk, cut["by"])
            future = self.put(one, place)
            self.asks.put_nowait(body.SubmittedItem(one, future))
            if self.is_broken:
                return
            await asyncio.wait([future])
        if cut["at"] == len(self.asked):
            await somebody(self.desk, cut["by"])
    finally:
        self.is_put = True
        self.release()


async def somebody(desk, stream):
    """Changes the plan as somebody else, or kills the desk."""
    if not stream:
        os.kill(os.getpid(), signal.SIGKILL)
    other = body.Body(desk, requests.of_stream(stream.encode()), "bert", None, None)
    await other.take()
    for _ in other.asked:
        await other.next()


body.Body.take = take
if __name__ == "__main__":
    program.run(sys.argv[1:])
