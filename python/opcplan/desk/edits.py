"""`POST /edits`: a change of definitions, as statements with the days before and after it; and these statements done.

A process of its own finds the preview in a copy of the plan. With `If-Match` the desk does the stream of a preview in
the state of that preview, or not at all: a `define` gives a whole definition, so it would else undo what somebody has
changed of it in between."""

import json
import os
from typing import Any, NamedTuple

from aiohttp import web

from opcplan.desk import body, connections, requests, snapshot
from opcplan.desk.acts import Acts, MOST_BYTES, answer, found_by
from opcplan.desk.errors import StatementRejected
from opcplan.desk.held_files import FileReplaced
from opcplan.edits import previews
from opcplan.edits.previews import InvalidEdit
from opcplan.errors import Unreadable
from opcplan.plans import tempfiles

PROCESS = "opcplan.desk.edits_process"
KINDS = ("define", "undefine")


class Asked(NamedTuple):
    """What a body asks for: the preview of an edit (`look` as JSON has it), or that the statements of a stream are
    done."""

    look: dict[str, Any] | None
    stream: str = ""


class Edits:
    """The edits of a desk's callers. Previews have their turns with those of acts."""

    def __init__(self, acts: Acts) -> None:
        self.acts = acts

    async def handle(self, request: web.Request) -> web.StreamResponse:
        """POST /edits."""
        data = await connections.body_of(request, MOST_BYTES)
        tag, key = request.headers.get("If-Match"), body.key_of(request.headers)
        try:
            asked = of_body(data)
        except InvalidEdit as why:
            raise StatementRejected(400, f"{why}; nothing was done") from None
        if asked.look is not None:
            if tag is not None:
                raise StatementRejected(400, "`If-Match` goes with the `stream` of a preview, not with an `edit`; "
                                        "nothing was done")
            return await self.preview(request, asked.look)
        if tag is None:
            raise StatementRejected(400, "a `stream` needs `If-Match` with the `ETag` of its preview; nothing was done")
        check_stream(asked.stream)
        done = await self.acts.done(request, asked.stream.encode("utf-8", "replace"), tag.strip().strip('"'), key)
        values = {"edit": None, "why_not": "", "answers": done.found, "is_whole": done.is_whole}
        return answer(values, done.state)

    async def preview(self, request: web.Request, look: dict[str, Any]) -> web.StreamResponse:
        """What an edit would do. Raises HTTPServiceUnavailable."""
        async with self.acts.finding.turn(request["who"]):
            with tempfiles.folder("desk-") as folder:
                copy = os.path.join(folder, "plan.db")
                try:
                    stands = await snapshot.copied(self.acts.desk, self.acts.path, copy, request["who"])
                except (OSError, Unreadable, FileReplaced) as error:
                    raise web.HTTPServiceUnavailable(text=f"the desk can't copy the plan: {error}\n") from None
                found = await found_by(PROCESS, [copy], look)
        return answer({**found, "answers": [], "is_whole": False}, body.PlanState(stands.tag, stands.position))


def check_stream(stream: str) -> None:
    """Checks that a stream has definitions alone. Raises StatementRejected."""
    try:
        found = requests.of_stream(stream.encode("utf-8", "replace"))
    except requests.BadStream as why:
        raise StatementRejected(400, f"{why}; nothing was done") from None
    for one in found:
        if one.name not in KINDS:
            raise StatementRejected(400, "the `stream` of an edit has only `define` and `undefine`; nothing was done")


def of_body(data: bytes) -> Asked:
    """What a body asks for. Raises InvalidEdit."""
    try:
        found = json.loads(data)
    except (ValueError, RecursionError):
        raise InvalidEdit("the body must be an object of JSON") from None
    if not isinstance(found, dict):
        raise InvalidEdit("the body must be an object of JSON")
    if "stream" not in found:
        previews.asked_of(found)
        return Asked(found)
    if len(found) > 1 or not isinstance(found["stream"], str):
        raise InvalidEdit("a body with a `stream`, a text, has nothing else")
    return Asked(None, found["stream"])
