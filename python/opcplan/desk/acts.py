"""`POST /acts`: what an operator wants, as statements with their preview; these statements done; and what is left of
them if they were stopped.

A process of its own finds the preview in a copy of the plan. With `If-Match` the desk does the statements of a preview
as it does a stream of `POST /statements`: under the caller's key, each in the state that the one before it left. So:

- what is done of an act is a beginning of it, up to its first refusal, and the answer says what is left and why;
- the same request under its key goes on, with the tag of now, and does nothing twice;
- without a tag it says what is left and what that would do now, or in words why it can't be done any more. `done` in
  place of a key says how many statements are done, for a caller who knows that."""

import asyncio
import contextlib
import json
import os
import sys
from collections.abc import AsyncIterator, Callable, Iterable, Mapping, Sequence
from typing import Any, NamedTuple, TYPE_CHECKING

from aiohttp import web

from opcplan.acts import values
from opcplan.acts.verbs import InvalidIntention
from opcplan.desk import body, connections, guard, requests, snapshot
from opcplan.desk.errors import StatementRejected
from opcplan.desk.held_files import FileReplaced
from opcplan.desk.planner import PlannerStopped
from opcplan.desk.turns import Turns
from opcplan.errors import LogUnwritable, Unreadable
from opcplan.plans import tempfiles
from opcplan.plans.program import PYTHON

if TYPE_CHECKING:
    from opcplan.desk.core import Desk

PROCESS = "opcplan.desk.acts_process"
MOST_BYTES = 1 << 20
LONGEST = 120


class Asked(NamedTuple):
    """What a body asks for: the preview of an intention (`look` as JSON has it), which occurrence a text names, or the
    preview of what is left of a stream of which some statements are done; or, without `look`, that the statements of a
    stream are done."""

    look: dict[str, Any] | None
    stream: bytes = b""


class Answered(NamedTuple):
    """The answers to statements, the state of the plan after the last one, and whether each statement has one."""

    items: list[body.AnsweredItem]
    state: body.PlanState
    is_whole: bool = True

    @property
    def found(self) -> list[dict[str, Any]]:
        """The answers as objects of JSON."""
        return [json.loads(b"".join(body.as_json(one))) for one in self.items]


class Acts:
    """The acts of a desk's callers, with the paths of the plan and its journal. `keep` keeps a task until it ends."""

    def __init__(self, desk: "Desk", path: str, journal: str, keep: Callable[[asyncio.Task[None]], None]) -> None:
        self.desk, self.path, self.journal, self.keep = desk, path, journal, keep
        self.finding = Turns(lambda: False)  # whoever waited for fewer previews goes first

    async def handle(self, request: web.Request) -> web.StreamResponse:
        """POST /acts."""
        data = await connections.body_of(request, MOST_BYTES)
        tag, key = request.headers.get("If-Match"), body.key_of(request.headers)
        try:
            asked = of_body(data)
        except InvalidIntention as why:
            raise StatementRejected(400, f"{why}; nothing was done") from None
        if asked.look is not None:
            if tag is not None:
                raise StatementRejected(400, "`If-Match` goes with the `stream` of a preview, not with what asks for "
                                        "one; nothing was done")
            return await self.preview(request, asked.look)
        if tag is None and key is None:
            raise StatementRejected(400, "a `stream` needs `If-Match` with the `ETag` of its preview; or, for what is "
                                    "left of it, the `Idempotency-Key` under which it was begun, or `done`; nothing "
                                    "was done")
        if tag is None:
            return await self.rest(request, asked.stream, key)
        return await self.do(request, asked.stream, tag.strip().strip('"'), key)

    # Previews.

    async def preview(self, request: web.Request, look: dict[str, Any]) -> web.StreamResponse:
        """What would be done, or which occurrence is meant. Raises HTTPServiceUnavailable."""
        async with self.finding.turn(request["who"]), self.copied(request["who"]) as (copy, state):
            if look.get("verb") == "undo":
                with contextlib.suppress(LogUnwritable):  # then the last entries can't be undone for now
                    await self.desk.keep_replies()
            found = await self.found(copy, state, request["who"], look)
        return answer({**found, "answers": [], "left": [], "is_whole": False}, state)

    async def rest(self, request: web.Request, stream: bytes, key: str | None) -> web.StreamResponse:
        """What is left of a stream under a key, and what it would do now. Raises StatementRejected and
        HTTPServiceUnavailable."""
        who, items = request["who"], items_of(stream)
        with self.desk.work(who) as work:
            taken = body.Body(self.desk, items, who, key, None)
            await taken.claim(work)
            taken.is_put = True
            taken.release()
        async with self.finding.turn(who), self.copied(who) as (copy, state):
            done = taken.done(state.position)
            look = {"rest": stream.decode("utf-8", "surrogateescape"),
                    "answered": [(one.ask.entry.line, one.ask.reply) for one in done if one.ask.entry is not None]}
            found = await self.found(copy, state, who, look)
        answers = await self.with_means(who, Answered(done, state))
        if has_refusal(answers):
            found["why_not"] = why_not(answers, len(items))
        return answer({**found, "answers": answers, "left": lines_of(items[len(done):]),
                       "is_whole": len(done) == len(items)}, state)

    @contextlib.asynccontextmanager
    async def copied(self, who: str) -> AsyncIterator[tuple[str, body.PlanState]]:
        """A copy of the plan for a caller, and its state. Raises HTTPServiceUnavailable."""
        with tempfiles.folder("desk-") as folder:
            copy = os.path.join(folder, "plan.db")
            try:
                stands = await snapshot.copied(self.desk, self.path, copy, who)
            except (OSError, Unreadable, FileReplaced) as error:
                raise web.HTTPServiceUnavailable(text=f"the desk can't copy the plan: {error}\n") from None
            yield copy, body.PlanState(stands.tag, stands.position)

    async def found(self, copy: str, state: body.PlanState, who: str, look: dict[str, Any]) -> Any:
        """What the process finds in a copy of the plan. Raises HTTPServiceUnavailable."""
        return await found_by(PROCESS, [copy, os.path.abspath(self.journal), str(state.position), who], look)

    # What is done.

    async def do(self, request: web.Request, stream: bytes, tag: str, key: str | None) -> web.StreamResponse:
        """Does the statements of a preview. Raises StatementRejected and PlannerStopped."""
        done = await self.done(request, stream, tag, key)
        answers, items = await self.with_means(request["who"], done), items_of(stream)
        return answer({"act": None, "found": None, "why_not": why_not(answers, len(items)), "answers": answers,
                       "left": lines_of(items[len(answers):]), "is_whole": done.is_whole}, done.state)

    async def done(self, request: web.Request, stream: bytes, tag: str, key: str | None) -> Answered:
        """The answers to the statements of a preview, done in the state of a tag, up to the first that is refused.
        Raises StatementRejected and PlannerStopped."""
        items = items_of(stream)
        for one in items:
            guard.needed(request, one.role, one.name)
        with self.desk.work(request["who"]) as work:
            taken = body.Body(self.desk, items, request["who"], key, None)
            self.desk.agents.sent(request["who"], key)
            taken.condition, taken.ends_at_refusal = tag, True
            await taken.claim(work)
            if not taken.take_at_once():
                self.keep(asyncio.create_task(taken.take()))
            found = await answers_of(taken)
        return found._replace(is_whole=len(found.items) == len(items))

    async def with_means(self, who: str, done: Answered) -> list[dict[str, Any]]:
        """Answers as objects of JSON, each with what its refusal means by what the plan has now: in `means`, which is
        empty if it was accepted, or if that can't be found now."""
        answers = done.found
        refused = [place for place, one in enumerate(answers) if not one["reply"].startswith("ok")]
        texts: dict[int, str] = {}
        if refused:
            look = {"refused": [(text_of(done.items[place]), answers[place]["reply"]) for place in refused]}
            with contextlib.suppress(web.HTTPServiceUnavailable):
                async with self.finding.turn(who), self.copied(who) as (copy, state):
                    texts = dict(zip(refused, await self.found(copy, state, who, look)))
        return [{**one, "means": texts.get(place, "")} for place, one in enumerate(answers)]


def items_of(data: bytes) -> list[requests.StreamItem]:
    """The statements of a stream, which all change something. Raises StatementRejected."""
    try:
        items = requests.of_stream(data)
    except requests.BadStream as why:
        raise StatementRejected(400, f"{why}; nothing was done") from None
    if not items:
        raise StatementRejected(400, "the `stream` has no statement; nothing was done")
    for one in items:
        if not one.changes:
            raise StatementRejected(400, f"the `stream` has `{one.words[:60]}`, which is no statement that changes "
                                    "something; nothing was done")
    return items


def lines_of(items: Iterable[requests.StreamItem]) -> list[str]:
    """The lines of statements."""
    return [one.words for one in items]


def text_of(one: body.AnsweredItem) -> str:
    """The text of an answered statement, with its data."""
    return "" if one.ask.entry is None else one.ask.entry.text.decode("utf-8", "surrogateescape")


def has_refusal(answers: Iterable[Mapping[str, Any]]) -> bool:
    """Whether a statement was refused."""
    return any(not one["reply"].startswith("ok") for one in answers)


def why_not(answers: Sequence[Mapping[str, Any]], count: int) -> str:
    """Why not all of an act was done, in a sentence; empty if all was."""
    for one in answers:
        if not one["reply"].startswith("ok"):
            means = f": {one['means']}" if one["means"] else ""
            rest = "" if len(answers) == count else "; so the rest wasn't done"
            return f"`{one['statement'].partition(' --job')[0]}` was {one['reply']}{means}{rest}"
    if len(answers) == count:
        return ""
    return (f"somebody else changed the plan after statement {len(answers)} of {count}, so the rest wasn't done; look "
            "at what is left of it")


async def answers_of(taken: body.Body) -> Answered:
    """The answers to the statements of a body, up to the first that isn't done because somebody else changed the plan
    or the one before it was refused. Raises StatementRejected and PlannerStopped if that is the first one, or something
    else keeps one from its answer."""
    found: list[body.AnsweredItem] = []
    try:
        for _ in taken.asked:
            found.append(await taken.next())
    except (StatementRejected, PlannerStopped) as why:
        if not found:
            raise
        if not isinstance(why, StatementRejected) or why.status not in (body.CHANGED, body.REFUSED):
            text = f"{why}".removesuffix("; nothing was done")
            raise StatementRejected(503, f"there is no answer to statement {len(found) + 1} of the act, and those "
                                    f"before it are answered: {text}. The same request under its key goes on") from None
    finally:
        taken.leave()
    return Answered(found, taken.state)


def of_body(data: bytes) -> Asked:
    """What a body asks for. Raises InvalidIntention."""
    try:
        found = json.loads(data)
    except (ValueError, RecursionError):
        raise InvalidIntention("the body must be an object of JSON") from None
    if not isinstance(found, dict):
        raise InvalidIntention("the body must be an object of JSON")
    if "stream" not in found:
        values.check(found)
        return Asked(found)
    if not found.keys() <= {"stream", "done"} or not isinstance(found["stream"], str):
        raise InvalidIntention("a body with a `stream`, a text, has nothing else but `done`")
    if "done" in found:
        values.check_done(found["done"])
        return Asked(found)
    return Asked(None, found["stream"].encode("utf-8", "replace"))


async def found_by(module: str, words: list[str], look: dict[str, Any]) -> Any:
    """What the process of a module finds. Raises HTTPServiceUnavailable."""
    process = await asyncio.create_subprocess_exec(
        sys.executable, "-E", "-B", "-m", module, *words, cwd=PYTHON, stdin=asyncio.subprocess.PIPE,
        stdout=asyncio.subprocess.PIPE, stderr=asyncio.subprocess.PIPE)
    try:
        text = json.dumps(look).encode()
        out, said = await asyncio.wait_for(process.communicate(text), LONGEST)
    except asyncio.TimeoutError:
        raise web.HTTPServiceUnavailable(text="finding what would change took too long; try again\n") from None
    finally:
        with contextlib.suppress(ProcessLookupError):
            if process.returncode is None:
                process.kill()
    if process.returncode:
        why = said.decode("utf-8", "replace").strip().split("\n")[-1]
        raise web.HTTPServiceUnavailable(text=f"the desk can't find what would change: {why}\n")
    return json.loads(out)


def answer(found: dict[str, Any], state: body.PlanState) -> web.Response:
    """An answer with the state of the plan that it is about, or that it left."""
    heads = {"ETag": f'"{state.tag}"', "X-Opcplan-Position": str(state.position)}
    return web.json_response({**found, **state._asdict()}, headers=heads)
