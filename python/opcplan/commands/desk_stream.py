"""A stream that a desk does on the condition that its plan is still the one that was copied.

- Let a stream have the statements 1 to n, of which 1 to k are done, and let C be a copy of the plan in a state T. The
  whole stream is sent under one key with the tag of T. The desk answers 1 to k as it did, does the next change only if
  the plan is in T, and each further one only if the plan is as the one before it left it.
- So each statement is done at most once, in the order of the stream, over a plan on which exactly it was tried, but for
  changes that have nothing to do with it.
- If somebody changes the plan in between, the answer ends there. If all entries after the copy are the stream's own or
  have nothing to do with what is left (`opcplan.rules.apart`), it is sent again at once, with the tag of that state:
  what was tried still holds, and a short time without a change is enough. Otherwise what is left is tried on a new
  copy.
- A list isn't held to a state: it shows the plan as it is when its turn comes."""

import io
import json
import time
from collections.abc import Sequence
from typing import NamedTuple

from opcplan.desk import client, requests
from opcplan.errors import Unreadable
from opcplan.rules import stream
from opcplan.rules.apart import Apart

CHANGED = 412  # HTTP's status where the plan isn't in the state that a statement names
MOST_SENT = 100  # how often a stream is sent again before it is tried on a new copy


class Copy(NamedTuple):
    """A copy of a desk's plan, the tag of the state that it has, and the last entry."""

    path: str
    tag: str
    position: int


def copied(desk: client.Client, path: str) -> Copy:
    """Puts a copy of a desk's plan at a path. Raises Unreadable."""
    try:
        with open(path, "wb") as file:
            heads = desk.download("/snapshot", file)
    except (client.DeskUnreachable, client.RequestRefused) as why:
        raise Unreadable(str(why) if str(why).startswith(desk.name) else f"{desk.name}: {why}") from None
    position = heads.get("X-Opcplan-Position", "")
    if not position.isdigit():
        raise Unreadable(f"{desk.name}: it doesn't answer as a desk does: its copy has no position")
    return Copy(path, heads.get("ETag", ""), int(position))


def parts(text: bytes) -> list[bytes]:
    """A stream statement by statement, each with its data and the lines up to the next one. Raises Unreadable."""
    try:
        requests.of_stream(text)
    except requests.BadStream as why:
        raise Unreadable(f"{why}; nothing was done") from None
    lines = [*io.BytesIO(text)]
    begins = [item.line - 1 for item in stream.items(stream.Source(io.BytesIO(text), "the stream"))]
    return [b"".join(lines[begin:end]) for begin, end in zip(begins, [*begins[1:], len(lines)])]


def answers(desk: client.Client, text: bytes, used: str, tag: str) -> list[bytes]:
    """What a desk answers to the statements of a stream, under a key: to all, or to those before which nobody changed
    the state of a tag. Raises Unreadable."""
    heads = {"Accept": "application/x-ndjson"}
    if any(one.changes for one in requests.of_stream(text)):
        heads["If-Match"] = tag
    try:
        found = desk.statements(text, used, time.monotonic(), heads)
        return [answer_of(line) for line in found.splitlines()]
    except client.RequestRefused as why:
        if why.status == CHANGED:
            return []
        raise Unreadable(f"{desk.name}: {why}") from None
    except client.DeskUnreachable as why:
        raise Unreadable(f"{why}; {advice_of(desk, used) if why.may_be_done else 'nothing was sent'}") from None
    except (ValueError, KeyError, TypeError):
        raise Unreadable(f"{desk.name}: it doesn't answer as a desk does; {advice_of(desk, used)}") from None


def answers_beside(desk: client.Client, text: bytes, used: str, copy: Copy, apart: Apart) -> list[bytes]:
    """The same, beside others: the stream is sent again while all that they changed after a copy is apart from it.
    Raises Unreadable."""
    count, tag = len(requests.of_stream(text)), copy.tag
    found = answers(desk, text, used, tag)
    for _ in range(MOST_SENT):
        if len(found) >= count or not (now := tag_beside(desk, used, copy, apart)) or now == tag:
            return found
        tag = now
        found = max(found, answers(desk, text, used, tag), key=len)
    return found


def tag_beside(desk: client.Client, used: str, copy: Copy, apart: Apart) -> str:
    """The tag of the state that a desk has now, if all its entries after a copy are those of a stream, or are apart
    from it; else nothing."""
    try:
        health = json.loads(desk.request("GET", "/health")[1])
        tag, position = str(health["tag"]), int(health["position"])
        lines = desk.request("GET", f"/journal?from={copy.position + 1}")[1].splitlines()
        entries = [one for one in map(json.loads, lines) if one["seq"] <= position]
        if [one["seq"] for one in entries] != list(range(copy.position + 1, position + 1)):
            return ""
        others = [one for one in entries if str(one["key"]).partition("#")[0] != used]
        return tag if all(apart.is_apart(one["statement"]) for one in others) else ""
    except (client.DeskUnreachable, client.RequestRefused, ValueError, KeyError, TypeError):
        return ""  # a new copy settles it


def answer_of(line: bytes) -> bytes:
    """The lines of an answer as opcplan prints them. Raises ValueError, KeyError and TypeError."""
    found = json.loads(line)
    return "".join(f"{row}\n" for row in [*found["rows"], found["reply"]]).encode("ascii")


def is_refusal(answer: bytes) -> bool:
    """Whether an answer refuses its statement."""
    return answer.splitlines()[-1].startswith(b"refused")


def advice_of(desk: client.Client, used: str) -> str:
    """What to do where it isn't known what was done."""
    return (f"it may be done all the same; `./plan send --desk {desk.name} --key {used} < STREAM` sends it again, and "
            "nothing is done twice")


def written(path: str, found: Sequence[bytes]) -> str:
    """The path of a file that has parts of a stream, or of answers."""
    with open(path, "wb") as file:
        file.writelines(found)
    return path
