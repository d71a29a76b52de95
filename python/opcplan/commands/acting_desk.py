"""An act at a desk: shown by `POST /acts`, and done in the state in which it was shown."""

import json
import secrets
import subprocess
import sys
from collections.abc import Mapping
from typing import Any, NamedTuple

from opcplan.acts import undoing, values
from opcplan.cli import words
from opcplan.commands import acting, desk_plan, send
from opcplan.commands.acting import NotChosen, Settings
from opcplan.desk import client, requests
from opcplan.errors import Error, Unreadable, UsageError
from opcplan.plans import begun_acts
from opcplan.plans.begun_acts import Begun
from opcplan.rules import printable

UNAVAILABLE = 503  # HTTP's status if the desk has no answer for now
CHANGED = 412  # HTTP's status if the plan isn't in the state that If-Match names
MOST_SENT = 9  # how often others may change the plan first


class Shown:
    """A preview of a desk: the act, and the tag of the state that it is about."""

    def __init__(self, found: Mapping[str, Any]) -> None:
        self.act: Mapping[str, Any] = found["act"]
        self.tag = str(found["tag"])

    def is_like(self, other: "Shown") -> bool:
        """Whether another one does the same, with the same effect."""
        return self.act == other.act


class Going(NamedTuple):
    """An act that is done at a desk: what is wanted, as it was typed, and the note of what was begun."""

    desk: client.Client
    settings: Settings
    wanted: str
    begun: Begun

    @property
    def total(self) -> int:
        """How many statements it has."""
        return len(requests.of_stream(self.begun.stream.encode()))

    def drop(self) -> None:
        """Drops the note."""
        begun_acts.drop(self.desk.name, self.wanted)


def done(settings: Settings, name: str) -> int:
    """Does what is wanted, once it was shown and somebody said so; the exit status."""
    if settings.job is not None or settings.journal is not None:
        raise UsageError("--job and --journal go with PLAN.db; at a desk --entry names an entry of its journal")
    desk = desk_plan.of_words(name)
    wanted = settings.wanted.text  # as it was typed, whichever occurrence is chosen
    begun = begun_acts.find(desk.name, wanted)
    if begun is not None and not settings.is_dry:
        left = goes_on(Going(desk, settings, wanted, begun))
        if left is not None:
            return left
    earlier: Shown | None = None
    for _ in range(MOST_SENT):
        settings, found = previewed(settings, desk)
        if earlier is None or not found.is_like(earlier):
            show(found.act)
            if settings.is_dry:
                return 0
            acting.agree(settings)
        begun = Begun(str(found.act["stream"]), f"{undoing.ACT_KEY}{secrets.token_hex(16)}", found.tag)
        begun_acts.note(desk.name, wanted, begun)
        going = Going(desk, settings, wanted, begun)
        answer = sent(going, found.tag)
        if answer is not None:
            return finished(going, answer)
        going.drop()
        earlier = found
        words.print_message(f"somebody changed the plan of {desk.name} meanwhile, so nothing was done; it is looked at "
                            "again")
    raise Error(f"others kept changing the plan of {desk.name}; nothing was done")


def asked(desk: client.Client, body: Mapping[str, Any], heads: client.Heads = client.NO_HEADS) -> Mapping[str, Any]:
    """The answer to `POST /acts`. Raises DeskUnreachable and RequestRefused."""
    _, found = desk.request("POST", "/acts", json.dumps(body).encode(), {"Content-Type": "application/json", **heads})
    answer: Mapping[str, Any] = json.loads(found)
    return answer


def previewed(settings: Settings, desk: client.Client) -> tuple[Settings, Shown]:
    """What would be done, of the occurrence that is chosen if several fit. Raises Error."""
    while True:
        try:
            found = asked(desk, values.values_of(settings.wanted))
        except (client.DeskUnreachable, client.RequestRefused) as why:
            raise Unreadable(str(why) if str(why).startswith(desk.name) else f"{desk.name}: {why}") from None
        if found["act"] is not None:
            return settings, Shown(found)
        if found["found"] is None:
            raise NotChosen(f"{found['why_not']}. Nothing was done")
        serials = [int(row["serial"]) for row in found["found"]["choices"]]
        settings = acting.chosen(settings, [str(line) for line in found["found"]["lines"]], serials, settings.wanted.of)


def show(act: Mapping[str, Any]) -> None:
    """Prints a preview."""
    for line in act["lines"]:
        print(printable.fit(str(line)))
    sys.stdout.flush()


def sent(going: Going, tag: str) -> Mapping[str, Any] | None:
    """The answer of a desk that did statements in the state of a tag; None if somebody changed the plan before the
    first one. Raises Unreadable."""
    heads = {"If-Match": f'"{tag}"', "Idempotency-Key": going.begun.key}
    try:
        return asked(going.desk, {"stream": going.begun.stream}, heads)
    except client.RequestRefused as why:
        if why.status == CHANGED:
            return None
        if why.status != UNAVAILABLE:  # nothing was done
            going.drop()
            raise Unreadable(f"{going.desk.name}: {why}") from None
        raise Unreadable(f"{going.desk.name}: {why}; {acting.AGAIN}") from None
    except client.DeskUnreachable as why:
        advice = acting.AGAIN if why.may_be_done else "nothing was sent"
        raise Unreadable(f"{why}; {advice}") from None


def rest_of(going: Going) -> Mapping[str, Any]:
    """What a desk says of what is left. Raises Unreadable."""
    try:
        return asked(going.desk, {"stream": going.begun.stream}, {"Idempotency-Key": going.begun.key})
    except (client.DeskUnreachable, client.RequestRefused) as why:
        raise Unreadable(f"{going.desk.name}: {why}; {acting.AGAIN}") from None


def finished(going: Going, answer: Mapping[str, Any] | None) -> int:
    """Does what is left of an act in the state that others left, once it was shown and somebody says so, and prints all
    answers; the exit status. The answer is the last one of the desk, if there is one. Raises Error."""
    for _ in range(MOST_SENT):
        if answer is not None and (answer["is_whole"] or has_refusal(answer)):
            return shown(going, answer)
        left = rest_of(going)
        if left["is_whole"]:
            return shown(going, left)
        words.print_message(f"somebody changed the plan of {going.desk.name} meanwhile: {done_text(going, left)}")
        answer = go_on(going, left)
    raise Error(f"others kept changing the plan of {going.desk.name}; {acting.AGAIN}")


def go_on(going: Going, left: Mapping[str, Any]) -> Mapping[str, Any] | None:
    """Shows what is left of an act, and does it once somebody says so; the answer, or None if somebody changed the plan
    again. Raises Error if it can't be done any more."""
    if left["act"] is None:
        going.drop()
        raise Error(f"{left['why_not']}. So nothing more was done: {done_text(going, left)}, which `undo` takes back "
                    "if it can be taken back")
    show(left["act"])
    acting.agree(going.settings, "Go on?")
    return sent(going, str(left["tag"]))


def goes_on(going: Going) -> int | None:
    """Goes on with an act that was begun: the exit status; None if nothing of it was done, and nothing of it can be
    done any more, so that it begins anew. Raises Error."""
    left = rest_of(going)
    if not left["answers"] and left["tag"] != going.begun.tag:  # its first statement needs the state of then
        going.drop()
        return None
    print(f"`{going.wanted}` was stopped: {done_text(going, left)}.", flush=True)
    return finished(going, left if left["is_whole"] else go_on(going, left))


def done_text(going: Going, found: Mapping[str, Any]) -> str:
    """How many statements are done."""
    count = len(found["answers"])
    return f"{count} of its {going.total} statements {'is' if count == 1 else 'are'} done"


def has_refusal(found: Mapping[str, Any]) -> bool:
    """Whether a statement was refused."""
    return any(not one["reply"].startswith("ok") for one in found["answers"])


def shown(going: Going, found: Mapping[str, Any]) -> int:
    """Prints what a desk answered, with each refusal in words; the exit status."""
    text = "".join(f"{row}\n" for one in found["answers"] for row in [*one["rows"], one["reply"]]).encode("ascii")
    going.drop()
    lines = [f"`{one['statement'].partition(' --job')[0]}` was {one['reply']}: {one['means'] or 'see REFUSALS.md'}"
             for one in found["answers"] if not one["reply"].startswith("ok")]
    ran = subprocess.CompletedProcess([], 4 if has_refusal(found) else 0, text, b"")
    return send.shown(going.begun.stream.encode(), ran, going.begun.key, [printable.fit(line) for line in lines])
