"""How somebody is called: by a command, by mail, or by a webhook. Each is a program that runs with a deadline."""

import email.message
import hashlib
import hmac
import json
import secrets
import sys
from collections.abc import Mapping, Sequence
from typing import Any, NamedTuple

from opcplan.errors import Error
from opcplan.plans.entry import moment_text
from opcplan.plans.program import PYTHON
from opcplan.rules import printable
from opcplan.watch import processes
from opcplan.watch.rulebook import Target
from opcplan.watch.state import NEW, OVER, Call, Mention, WORSE

# the deadline of a whole call in seconds: by a command or mail, and by a webhook
LONGEST_RUN, LONGEST_POST = 60.0, 15.0
TEST, HEARTBEAT = "test", "heartbeat"
HEADS = {NEW: "", WORSE: "worse: ", OVER: "over: ", TEST: "test: ", HEARTBEAT: "heartbeat: "}
# the most characters of a sentence in a call of one line
MOST_TOLD = 500
SIGNATURE, ID = "X-Opcplan-Signature", "X-Opcplan-Call"
# sends to a webhook; its Python uses neither the environment nor site packages
POST = [sys.executable, "-E", "-s", "-S", "-B", "-m", "opcplan.watch.post"]


class Undelivered(Error):
    """Why it isn't known whether a call was delivered."""


class From(NamedTuple):
    """Who calls: the name of the plan, the desk, the file of the state, and the program that sends mail."""

    plan: str
    desk: str
    state: str
    sendmail: str


def deliver(target: Target, call: Call, caller: From) -> None:
    """Delivers a call to a target. Raises Undelivered."""
    if target.command:
        more = {"OPCPLAN_CALL": call.id, "OPCPLAN_PLAN": caller.plan, "OPCPLAN_TEXT": text(call, caller.plan)}
        run(target.command, payload(call, caller), more)
    elif target.mail:
        run([caller.sendmail, "-i", "--", target.mail], mail(target, call, caller), {})
    else:
        post(target, call, payload(call, caller))


# What a call says.


def subject(call: Call) -> str:
    """A call in one line, without its plan and what to do first."""
    first, *more = call.mentions
    return printable.fit(f"{HEADS[call.kind]}{cut(first.text)}{f' (and {len(more)} more)' if more else ''}")


def cut(told: str) -> str:
    """The beginning of a text that is too long for a line: a variable of a process and a line of a mail have limits."""
    return told if len(told) <= MOST_TOLD else f"{told[:MOST_TOLD]} .."


def first_step(one: Mention) -> str:
    """What to do first about a mention, empty if there is nothing to do."""
    return "" if one.kind == OVER else printable.fit(one.first)


def text(call: Call, plan: str) -> str:
    """A call in one line, with its plan and what to do first."""
    first = cut(first_step(call.mentions[0]))
    return f"{printable.fit(plan)}: {subject(call)}{f'. First: {first}' if first else ''}"


def lines(call: Call) -> list[str]:
    """The lines of a call: one for each mention, and what to do first behind the last that says the same."""
    found = []
    for place, one in enumerate(call.mentions, 1):
        found.append(printable.fit(f"{HEADS[one.kind]}{one.text}"))
        first = first_step(one)
        if first and (place == len(call.mentions) or first_step(call.mentions[place]) != first):
            found.append(f"First: {first}")
    return found


def values(call: Call, caller: From) -> dict[str, Any]:
    """A call as an object of JSON (docs/use/MONITORING.md)."""
    return {
        "id": call.id, "plan": caller.plan, "rule": call.rule, "kind": call.kind, "desk": caller.desk,
        "text": text(call, caller.plan),
        "events": [{"event": one.key, "level": one.level, "text": one.text, "first": first_step(one),
                    "since": moment_text(one.since), "at": moment_text(one.at)} for one in call.mentions],
    }


def heartbeat(target: str, name: str, now: float) -> Call:
    """A heartbeat for a target."""
    return Call(name, target, (Mention(HEARTBEAT, HEARTBEAT, HEARTBEAT, 0, "the watch polls, and a desk answers", now,
                                       now),))


def test(target: str, now: float) -> Call:
    """A test call for a target."""
    told = "this is a test of a watch of opcplan; nothing is wrong"
    return Call(f"test-{secrets.token_hex(6)}", target, (Mention(TEST, TEST, TEST, 0, told, now, now,
                                                                 "nothing; whoever made the test knows now that you "
                                                                 "are reached"),))


def payload(call: Call, caller: From) -> bytes:
    """A call as a line of JSON: the same bytes each time that it is sent."""
    return json.dumps(values(call, caller)).encode() + b"\n"


def mail(target: Target, call: Call, caller: From) -> bytes:
    """A call as the bytes of a mail."""
    found = email.message.EmailMessage()
    plan = printable.fit(caller.plan)
    found["To"], found["Subject"], found[ID] = target.mail, f"[opcplan {plan}] {subject(call)}", call.id
    found["Auto-Submitted"] = "auto-generated"
    body = [*lines(call), "", f"Plan {plan}, rule {call.rule}, desk {caller.desk}, "
                              f"{moment_text(call.mentions[0].at)}."]
    if target.route.acknowledge and call.kind in (NEW, WORSE):
        body += [f"To acknowledge: ./plan watch --state {caller.state} --acknowledge {call.id}"]
    found.set_content("\n".join(body) + "\n")
    return bytes(found)


# How a call is made.


def run(words: Sequence[str], data: bytes, more: Mapping[str, str]) -> None:
    """Runs a command with data on its standard input. Raises Undelivered unless it ends with status 0 in time."""
    try:
        ended = processes.run(words, data, more, LONGEST_RUN)
    except OSError as error:
        raise Undelivered(f"{words[0]}: it can't be run: {error.strerror}") from None
    if ended.status is None:
        raise Undelivered(f"{words[0]}: it didn't end within {LONGEST_RUN:g} s, and was killed")
    if ended.status:
        how = f"with status {ended.status}" if ended.status > 0 else f"by signal {-ended.status}"
        raise Undelivered(f"{words[0]}: it ended {how}{f': {ended.said}' if ended.said else ''}")


def post(target: Target, call: Call, data: bytes) -> None:
    """Sends data to a webhook. Raises Undelivered unless the answer has a status from 200 to 299 in time."""
    heads = {"Content-Type": "application/json", "User-Agent": "opcplan-watch", ID: call.id}
    if target.secret:
        heads[SIGNATURE] = f"sha256={signature(target.secret, data)}"
    given = json.dumps({"url": target.webhook, "heads": heads}).encode() + b"\n" + data
    try:
        ended = processes.run(POST, given, {}, LONGEST_POST, PYTHON)
    except OSError as error:
        raise Undelivered(f"{POST[0]}: it can't be run: {error.strerror}") from None
    if ended.status is None:
        raise Undelivered(f"{target.webhook}: no complete answer came within {LONGEST_POST:g} s")
    if ended.status:
        raise Undelivered(f"{target.webhook}: {ended.said or f'the call ended with status {ended.status}'}")


def secret_of(path: str) -> bytes:
    """The secret in a file. Raises Undelivered."""
    try:
        with open(path, "rb") as file:
            secret = file.read(4096).strip()
    except OSError as error:
        raise Undelivered(f"{path}: the secret can't be read: {error.strerror}") from None
    if not secret:
        raise Undelivered(f"{path}: the file has no secret; write one into it")
    return secret


def signature(path: str, data: bytes) -> str:
    """The HMAC of data by SHA-256, in hexadecimal, under the secret in a file. Raises Undelivered."""
    return hmac.new(secret_of(path), data, hashlib.sha256).hexdigest()
