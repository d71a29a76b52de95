"""What an agent reports to its desk, which the desk counts among what needs a person: why it doesn't start what is
ready, of which runs nobody knows the end, and what is wrong with its settings.

The answer to `GET /health` names the last report that the desk has of this agent. The agent sends its report if that is
another one: after a change, and after the desk was started again."""

import hashlib
import json
import time
from collections.abc import Callable, Iterable, Mapping
from typing import NamedTuple

from opcplan.agent import needs
from opcplan.agent.desk_queries import AGENT
from opcplan.agent.known_plan import Row
from opcplan.agent.needs import Needs
from opcplan.desk import client

# why an occurrence isn't started: all places are taken, only other agents may run it, its program is missing or can't
# be run, the desk refused its start
ROOM, PLACE, PROGRAM, REFUSED = "room", "place", "program", "refused"
# how many occurrences a report has at most, how many of them with a text, and how long a text is
MOST_ROWS, MOST_TEXTS, LONGEST = 5000, 1000, 500
# seconds between two reports
EVERY = 10.0
Idle = Mapping[str, str]


class Facts(NamedTuple):
    """What is known of the rows that are ready and have no run: what is wrong, by name; by serial why the desk refused
    a start, or why it has to wait; which applications only other agents run, each with the pattern of their names;
    whether an application has room; whether the agent has a program for it."""

    needs: Needs
    refused: Mapping[int, str]
    elsewhere: Mapping[str, str]
    has_room: Callable[[str], bool]
    has_program: Callable[[str], bool]


def idle_of(row: Row, known: Facts) -> Idle | None:
    """Why the agent doesn't start a row, None if it is about to."""
    if row.app in known.elsewhere:
        return {"why": PLACE, "where": known.elsewhere[row.app]}
    for name in (needs.FOLDER, f"{needs.JOB}{row.app}"):
        if text := known.needs.found.get(name):
            return {"why": PROGRAM, "text": text[:LONGEST]}
    if not known.has_room(row.app):
        return {"why": ROOM}
    if text := known.refused.get(row.serial):
        return {"why": REFUSED, "text": text[:LONGEST]}
    return None if known.has_program(row.app) else {"why": PROGRAM, "text": f"this agent has no job for {row.app}"}


def report(rows: Iterable[Row], lost: Mapping[int, str], known: Facts) -> bytes:
    """The report on these ready rows and on runs whose outcome nobody knows, as JSON."""
    idle: dict[str, Idle] = {}
    texts = 0
    for row in rows:
        found = idle_of(row, known)
        if found is None or len(idle) == MOST_ROWS:
            continue
        texts += "text" in found
        idle[str(row.serial)] = found if texts <= MOST_TEXTS else {"why": found["why"], "text": ""}
    unknown = {str(serial): text[:LONGEST] for serial, text in list(lost.items())[:MOST_TEXTS]}
    wrong = [known.needs.found[name] for name in (needs.JOBS_TOML, needs.FOLDER) if name in known.needs.found]
    return json.dumps({"idle": idle, "unknown": unknown, "trouble": "; ".join(wrong)[:LONGEST]}).encode()


def digest_of(data: bytes) -> str:
    """The digest by which a desk names a report."""
    return hashlib.sha256(data).hexdigest()[:16]


class Reports:
    """Sends a desk reports."""

    def __init__(self, desk: client.Client, name: str, say: Callable[[str], None]) -> None:
        self.desk, self.heads, self.say, self.next = desk, {"Content-Type": "application/json", AGENT: name}, say, 0.0

    def give(self, known: str | None, made: Callable[[], bytes]) -> None:
        """Sends a report if the desk has another one, by its digest; None is that of a desk that takes no reports."""
        now = time.monotonic()
        if known is None or now < self.next:
            return
        self.next = now + EVERY
        data = made()
        if digest_of(data) == known:
            return
        try:
            self.desk.request("PUT", "/reports/agent", data, self.heads)
        except (client.DeskUnreachable, client.RequestRefused) as why:
            self.say(f"the desk didn't accept the agent's report: {why}; the agent tries again later")
