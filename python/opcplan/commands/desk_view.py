"""What a desk's plan has of one application, for `send`: asked of the desk, and only where it is needed."""

import json
import secrets
import time
import urllib.parse
from collections.abc import Iterable, Mapping
from typing import Any, NamedTuple

from opcplan.commands import journal
from opcplan.desk import client
from opcplan.plans import stream_state
from opcplan.rules import moments, statement_words, statements
from opcplan.rules.naming_words import meant_text
from opcplan.rules.statement_words import Statement

PLACES = {"cp": "", "ltp": "L", "history": "H"}  # by list where its rows are, the current plan's by their status
SOME_DAY = "2000-01-03"
BACK = (200, 5_000, 100_000)  # entries of a journal that are looked at, the last ones


class Done(NamedTuple):
    """A statement that was accepted: its name and job number, and who asked it when, where that is known."""

    name: str
    job: int
    at: str | None = None
    who: str | None = None

    def text(self) -> str:
        """Since when something is so, in a sentence."""
        by = f"`{self.name}`, job {self.job}"
        if self.at is None:
            return f"{by}, made it so"
        return f"{self.who} made it so at {journal.local(self.at):%Y-%m-%d %H.%M.%S}, by {by}"


class View:
    """A desk that is asked about its plan. Each method raises client.DeskUnreachable and client.RequestRefused."""

    def __init__(self, desk: client.Client) -> None:
        self.desk = desk

    def rows(self, name: str, app: str | None = None) -> list[dict[str, Any]]:
        """The rows of a list, or those of one application."""
        query = urllib.parse.urlencode({"list": name, **({} if app is None else {"app": app})})
        _, body = self.desk.request("GET", f"/rows?{query}")
        return [json.loads(line) for line in body.decode().splitlines()]

    def lack_of(self, app: str) -> str:
        """That an application is neither defined nor in the plans, and which is meant; or nothing."""
        text = f"days --app {app} --from {SOME_DAY} --to {SOME_DAY}\n".encode("ascii")
        answer = self.desk.statements(text, secrets.token_hex(16), time.monotonic())
        if answer != b"refused 26\n" or any(self.rows(name, app) for name in PLACES):
            return ""
        known = {row["app"] for name in PLACES for row in self.rows(name)}
        return f"the application {app} isn't defined, or is pending{meant_text(app, sorted(known))}"

    def key_of(self, serial: int) -> tuple[str, str] | None:
        """Application and input arrival of a serial of the current or the long-term plan; None where neither has it."""
        for name in ("cp", "ltp"):
            for row in self.rows(name):
                if row["serial"] == serial:
                    return row["app"], row["ia"]
        return None

    def known(self, statement: Statement) -> stream_state.Known:
        """What is known after one statement on an occurrence: where those of its application are."""
        now = stream_state.Known()
        app, ia = statement.values["app"], statement.values["ia"]
        now.places[app, ia] = ""
        for name, place in PLACES.items():
            for row in self.rows(name, app):
                at = moments.moment_of(row["ia"])
                if at is not None and not now.places.get((app, at)):
                    now.places[app, at] = place or row["status"]
                now.rows[row["serial"]] = f"{app} {row['ia'].replace('/', ' ')}"
        return now

    def since(self, statement: Statement) -> Done | None:
        """What last changed the status of an occurrence, as far as the journal is looked at."""
        query = urllib.parse.urlencode({"list": "cp", "app": statement.values["app"]})
        heads, _ = self.desk.request("GET", f"/rows?{query}")
        last = int(heads.get("X-Opcplan-Position") or 0)
        for count in BACK:
            first = max(1, last - count)
            _, body = self.desk.request("GET", f"/journal?from={first}")
            found = last_change(map(json.loads, body.decode().splitlines()), statement)
            if found or first == 1:
                return found
        return None


def last_change(entries: Iterable[Mapping[str, Any]], statement: Statement) -> Done | None:
    """The last of some entries that changed the status of the occurrence of a statement, or made it."""
    found = None
    for one in entries:
        asked, _ = statement_words.read(one["statement"].split(" "))
        if asked is None or not statements.KINDS[asked.name].is_on_key or not str(one["reply"]).startswith("ok"):
            continue
        if all(asked.values[option] == statement.values[option] for option in ("app", "ia")):
            found = Done(asked.name, one["job"], one["at"], one["who"])
    return found
