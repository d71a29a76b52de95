"""The requests of an agent to a desk, and its answers, checked and decoded."""

import contextlib
import json
from collections.abc import Callable, Iterator
from typing import Any, NamedTuple, TypeVar

from opcplan.agent import known_plan
from opcplan.agent.known_plan import Entry, Pair, Row
from opcplan.agent.record import Record
from opcplan.desk import client

CHANGED = 412  # HTTP's status where the plan isn't in the state that a statement names
# the header with the name that an agent gives itself
AGENT = "X-Opcplan-Agent"
T = TypeVar("T")


class Standing(NamedTuple):
    """The last entry that a desk's plan has, and the name of the log."""

    position: int
    life: str


class Listed(NamedTuple):
    """The objects of a desk's list, and the position of the plan that it shows."""

    objects: list[Any]
    position: int


class DeskQueries:
    """Sends requests to a desk. Each method raises DeskUnreachable and RequestRefused."""

    def __init__(self, desk: client.Client, name: str = "") -> None:
        self.desk, self.name = desk, name
        self.report: str | None = None  # the digest of the last report that the desk has; None if it takes none

    def standing(self) -> Standing:
        """The position of the desk and the name of its log."""
        with self.read():
            heads = {AGENT: self.name} if self.name else {}
            health = json.loads(self.desk.request("GET", "/health", None, heads)[1])
            found = health.get("report")
            self.report = found if isinstance(found, str) else None
            if "position" not in health:  # a caller who may not read gets less; asking for rows raises why
                self.listed("cp")
            position, tag = health["position"], health.get("tag", "")
            if not isinstance(position, int):
                raise TypeError
            return Standing(position, tag.rpartition("-")[0])

    def pairs(self) -> tuple[list[Pair], int]:
        """Which occurrence waits for which, and at which position."""
        with self.read():
            found = self.listed("dependencies")
            return [known_plan.pair_of(one) for one in found.objects], found.position

    def rows(self) -> tuple[list[Row], int]:
        """The valid rows of the current plan, and at which position."""
        with self.read():
            found = self.listed("cp")
            return [row for row in map(known_plan.row_of, found.objects) if row], found.position

    def entries(self, since: int) -> list[Entry]:
        """The entries after a position."""
        with self.read():
            return self.each(known_plan.entry_of, self.desk.request("GET", f"/journal?from={since + 1}")[1])

    def send(self, one: Record, act: str, key: str, tag: str) -> Entry | None:
        """The desk's answer to a statement on an occurrence; None if the plan isn't in the state of the tag."""
        text = f"cp-{act} --app {one.app} --ia {one.ia}\n".encode("ascii")
        heads = {"Idempotency-Key": key, "Content-Type": "text/plain", "Accept": "application/x-ndjson"}
        if tag:
            heads["If-Match"] = f'"{tag}"'
        try:
            with self.read():
                found = self.desk.request("POST", "/statements", text, heads)[1]
                (answer,) = self.each(known_plan.entry_of, found)
                if fault := client.fault_of(found):
                    raise client.DeskUnreachable(f"{self.desk.name}: its answer ends with `{fault}`", True)
                return answer
        except client.RequestRefused as why:
            if why.status != CHANGED:
                raise
            return None

    def listed(self, name: str) -> Listed:
        """The objects of a list. Raises ValueError, KeyError and TypeError too."""
        heads, data = self.desk.request("GET", f"/rows?list={name}")
        return Listed(self.each(lambda one: one, data), int(heads["X-Opcplan-Position"]))

    def each(self, form: Callable[[Any], T], data: bytes) -> list[T]:
        """Each line of JSON, decoded by `form`. Raises ValueError, KeyError and TypeError."""
        return [form(json.loads(line)) for line in data.decode("utf-8").splitlines()]

    @contextlib.contextmanager
    def read(self) -> Iterator[None]:
        """A context in which an answer that no desk gives raises DeskUnreachable."""
        try:
            yield
        except (AttributeError, KeyError, TypeError, ValueError):
            raise client.DeskUnreachable(f"{self.desk.name}: its answer isn't that of a desk; check the address",
                                         False) from None
