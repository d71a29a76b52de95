"""The live facts of a desk: since when it accepts changes, which nodes of etcd don't answer, disks, agents, reports."""

import os
import shutil
import time
from collections.abc import Callable, Mapping
from typing import Any, TYPE_CHECKING

from opcplan.needs.facts import Away, Disk, Live
from opcplan.needs.machines import FULL

if TYPE_CHECKING:
    from opcplan.desk.core import Desk


class Service:
    """Since when a desk accepts changes without a break, or accepts none, and since when nodes of etcd don't answer and
    disks are full. `clock` returns monotonic seconds."""

    def __init__(self, clock: Callable[[], float] = time.monotonic) -> None:
        self.clock, self.trouble = clock, ""
        self.since = clock()
        self.nodes: dict[str, tuple[float, str]] = {}  # that don't answer: since when, and why
        self.disks: dict[str, float] = {}  # that are full: since when

    def note(self, trouble: str, standing: Mapping[str, Any]) -> None:
        """Notes why the desk accepts no change now, empty if it does, and where its log is."""
        now = self.clock()
        if bool(trouble) != bool(self.trouble):
            self.since = now
        self.trouble = trouble
        members = standing.get("etcd", {}).get("members", ())
        self.nodes = {str(one["endpoint"]): (self.nodes.get(str(one["endpoint"]), (now, ""))[0], str(one["why"] or ""))
                      for one in members if not one["answers"]}

    def live(self, now: int, name: str, folder: str) -> Live:
        """What it knows, as live facts at a moment, of a plan with a name and in a folder."""
        def moment(since: float) -> int:
            return now - int((self.clock() - since) // 60)

        used = used_of(folder)
        if isinstance(used, str) or used >= FULL:
            self.disks.setdefault(folder, self.clock())
        else:
            self.disks.pop(folder, None)
        since = self.disks.get(folder)
        return Live(
            moment(self.since), Away(name, moment(self.since), self.trouble) if self.trouble else None,
            nodes=tuple(Away(node, moment(begun), why) for node, (begun, why) in self.nodes.items()),
            disks=(Disk(folder, used, None if since is None else moment(since)),), plan=name)


def of_desk(desk: "Desk", path: str, now: int) -> Live:
    """The live facts of a desk over the file of a plan at a moment."""
    found = desk.service.live(now, desk.name, os.path.dirname(os.path.realpath(path)))
    return found._replace(agents=desk.reports.of_agents(now), roll=desk.reports.roll,
                          undelivered=desk.reports.undelivered())


def used_of(path: str) -> float | str:
    """How much of the disk of a path is used, in percent, or why that isn't known."""
    try:
        found = shutil.disk_usage(path)
    except OSError as error:
        return error.strerror or str(error)
    return 100.0 * found.used / max(1, found.used + found.free)
