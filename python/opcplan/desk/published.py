"""What each desk of a shared log publishes of itself."""

import json
from collections.abc import Mapping, Set
from typing import NamedTuple

from opcplan.desk.digests import Published
from opcplan.desk.log_entries import Head


class Report(NamedTuple):
    """What a desk publishes in etcd: its last entry, its plan and its opcplan, and when; the digests of some entries,
    shortened; the entry after which its plan answers by itself, which version 1.0 doesn't publish; the entries at which
    it stopped and at which it is held, or 0; and what it answered there."""

    position: int
    plan: str = ""
    version: str = ""
    at: str = ""
    digests: Mapping[str, str] = {}
    since: int = 0
    stopped: int = 0
    held: int = 0
    reply: str = ""

    @property
    def text(self) -> str:
        """Its text in etcd."""
        return json.dumps(self._asdict())

    @property
    def published(self) -> Published:
        """What others compare. Raises ValueError."""
        return Published({int(seq): digest for seq, digest in self.digests.items()}, self.since, self.stopped)


class Desks(NamedTuple):
    """What desks publish, at one moment: the log's Head, or None if there is no log, their Reports by their ids, the
    desks whose votes were taken away, and etcd's revision then."""

    head: Head | None
    reports: Mapping[str, Report]
    distrusted: Set[str]
    revision: int

    def since(self, moment: str) -> "Desks":
        """The same without the Reports that are older than a moment: the desks publish them again each day. Version
        1.0 has them end by themselves, and may give no time."""
        return self._replace(reports={name: one for name, one in self.reports.items() if not one.at
                                      or one.at >= moment})


def report_of(text: bytes) -> Report:
    """The Report of its text. Raises ValueError and TypeError."""
    found = json.loads(text)
    return Report(**{name: found[name] for name in Report._fields if name in found})
