"""The options of a desk."""

import dataclasses
from typing import NamedTuple

from opcplan.desk.log_words import Where


class Address(NamedTuple):
    """An address on which the desk listens: the host by its number, and the port."""

    host: str
    port: int


@dataclasses.dataclass(frozen=True)
class Settings:
    """The options of a desk; `docs/use/DESK.md` has their meaning."""

    plan: str
    journal: str
    log: Where | None
    source: str | None  # the desk that --from names, whose plan is fetched
    listen: Address | None
    socket: str | None
    users: str | None
    tokens: str | None
    hosts: tuple[str, ...]
    proxy: str | None
    limit: float
    etcd_ca: str | None
    etcd_cert: str | None
    etcd_key: str | None
    etcd_user: str | None
    name: str  # of the plan, for calls and metrics
    job_logs: int  # MiB of jobs' logs that are stored
    by_usual: bool = True  # whether usual deadlines count for what was added by hand, in what needs a person
