"""What ./plan log does to a log in etcd, and the lines that it prints."""

import os
import time
from collections.abc import Mapping, Sequence
from typing import Protocol

from opcplan.desk import bootstrap, log_words
from opcplan.desk.etcd import EtcdError, EtcdUnreachable, Member
from opcplan.desk.keys import trimmed_to, young_since
from opcplan.desk.published import Report
from opcplan.desk.store import State, Store
from opcplan.desk.versions import CannotJoin, first_line, named, version_at, version_of, why_not_moved
from opcplan.plans import journal
from opcplan.plans.entry import moment_now

# seconds that a node may take to release space
LONGEST = 120


class Words(log_words.EtcdWords, Protocol):
    """The words of ./plan log."""

    @property
    def log(self) -> log_words.Where:
        """The log."""

    @property
    def begin(self) -> str | None:
        """The plan from which the log begins."""

    @property
    def journal(self) -> str | None:
        """The journal of that plan."""

    @property
    def version(self) -> bool:
        """Whether the log is moved to another program."""

    @property
    def trim(self) -> bool:
        """Whether old entries are removed."""

    @property
    def keep(self) -> int:
        """How many of the last entries stay at least."""

    @property
    def distrust(self) -> str | None:
        """The desk whose vote is taken away."""

    @property
    def forget(self) -> Sequence[str]:
        """The desks that are gone permanently."""


async def done(given: Words, program: str | None) -> list[str]:
    """The lines that say what was done, or what is there. `begin` and `version` need a program. Raises CannotJoin and
    Unreadable."""
    async with bootstrap.opened(given.log, log_words.access_of(given)) as store:
        if given.begin and program:
            return await begin(store, given.begin, given.journal, program)
        state = await store.state()
        if state is None:
            raise CannotJoin(f"{given.log}: there is no such log in etcd; check its name")
        if given.version and program:
            return await move_version(store, state, program)
        if given.trim:
            return await trim(store, state, given.keep, given.forget)
        if given.distrust:
            return await distrust(store, given.distrust)
        return await shown(store, state)


async def shown(store: Store, state: State) -> list[str]:
    """The lines about a log, its desks, and the nodes of etcd."""
    size = await store.size()
    lines = [f"log {store.where.name}", f"head {state.head.last}", f"first {state.first}", f"entries {size.entries}",
             f"bytes {size.bytes}", f"begun after {state.base}",
             *(f"version from {since}: {', '.join(version.splitlines())}"
               for since, version in sorted(state.versions.items()))]
    desks = await store.desks()
    voters = desks.since(young_since(time.time())).reports.keys() - desks.distrusted
    for name, report in sorted(desks.reports.items()):
        behind = state.head.last - report.position
        lines.append(f"desk {name}: position {report.position}, {behind} behind, as of {report.at}"
                     + verdict_text(report, name in voters))
    for endpoint in store.etcd.endpoints:
        lines.append(f"member {endpoint}: {of_member(await store.etcd.standing(endpoint))}")
    return lines


def verdict_text(report: Report, has_vote: bool) -> str:
    """What a line about a desk adds if it isn't on, or has no vote."""
    found = [f", stopped by entry {report.stopped}" if report.stopped else "",
             f", held by entry {report.held}" if report.held else "", "" if has_vote else ", without a vote"]
    return "".join(found)


async def distrust(store: Store, name: str) -> list[str]:
    """Takes a desk's vote away. Raises CannotJoin."""
    await check_reported(store, [name])
    await store.distrust(name, moment_now())
    return [f"desk {name} has no vote any more: desks that are held decide without it within some seconds"]


async def check_reported(store: Store, names: Sequence[str]) -> Mapping[str, Report]:
    """The reports of all desks, which those of some names must be among. Raises CannotJoin."""
    reports = (await store.desks()).reports
    for name in names:
        if name not in reports:
            raise CannotJoin(f"{name}: no desk of this name has published its position; `./plan log {store.where}` "
                             "lists those that have")
    return reports


def of_member(one: Member) -> str:
    """The line about a node."""
    if not one.answers:
        return f"doesn't answer: {one.why}"
    quota = f" of {one.quota}" if one.quota else ""
    return f"{one.bytes} bytes{quota}, {one.in_use} in use{', leads' if one.leads else ''}"


async def trim(store: Store, state: State, kept: int, gone_for_good: Sequence[str]) -> list[str]:
    """Removes old entries, but none that a desk lacks that has published its position within eight days, hasn't stopped
    and isn't gone permanently, none after one whose key may be sent again, and never the last one. Raises
    CannotJoin."""
    reports = await check_reported(store, gone_for_good)
    since = young_since(time.time())
    gone = {name for name, one in reports.items() if name in gone_for_good or one.at and one.at < since}
    for name in gone:
        await store.forget(name)
    desks = {name: one for name, one in reports.items() if name not in gone and not one.stopped}
    wanted = state.head.last - max(kept, 1) + 1
    young = await store.first_keyed(await store.first_since(state.first, state.head.last, since), wanted)
    least = trimmed_to(wanted, {name: one.position for name, one in desks.items()}, young)
    batch = await store.holding(least) if least > state.first else None  # one that has older entries too stays whole
    before = batch.entries[0].seq if batch else state.first
    trimmed = await store.trim(state.first, before)
    lines = [f"removed {before - state.first} entries, in {trimmed.gone} batches; the first entry is now {before}"]
    if least < wanted and least == young:
        lines.append(f"entry {least} has a caller's key and is younger than eight days, so it and later entries stay")
    elif least < wanted:
        name, one = min(desks.items(), key=lambda found: (found[1].position, found[0]))
        lines.append(f"desk {name} had only entries up to {least} at {one.at}, so later entries stay")
    return lines + await room(store, trimmed.revision)


async def room(store: Store, revision: int) -> list[str]:
    """Has etcd drop what was before a revision, and its nodes release the space."""
    etcd = store.etcd
    try:
        await etcd.at(etcd.endpoint, "/v3/kv/compaction", {"revision": str(revision), "physical": True}, LONGEST)
    except EtcdError as why:
        if "compacted" not in str(why):
            raise
    lines = []
    for before in sorted([await etcd.standing(one) for one in etcd.endpoints], key=lambda one: one.leads):
        endpoint = before.endpoint  # the leader comes last: a node doesn't answer meanwhile
        try:
            await etcd.at(endpoint, "/v3/maintenance/defragment", {}, LONGEST)
            after = await etcd.standing(endpoint)
            lines.append(f"member {endpoint}: {before.bytes} bytes before, {of_member(after)} now")
        except (EtcdUnreachable, EtcdError) as why:
            lines.append(f"member {endpoint}: not defragmented: {why}; trim once more to try again")
    alarms = (await etcd.post("/v3/maintenance/alarm", {"action": "GET"})).get("alarms", ())
    for alarm in alarms:
        if alarm.get("alarm") == "NOSPACE":
            await etcd.post("/v3/maintenance/alarm", {**alarm, "action": "DEACTIVATE"})
            lines.append("etcd accepts changes again")
    return lines


async def move_version(store: Store, state: State, program: str) -> list[str]:
    """Moves the log to a program from the next entry on. Raises CannotJoin."""
    version = version_of(program)
    old = version_at(state.versions, state.head.last + 1)
    if old == version:
        return [f"{first_line(version)} answers the log already"]
    if why := why_not_moved(old, version):
        raise CannotJoin(f"{store.where}: {why}")
    while not await store.move_version(state.head, version):
        state = await store.state() or state
    since = state.head.last + 1
    lines = [f"from entry {since} on, {named(version, old)[0]} answers the log; start each desk with it, once that "
             f"desk has entry {since - 1}"]
    for name, report in sorted((await store.desks()).reports.items()):
        if report.position < since - 1:
            lines.append(f"desk {name} had only entries up to {report.position} at {report.at}")
    return lines


async def begin(store: Store, plan: str, kept_by: str | None, program: str) -> list[str]:
    """Makes a log from a plan with this journal, or with the usual one. Raises CannotJoin and Unreadable."""
    path = os.path.realpath(kept_by or journal.beside(plan))
    version = version_of(program)
    if await store.state() is not None:
        raise CannotJoin(f"{store.where}: this log exists already; choose another name")
    record = journal.for_desk(path, plan)
    try:
        with journal.at_rest(plan) as held:
            position = record.position()
            if record.unanswered():
                raise CannotJoin(f"{path}: this journal has entries without a reply; start the plan's desk once more, "
                                 "end it, and then begin the log")
            if not await bootstrap.begun(store, held, position, version):
                raise CannotJoin(f"{store.where}: somebody else made this log meanwhile; choose another name")
    finally:
        record.close()
    return [f"{store.where} begins after entry {position} of {plan}"]
