"""The first plan of a new desk of a log: a copy of another desk's, with its position in the log."""

import contextlib
import os
import tempfile

from opcplan.desk import bootstrap, client
from opcplan.desk.etcd_log import new_name
from opcplan.desk.versions import CannotJoin
from opcplan.plans import copy_mark, journal, plan_file


# a file that opcplan left when it ended is no longer than this, and has nothing of a plan
LEAST = 64


def take(source: str, plan: str, path: str) -> None:
    """Fetches another desk's plan into a file, and begins a journal after its position. Raises CannotJoin and
    Unreadable."""
    for tail in plan_file.TAILS[1:]:
        # opcplan would take this file for a part of the new plan
        if os.path.exists(plan + tail) and os.path.getsize(plan + tail) > LEAST:
            raise CannotJoin(f"{plan}{tail}: this file is left from another plan; move it away too")
    folder, name = os.path.split(os.path.abspath(plan))
    with tempfile.NamedTemporaryFile(dir=folder, prefix=f"{name}.", suffix=".part", delete=False) as part:
        try:
            heads = client.Client(source, client.token()).download("/snapshot", part)
            part.flush()
            os.fsync(part.fileno())
            log_id, position = heads.get("X-Opcplan-Log"), heads.get("X-Opcplan-Position", "")
            if not log_id or not position.isdigit():
                raise CannotJoin(f"{source}: this desk shares no log; name a desk of the same log with --from")
            digest = heads.get("X-Opcplan-Digest")
            if not digest:
                raise CannotJoin(f"{source}: this desk doesn't know the digest of its answers, so no desk can begin "
                                 "with its plan; name another desk of the same log with --from")
            with plan_file.opened(part.name) as held:
                jobs = copy_mark.jobs_of(held)
            begin(path, log_id, int(position), jobs, digest)
            os.link(part.name, plan)
            sync(folder)
        except (client.DeskUnreachable, client.RequestRefused, client.InvalidAddress) as why:
            raise CannotJoin(f"{source}: the plan of this desk can't be fetched: {why}") from None
        except FileExistsError:
            raise CannotJoin(f"{plan}: somebody made this file meanwhile; start the desk again") from None
        finally:
            os.remove(part.name)


def begin(path: str, log_id: str, position: int, jobs: int, digest: str) -> None:
    """Has a journal go on after an entry of a log. It is a new one, or was of the same log before. Raises
    CannotJoin."""
    with contextlib.closing(journal.Journal(path)) as record:
        known = record.begun()
        if known is None and record.position() or known is not None and known.log != log_id:
            raise CannotJoin(f"{path}: {bootstrap.OTHER_JOURNAL}")
        record.begin(log_id, position, jobs, digest, new_name())


def sync(folder: str) -> None:
    """Syncs a folder's list of files to the disk."""
    number = os.open(folder, os.O_RDONLY)
    try:
        os.fsync(number)
    finally:
        os.close(number)
