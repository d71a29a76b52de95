"""The plan as one file, taken while no statement is in flight."""

import asyncio
import contextlib
import os
import sqlite3
from typing import TYPE_CHECKING

from aiohttp import web

from opcplan.desk import connections
from opcplan.desk.held_files import FileReplaced
from opcplan.desk.state import Rest
from opcplan.errors import Unreadable
from opcplan.plans import copy_mark, plan_file, tempfiles

if TYPE_CHECKING:
    from opcplan.desk.core import Desk


class Restless(Unreadable):
    """Why a copy may have more than its position says."""


async def handle(desk: "Desk", path: str, request: web.Request) -> web.StreamResponse:
    """GET /snapshot."""
    with tempfiles.folder("desk-") as folder:
        copy = os.path.join(folder, "plan.db")
        try:
            stands = await copied(desk, path, copy, request["who"])
            if not stands.is_exact:
                raise Restless("a change has no answer yet, and may be in the plan; try again once the desk continues")
            await asyncio.to_thread(in_one_file, copy)
            if desk.log.is_shared and stands.digest is not None:
                await asyncio.to_thread(copy_mark.put, copy, desk.log.life, stands.position, stands.digest)
        except (OSError, sqlite3.Error, Unreadable, FileReplaced) as error:
            raise web.HTTPServiceUnavailable(text=f"the desk can't copy the plan: {error}\n") from None
        heads = {
            "Content-Type": "application/vnd.sqlite3", "Content-Disposition": "attachment; filename=plan.db",
            "X-Opcplan-Position": str(stands.position), "ETag": f'"{stands.tag}"',
            "Cache-Control": "no-store", "X-Content-Type-Options": "nosniff",
            **({"X-Opcplan-Digest": stands.digest} if stands.digest else {}),
            **({"X-Opcplan-Log": desk.log.life} if desk.log.is_shared else {})}
        with open(copy, "rb") as file:
            return await connections.sent_file(request, heads, file, os.path.getsize(copy))


async def copied(desk: "Desk", path: str, copy: str, who: str = "") -> Rest:
    """Copies the plan and its `-wal` for a caller, while no statement is in flight. If the planner is stopped, the copy
    may not be exact. Raises FileReplaced, Unreadable and OSError."""
    async with desk.feed.at_rest(who):
        if desk.planner.halted:
            raise FileReplaced(desk.planner.halted)
        found = desk.state.rest()
        await asyncio.to_thread(plan_file.copied, os.path.realpath(path), copy)
        desk.files.check()
        return desk.state.copied(found)


def in_one_file(copy: str) -> None:
    """Moves the `-wal` of a copy into it. Raises sqlite3.Error."""
    with contextlib.closing(sqlite3.connect(copy)) as db:
        db.execute("PRAGMA wal_checkpoint(TRUNCATE)")
