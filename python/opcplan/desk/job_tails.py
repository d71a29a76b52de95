"""The ends of jobs' logs at a desk: agents send them, by serial and try, and users who may operate read them.

A desk stores the log of an occurrence only if that is or was started. `opcplan.plans.log_room` decides which logs give
way if there is no room for another."""

import asyncio
import contextlib
import re
from typing import TYPE_CHECKING

from aiohttp import web

from opcplan.desk import connections, routes
from opcplan.desk.errors import StatementRejected
from opcplan.errors import LogUnwritable
from opcplan.plans import job_logs, log_room
from opcplan.plans.job_logs import JobLogs
from opcplan.plans.log_room import NoRoom, Standing

if TYPE_CHECKING:
    from opcplan.desk.core import Desk

SERIAL, TRY = re.compile(routes.SERIAL), re.compile(routes.TRY)
# after so many serials others have a turn
SLICE = 100


class JobTails:
    """The handlers of the requests for logs, over a folder in which logs have at most so many bytes."""

    def __init__(self, desk: "Desk", folder: str, most_bytes: int) -> None:
        self.desk, self.logs = desk, JobLogs(folder, most_bytes)
        self.turn = asyncio.Lock()
        self.changed: dict[int, None] = {}  # occurrences with logs that got another status since the last turn
        desk.on_status = self.note

    def note(self, serial: int) -> None:
        """Notes that an occurrence got another status."""
        if self.logs.known is not None and self.logs.known.tries(serial):
            self.changed[serial] = None

    async def put(self, request: web.Request) -> web.StreamResponse:
        """PUT /logs/{serial}."""
        serial, most = serial_of(request), job_logs.MOST_OF_A_TRY
        attempt = request.query.get("try", "1")
        if not TRY.fullmatch(attempt):
            raise StatementRejected(400, f"`try` must be a number from 1 to {job_logs.LAST_TRY}; nothing was stored")
        try:
            data = await connections.body_of(request, most)
        except web.HTTPRequestEntityTooLarge:
            data = b" " * (most + 1)
        if len(data) > most:
            raise StatementRejected(413, f"the end of a log may have at most {most >> 10} KiB; nothing was stored")
        if await self.standing(serial) is Standing.NEVER:
            raise StatementRejected(409, f"occurrence {serial} was never started, so no job of it has a log; nothing "
                                    "was stored")
        try:
            async with self.turn:
                await self.look(serial, int(attempt), len(data))
                await asyncio.to_thread(self.logs.put, serial, int(attempt), data)
        except NoRoom as why:
            raise StatementRejected(507, f"the desk has no room for this log: {why}; the agent still has it") from None
        except OSError as error:
            raise StatementRejected(507, f"the log can't be stored: {error.strerror}; the agent still has it") from None
        return web.Response(status=204)

    async def standing(self, serial: int) -> Standing:
        """How far an occurrence is: if it was never started as far as the journal has it, also after all that this
        desk, and then any other desk, has answered. Raises StatementRejected."""
        found = self.known(serial)
        if found is Standing.NEVER:
            await self.write_journal()
            found = self.known(serial)
        if found is Standing.NEVER and self.desk.log.is_shared:
            await self.desk.catch_up()
            await self.write_journal()
            found = self.known(serial)
        return found

    def known(self, serial: int) -> Standing:
        """How far an occurrence is, by the journal."""
        return log_room.standing_of(self.desk.log.journal.statuses(serial))

    async def write_journal(self) -> None:
        """Has the journal know what was answered, if it can be written."""
        with contextlib.suppress(LogUnwritable):
            await self.desk.keep_replies()

    async def look(self, serial: int, attempt: int, size: int) -> None:
        """Finds out which occurrences are over, if some have to give way to a log. Raises OSError."""
        room = await asyncio.to_thread(self.logs.room)
        changed, self.changed = self.changed, {}
        for one in changed:
            room.changed(one)
        if not room.doubtful or not room.is_short(serial, attempt, size):
            return
        await self.write_journal()
        for place, one in enumerate([*room.doubtful]):
            room.noted(one, self.known(one))
            if place % SLICE == 0:
                await asyncio.sleep(0)

    async def get(self, request: web.Request) -> web.StreamResponse:
        """GET /logs/{serial}."""
        serial = serial_of(request)
        try:
            found = await asyncio.to_thread(self.logs.read, serial)
        except OSError as error:
            raise StatementRejected(503, f"the log can't be read: {error.strerror}") from None
        if found is None:
            return web.Response(status=204)
        return web.Response(text=found.decode("utf-8", "replace"))


def serial_of(request: web.Request) -> int:
    """The serial that a request names. Raises StatementRejected."""
    found = request.match_info["serial"]
    if not SERIAL.fullmatch(found):
        raise StatementRejected(400, f"the serial must be a number from 1 to {job_logs.LAST_SERIAL}")
    return int(found)
