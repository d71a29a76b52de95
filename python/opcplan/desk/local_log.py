"""The log of one machine: its journal."""

import secrets
from collections.abc import Sequence

from opcplan.desk import log
from opcplan.plans import chain, entry
from opcplan.plans.journal import Journal, JournalReply


class LocalLog(log.Log):
    """The log of a desk that shares its plan with no other desk."""

    def __init__(self, journal: Journal) -> None:
        super().__init__(journal)
        self.known = journal.position()
        self.begins = journal.first() - 1  # earlier entries were pruned, or were in a journal that is lost
        self.own = secrets.token_hex(4)

    @property
    def life(self) -> str:
        return self.own

    @property
    def given(self) -> int:
        return self.known

    @property
    def trouble(self) -> str:
        return self.unwritten

    def chain_at(self, position: int) -> str | None:
        base = self.journal.first() - 1
        return self.journal.digest_at(position, base, chain.chain_of("journal", base))

    async def append(self, batch: Sequence[entry.Wanted], replies: Sequence[JournalReply],
                     until: float) -> list[entry.Entry]:
        entries = entry.placed(batch, self.known)
        await self.keep(entries, replies)
        self.known = entries[-1].seq
        return entries

    async def others(self) -> list[entry.Entry]:
        return []

    async def ask_last(self, until: float) -> int:
        return self.known

    def used(self, wanted: Sequence[entry.Wanted]) -> dict[int, entry.Entry | None]:
        return {}  # nobody else appends, so the journal had them when they were asked for
