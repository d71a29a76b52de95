"""A running digest of a log: of each entry its number, text and reply, and the digest before it."""

import hashlib

from opcplan.plans.entry import Entry

# letters of a digest
DIGEST = 32


def chained(chain: str | None, one: Entry) -> str | None:
    """The digest of a log up to an answered entry, by the one before it; None where that isn't known."""
    if chain is None:
        return None
    text = f"{chain} {one.seq} {one.reply}\n".encode() + one.text
    return hashlib.sha256(text).hexdigest()[:DIGEST]


def chain_of(log_id: str, base: int) -> str:
    """The digest with which a log begins behind an entry."""
    return hashlib.sha256(f"{log_id} {base}".encode()).hexdigest()[:DIGEST]
