"""Spans of time and sizes as words have them: `90d`, `1h`, `500M`."""

import re

SECONDS = {"s": 1, "m": 60, "h": 3600, "d": 86400, "w": 7 * 86400}
BYTES = {"": 1, "K": 1 << 10, "M": 1 << 20, "G": 1 << 30, "T": 1 << 40}
# of a span in seconds, and of a size in bytes
LONGEST, LARGEST = 10_000_000_000, 1 << 60


def seconds_of(text: str) -> int | None:
    """The seconds of a span like `30s`, `10m`, `2h`, `90d` or `4w`; None where it is none."""
    found = re.fullmatch("([0-9]{1,10})([smhdw])", text)
    seconds = int(found[1]) * SECONDS[found[2]] if found else 0
    return seconds if 0 < seconds <= LONGEST else None


def bytes_of(text: str) -> int | None:
    """The bytes of a size like `64K`, `500M` or `2G`; None where it is none."""
    found = re.fullmatch("([0-9]{1,15})([KMGT]?)", text)
    size = int(found[1]) * BYTES[found[2]] if found else 0
    return size if 0 < size <= LARGEST else None


def size_text(size: int) -> str:
    """A size in words: `3.4 MB`."""
    found, unit = float(size), "bytes"
    for more in ("kB", "MB", "GB", "TB"):
        if found < 1000:
            break
        found, unit = found / 1000, more
    return f"{size:,} bytes" if unit == "bytes" else f"{found:.1f} {unit}"
