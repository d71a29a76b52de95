"""An entry of the log: a statement that changes something, who asked it and when, and what it was answered."""

import contextlib
import dataclasses
import datetime
import re
from collections.abc import Sequence

from opcplan.errors import LogUnwritable

# the job numbers that a desk gives itself: the first one and the number of the entry from 0 on
FIRST_JOB, LAST_JOB = 500_000_001, 599_999_999


@dataclasses.dataclass(frozen=True)
class Wanted:
    """A change that is to be put into the log."""

    who: str
    key: str | None  # the caller's own, for this statement
    words: str  # the words of its line, without a job number where the desk has to give one
    data: bytes | None
    job: int | None  # the caller's own number
    at: str
    stream: str | None = None  # the digest of the whole stream that the key stands for

    def is_like(self, other: "Wanted") -> bool:
        """Whether another one is the same statement."""
        return (self.words, self.data, self.job) == (other.words, other.data, other.job)

    def text(self, job: int) -> bytes:
        """Its text as opcplan gets it, under a job number."""
        line = self.words if self.job is not None else f"{self.words} --job {job}"
        data = b"" if self.data is None else self.data + b"/*\n"
        return line.encode("ascii") + b"\n" + data


@dataclasses.dataclass(frozen=True)
class Entry:
    """A change in the log. `stream` is the digest of the stream that its key stands for; entries that were written
    before there was one, and those without a key, have none."""

    seq: int
    at: str
    who: str
    key: str | None
    job: int
    text: bytes
    reply: str | None = None
    stream: str | None = None

    @property
    def line(self) -> str:
        """Its first line, without the data."""
        return self.text.split(b"\n", 1)[0].decode("ascii", "replace")

    def values(self) -> dict[str, object]:
        """What is told of it, by name."""
        return {"seq": self.seq, "statement": self.line, "job": self.job, "rows": [], "reply": self.reply,
                "at": self.at, "key": self.key, "who": self.who}


def placed(batch: Sequence[Wanted], last: int) -> list[Entry]:
    """The Entries that a list of Wanted are behind the last one. Raises Unwritable."""
    found = []
    for seq, wanted in enumerate(batch, last + 1):
        job = number_of(seq) if wanted.job is None else wanted.job
        if wanted.job is None and job > LAST_JOB:
            raise LogUnwritable("no job number of the desk's range is left")
        found.append(Entry(seq, wanted.at, wanted.who, wanted.key, job, wanted.text(job), None, wanted.stream))
    return found


def number_of(seq: int) -> int:
    """The job number that a desk gives to an entry."""
    return FIRST_JOB + seq - 1


def is_moment(text: str) -> bool:
    """Whether a text is a moment in universal time, as entries have it, that any clock can show."""
    if not re.fullmatch(r"[0-9]{4}-[0-9]{2}-[0-9]{2}T[0-9]{2}:[0-9]{2}:[0-9]{2}\.[0-9]{3}Z", text):
        return False
    with contextlib.suppress(ValueError):
        return 1970 <= datetime.datetime.fromisoformat(text.removesuffix("Z")).year < 9999
    return False


def moment_now() -> str:
    """This moment in universal time, as entries have it."""
    return text_of(datetime.datetime.now(datetime.timezone.utc))


def moment_text(seconds: float) -> str:
    """A moment in seconds since 1970, in universal time, as entries have it."""
    return text_of(datetime.datetime.fromtimestamp(seconds, datetime.timezone.utc))


def moment_before(text: str, seconds: int) -> str:
    """The moment so many seconds before another one, both in universal time, as entries have it."""
    moment = datetime.datetime.fromisoformat(text.removesuffix("Z"))
    return text_of(moment - datetime.timedelta(seconds=seconds))


def text_of(moment: datetime.datetime) -> str:
    """A moment in universal time, as entries have it."""
    return moment.strftime("%Y-%m-%dT%H:%M:%S.") + f"{moment.microsecond // 1000:03}Z"
