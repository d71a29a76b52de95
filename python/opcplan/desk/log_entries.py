"""The form of a log's entries in etcd, in the JSON of its gateway."""

import base64
import hashlib
import json
from collections.abc import Mapping, Sequence
from typing import Any, NamedTuple

from opcplan.plans import entry


class Head(NamedTuple):
    """The last entry of a log, and how often its version was moved."""

    last: int
    moves: int

    def __str__(self) -> str:
        return f"{self.last} {self.moves}"


class Batch(NamedTuple):
    """Entries that were appended together, and the mark of that append."""

    mark: str
    entries: list[entry.Entry]

    @property
    def last(self) -> int:
        """The number of its last entry."""
        return self.entries[-1].seq


class KeyHolder(NamedTuple):
    """The entry that has a caller's key: its number, job, time, and the digest of its stream, or, if it has none, the
    SHA-256 of its text."""

    seq: int
    job: int
    at: str
    sum: str
    stream: str | None = None


def in_base64(text: str | bytes) -> str:
    """A text as etcd's gateway has it."""
    return base64.b64encode(text if isinstance(text, bytes) else text.encode()).decode()


def of_base64(text: str | None) -> bytes:
    """The bytes of a field of etcd's gateway, which leaves out an empty one."""
    return base64.b64decode(text or "")


def number_of(kv: Mapping[str, str]) -> int:
    """The number at the end of a key."""
    return int(of_base64(kv["key"])[-10:])


def batch_text(mark: str, entries: Sequence[entry.Entry]) -> str:
    """The text of entries in etcd."""
    values = [{"at": one.at, "who": one.who, "key": one.key, "job": one.job, **stream_value(one),
               **text_value(one.text)}
              for one in entries]
    return json.dumps({"mark": mark, "batch": values}, ensure_ascii=False, separators=(",", ":"))


def stream_value(one: entry.Entry) -> dict[str, str]:
    """The digest of an entry's stream as JSON has it, if there is one."""
    return {} if one.stream is None else {"stream": one.stream}


def text_value(data: bytes) -> dict[str, str]:
    """A statement's text as JSON has it: as text, or as base64 if that is shorter."""
    try:
        text = data.decode("utf-8")
        if len(json.dumps(text, ensure_ascii=False).encode()) <= len(data) * 4 // 3 + 8:
            return {"text": text}
    except UnicodeDecodeError:
        pass
    return {"base64": base64.b64encode(data).decode()}


def batch_of(kv: Mapping[str, str]) -> Batch:
    """The Batch of a key and its value."""
    first = number_of(kv)
    fields: dict[str, Any] = json.loads(of_base64(kv["value"]))
    return Batch(fields["mark"], [
        entry.Entry(first + place, one["at"], one["who"], one.get("key"), one["job"],
                    one["text"].encode() if "text" in one else base64.b64decode(one["base64"]), None, one.get("stream"))
        for place, one in enumerate(fields["batch"])])


def holder_of(one: entry.Entry) -> KeyHolder:
    """The KeyHolder of an entry."""
    return KeyHolder(one.seq, one.job, one.at, text_sum(one.text) if one.stream is None else "", one.stream)


def holder_in(text: bytes) -> KeyHolder:
    """The KeyHolder of a text that a desk of version 1.0 put into etcd. Raises ValueError and TypeError."""
    found = json.loads(text)
    return KeyHolder(**{name: found[name] for name in KeyHolder._fields if name in found})


def text_sum(text: bytes) -> str:
    """The SHA-256 of a text, in hexadecimal."""
    return hashlib.sha256(text).hexdigest()
