"""A client of etcd: the JSON gateway of its nodes, one after another until one answers."""

import asyncio
import contextlib
import dataclasses
import json
import re
import time
from collections.abc import Callable, Mapping, Sequence
from typing import Any

import aiohttp

from opcplan.desk.log_entries import in_base64, of_base64
from opcplan.desk.log_words import Access
from opcplan.errors import Error

# the longest time of one call, in seconds
CALL = 2.0
# codes of gRPC after which another node is tried: unknown, deadline, internal, unavailable
ELSEWHERE = (2, 4, 13, 14)
NO_LOGIN, EXHAUSTED, INVALID = 16, 8, 3
STALE_LOGIN = ("invalid auth token", "user name is empty", "revision of auth store is old")
MOST_OF_A_WATCH, MOST_OF_MESSAGE = 1 << 20, 300


class EtcdUnreachable(Error):
    """Why no node answers. The request may be done all the same."""


class EtcdError(Error):
    """Why etcd refused a call. Nothing was done."""

    def __init__(self, code: int, text: str) -> None:
        super().__init__(text)
        self.code = code


@dataclasses.dataclass(frozen=True)
class Member:
    """The state of a node. If it doesn't answer, `why` says why, and the fields after that have their defaults."""

    endpoint: str
    answers: bool
    why: str = ""
    bytes: int = 0  # the size of its database
    in_use: int = 0
    quota: int | None = None
    leads: bool = False
    version: str = ""

    def values(self) -> dict[str, Any]:
        """Its fields as JSON has them, by name."""
        if not self.answers:
            return {"endpoint": self.endpoint, "answers": False, "why": self.why}
        return {"endpoint": self.endpoint, "answers": True, "bytes": self.bytes, "in use": self.in_use,
                "quota": self.quota, "leads": self.leads, "version": self.version}


class Etcd:
    """A client of some nodes of etcd."""

    def __init__(self, endpoints: Sequence[str], access: Access) -> None:
        scheme = "https" if access.tls else "http"
        self.endpoints = [f"{scheme}://{one}" for one in endpoints]
        self.access, self.turn = access, 0
        self.token: str | None = None
        self.quotas: dict[str, int] = {}

    async def __aenter__(self) -> "Etcd":
        connector = aiohttp.TCPConnector(ssl=self.access.tls or False, limit=0)
        self.session = aiohttp.ClientSession(connector=connector)
        return self

    async def __aexit__(self, *_: object) -> None:
        await self.session.close()

    @property
    def endpoint(self) -> str:
        """The node that gets the next request first."""
        return self.endpoints[self.turn % len(self.endpoints)]

    async def post(self, path: str, said: Mapping[str, Any], until: float | None = None) -> Any:
        """The answer of the first node that gives one, up to `until` on the monotonic clock. Raises EtcdUnreachable and
        EtcdError."""
        why = ""
        for _ in self.endpoints:
            left = CALL if until is None else min(CALL, until - time.monotonic())
            if left <= 0:
                break
            at = self.endpoint
            try:
                return await self.at(at, path, said, left)
            except EtcdUnreachable as error:
                why = str(error)
                if at == self.endpoint:  # no other call went over to the next node meanwhile
                    self.turn += 1
        raise EtcdUnreachable(f"etcd doesn't answer: {why}" if why else "etcd doesn't answer in time")

    async def at(self, endpoint: str, path: str, said: Mapping[str, Any], patience: float = CALL) -> Any:
        """The answer of one node, after a new login if the old one is stale. Raises EtcdUnreachable and EtcdError."""
        try:
            return await self.once(endpoint, path, said, patience)
        except EtcdError as why:
            is_stale = why.code == NO_LOGIN or any(text in str(why) for text in STALE_LOGIN)
            if self.access.user is None or not is_stale:
                raise
        self.token = None
        return await self.once(endpoint, path, said, patience)

    async def once(self, endpoint: str, path: str, said: Mapping[str, Any], patience: float) -> Any:
        """The answer of one node, with a login if etcd has users. Raises EtcdUnreachable and EtcdError."""
        heads: dict[str, str] = {}
        if self.access.user is not None:
            if self.token is None:
                login = self.access.user._asdict()
                said_of_it = await self.sent(endpoint, "/v3/auth/authenticate", login, {}, patience)
                self.token = str(said_of_it["token"])
            heads["Authorization"] = self.token
        return await self.sent(endpoint, path, said, heads, patience)

    async def sent(self, endpoint: str, path: str, said: Mapping[str, Any], heads: Mapping[str, str],
                   patience: float) -> Any:
        """The answer of one node to a request with these headers. Raises EtcdUnreachable and EtcdError."""
        limit = aiohttp.ClientTimeout(total=patience)
        try:
            async with self.session.post(endpoint + path, json=said, headers=heads, timeout=limit) as answer:
                data = await answer.read()
                status = answer.status
        except asyncio.TimeoutError:
            raise EtcdUnreachable(f"{endpoint}: no answer in {patience:.1f} s") from None
        except (aiohttp.ClientError, OSError) as error:
            raise EtcdUnreachable(f"{endpoint}: {error}") from None
        try:
            found = json.loads(data)
        except ValueError:
            message = data[:MOST_OF_MESSAGE].decode("utf-8", "replace").strip()
            if "CommonName" in message:
                message += "; if etcd has users, name one with --etcd-user, and use a certificate without CommonName"
            if 400 <= status < 500:
                raise EtcdError(INVALID, f"{endpoint}: status {status}: {message}") from None
            raise EtcdUnreachable(f"{endpoint}: status {status}; this isn't an answer of etcd's JSON gateway") from None
        if status == 200:
            return found
        code, message = found.get("code", 2), found.get("message") or found.get("error") or f"status {status}"
        if code in ELSEWHERE and "auth" not in message:
            raise EtcdUnreachable(f"{endpoint}: {message}")
        raise EtcdError(code, message)

    async def watch(self, key: str, on_value: Callable[[bytes], None]) -> None:
        """Calls `on_value` with each new value of a key, until the node ends the watch. Raises EtcdUnreachable and
        EtcdError."""
        said = {"create_request": {"key": in_base64(key)}}
        limit = aiohttp.ClientTimeout(total=None, sock_connect=CALL, sock_read=60)
        heads = {"Connection": "close", **({"Authorization": self.token} if self.token else {})}
        try:
            path = f"{self.endpoint}/v3/watch"
            async with self.session.post(path, json=said, headers=heads, timeout=limit) as answer:
                line = b""
                async for piece in answer.content.iter_any():
                    *lines, line = (line + piece).split(b"\n")
                    for one in lines:
                        for event in json.loads(one).get("result", {}).get("events", ()):
                            on_value(of_base64(event["kv"].get("value")))
                    if len(line) > MOST_OF_A_WATCH:
                        raise EtcdUnreachable(f"{self.endpoint}: its answer to a watch is too long")
        except (aiohttp.ClientError, asyncio.TimeoutError, OSError, ValueError) as error:
            raise EtcdUnreachable(f"{self.endpoint}: {error}") from None

    async def quota(self, endpoint: str) -> int | None:
        """The largest size of a node's database in bytes, or None if the node doesn't say it."""
        if endpoint in self.quotas:
            return self.quotas[endpoint]
        limit = aiohttp.ClientTimeout(total=CALL)
        with contextlib.suppress(aiohttp.ClientError, asyncio.TimeoutError, OSError, ValueError):
            async with self.session.get(f"{endpoint}/metrics", timeout=limit) as answer:
                data = await answer.read()  # whole: aiohttp may hang in the next request on a half-read connection
            found = re.search(rb"^etcd_server_quota_backend_bytes ([0-9.e+]+)$", data, re.M)
            if found:
                self.quotas[endpoint] = int(float(found[1]))
        return self.quotas.get(endpoint)

    async def standing(self, endpoint: str) -> Member:
        """The state of a node."""
        try:
            found = await self.at(endpoint, "/v3/maintenance/status", {})
        except (EtcdUnreachable, EtcdError) as why:
            return Member(endpoint, False, str(why))
        return Member(endpoint, True, "", int(found.get("dbSize", 0)), int(found.get("dbSizeInUse", 0)),
                      await self.quota(endpoint), found.get("leader") == found["header"]["member_id"],
                      found.get("version", ""))
