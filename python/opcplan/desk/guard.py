"""Who may use a desk, and for what: hosts, origins, a header, tokens, users and roles."""

import asyncio
import contextlib
import hashlib
import hmac
import ipaddress
import os
import re
import secrets
import socket
import time
import weakref
from collections.abc import Awaitable, Callable, Sequence
from typing import Generic, NamedTuple, TypeVar

from aiohttp import web

from opcplan.desk import peers, routes
from opcplan.desk.settings import Settings
from opcplan.errors import Error
from opcplan.rules.statements import Role

READ, OPERATE, PLAN = Role.READ, Role.OPERATE, Role.PLAN
ROLES = {role.name.lower(): role for role in Role}
OWN_HEADER, OWN_VALUE = "X-Opcplan", "desk"
LOGIN_HEADER = "X-Forwarded-User"
COOKIE, SESSION_SECONDS = "opcplan-desk", 12 * 3600
MOST_SESSIONS = 10_000
EVERYONE, NOBODY = "*", "nobody"
NO_TOKEN = "the request has no token that this desk knows; send `Authorization: Bearer TOKEN`\n"
Handler = Callable[[web.Request], Awaitable[web.StreamResponse]]
Value = TypeVar("Value")


class Bearer(NamedTuple):
    """The user who has a token, and that user's role."""

    who: str
    role: int


class Caller(NamedTuple):
    """Who sent a request, with which role, whether it may come from a browser's page, and whether it lacks a token."""

    who: str
    role: int
    is_page: bool
    lacks_token: bool = False


class Session(NamedTuple):
    """The hash of the token of a cookie, and until when the cookie is valid, by the monotonic clock."""

    digest: str
    until: float


class Listing(NamedTuple, Generic[Value]):
    """What a line lists: the name of a user, or the hash of a token, and its value."""

    name: str
    value: Value


class InvalidAccessFile(Error):
    """What is wrong with a file of users or tokens."""


class Listed(Generic[Value]):
    """A file of users or tokens, whose lines have a `form`. It is read again when it changes; a faulty one lists
    nobody. Raises InvalidAccessFile."""

    def __init__(self, path: str, form: str, read: Callable[[Sequence[str]], Listing[Value]]) -> None:
        self.path, self.form, self.read, self.wrong = path, form, read, ""
        self.stamp: tuple[int, int, int] | None = None  # differs once the file has changed
        self.found: dict[str, Value] = {}
        self.now()
        if self.wrong:
            raise InvalidAccessFile(self.wrong)

    def now(self) -> dict[str, Value]:
        """What the file lists now; `wrong` says what is wrong with it."""
        try:
            stat = os.stat(self.path)
            stamp = stat.st_mtime_ns, stat.st_size, stat.st_ino
            if stamp != self.stamp:
                self.found, self.wrong = self.of_file(), ""
                self.stamp = stamp
        except OSError as error:
            self.stamp, self.found, self.wrong = None, {}, f"{self.path}: it can't be read: {error.strerror}"
        except (InvalidAccessFile, UnicodeDecodeError) as error:
            self.stamp, self.found, self.wrong = None, {}, f"{self.path}: {error}"
        return self.found

    def of_file(self) -> dict[str, Value]:
        """What the file lists. Raises InvalidAccessFile, OSError and UnicodeDecodeError."""
        found = {}
        with open(self.path, encoding="utf-8") as file:
            for number, line in enumerate(file, 1):
                words = line.partition("#")[0].split()
                if not words:
                    continue
                try:
                    name, value = self.read(words)
                except (ValueError, KeyError):
                    raise InvalidAccessFile(f"line {number} must be `{self.form}`, with the role read, operate or "
                                            "plan") from None
                found[name] = value
        return found


def user_line(words: Sequence[str]) -> Listing[int]:
    """What `NAME ROLE` lists. Raises ValueError and KeyError."""
    name, role = words
    return Listing(name, ROLES[role])


def token_line(words: Sequence[str]) -> Listing[Bearer]:
    """What `HASH NAME ROLE` lists. Raises ValueError and KeyError."""
    digest, name, role = words
    if not re.fullmatch("[0-9a-f]{64}", digest):
        raise ValueError
    return Listing(digest, Bearer(name, ROLES[role]))


class Guard:
    """Finds who sent a request, and checks what that caller may do."""

    def __init__(self, given: Settings) -> None:
        self.users = Listed(given.users, "USER ROLE", user_line) if given.users else None
        self.tokens = Listed(given.tokens, "SHA256 USER ROLE", token_line) if given.tokens else None
        self.proxy = proxy_of(given.proxy)
        self.hosts = {host.lower() for host in given.hosts}
        self.cookie, self.names = cookie_of(given.plan), peers.Names()
        self.sessions: dict[str, Session] = {}  # by cookie
        self.users_of: weakref.WeakKeyDictionary[asyncio.BaseTransport, int | None] = weakref.WeakKeyDictionary()
        self.lesser: dict[routes.Route, Handler] = {}  # the handlers for callers who lack the role of a route

    def add_listener(self, host: str, port: int) -> None:
        """Adds the names of an address of the desk to the hosts."""
        shown = f"[{host}]" if ":" in host else host
        names = {shown, "localhost"} if ipaddress.ip_address(host).is_loopback else {shown}
        self.hosts |= {f"{name}:{port}" for name in names}

    @web.middleware
    async def middleware(self, request: web.Request, handler: Handler) -> web.StreamResponse:
        """Authenticates the caller and checks the role of the route, for every route. Each answer, a refusal too, has
        the same headers for safety."""
        try:
            response = await self.answered(request, handler)
        except web.HTTPException as refusal:
            mark_safe(refusal)
            raise
        if not response.prepared:
            mark_safe(response)
        return response

    async def answered(self, request: web.Request, handler: Handler) -> web.StreamResponse:
        """The answer to a request whose caller has the role of the route. Raises HTTPForbidden and HTTPUnauthorized."""
        caller = self.caller_of(request)
        request["who"], request["role"] = caller.who, caller.role
        route = routes.of_request(request)
        if route is not None and request["role"] < route.role:
            if route not in self.lesser and caller.lacks_token:
                raise no_token()
            if route not in self.lesser:
                needed(request, route.role, route.role.name.lower())
            handler = self.lesser[route]
        return await handler(request)

    def caller_of(self, request: web.Request) -> Caller:
        """Who sent a request. Raises HTTPForbidden and HTTPUnauthorized."""
        peer = request.transport.get_extra_info("socket") if request.transport else None
        if peer is None:
            raise web.HTTPForbidden(text="the caller is gone\n")
        by_socket = peer.family == socket.AF_UNIX
        caller = self.by_socket(request, peer) if by_socket else self.by_address(request)
        if not caller.role and not is_open(request):
            raise web.HTTPForbidden(text=f"{caller.who} may not use this desk; list this user in the file of --users\n")
        self.check_origin(request, caller.is_page)
        if request.method not in ("GET", "HEAD") and request.headers.get(OWN_HEADER) != OWN_VALUE:
            raise web.HTTPForbidden(text=f"each request other than GET needs the header `{OWN_HEADER}: {OWN_VALUE}`\n")
        return caller

    def check_origin(self, request: web.Request, is_page: bool) -> None:
        """Checks that a request doesn't come from a page of another site, or of another name for this one."""
        if is_page and request.headers.get("Host", "").lower() not in self.hosts:
            raise web.HTTPForbidden(text="the desk doesn't know the host that this request names; add it with --host\n")
        origin = request.headers.get("Origin")
        if origin is not None and re.sub("^https?://", "", origin.lower()) not in self.hosts:
            raise web.HTTPForbidden(text="the request comes from a page of another origin; add that host with --host\n")

    # By a Unix socket.

    def by_socket(self, request: web.Request, peer: socket.socket) -> Caller:
        """Who sent a request to the socket. Raises HTTPUnauthorized."""
        uid = peers.of_socket(peer)
        who = self.names.of(uid)
        if self.proxy.user is not None and who == self.proxy.user:
            name = request.headers.get(LOGIN_HEADER, "")
            if not re.fullmatch(r"[!-~]{1,100}", name) or name == EVERYONE:
                raise web.HTTPUnauthorized(text=f"the proxy must name a user in the header {LOGIN_HEADER}\n")
            return Caller(name, self.role_of(name, 0), True)
        return Caller(who, self.role_of(who, PLAN if peers.is_own(uid) else 0), False)

    def role_of(self, who: str, usual: int) -> int:
        """The role of a user by the file of users, else `usual`, else that of everyone; 0 if there is none."""
        listed = self.users.now() if self.users else {}
        return listed.get(who) or usual or listed.get(EVERYONE, 0)

    # By an address.

    def by_address(self, request: web.Request) -> Caller:
        """Who sent a request by TCP, perhaps from a browser's page. Raises HTTPForbidden and HTTPUnauthorized."""
        remote = ipaddress.ip_address((request.remote or "").partition("%")[0])
        remote = getattr(remote, "ipv4_mapped", None) or remote
        if not remote.is_loopback and remote != self.proxy.address:
            raise web.HTTPForbidden(text="from other machines the desk accepts requests of the proxy only (--proxy)\n")
        if self.tokens is None:
            user = self.user_of(request)
            return Caller(user.who, self.role_of(user.who, user.role), True)
        found = self.of_token(request) or self.of_session(request)
        if found is None and is_open(request):
            return Caller(NOBODY, 0, True, True)
        if found is None:
            raise no_token()
        return Caller(found.who, found.role, True)

    def meet(self, transport: asyncio.BaseTransport) -> None:
        """Notes whose connection begins: once it has ended, the system doesn't say it any more."""
        peer = transport.get_extra_info("socket")
        if self.tokens is None and peer is not None and peer.family != socket.AF_UNIX:
            with contextlib.suppress(OSError):
                self.users_of[transport] = peers.of_address(peer)

    def user_of(self, request: web.Request) -> Bearer:
        """The user of this machine who has a connection, and the role if the file of users has none. Raises
        HTTPForbidden."""
        uid = None if request.transport is None else self.users_of.get(request.transport)
        if uid is None:
            raise web.HTTPForbidden(text="this machine doesn't say whose connection this is; start the desk with "
                                     "--tokens\n")
        return Bearer(self.names.of(uid), PLAN if peers.is_own(uid) else 0)

    def of_token(self, request: web.Request) -> Bearer | None:
        """The bearer of a request's token, or None."""
        kind, _, token = request.headers.get("Authorization", "").partition(" ")
        return self.of_text(token.strip()) if kind.lower() == "bearer" else None

    def of_text(self, token: str) -> Bearer | None:
        """The bearer of a token, or None."""
        digest = hashlib.sha256(token.encode("utf-8", "surrogateescape")).hexdigest()
        found = None
        for known, bearer in (self.tokens.now() if self.tokens else {}).items():
            if hmac.compare_digest(known, digest):
                found = bearer
        return found

    def of_session(self, request: web.Request) -> Bearer | None:
        """The bearer of a request's cookie, while its token is listed, or None."""
        session = self.sessions.get(request.cookies.get(self.cookie, ""))
        if self.tokens is None or session is None or time.monotonic() >= session.until:
            return None
        return self.tokens.now().get(session.digest)

    async def begin_session(self, request: web.Request) -> web.StreamResponse:
        """POST /session: a cookie in place of the token, for pages."""
        if self.tokens is None or self.of_token(request) is None:
            raise no_token()
        token = request.headers["Authorization"].partition(" ")[2].strip()
        now, name = time.monotonic(), secrets.token_urlsafe(32)
        self.sessions = {one: held for one, held in self.sessions.items() if held.until > now}
        if len(self.sessions) >= MOST_SESSIONS:
            raise web.HTTPServiceUnavailable(text="there are too many sessions; try again later\n")
        digest = hashlib.sha256(token.encode("utf-8", "surrogateescape")).hexdigest()
        self.sessions[name] = Session(digest, now + SESSION_SECONDS)
        response = web.json_response({"who": request["who"], "role": role_name(request["role"])})
        is_secure = request.headers.get("X-Forwarded-Proto") == "https"
        response.set_cookie(self.cookie, name, max_age=SESSION_SECONDS, httponly=True, samesite="Strict",
                            secure=is_secure)
        return response

    async def end_session(self, request: web.Request) -> web.StreamResponse:
        """DELETE /session: the cookie is no longer valid."""
        self.sessions.pop(request.cookies.get(self.cookie, ""), None)
        response = web.Response(status=204)
        response.del_cookie(self.cookie)
        return response


def cookie_of(plan: str) -> str:
    """The name of the cookie of a plan's desk. A browser gives each desk on a host all cookies of the host, whatever
    their ports are, so each has a name of its own."""
    return f"{COOKIE}-{hashlib.sha256(os.path.realpath(plan).encode()).hexdigest()[:8]}"


def mark_safe(response: web.StreamResponse) -> None:
    """Gives an answer the headers that keep it out of caches and browsers from guessing its kind."""
    response.headers.setdefault("Cache-Control", "no-store")
    response.headers.setdefault("X-Content-Type-Options", "nosniff")


def no_token() -> web.HTTPUnauthorized:
    """The answer to a request that needs a token and has none that is known."""
    return web.HTTPUnauthorized(text=NO_TOKEN, headers={"WWW-Authenticate": "Bearer"})


def is_open(request: web.Request) -> bool:
    """Whether a caller without a token gets as far as the role of the request's route."""
    route = routes.of_request(request)
    return route is not None and route.is_open


def role_name(role: int) -> str:
    """The name of a role, or `none`."""
    return next((name for name, value in ROLES.items() if value == role), "none")


class Proxy(NamedTuple):
    """The proxy that --proxy names: its address, or its user."""

    address: ipaddress.IPv4Address | ipaddress.IPv6Address | None = None
    user: str | None = None


def proxy_of(text: str | None) -> Proxy:
    """The Proxy of a text."""
    if text is None:
        return Proxy()
    try:
        return Proxy(ipaddress.ip_address(text))
    except ValueError:
        return Proxy(user=text)


def needed(request: web.Request, role: int, what: str) -> None:
    """Checks that the caller has at least a role. Raises HTTPForbidden."""
    if request["role"] < role:
        raise web.HTTPForbidden(text=f"{request['who']} may not {what}: that needs the role {role_name(role)}\n")
