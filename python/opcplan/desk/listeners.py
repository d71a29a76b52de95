"""The addresses and sockets on which a desk listens."""

import contextlib
import os
import socket
import stat
from typing import NamedTuple

from opcplan.desk.guard import Guard
from opcplan.desk.settings import Settings

from opcplan.errors import Error


class DeskNotStarted(Error):
    """Why a desk doesn't start, or had to end."""


class Listener(NamedTuple):
    """A socket on which the desk listens, and its name for messages."""

    bound: socket.socket
    name: str


def listeners_of(given: Settings, the_guard: Guard) -> list[Listener]:
    """Opens the sockets on which the desk listens. Raises DeskNotStarted."""
    found = []
    if given.listen:
        host, port = given.listen
        try:
            listener = socket.create_server((host, port), family=socket.AF_INET6 if ":" in host else socket.AF_INET)
        except OSError as error:
            raise DeskNotStarted(f"{host}:{port}: the desk can't listen on this address: {error.strerror}") from None
        port = listener.getsockname()[1]
        the_guard.add_listener(host, port)
        found.append(Listener(listener, f"http://[{host}]:{port}" if ":" in host else f"http://{host}:{port}"))
    if given.socket:
        found.append(Listener(by_socket(given.socket), given.socket))
    return found


def by_socket(path: str) -> socket.socket:
    """A Unix socket at a path. Every user may connect: the guard checks who it is. Raises DeskNotStarted."""
    listener = socket.socket(socket.AF_UNIX, socket.SOCK_STREAM)
    try:
        if os.path.lexists(path):
            check_left(path)
            os.remove(path)
        listener.bind(path)
        os.chmod(path, 0o666)
        listener.listen(128)
    except OSError as error:
        raise DeskNotStarted(f"{path}: the desk can't listen on this socket: {error.strerror or error}") from None
    return listener


def check_left(path: str) -> None:
    """Checks that the file at a path is a socket on which nobody listens. Raises DeskNotStarted."""
    if not stat.S_ISSOCK(os.lstat(path).st_mode):
        raise DeskNotStarted(f"{path}: this file isn't a socket; name another path with --socket")
    with socket.socket(socket.AF_UNIX, socket.SOCK_STREAM) as one:
        with contextlib.suppress(ConnectionRefusedError, FileNotFoundError):
            one.connect(path)
            raise DeskNotStarted(f"{path}: another program listens on this socket; end it, or name another path with "
                                 "--socket")
