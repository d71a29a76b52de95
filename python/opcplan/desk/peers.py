"""Which user of this machine is at the other end of a connection, by user id."""

import os
import pwd
import socket
import struct
import time

TABLES = {socket.AF_INET: "/proc/net/tcp", socket.AF_INET6: "/proc/net/tcp6"}
ESTABLISHED = "01"
# seconds for which a user's name is remembered: the system reads it from a file each time
REMEMBERED = 5.0


def of_socket(peer: socket.socket) -> int:
    """The user at the other end of a Unix socket."""
    _, uid, _ = struct.unpack("3i", peer.getsockopt(socket.SOL_SOCKET, socket.SO_PEERCRED, 12))
    return int(uid)


def of_address(peer: socket.socket) -> int | None:
    """The user at the other end of a TCP connection from this machine, or None if the system doesn't say it."""
    wanted = [spelled(peer.family, peer.getpeername()), spelled(peer.family, peer.getsockname()), ESTABLISHED]
    try:
        with open(TABLES[peer.family], encoding="ascii") as table:
            for line in table:
                fields = line.split()
                if fields[1:4] == wanted:
                    return int(fields[7])
    except OSError:
        pass
    return None


def spelled(family: int, address: tuple[str, int]) -> str:
    """An address and its port as /proc has them: each 32 bits as a hexadecimal number in this machine's byte order."""
    packed = socket.inet_pton(family, address[0].partition("%")[0])
    numbers = struct.unpack(f"={len(packed) // 4}I", packed)
    return "".join(f"{number:08X}" for number in numbers) + f":{address[1]:04X}"


class Names:
    """The names of users, each as it was at most REMEMBERED seconds ago."""

    def __init__(self) -> None:
        self.known: dict[int, str] = {}
        self.until = 0.0

    def of(self, uid: int) -> str:
        """The name of a user, or `uid:N` if the user has none."""
        now = time.monotonic()
        if now >= self.until:
            self.known.clear()
            self.until = now + REMEMBERED
        name = self.known.get(uid)
        if name is None:
            name = self.known[uid] = looked_up(uid)
        return name


def looked_up(uid: int) -> str:
    """What the system says of the name of a user, or `uid:N`."""
    try:
        return pwd.getpwuid(uid).pw_name
    except KeyError:
        return f"uid:{uid}"


def is_own(uid: int) -> bool:
    """Whether a user is the desk's, or root."""
    return uid in (0, os.getuid())
