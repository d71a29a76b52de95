"""The words that name a log in etcd and how it is reached: `etcd://HOST:PORT,HOST:PORT,HOST:PORT/NAME`."""

import argparse
import re
import ssl
from typing import NamedTuple, Protocol

from opcplan.cli import words
from opcplan.errors import Unreadable

SCHEME = "etcd://"
EXAMPLE = "etcd://10.0.0.1:2379,10.0.0.2:2379,10.0.0.3:2379/NAME"
HOST = re.compile(r"\[[0-9A-Fa-f:.]+\]|[A-Za-z0-9]([A-Za-z0-9.-]*[A-Za-z0-9])?")
NAME = re.compile(r"[A-Za-z0-9][A-Za-z0-9._-]{0,99}")
MOST_ENDPOINTS = 9


class Where(NamedTuple):
    """Where a log is: the endpoints of etcd, HOST:PORT, and its name."""

    endpoints: tuple[str, ...]
    name: str

    def __str__(self) -> str:
        return f"{SCHEME}{','.join(self.endpoints)}/{self.name}"


def address(text: str) -> Where:
    """A log in etcd, for `type=`."""
    hosts, slash, name = text.removeprefix(SCHEME).partition("/")
    if not text.startswith(SCHEME) or not slash or not hosts:
        raise argparse.ArgumentTypeError(f"{text!r} doesn't name a log; write it like {EXAMPLE}")
    if not NAME.fullmatch(name):
        raise argparse.ArgumentTypeError(f"{name!r} can't name a log; use up to 100 letters, digits, `.`, `_` and `-`")
    endpoints = tuple(hosts.split(","))
    for one in endpoints:
        host, _, port = one.rpartition(":")
        if not HOST.fullmatch(host) or not re.fullmatch("[0-9]{1,5}", port) or not 0 < int(port) < 65536:
            raise argparse.ArgumentTypeError(f"{one!r} isn't HOST:PORT, as in {EXAMPLE}")
    if len(set(endpoints)) < len(endpoints) or len(endpoints) > MOST_ENDPOINTS:
        raise argparse.ArgumentTypeError(f"{text!r} must name 1 to {MOST_ENDPOINTS} nodes of etcd, each once")
    return Where(endpoints, name)


class EtcdWords(Protocol):
    """The options for the connection to etcd, as a command has them."""

    @property
    def etcd_ca(self) -> str | None:
        """The file of the authority that signed the certificates of etcd's nodes."""

    @property
    def etcd_cert(self) -> str | None:
        """The file of the certificate to show to etcd."""

    @property
    def etcd_key(self) -> str | None:
        """The file of its key."""

    @property
    def etcd_user(self) -> str | None:
        """A file with `USER PASSWORD`."""


def add_etcd(parser: argparse.ArgumentParser) -> None:
    """Adds the options for the connection to etcd."""
    parser.add_argument("--etcd-ca", type=words.file, metavar="FILE",
                        help="the authority that signed the certificates of etcd's nodes; switches TLS on")
    parser.add_argument("--etcd-cert", type=words.file, metavar="FILE", help="the certificate to show to etcd")
    parser.add_argument("--etcd-key", type=words.file, metavar="FILE", help="the key of --etcd-cert")
    parser.add_argument("--etcd-user", type=words.file, metavar="FILE",
                        help="a file with `USER PASSWORD`, if etcd has users")


def wrong_etcd(given: EtcdWords) -> str:
    """What is wrong with these options together, or nothing."""
    if bool(given.etcd_cert) != bool(given.etcd_key):
        return "--etcd-cert and --etcd-key need each other; give both or neither"
    return ""


class User(NamedTuple):
    """A user of etcd."""

    name: str
    password: str


class Access(NamedTuple):
    """How to connect to etcd: with which TLS, if any, and as which user, if any."""

    tls: ssl.SSLContext | None
    user: User | None


def access_of(given: EtcdWords) -> Access:
    """The Access of these options. Raises Unreadable."""
    tls = None
    if given.etcd_ca or given.etcd_cert:
        try:
            tls = ssl.create_default_context(cafile=given.etcd_ca)
            if given.etcd_cert:
                tls.load_cert_chain(given.etcd_cert, given.etcd_key, password="")
        except (OSError, ValueError) as error:
            raise Unreadable(f"the files of --etcd-ca, --etcd-cert and --etcd-key can't be used: {error}") from None
    return Access(tls, user_of(given.etcd_user) if given.etcd_user else None)


def user_of(path: str) -> User:
    """The User of a file. Raises Unreadable."""
    try:
        with open(path, encoding="utf-8") as file:
            found = file.read().split()
    except (OSError, UnicodeDecodeError) as error:
        raise Unreadable(f"{path}: it can't be read: {getattr(error, 'strerror', None) or error}") from None
    if len(found) != 2:
        raise Unreadable(f"{path}: the file must have one line, `USER PASSWORD`")
    return User(*found)
