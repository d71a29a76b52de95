"""What somebody can't be called by, checked before anything is sent: a command that isn't there, a secret that can't be
read, a host that has no address, a mail without a program that sends it."""

import contextlib
import os
import queue
import shutil
import socket
import threading
import time
import urllib.parse
from collections.abc import Callable, Collection, Iterable

from opcplan.watch import calls, processes, rulebook
from opcplan.watch.rulebook import InvalidRules, Rulebook, Target

# seconds to wait for the addresses of all hosts
PATIENCE = 20.0
Resolve = Callable[[str], tuple[str, bool]]


def check(rules: Rulebook, targets: Iterable[str], is_strict: bool, resolve: Resolve | None = None) -> list[str]:
    """Checks that some targets can be called, as far as this machine knows. Returns sentences about hosts of which it
    isn't known for now whether they have an address; if it is strict, these are wrong too. Raises InvalidRules."""
    unknown, targets = [], tuple(targets)
    for name in targets:
        word, wrong = wrong_here(rules.targets[name], rules.sendmail)
        if wrong:
            raise told(rules, name, word, wrong)
    hosts = {name: host_of(rules.targets[name]) for name in targets if rules.targets[name].webhook}
    found = resolved(set(hosts.values()), resolve or address_trouble)
    for name, host in hosts.items():
        wrong, is_sure = found[host]
        if wrong and (is_sure or is_strict):
            raise told(rules, name, "webhook", wrong)
        if wrong:
            unknown.append(str(told(rules, name, "webhook", wrong)))
    return unknown


def told(rules: Rulebook, name: str, word: str, wrong: str) -> InvalidRules:
    """What is wrong with somebody, by a word of the table, with its line."""
    return rulebook.part_of(name).wrong(f": {wrong}", word).at_line(rules.lines)


def wrong_here(target: Target, sendmail: str) -> tuple[str, str]:
    """The word of a target that is wrong on this machine, and why; or nothing."""
    if target.command:
        return "command", wrong_program(target.command[0], "the command")
    if target.mail:
        found = wrong_program(sendmail, "the program that sends mail")
        return "mail", found and f"{found}, or name another one with `sendmail` at the top of the file"
    if target.secret:
        try:
            calls.secret_of(target.secret)
        except calls.Undelivered as why:
            return "secret", str(why)
    return "", ""


def wrong_program(word: str, what: str) -> str:
    """Why a program can't be run, or nothing. A name without a slash is found in the folders of PATH."""
    if shutil.which(word, path=processes.environment()["PATH"]):
        return ""
    if "/" not in word:
        return f"{what} {word!r} is in no folder of PATH; write its whole path"
    if os.path.isdir(word) or not os.path.exists(word):
        return f"{what} {word} isn't there; install it, or write another path"
    return f"{what} {word} isn't executable for this user; change that with `chmod`"


def host_of(target: Target) -> str:
    """The host of a webhook."""
    found = urllib.parse.urlsplit(target.webhook).hostname
    assert found is not None, "a rulebook has no address without a host"
    return found


def resolved(hosts: Collection[str], resolve: Resolve) -> dict[str, tuple[str, bool]]:
    """Why each of some hosts has no address, or nothing, and whether that is sure. A host's name may hang, so each is
    looked for in a thread of its own, with one deadline for all."""
    found: queue.SimpleQueue[tuple[str, tuple[str, bool]]] = queue.SimpleQueue()

    def look(host: str) -> None:
        found.put((host, resolve(host)))

    for host in hosts:
        threading.Thread(target=look, args=(host,), daemon=True).start()
    known: dict[str, tuple[str, bool]] = {}
    until = time.monotonic() + PATIENCE
    with contextlib.suppress(queue.Empty):
        while len(known) < len(hosts):
            host, trouble = found.get(timeout=max(0.0, until - time.monotonic()))
            known[host] = trouble
    return {host: known.get(host, (f"no name server said within {PATIENCE:g} s which address the host {host} has",
                                   False)) for host in hosts}


def address_trouble(host: str) -> tuple[str, bool]:
    """Why a host has no address, or nothing, and whether that is sure: a name server that doesn't answer says nothing
    of the host."""
    try:
        socket.getaddrinfo(host, None, type=socket.SOCK_STREAM)
    except socket.gaierror as error:
        is_sure = error.errno != socket.EAI_AGAIN
        return f"the host {host} has no address: {error.strerror}", is_sure
    except (OSError, UnicodeError):
        return f"the host {host} has no address: its name isn't one of a host", True
    return "", True
