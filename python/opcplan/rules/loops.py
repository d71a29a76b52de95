"""Loops of lists of predecessors: over two or more applications, which wait for each other in a ring."""

import collections
from collections.abc import Iterable, Iterator, Mapping

Lists = Mapping[str, Iterable[str]]  # by application: the applications that it waits for


def all_of(lists: Lists) -> list[tuple[list[str], list[str]]]:
    """Each set of applications that wait for one another, with its ring through the least of them."""
    found = [sorted(members) for members in knots(lists) if len(members) > 1]
    return [(members, ring_of(lists, members[0])) for members in sorted(found)]


def knots(lists: Lists) -> list[set[str]]:
    """The sets of applications of which each waits for each other one, over others too; most have one alone."""
    number: dict[str, int] = {}
    least: dict[str, int] = {}
    held: list[str] = []
    done: set[str] = set()
    found: list[set[str]] = []
    for first in lists:
        ways: list[tuple[str, Iterator[str]]] = [] if first in number else [(first, iter(lists[first]))]
        if ways:
            number[first] = least[first] = len(number)
            held.append(first)
        while ways:
            app, others = ways[-1]
            other = next((other for other in others if other not in done), None)
            if other is None:
                ways.pop()
                if ways:
                    least[ways[-1][0]] = min(least[ways[-1][0]], least[app])
                if least[app] == number[app]:
                    members = {held.pop()}
                    while app not in members:
                        members.add(held.pop())
                    found.append(members)
                    done |= members
            elif other in number:
                least[app] = min(least[app], number[other])
            else:
                number[other] = least[other] = len(number)
                held.append(other)
                ways.append((other, iter(lists.get(other, ()))))
    return found


def is_on_one(lists: Lists, app: str) -> bool:
    """Whether an application waits for itself over others."""
    seen, left = {app}, [app]
    while left:
        here = left.pop()
        for other in lists.get(here, ()):
            if other == app and here != app:
                return True
            if other not in seen:
                seen.add(other)
                left.append(other)
    return False


def ring_of(lists: Lists, app: str) -> list[str]:
    """The shortest way from an application over others back to it, or nothing."""
    before: dict[str, str] = {}
    left = collections.deque([app])
    while left:
        here = left.popleft()
        for other in sorted(lists.get(here, ())):
            if other == app and here != app:
                way = [app, here]
                while way[-1] != app:
                    way.append(before[way[-1]])
                return way[::-1]
            if other not in before and other != app:
                before[other] = here
                left.append(other)
    return []
