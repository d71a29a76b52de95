"""Goes through the states of small worlds: all of them, each once, or one after another at random."""

from collections import deque


class InvariantViolated(Exception):
    """What a world shows that must not be."""


def explored(first, steps, check, key=hash, path=()):
    """How many states may come from a first one, to which a path led. `steps` yields labels and next states, `check`
    raises InvariantViolated, and `key` tells states apart. Raises InvariantViolated, with how it comes to that."""
    seen, waiting = {key(first): (None, "")}, deque([(key(first), first)])
    while waiting:
        number, world = waiting.popleft()
        try:
            check(world)
            for label, found in steps(world):
                if (other := key(found)) not in seen:
                    seen[other] = number, label
                    waiting.append((other, found))
        except InvariantViolated as why:
            raise InvariantViolated("\n".join([str(why), *path, *path_to(seen, number)])) from None
    return len(seen)


def path_to(seen, number):
    """What happened up to a state."""
    found = []
    while number is not None:
        number, label = seen[number]
        found.append(label)
    return found[-2::-1]


def walked(first, choose, check, most):
    """How many steps a walk takes, at most so many; `choose` returns a label and a next state, or None at the end.
    Raises InvariantViolated, with the path."""
    path, world = [], first
    while len(path) < most:
        try:
            check(world)
        except InvariantViolated as why:
            raise InvariantViolated("\n".join([str(why), *path])) from None
        chosen = choose(world)
        if chosen is None:
            break
        label, world = chosen
        path.append(label)
    return len(path)
