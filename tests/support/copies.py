"""Copies of states, for small worlds that make a hundred thousand of them."""

from collections import deque

CONTAINERS = (list, dict, set, deque)


def shallow(one):
    """What `copy.copy` makes of an object whose fields are in its `__dict__`, in a third of its time."""
    found = object.__new__(type(one))
    found.__dict__.update(one.__dict__)
    return found


def with_containers(one):
    """A copy with containers of its own."""
    found = shallow(one)
    for name, value in one.__dict__.items():
        if type(value) in CONTAINERS:
            found.__dict__[name] = value.copy()
    return found
