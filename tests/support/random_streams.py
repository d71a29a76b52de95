"""Texts of job streams at random, of lines that are nearly others."""

import random

PARTS = (b"* comment", b"", b"\t ", b"x", b" define x", b"define periods --job 1", b"/*", b"/* ", b" /*", b"/*x",
         b"*" * 1024, b"*" * 1025, b" " * 1024, b" " * 1025, b"y" * 1024, b"y" * 1025, b"y" * 3000, b"*" + b"\r" * 1024,
         b"cp-start", b"\xe9", b"list cp", b"cp-replan --job 7", b"z" * 100_000, b"/", b"\r", b"\r\r")
ENDS = (b"\n", b"\n", b"\n", b"\r\n", b"\r\r\n")


def text_of(seed):
    """The text that a seed makes."""
    rnd = random.Random(seed)
    text = b"".join(rnd.choice(PARTS) + rnd.choice(ENDS) for _ in range(rnd.randrange(9)))
    return text + rnd.choice(PARTS) + rnd.choice((b"", b"\r")) if rnd.random() < 0.4 else text
