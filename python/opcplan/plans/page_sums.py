"""The sums that the pages of a plan's file may have, as SQLite's extension cksumvfs has them: each page's last eight
bytes are two sums of its other words, where the file's head says that eight bytes of each are left free."""

FREE = 8
SIZES = [512 << power for power in range(8)]  # that a page may have
MOST_BYTES = 16 << 20  # that are held at once


def are_in(path: str) -> bool:
    """Whether the pages of a database have sums."""
    with open(path, "rb") as file:
        return file.read(21)[20:] == bytes([FREE])


def first_wrong(path: str) -> int | None:
    """The number of the first page, from 1, that doesn't match its sum, or None."""
    with open(path, "rb") as file:
        size = int.from_bytes(file.read(18)[16:], "big")
        size = 65536 if size == 1 else size
        if size not in SIZES:
            return 1
        file.seek(0)
        before, most = 0, max(1, MOST_BYTES // size)
        while pages := file.read(size * most):
            pages += bytes(-len(pages) % size)
            place = first_unlike(pages, size)
            if place is not None:
                return before + place + 1
            before += most
    return None


def put(path: str) -> None:
    """Puts their sums on the pages that another program wrote without."""
    with open(path, "r+b") as file:
        size = int.from_bytes(file.read(18)[16:], "big")
        size = 65536 if size == 1 else size
        while (page := first_wrong(path)) is not None:
            file.seek((page - 1) * size)
            words = memoryview(file.read(size - FREE)).cast("I")
            one = two = 0
            for at in range(0, len(words), 2):
                one = (one + words[at] + two) & 0xFFFFFFFF
                two = (two + words[at + 1] + one) & 0xFFFFFFFF
            file.write((one | two << 32).to_bytes(FREE, "little"))
            file.flush()


def first_unlike(pages: bytes, size: int) -> int | None:
    """The place of the first of these pages that doesn't match its sum, or None.

    All pages are added up at once, in numbers that have 64 bits for each of them."""
    parts, step = memoryview(pages).cast("Q"), size // 8
    low = int.from_bytes(b"\xff\xff\xff\xff\0\0\0\0" * (len(pages) // size), "little")
    one = two = 0
    for at in range(step - 1):
        words = int.from_bytes(parts[at::step].tobytes(), "little")
        one = (one + (words & low) + two) & low
        two = (two + (words >> 32 & low) + one) & low
    unlike = (one | two << 32) ^ int.from_bytes(parts[step - 1 :: step].tobytes(), "little")
    return ((unlike & -unlike).bit_length() - 1) // 64 if unlike else None
