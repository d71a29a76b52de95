"""Why a desk rejects a statement."""

from opcplan.errors import Error


class StatementRejected(Error):
    """Why a statement is rejected, with HTTP's status."""

    def __init__(self, status: int, text: str) -> None:
        super().__init__(text)
        self.status = status


def used_otherwise(key: str | None) -> StatementRejected:
    """The StatementRejected for a key that belongs to another statement."""
    return StatementRejected(409, f"the key {key} belongs to another statement; nothing was done")
