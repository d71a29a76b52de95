"""What SQLite itself finds in the tables of a plan (`sound_rows.ask_table`), asked by a thread beside the one that asks
for the rows: SQLite lets other threads go on while it works, so both have a processor where there are two.

The sentence is the same as if one asked after the other: each table first, and then its rows. Rows of a damaged table
may read as anything, or without an end, so once a table is damaged, the other thread is interrupted."""

import sqlite3
import threading
from collections.abc import Callable

from opcplan.plans import sound_rows

# KiB of pages that this thread holds
HELD_PAGES = 12_000
# seconds after which somebody who works on is interrupted again: between two statements nothing is
AGAIN = 0.05


class TableChecks:
    """The checks of the tables of a private copy, as long as a context lasts; `stop` interrupts whoever asks for the
    rows."""

    def __init__(self, copy: str, stop: Callable[[], None]) -> None:
        self.stop = stop
        self.changed = threading.Condition()
        self.begun = 0  # of how many tables the rows are asked for
        self.done, self.is_over = 0, False  # how many tables are undamaged, and whether no more are asked
        self.error: Exception | None = None  # of the table behind these
        self.db = sqlite3.connect(copy, isolation_level=None, check_same_thread=False)
        self.thread = threading.Thread(target=self.ask, daemon=True)

    def __enter__(self) -> "TableChecks":
        self.db.row_factory = sqlite3.Row
        self.db.execute("PRAGMA trusted_schema = OFF")
        self.db.execute(f"PRAGMA cache_size = -{HELD_PAGES}")
        self.thread.start()
        return self

    def __exit__(self, *_: object) -> None:
        with self.changed:
            self.is_over = True
            self.changed.notify_all()
        while self.thread.is_alive():
            self.db.interrupt()
            self.thread.join(AGAIN)
        self.db.close()

    def ask(self) -> None:
        """Asks for each table, until one is damaged or the context ends."""
        for table in sound_rows.RULES:
            error = None
            try:
                sound_rows.ask_table(self.db, table)
            except Exception as why:
                error = why
            with self.changed:
                self.done, self.error = self.done + (error is None), error
                self.changed.notify_all()
                while self.error is not None and not self.is_over:
                    if self.begun > self.done:
                        self.stop()
                    self.changed.wait(AGAIN)
                if self.is_over:
                    return

    def begin(self, count: int) -> None:
        """From here on the rows of so many tables are asked for. Raises what is wrong with one of these tables, if that
        is known."""
        with self.changed:
            self.begun = count
            if self.error is not None and self.done < count:
                raise self.error

    def wait(self, count: int) -> None:
        """Waits until the first tables, so many, are asked. Raises what is wrong with one of them."""
        with self.changed:
            self.changed.wait_for(lambda: self.done >= count or self.error is not None)
        self.begin(count)
