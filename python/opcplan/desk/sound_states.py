"""Which states of a desk's plan are kept as sound, so that a look at the file beside the desk checks it no more than
one at a file that nobody uses (plans/successions.py says when that is known).

A file of which nothing is known when the program is started is checked by the program, which opens it. What the program
doesn't read, whether indexes say the same as tables, is asked of the file itself, which nobody copies for that; the
answer counts only if the file stays as it was."""

import contextlib
import os
import sqlite3
import threading
from contextlib import closing

from opcplan.errors import Error
from opcplan.plans import own_runs, plan_file, sound_rows, successions
from opcplan.plans.program import is_own
from opcplan.plans.successions import LogBegin


class SoundStates:
    """The states of the plan of a program that has it open."""

    def __init__(self, program: str, path: str) -> None:
        self.program, self.path = program, os.path.realpath(path)
        self.sound: plan_file.State | None = None  # since which nobody but the program may have written
        self.log: LogBegin | None = None
        self.is_kept = False  # whether the state of the last look was
        self.before: plan_file.State | None = None  # in which the program opens it, if nothing is known of it
        self.db: sqlite3.Connection | None = None  # while the tables are asked for
        self.lives, self.is_over = 0, False  # how often the program was started, and whether it ends
        self.lock = threading.Lock()  # of what a thread that asks for the tables finds

    def begins(self) -> None:
        """The program is started now."""
        with self.lock:
            self.lives, self.is_over = self.lives + 1, False
            self.sound, self.log, self.before = own_runs.sound_state(self.program, self.path), None, None
        if self.sound is None and is_own(self.program):
            with contextlib.suppress(OSError):
                self.before = own_runs.settled(self.path)

    def opened(self) -> None:
        """The program has opened the plan, and written nothing yet but how its log begins."""
        with contextlib.suppress(OSError):
            now = plan_file.state_of(self.path)
            self.log = successions.log_begin(now)
            if self.before is not None and not successions.is_opened(self.before, now):
                self.before = None

    def judge(self) -> None:
        """Asks for the tables of a file of which nothing was known, and which the program has opened."""
        (before, self.before), life = (self.before, None), self.lives
        if before is None:
            return
        with contextlib.suppress(OSError):
            is_sound = successions.is_sound_opened(before, self.is_undamaged(), plan_file.state_of(self.path))
            with self.lock:
                if is_sound and self.sound is None and self.lives == life:
                    self.sound = before

    def is_undamaged(self) -> bool:
        """Whether the tables of the file are those of a plan, and SQLite finds no damage in them."""
        with contextlib.suppress(sqlite3.Error, Error, UnicodeDecodeError), \
                closing(plan_file.connected(self.path)) as self.db:
            plan_file.prepare(self.db)
            plan_file.meta_of(self.db)
            # a file that is only read is asked for no condition of a table, and the only one is of this table
            sound_rows.ask_values(self.db, "plan_meta", sound_rows.RULES["plan_meta"])
            for table in sound_rows.RULES:
                if self.is_over:
                    return False
                sound_rows.ask_table(self.db, table)
            return True
        return False

    def ends(self) -> None:
        """The program ends: nobody waits for what is asked for."""
        self.before, self.is_over = None, True
        if self.db is not None:
            with contextlib.suppress(sqlite3.Error):
                self.db.interrupt()

    def note(self) -> None:
        """Keeps the state of now; where nobody knows whether that is sound, goes on from one that somebody checked."""
        with contextlib.suppress(OSError):
            self.judge()
            now = own_runs.settled(self.path)
            if now is None:
                return
            self.is_kept = successions.is_sound_beside(self.sound, self.log, now)
            if self.is_kept:
                own_runs.keep_state(self.path, now)
            elif (found := own_runs.sound_state(self.program, self.path)) is not None:
                self.sound, self.log = found, successions.log_begin(found)

    def look(self, folder: str) -> own_runs.Look | None:
        """What looks at the files before the program ends, or None where that would be for nothing."""
        if self.sound is None or self.log is None:
            return None
        return own_runs.Look(self.path, self.sound, os.path.join(folder, "plan.db"), self.log)
