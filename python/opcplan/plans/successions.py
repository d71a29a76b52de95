"""Which states of a plan's file are sound because opcplan made them of a sound one. It decides, and opens no file.

What a result says that is kept (`kept_checks`): when a file and its log were in that state (size, inode and times of
both, and how each begins), opcplan or this package had found sound what SQLite reads in them, or opcplan had made it of
such a state.

The invariant: whenever the files are in a state with a result, what SQLite reads in them is sound. It rests on this:

- A change of the bytes of a file, or another file in its place, shows in the times: the kernel sets the time of the
  last change of anything about a file, and no program can. A state is noted only if it is `settled`: the last change is
  so old that a further one gets another time.
- What opcplan makes of a sound plan is sound: that is proved, after each statement.
- A run never writes to the file itself but where it copies its log into it, at its end and when the log is long.
- SQLite reads a log up to the first frame that doesn't match its sum. What it reads then is what opcplan made, up to
  some statement, also if somebody wrote into the log. That nobody forges frames whose sums match is trusted, as opcplan
  itself does.

So there are three ways to a new state, and none believes that nobody else wrote meanwhile:

1. `Copied`: at its end the file has, byte by byte, what a private copy has that is sound. Such a copy is what opcplan
   made where nobody else writes: of a trial that ended well. Or it is the file and its log, copied once opcplan had
   answered all and before it copied its log, and merged by SQLite; the file was still as it was when it was found sound
   (`goes_on`), so whatever somebody wrote into it since shows as a difference.
2. `Beside`: the file is still as it was when it was found sound, and the log is the one with which opcplan began: the
   inode and the first bytes are the same, in which SQLite puts numbers at random for each log.
3. `Opened`: opcplan has opened the file and answers, so it found its rows sound; what opcplan doesn't read was asked of
   the file itself. No log had a page before, nor once it was opened, and the file is as it was before all that
   (`goes_on`), so both have read the bytes of that state and no others. What is in the log since, opcplan made."""

from typing import NamedTuple

from opcplan.plans.plan_file import MOST_WITHOUT_PAGES, TAILS, Stamp, State

ENDED_WELL = (0, 4)  # the statuses of a run that did all of a stream
OF_LOG_HEAD = 32 * 2  # digits of the first bytes of a log, which stay as long as it isn't begun anew
FILE, LOG, JOURNAL = TAILS


class LogBegin(NamedTuple):
    """Which log a run writes: inode and device, and its first bytes."""

    inode: int
    device: int
    head: str


def stamp_of(state: State, tail: str) -> Stamp | None:
    """The stamp of a file, or of what stands beside it."""
    return next((seen for seen in state.stamps if seen.tail == tail), None)


def log_begin(state: State) -> LogBegin | None:
    """Which log stands beside a file, or None."""
    for seen, head in zip(state.stamps, state.heads):
        if seen.tail == LOG and len(head) >= OF_LOG_HEAD:
            return LogBegin(seen.inode, seen.device, head[:OF_LOG_HEAD])
    return None


def goes_on(sound: State | None, now: State) -> bool:
    """Whether a file itself is as it was in a sound state, and nothing but its log can have changed what it says."""
    return (sound is not None and stamp_of(sound, FILE) == stamp_of(now, FILE) is not None
            and stamp_of(now, JOURNAL) is None)


def may_be_copied(sound: State | None, log: LogBegin | None, now: State) -> bool:
    """Whether a file and its log say what opcplan made of a sound state, while a run has them open; `log` is the one
    with which the run began, if that is known."""
    return goes_on(sound, now) and (log is None or log_begin(now) == log)


def is_sound_copied(before: State, is_equal: bool, after: State) -> bool:
    """Whether a file is sound in the state `before`: between that and `after` all its bytes were equal to those of a
    sound private copy."""
    return (is_equal and is_alone(before) and before.is_settled
            and (before.stamps, before.heads) == (after.stamps, after.heads))


def is_sound_unwritten(sound: State | None, now: State) -> bool:
    """Whether a file is sound because nobody wrote to it since it was found sound, and its log has nothing now. If its
    log had something then, that is lost or in the file."""
    return goes_on(sound, now) and sound is not None and not sound.has_log and is_alone(now) and now.is_settled


def is_sound_beside(sound: State | None, log: LogBegin | None, now: State) -> bool:
    """Whether a file and the log of a run, which began with a sound state, are sound now, while it runs."""
    return goes_on(sound, now) and log is not None and log_begin(now) == log and now.is_settled


def is_opened(before: State, opened: State) -> bool:
    """Whether opcplan, which has opened a file since it was in the state `before` and answered nothing yet, has read
    the file in that state, and nothing else."""
    return is_alone(before) and before.is_settled and is_alone(opened) and goes_on(before, opened)


def is_sound_opened(before: State, is_undamaged: bool, now: State) -> bool:
    """Whether a file was sound in the state in which opcplan has opened it: its tables and indexes were asked for
    since."""
    return is_undamaged and goes_on(before, now)


def is_alone(state: State) -> bool:
    """Whether a file has all that SQLite reads: there is no journal, and no page in the log."""
    return not state.has_log and stamp_of(state, JOURNAL) is None and stamp_of(state, FILE) is not None


def log_is_empty(state: State) -> bool:
    """Whether a log has no page."""
    log = stamp_of(state, LOG)
    return log is None or log.size <= MOST_WITHOUT_PAGES


def ended_well(status: int, said: bytes) -> bool:
    """Whether a run did all of its stream, and saw nobody at its files. What it says of that stands on standard
    error."""
    return status in ENDED_WELL and not said
