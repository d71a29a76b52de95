"""Runs over plan files that are killed at random moments, or meet a full disk: what they leave is held against
tools/reference/plain_planner.py, and brought to its end by a second run. tools/gate/plan-files tries some,
tools/soak/file-stops more."""
import importlib.machinery
import importlib.util
import random
import resource
import subprocess
import sys
import tempfile
import time
from pathlib import Path

TOP = Path(__file__).resolve().parents[2]
sys.path.insert(0, str(TOP / "tools" / "reference"))
sys.dont_write_bytecode = True
import plain_planner as plain  # noqa: E402
from plan_rows import PROGRAM, after_each, ends_of, items_of, remove, rows_of, run, unlike  # noqa: E402

KILO = 1024
STATEMENTS = 60
SIZES = range(64 * KILO, 1024 * KILO + 1, 16 * KILO)
# of one stream
KILLS = 25


class Stopped:
    """A stream, what it prints, and the rows before its first statement and after each."""

    def __init__(self, text):
        self.text, self.items = text, items_of(text)
        replies = plain.run(text, plain.Planner())
        self.output = "".join(line + "\n" for line in replies).encode()
        self.status = plain.status_of(replies)
        self.rows = after_each(self.items)

    def is_beginning(self, got, status):
        """Whether a run that was stopped by its disk printed what it should: the answers to some of the first
        statements and the fault, the fault of a file that could not be made, or all answers."""
        if got.endswith(b"fault 41\n"):
            return status == 8 and self.output.startswith(got[:-9])
        return (got, status) in [(b"fault 50\n", 8), (self.output, self.status)]

    def what_stands(self, file, answered):
        """By how many statements the file has what so many left, or one more; None where it has something else."""
        left = rows_of(file)
        for count in (answered, answered + 1):
            if count < len(self.rows) and not unlike(left, self.rows[count]):
                return count
        return None

    def ends_as_one_run(self, file):
        """Whether the whole stream, run again, leaves the rows of one run and answers each job as in it."""
        got, status = run(self.text, file)
        ends = [[line for line in output.splitlines() if ends_of(line)] for output in (got, self.output)]
        jobs = [b"--job" in item for item in self.items]
        return (status in (0, 4) and len(ends[0]) == len(ends[1])
                and all(one == other for one, other, is_job in zip(*ends, jobs) if is_job)
                and not unlike(rows_of(file), self.rows[-1]))

    def comes_back(self, file, got, what):
        """Whether the file that a stop left after these answers opens, has what was answered or the statement in hand
        too, and is brought to its end by a second run."""
        opened, _ = run(b"", file)
        stands = self.what_stands(file, ends_of(got))
        is_whole = self.ends_as_one_run(file)
        if opened == b"" and stands is not None and is_whole:
            return True
        print(f"{what}: {got[-40:]!r}; after that {opened!r}, "
              f"the rows are {'wrong' if stands is None else 'right'}, run again {'right' if is_whole else 'wrong'}")
        return False


# Killed.

def seconds_of(stream, file):
    """How long a whole run takes."""
    begin = time.monotonic()
    run(stream.text, file)
    remove(file)
    return time.monotonic() - begin


def killed_after(stream, file, seconds):
    """What a program has answered that is killed after so many seconds; None where it ended before."""
    answers = file.with_suffix(".out")
    (given := file.with_suffix(".in")).write_bytes(stream.text)
    with given.open("rb") as reader, answers.open("wb") as writer:
        with subprocess.Popen([PROGRAM, "--db", file], stdin=reader, stdout=writer) as ran:
            time.sleep(seconds)
            ran.kill()
    got = answers.read_bytes()
    return None if ran.returncode >= 0 else got[:got.rfind(b"\n") + 1]


def kills_come_back(stream, file, seed, count):
    """Kills runs of a stream at random moments until so many were killed before their end; how many came back as they
    should, and how many had answered nothing, something, and all."""
    moments, whole = random.Random(seed), seconds_of(stream, file)
    held, answered = 0, [0, 0, 0]
    for _ in range(count):
        got = None
        while got is None:
            remove(file)
            got = killed_after(stream, file, moments.random() * whole)
        ends = ends_of(got)
        answered[(ends > 0) + (ends == len(stream.items))] += 1
        held += stream.comes_back(file, got, f"killed by the moments of {seed}")
        remove(file)
    return held, answered


# Full.

def room_for(size):
    """A program's files have no more bytes than this: a write past them is cut off there, and then fails."""
    return {"preexec_fn": lambda: resource.setrlimit(resource.RLIMIT_FSIZE, (size, size)), "restore_signals": False}


def full_comes_back(stream, file, size):
    """Whether a run goes as it has to where no file can have more than so many bytes, and what follows it; and whether
    that ended it."""
    got, status = run(stream.text, file, **room_for(size))
    is_right = stream.is_beginning(got, status)
    if not is_right:
        print(f"full at {size}: {got[-40:]!r}, status {status}")
    held = stream.comes_back(file, got, f"full at {size}")
    remove(file)
    return is_right and held, status == 8


# By hand.

def streams_at_random():
    """Streams of sixty statements at random, no two of which have one job number."""
    loader = importlib.machinery.SourceFileLoader("compare", str(TOP / "tools" / "soak" / "compare"))
    compare = importlib.util.module_from_spec(importlib.util.spec_from_loader("compare", loader))
    loader.exec_module(compare)
    for seed in range(1, 10**6):
        text = "".join(statement + "\n" for statement in compare.stream(seed, STATEMENTS, again=0)).encode()
        yield seed, Stopped(b"".join(items_of(text)[:STATEMENTS]))


def mounted(folder, *options):
    subprocess.run(["mount", "-t", "tmpfs", "-o", ",".join(options), "plan", folder], check=True)


def disk_comes_back(stream, folder, size):
    """The same as full_comes_back, where the whole file system has no more than so many bytes."""
    mounted(folder, f"size={size}")
    try:
        file = folder / "plan.db"
        got, status = run(stream.text, file)
        mounted(folder, "remount", "size=64m")
        is_right = stream.is_beginning(got, status)
        if not is_right:
            print(f"a disk of {size}: {got[-40:]!r}, status {status}")
        return is_right and stream.comes_back(file, got, f"a disk of {size}"), status == 8
    finally:
        subprocess.run(["umount", folder], check=True)


def kill_for(seconds, room):
    """Kills runs for so many seconds; whether all came back as they should."""
    end, tried, held, answered = time.monotonic() + seconds, 0, 0, [0, 0, 0]
    for seed, stream in streams_at_random():
        if time.monotonic() > end:
            break
        some, ends = kills_come_back(stream, room / f"killed-{seed}.db", seed, KILLS)
        tried, held = tried + KILLS, held + some
        answered = [one + other for one, other in zip(answered, ends)]
    print(f"{tried} runs killed over {tried // KILLS} streams, {tried - held} went wrong; "
          f"before any answer {answered[0]}, behind the last one {answered[2]}", flush=True)
    return held == tried


def fill_each(room):
    """Tries each size of a disk with a stream of its own; whether all came back as they should."""
    (disk := room / "disk").mkdir()
    tried = [disk_comes_back(stream, disk, size) for size, (_, stream) in zip(SIZES, streams_at_random())]
    print(f"{len(tried)} sizes of a disk, of which {sum(ended for _, ended in tried)} ended the run, "
          f"{sum(not held for held, _ in tried)} went wrong", flush=True)
    return all(held for held, _ in tried)


def main():
    seconds = int(sys.argv[1]) if len(sys.argv) > 1 else 300
    if not PROGRAM.exists():
        sys.exit("the program is not built: run ./opcplan first")
    with tempfile.TemporaryDirectory(prefix="file-stops-") as folder:
        held = [fill_each(Path(folder)), kill_for(seconds, Path(folder))]
    return int(not all(held))
