"""Plans to try the subcommands on: the files that worked streams make, each made once.

The built program makes them where it is there; else the rows of tools/reference/plain_planner.py are put into its
tables."""

import atexit
import contextlib
import functools
import hashlib
import io
import os
import pickle
import re
import shutil
import sqlite3
import subprocess
import tempfile
from contextlib import closing
from pathlib import Path

from support import TOP

from opcplan.__main__ import ended_by
from opcplan.cli import words as module_words
from opcplan.errors import Error
from opcplan.rules import stream as module_stream

import plain_planner as plain
import plan_rows

PROGRAM = Path(os.environ.get("OPCPLAN") or TOP / "crates" / "opcplan" / "out" / "opcplan")
DATA = TOP / "crates" / "test_streams" / "data"
SCHEMA = TOP / "crates" / "plan_tables_schema" / "src" / "texts.rt"


def as_bytes(text):
    return text.encode("latin-1") if isinstance(text, str) else text


@functools.cache
def folder():
    """A folder of this run of the tests; it goes when they end."""
    found = tempfile.mkdtemp(prefix="plans-")
    atexit.register(shutil.rmtree, found, ignore_errors=True)
    return Path(found)


def stream(name):
    """The text of a worked stream."""
    return (DATA / f"{name}.in").read_bytes()


def items_of(text):
    """The items of a stream's text, as opcplan.rules.stream reads them."""
    return module_stream.items(source_of(text))


def source_of(text):
    """A text as opcplan.rules.stream reads it."""
    return module_stream.Source(io.BytesIO(as_bytes(text)), "a text")


def planner_of(text):
    """What the plain planner knows after a stream. Nobody changes it."""
    return planner_after(as_bytes(text))


def planner_from(text):
    """A plain planner of one's own that goes on after a stream, which is run once however often this is asked."""
    return pickle.loads(kept_after(as_bytes(text)))


@functools.cache
def planner_after(text):
    planner = plain.Planner()
    plain.run(text, planner)
    return planner


@functools.cache
def kept_after(text):
    return pickle.dumps(planner_after(text))


def of_stream(text):
    """The file of a plan as a stream makes it. Nobody changes it: `copy_of` gives one to change."""
    return file_of(as_bytes(text))


@functools.cache
def file_of(text):
    path = folder() / f"{hashlib.sha256(text).hexdigest()[:16]}.db"
    if PROGRAM.exists():
        subprocess.run([PROGRAM, "--db", path], input=text, capture_output=True, check=False, timeout=300)
    else:
        write(planner_after(text), path)
    return path


def of_worked(name):
    """The file of a worked stream's plan."""
    return of_stream(stream(name))


def copy_of(path, into, name="plan.db"):
    """A copy of a plan's file, with its log, in a folder."""
    for tail in ("", "-wal"):
        if os.path.exists(f"{path}{tail}"):
            shutil.copyfile(f"{path}{tail}", os.path.join(into, name + tail))
    return Path(into) / name


def schema():
    """The texts that make the tables."""
    texts = re.findall(r'"(CREATE TABLE .*?)"', SCHEMA.read_text(encoding="utf-8"), re.S)
    return [re.sub(r"\\\n\s*", "", text) for text in texts]


def write(planner, path):
    """Makes the file of a plan with what a plain planner knows."""
    with closing(sqlite3.connect(path)) as db:
        db.execute("PRAGMA journal_mode = WAL")
        db.execute("PRAGMA synchronous = OFF")
        for text in schema():
            db.execute(text)
        for table, rows in plan_rows.table_rows(planner).items():
            columns = plan_rows.COLUMNS[table]
            marks = ", ".join("?" * len(columns.split(",")))
            db.executemany(f"INSERT INTO {table} ({columns}) VALUES ({marks})", rows)
        db.commit()


def plan(*words, text=None, **how):
    """What ./plan answers: .returncode, .stdout and .stderr as texts."""
    given = [TOP / "plan", *map(str, words)]
    return subprocess.run(given, input=text, capture_output=True, encoding="utf-8", check=False, timeout=300, **how)


def plan_in_here(*words):
    """What ./plan answers to its words, as `plan` does, run in this process."""
    from opcplan import __main__ as program

    out, stderr = io.StringIO(), io.StringIO()
    with contextlib.redirect_stdout(out), contextlib.redirect_stderr(stderr):
        status = program.status_of([str(word) for word in words])
    return subprocess.CompletedProcess(words, status, out.getvalue(), stderr.getvalue())


def plan_here(module, *words):
    """What a subcommand's module answers, as `plan` does, run in this process."""
    name, out, stderr = module.__name__.rpartition(".")[2], io.StringIO(), io.StringIO()
    parser = module_words.Parser(prog=f"plan {name}")
    module.add_words(parser)
    with contextlib.redirect_stdout(out), contextlib.redirect_stderr(stderr):
        try:
            status = module.run(parser.parse_args([str(word) for word in words]))
        except Error as error:
            status = ended_by(error)
    return subprocess.CompletedProcess(words, status, out.getvalue(), stderr.getvalue())


def prints(path):
    """All that can be seen of a file and of what stands beside it: names, bytes and times; but for the job numbers that
    were printed for a plan (tests/test_printed_numbers.py)."""
    found = {}
    for name in sorted(os.listdir(os.path.dirname(path))):
        if name.endswith(".numbers"):
            continue
        beside = os.path.join(os.path.dirname(path), name)
        stat = os.stat(beside)
        data = Path(beside).read_bytes() if os.path.isfile(beside) else b""
        found[name] = (hashlib.sha256(data).hexdigest(), stat.st_size, stat.st_mtime_ns, stat.st_ino)
    return found
