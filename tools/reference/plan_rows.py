"""What stands in a plan file, what has to, and how a stream is run: what the tools on plan files share."""
import gzip
import os
import shutil
import sqlite3
import subprocess
import sys
from contextlib import closing
from pathlib import Path

TOP = Path(__file__).resolve().parents[2]
sys.path.insert(0, str(TOP / "tools" / "reference"))
sys.dont_write_bytecode = True
import plain_planner as plain  # noqa: E402

PROGRAM = Path(os.environ.get("OPCPLAN") or TOP / "crates" / "opcplan" / "out" / "opcplan")
DATA = TOP / "crates" / "test_streams" / "data"
# of the tables that the program makes
VERSION = 2
# a stream that leaves rows in each table
PLAN = "two-hundred-statements"
# a log of fewer bytes has no page
SMALLEST_PAGE = 512
COLUMNS = {
    "plan_meta": "id, version, created, first_day, last_day, plan_end, issued, default_calendar, max_hours",
    "calendar_entry": "calendar, kind, day, work",
    "plan_period": "name, seq, type, origin, second",
    "application": "name, active, calendar",
    "run_cycle": "app, name, type, period, rule, in_effect, out_effect, ia, deadline_day, deadline_time",
    "run_cycle_offset": "app, name, seq, k",
    "predecessor": "app, pred, within",
    "link_in_force": "app, pred, within",
    "ltp_row": "serial, app, ia, deadline, run_cycle",
    "cp_row": "serial, app, ia, deadline, run_cycle, status",
    "history_row": "serial, app, ia, deadline, run_cycle",
    "deletion_row": "serial, app, ia, deadline, run_cycle, reason",
    "dependency": "successor, predecessor",
    "job": "number, body, reply",
}


def ended(text, file=None, words=(), **how):
    """A run of the program over a stream, with more words: .stdout, .stderr and .returncode."""
    words = [PROGRAM, *(["--db", str(file)] if file else []), *words]
    return subprocess.run(words, input=text, capture_output=True, check=False, timeout=600, **how)


def run(text, file=None, **how):
    """What the program answers to a stream, and its exit status."""
    ran = ended(text, file, **how)
    return ran.stdout, ran.returncode


def rows_of(file):
    """The rows of each table, as stock SQLite shows them; None where it finds the file out of order."""
    with closing(sqlite3.connect(file)) as plan:
        found = {table: sorted(plan.execute(f"SELECT {columns} FROM {table}"), key=repr)
                 for table, columns in COLUMNS.items()}
        in_order = plan.execute("PRAGMA integrity_check").fetchall() == [("ok",)]
        return found if in_order and not plan.execute("PRAGMA foreign_key_check").fetchall() else None


def has_log(file):
    """Whether pages stand in the log beside the file."""
    log = Path(f"{file}-wal")
    return log.exists() and log.stat().st_size >= SMALLEST_PAGE


def first_file(file):
    """The file that an earlier program made of the stream PLAN."""
    file.write_bytes(gzip.decompress((DATA / "schema-1.db.gz").read_bytes()))


def first_rows_of(file):
    """The version and the rows of each table of schema 1, as stock SQLite shows them, with no limits added."""
    with closing(sqlite3.connect(file)) as plan:
        found = {}
        for table, columns in COLUMNS.items():
            rows = plan.execute(f"SELECT {columns.replace(', within', ', NULL')} FROM {table}")
            found[table] = sorted(rows, key=repr)
        in_order = plan.execute("PRAGMA integrity_check").fetchall() == [("ok",)]
        return found if in_order else None


def as_current(rows):
    """The rows of schema 1 with the current version."""
    (meta,) = rows["plan_meta"]
    return {**rows, "plan_meta": [(meta[0], VERSION, *meta[2:])]}


def version_of(file):
    with closing(sqlite3.connect(file)) as plan:
        return plan.execute("SELECT version FROM plan_meta").fetchall()


def period_rows(name, period):
    if period[0] != "N":
        return [(name, 0, *period)]
    return [(name, seq, "N", origin, end) for seq, (origin, end) in enumerate(period[1])]


def table_rows(planner):
    """The rows of each table, by the plain planner."""
    defined = planner.defined
    cycles = [(app, name, cycle) for app, named in defined["run-cycles"].items() for name, cycle in named.items()]
    found = {
        "plan_meta": [(1, VERSION, int(planner.bounds is not None), *(planner.bounds or (0, 0, 0)), planner.issued,
                       planner.options["default_calendar"], planner.options["max_extension_hours"])],
        "calendar_entry": [(name, int(kind == "date"), day, int(is_work))
                           for name, entries in defined["calendars"].items()
                           for (kind, day), is_work in entries.items()],
        "plan_period": [row for name, period in defined["periods"].items() for row in period_rows(name, period)],
        "application": [(name, int(active), calendar) for name, (active, calendar) in defined["applications"].items()],
        "run_cycle": [(app, name, one["kind"], one["period"], one["rule"], one["first"], one["end"], one["time"],
                       *(one["deadline"] or (None, None))) for app, name, one in cycles],
        "run_cycle_offset": [(app, name, seq, k) for app, name, one in cycles for seq, k in enumerate(one["offsets"])],
        "predecessor": [(app, *one) for app, listed in defined["predecessors"].items() for one in listed.items()],
        "link_in_force": [(app, *one) for app, listed in planner.in_force.items() for one in listed.items()],
        "ltp_row": planner.planned.values(),
        "cp_row": [(*row, status) for row, status in planner.current.values()],
        "history_row": planner.history.values(),
        "deletion_row": [(*row, reason) for row, reason in planner.deleted.values()],
        "dependency": planner.pairs,
        "job": [(number, *kept) for number, kept in planner.jobs.items()],
    }
    return {table: sorted(rows, key=repr) for table, rows in found.items()}


def unlike(left, right):
    """The first row of a table that one of the two has alone."""
    if left is None or right is None:
        return "the file is out of order"
    for table in COLUMNS:
        alone = set(left[table]) ^ set(right[table])
        if alone:
            return f"{table}, {sorted(alone, key=repr)[0]}"
    return None


def items_of(text):
    """The statements of a stream, each with its block and with the remarks before it."""
    lines, place, found = plain.lines_of(text), 0, []
    for line, end in lines:
        has_data = plain.first_word(line[:1024]) == b"define"
        if has_data:
            for data_line, end in lines:
                if data_line == b"/*":
                    break
        if has_data or not plain.is_skipped(line):
            found.append(text[place:end])
            place = end
    return found if place == len(text) else found + [text[place:]]


def stream(name):
    return (DATA / f"{name}.in").read_bytes(), (DATA / f"{name}.out").read_bytes()


def streams():
    for line in (DATA / "streams.txt").read_text().splitlines():
        if line and not line.startswith("#"):
            name, status, *_ = line.split()
            yield name, int(status)


def after_each(items):
    """The rows of each table before the first statement and after each."""
    planner, found = plain.Planner(), []
    for item in [b"", *items]:
        plain.run(item, planner)
        found.append(table_rows(planner))
    return found


def ends_of(output):
    """How many statements are answered."""
    return sum(line.startswith((b"ok ", b"refused ")) for line in output.splitlines())


def remove(file):
    """The file and what stands beside it."""
    for beside in file.parent.glob(file.name + "*"):
        beside.unlink()


def loaded_before(room, text):
    """Compiles what is loaded before the C library, with the kit's own compiler."""
    rt = os.environ.get("RT") or shutil.which("rt") or "/opt/rattle/bin/rt"
    page = subprocess.run([rt, "doc"], stdout=subprocess.PIPE, text=True, check=True).stdout
    clang = Path(page.strip()).parent / "toolchain" / "bin" / "clang"
    source, library = room / "before.c", room / "before.so"
    source.write_text(text, encoding="utf-8")
    words = [clang, "-O1", "-fPIC", "-shared", "-nostdlib", "-fuse-ld=lld", "-o", library, source]
    subprocess.run(words, check=True)
    return library


def ended_before(library, text, file=None, **numbers):
    """A run of the program with that library before it, and whether the library told a byte."""
    reader, writer = os.pipe()
    env = {"LD_PRELOAD": str(library), "TELLS": str(writer), **{name: str(value) for name, value in numbers.items()}}
    ran = ended(text, file, env=env, pass_fds=[writer])
    os.close(writer)
    has_reported = os.read(reader, 1) != b""
    os.close(reader)
    return ran, has_reported


def run_before(library, text, file=None, **numbers):
    """What the program answers with that library before it, its exit status, and whether the library told a byte."""
    ran, has_reported = ended_before(library, text, file, **numbers)
    return ran.stdout, ran.returncode, has_reported
