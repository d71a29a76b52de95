"""What all listings show of a plan's file, by opcplan over a copy of it, and of a stream, by
tools/reference/plain_planner.py; and runs over a file that are held open, or killed."""

import contextlib
import subprocess
import tempfile

from support import plans

LOOK = b"list ltp\nlist cp\nlist history\nlist deletions\nlist dependencies\nlist links\n"


def of_file(path):
    """The lines of all listings, or of the fault."""
    with tempfile.TemporaryDirectory(prefix="looks-") as folder:
        return asked(plans.copy_of(path, folder), LOOK)[0]


def of_stream(first, *texts):
    """The lines of all listings after streams, by the plain planner."""
    planner = plans.planner_from(first)
    for text in texts:
        plans.plain.run(plans.as_bytes(text), planner)
    return plans.plain.run(LOOK, planner)


def asked(path, text):
    """The lines that opcplan answers over a file, its exit status and what it says of it."""
    ran = subprocess.run([plans.PROGRAM, "--db", path], input=text, capture_output=True, check=False, timeout=300)
    return ran.stdout.decode("latin-1").splitlines(), ran.returncode, ran.stderr.decode()


@contextlib.contextmanager
def held(path, text=b"list links\n", kills=False):
    """A run over a file that has answered a text of statements without data and goes on; at the end of the context it
    ends, or is killed."""
    program = subprocess.Popen([plans.PROGRAM, "--db", path], stdin=subprocess.PIPE, stdout=subprocess.PIPE)
    with program:
        try:
            program.stdin.write(text)
            program.stdin.flush()
            left = text.count(b"\n")
            while left:
                left -= program.stdout.readline().startswith((b"ok", b"refused"))
            yield program
        finally:
            if kills:
                program.kill()


def killed(path, text):
    """Leaves a file as a run that is killed leaves it once it has answered a text."""
    with held(path, text, kills=True):
        pass
