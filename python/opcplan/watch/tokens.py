"""The token of a watch, in no environment: a command that the watch runs may read the environment with which a process
of the same user began."""

import os
import sys

from opcplan.desk import client

PRIVATE = ("OPCPLAN_TOKEN", "OPCPLAN_TOKEN_FILE", "CREDENTIALS_DIRECTORY")
# the descriptor of the pipe by which a watch passes the token to itself
PIPE = "OPCPLAN_WATCH_PIPE"
MOST = 1 << 15


def private_token() -> str | None:
    """The token for the desk. If the environment says anything of it, this process runs itself anew without that.
    Raises OSError."""
    if number := os.environ.pop(PIPE, ""):
        with open(int(number), encoding="utf-8") as file:
            return file.read() or None
    if not any(name in os.environ for name in PRIVATE):
        return None
    found = client.token()
    reader, writer = os.pipe()
    os.write(writer, (found or "").encode()[:MOST])
    os.close(writer)
    os.set_inheritable(reader, True)
    kept = {name: value for name, value in os.environ.items() if name not in PRIVATE} | {PIPE: str(reader)}
    sys.stdout.flush()
    os.execve(sys.executable, [sys.executable, *sys.orig_argv[1:]], kept)
