"""The program that sends one call to a webhook: a process of its own, so that the watch can kill it whatever hangs: the
host's name, a connection, TLS, or an answer that comes byte by byte.

Standard input has a line of JSON with `url` and `heads`, and after it the body. The status is 0 if the answer's status
is 200 to 299. Else it is 1, and standard error says why. It follows no redirection, and doesn't read the body of the
answer."""

import http.client
import json
import ssl
import sys
import urllib.parse
from collections.abc import Mapping

# seconds for each step; the watch ends the process at the deadline of the whole call, which is shorter
PATIENCE = 60


def main() -> int:
    """Sends what standard input has; the exit status."""
    line, _, body = sys.stdin.buffer.read().partition(b"\n")
    given = json.loads(line)
    why = posted(given["url"], given["heads"], body)
    if why:
        print(why, file=sys.stderr)
    return 1 if why else 0


def posted(url: str, heads: Mapping[str, str], body: bytes) -> str:
    """Sends a body; why it isn't known to be delivered, or nothing."""
    found = urllib.parse.urlsplit(url)
    place = f"{found.path or '/'}{f'?{found.query}' if found.query else ''}"
    try:
        connection = connection_of(found)
        connection.request("POST", place, body, dict(heads))
        status = connection.getresponse().status
    except (OSError, http.client.HTTPException, ValueError) as error:
        return f"no complete answer came: {error or type(error).__name__}"
    if 300 <= status < 400:
        return f"it answered with status {status}, and the watch follows no redirection; write the address it leads to"
    return "" if 200 <= status < 300 else f"it answered with status {status}"


def connection_of(found: urllib.parse.SplitResult) -> http.client.HTTPConnection:
    """A connection to the host of an address, not opened yet."""
    assert found.hostname is not None, "a rulebook has no address without a host"
    if found.scheme == "https":
        context = ssl.create_default_context()
        return http.client.HTTPSConnection(found.hostname, found.port, timeout=PATIENCE, context=context)
    return http.client.HTTPConnection(found.hostname, found.port, timeout=PATIENCE)


if __name__ == "__main__":
    sys.exit(main())
