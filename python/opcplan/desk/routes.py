"""The table of routes: what a desk answers by HTTP, to whom, and by which handler.

The middleware of the guard checks the role, so that no handler can forget it. docs/use/DESK.md has the same table, and
`GET /openapi.json` describes it for programs."""

import enum
import re
from typing import TYPE_CHECKING, NamedTuple

from opcplan.rules import columns
from opcplan.rules.statements import Role

if TYPE_CHECKING:
    from aiohttp import web

JSON, LINES, HTML = "application/json", "application/x-ndjson", "text/html"
EVENTS, TEXT, SQLITE = "text/event-stream", "text/plain", "application/vnd.sqlite3"


class Place(enum.StrEnum):
    """Where a request has a parameter."""

    QUERY = "query"
    HEADER = "header"
    PATH = "path"


class Parameter(NamedTuple):
    """A parameter of a request: where it is, its name, the pattern of its text, and what it means."""

    place: Place
    name: str
    pattern: str
    about: str


class Route(NamedTuple):
    """A route. `handler` names an attribute of the server; `answer` is the sentence about it in docs/use/DESK.md."""

    method: str
    path: str
    role: Role
    handler: str
    kind: str  # of the answer's body, empty if it has none
    answer: str
    parameters: tuple[Parameter, ...] = ()
    lesser: str = ""  # the handler for callers who lack the role, also those without a token
    is_open: bool = False  # whether the answer to a caller without any role is decided by the route
    in_pieces: bool = False  # whether the body is sent piece by piece: aiohttp would send it to HEAD too
    body: str = ""  # the kind of the request's body
    statuses: tuple[str, ...] = ()  # HTTP's, besides those that every route may have
    is_of_state: bool = False  # whether headers of the answer name the state of the plan
    has_own_503: bool = False  # whether an answer with status 503 may have the same body

    @property
    def name(self) -> str:
        """Its name for programs."""
        path = re.sub("[{}]", "", self.path.strip("/"))
        return f"{self.method.lower()}_{re.sub('[/.]', '_', path) or 'page'}"


DAY = "[0-9]{4}-[0-9]{2}-[0-9]{2}"
FRESH = Parameter(Place.QUERY, "fresh", "[012]", "1 if the answer must have all that any desk has answered till now, 2 "
                  "if a majority of the desks must have answered that alike")
NOW = Parameter(Place.QUERY, "now", rf"{DAY}/[0-9]{{2}}\.[0-9]{{2}}", "the moment to show, else the clock's")
AS_OF = NOW._replace(about="the moment that the answer is about, else the clock's")
NUMBER = "[0-9]{1,15}"
SERIAL, TRY = "0{0,8}[1-9][0-9]{0,8}", "[1-9][0-9]?"
OF_A_LOG = Parameter(Place.PATH, "serial", SERIAL, "the serial of an occurrence")
KEY = '[!-"$-~]{1,200}'
NAMED = Parameter(Place.HEADER, "X-Opcplan-Agent", "[A-Za-z0-9._-]{1,64}", "the name that an agent gives itself")
OF_ROWS = (
    Parameter(Place.QUERY, "list", "|".join(columns.LISTS), "the list, else `cp`"),
    Parameter(Place.QUERY, "app", "[A-Z@#$][A-Z0-9@#$]{0,15}", "only rows of this application"),
    Parameter(Place.QUERY, "from", DAY, "only rows that arrive on this day or later"),
    Parameter(Place.QUERY, "to", DAY, "only rows that arrive on this day or before"),
    Parameter(Place.QUERY, "status", "[WSECD]+", "only rows of these statuses"),
    FRESH,
    Parameter(Place.HEADER, "If-None-Match", ".*",
              "the `ETag` of an earlier answer: the status is 304 if it still names the state"),
)
OF_STATEMENTS = (
    Parameter(Place.HEADER, "Idempotency-Key", KEY, "the stream is done once under this key, however often it is sent"),
    Parameter(Place.HEADER, "If-Match", ".*",
              "the `ETag` of the state in which the first change is done. Each further one is done in the state that "
              "the one before left; if somebody changed the plan in between, the answer ends there"),
)
ROUTES = (
    Route("POST", "/statements", Role.READ, "statements", TEXT,
          "the body is a job stream (`STREAM.md`). Each statement gets its rows and its reply line, as `opcplan` "
          "prints them, or with `Accept: application/x-ndjson` a line of JSON: `seq`, `statement`, `job`, `rows`, "
          "`reply`, `at`, `key`, and of the state after it `tag` and `position`", OF_STATEMENTS, body=TEXT,
          statuses=("408", "409", "412", "413"), is_of_state=True),
    Route("POST", "/acts", Role.READ, "acts.handle", JSON,
          "the body says what is to be done, as an object of JSON: `verb`, `of` and so on. The answer has the "
          "statements that do it and what they would do, and nothing is done. With `If-Match` and the `stream` of that "
          "answer the desk does them; each needs its role. With the `stream` alone and its `Idempotency-Key`, the "
          "answer has what is left of it", OF_STATEMENTS, body=JSON,
          statuses=("408", "409", "412", "413"), is_of_state=True),
    Route("POST", "/edits", Role.READ, "edits.handle", JSON,
          "the body has in `edit` the words of a change of definitions, as `./plan edit` takes them (`EDITS.md`). The "
          "answer has the statements that make it, and the days before and after it; nothing is done. With `If-Match` "
          "and the `stream` of that answer the desk does them, which needs the role `plan`", OF_STATEMENTS, body=JSON,
          statuses=("408", "409", "412", "413"), is_of_state=True),
    Route("GET", "/", Role.READ, "page.whole", HTML,
          "the live page, for a browser (`DESK_PAGE.md`); without a token the page that asks for one", (NOW, FRESH),
          lesser="page.sign_in", is_open=True, is_of_state=True),
    Route("GET", "/page/data", Role.READ, "page.data", JSON,
          "the plan of the live page alone, at or after the entry that `since` names",
          (Parameter(Place.QUERY, "since", NUMBER, "the number of an entry"), NOW, FRESH), is_open=True,
          is_of_state=True),
    Route("GET", "/rows", Role.READ, "rows", LINES,
          "the rows of a list (`ltp`, `cp`, `history`, `deletions`, `dependencies`, `links`), one object a line; "
          "`app=`, `from=`, `to=` and `status=` select some of them", OF_ROWS, in_pieces=True,
          statuses=("304",), is_of_state=True),
    Route("GET", "/events", Role.READ, "desk.events.handle", EVENTS,
          "server-sent events: `entry` for each answered change, once, in order and without a gap; `state` for the "
          "state of the plan after the last one. With `Last-Event-ID` the answer goes on after that entry",
          (Parameter(Place.HEADER, "Last-Event-ID", NUMBER, "the number of an entry"),
           Parameter(Place.QUERY, "since", NUMBER, "the same")), in_pieces=True),
    Route("GET", "/journal", Role.READ, "journal", LINES,
          "the answered entries, one object a line. An entry is there as soon as its caller has the reply",
          (Parameter(Place.QUERY, "from", NUMBER, "the number of the first entry, else 1"),),
          in_pieces=True),
    Route("GET", "/health", Role.READ, "health", JSON,
          "`ok`, or with status 503 `stopped`, and why; a caller without a token gets that one word only", (NAMED,),
          lesser="health", is_open=True, has_own_503=True),
    Route("GET", "/metrics", Role.READ, "metrics", TEXT, "counts for Prometheus (`MONITORING.md`)"),
    Route("GET", "/status", Role.READ, "status.handle", JSON,
          "what needs a person, counts of the current plan, when the plans end, when each agent last contacted the "
          "desk, and the nodes of etcd (`MONITORING.md`)", (AS_OF,), is_of_state=True),
    Route("PUT", "/reports/agent", Role.OPERATE, "desk.reports.put_agent", "",
          "what an agent reports: why it doesn't start what is ready, and which ends of jobs nobody knows", (NAMED,),
          body=JSON, statuses=("408", "413")),
    Route("PUT", "/reports/roll", Role.PLAN, "desk.reports.put_roll", "",
          "how `./plan roll` ended, and by which rule", body=JSON, statuses=("408", "413")),
    Route("PUT", "/reports/calls", Role.READ, "desk.reports.put_calls", "",
          "which calls `./plan watch` made and couldn't deliver", body=JSON, statuses=("408", "413")),
    Route("GET", "/snapshot", Role.READ, "snapshot", SQLITE,
          "the plan as one file, exactly as of its position, with the digest of all answers up to it in "
          "`X-Opcplan-Digest`. If the desk shares a log, the file has both too, so that a desk can begin with it",
          in_pieces=True, is_of_state=True),
    Route("PUT", "/logs/{serial}", Role.OPERATE, "tails.put", "",
          "stores the end of the log of one try of an occurrence's job, as an agent sends it: at most 256 KiB a try, "
          "and only if the occurrence is or was started",
          (OF_A_LOG, Parameter(Place.QUERY, "try", TRY, "the number of the try, else 1")), body=TEXT,
          statuses=("408", "409", "413", "507")),
    Route("GET", "/logs/{serial}", Role.OPERATE, "tails.get", TEXT,
          "the ends of the logs of an occurrence's job, one try after the other, the last 256 KiB of them; 204 if "
          "no agent sent any",
          (OF_A_LOG,), statuses=("204",)),
    Route("POST", "/session", Role.READ, "guard.begin_session", JSON,
          "a cookie in place of the token that the request has, for pages"),
    Route("DELETE", "/session", Role.READ, "guard.end_session", "", "the cookie is no longer valid"),
    Route("GET", "/openapi.json", Role.READ, "openapi", JSON, "this table as an OpenAPI 3.1 document, for programs"),
)
BY_REQUEST = {(route.method, route.path): route for route in ROUTES}


def of_request(request: "web.Request") -> Route | None:
    """The route of a request, None if the answer is 404 or 405. HEAD has the route of GET. Raises KeyError for a
    handler that isn't in the table."""
    resource = request.match_info.route.resource
    method = "GET" if request.method == "HEAD" else request.method
    return None if resource is None else BY_REQUEST[method, resource.canonical]
