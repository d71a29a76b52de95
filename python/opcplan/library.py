"""The library for scripts: `opcplan.Plan` reads the file of a plan, and `opcplan.Desk` sends requests to a desk.

docs/use/PYTHON.md explains both. Moments are `datetime.datetime` values without a zone, because a plan has no zone. An
argument that is a moment may also be a text such as `2026-11-25/06.00`."""

import contextlib
import dataclasses
import datetime
import http.client
import json
import secrets
import time
import urllib.parse
import weakref
from collections.abc import Iterator, Mapping
from types import TracebackType
from typing import Any, Self

from opcplan.acts import loaded, undoing, values, verbs
from opcplan.acts.verbs import Intention
from opcplan.commands import ready
from opcplan.desk import client, requests
from opcplan.edits import days as edit_days, previews as edit_previews
from opcplan.errors import Error, Unreadable
from opcplan.plans import plan_definitions, plan_file, waits
from opcplan.rules import moments, statuses
from opcplan.rules.definitions import Definitions

Moment = datetime.datetime | str
OF_PLACE = {**dict.fromkeys("WSECD", "cp"), "L": "ltp", "H": "history", **dict.fromkeys("owp", "deletions")}
TABLES = {"ltp": "ltp_row", "cp": "cp_row", "history": "history_row", "deletions": "deletion_row"}
LISTS = tuple(TABLES)
# the tag of a desk that lacks entries which a reader doesn't have (desk/events.py)
ANEW = "anew-0"
# HTTP's status if the plan isn't in the state of a preview, and how often an act is looked at
CHANGED, MOST_SENT = 412, 9
# HTTP's status if the desk has no answer for now, and the seconds after which it is asked again
UNAVAILABLE, REST = 503, 0.5


@dataclasses.dataclass(frozen=True)
class Row:
    """An occurrence: its serial, application, input arrival and deadline, and the run cycle that named it (None if it
    was added by hand); the list that has it, `ltp`, `cp`, `history` or `deletions`; its status (W S E C D) in the
    current plan and history, and the reason (O W P) in the deletions."""

    serial: int
    app: str
    ia: datetime.datetime
    deadline: datetime.datetime
    run_cycle: str | None
    list: str
    status: str | None = None
    reason: str | None = None

    @property
    def key(self) -> str:
        """Its key as a statement has it: `--app PAY --ia 2026-11-25/06.00`."""
        return f"--app {self.app} --ia {self.ia:%Y-%m-%d/%H.%M}"


@dataclasses.dataclass(frozen=True)
class Why:
    """Why an occurrence is where it is: the row (None if no list has it), a state (`planned`, `its time is to come`,
    `blocked`, `ready`, `started`, `in error`, `complete`, `deleted`, `withdrawn` or `nowhere`), its predecessors that
    aren't complete, and of these and theirs those that wait for nothing."""

    row: Row | None
    state: str
    waits_for: tuple[Row, ...] = ()
    roots: tuple[Row, ...] = ()


@dataclasses.dataclass(frozen=True)
class Answer:
    """A statement and its answer: its number in the journal and its job number (None if it changes nothing), the lines
    of its rows, its reply, when the desk took it, and the key under which it was sent. If it is of an act, `means` says
    in words what its refusal means."""

    statement: str
    reply: str
    seq: int | None = None
    job: int | None = None
    rows: tuple[str, ...] = ()
    at: str | None = None
    key: str | None = None
    means: str = ""

    @property
    def ok(self) -> bool:
        """Whether it was accepted."""
        return self.reply.startswith("ok")


@dataclasses.dataclass(frozen=True)
class Act:
    """What a verb does: the row that it is about (None if it makes one), its statements as a stream without job
    numbers, all that is to be said of them in sentences, what can't be kept, each changed row as it was (None if it is
    made) and as it is then, how many rows of the current plan wait for it, and the stream that takes it back (None if
    there is none: `why_not` says why). `answers` has those of a desk that did it. If these are fewer than its
    statements, `stopped` says why the others can't be done. `key` and `tag` are those under which a desk does it."""

    verb: str
    row: Row | None
    stream: str
    lines: tuple[str, ...]
    notes: tuple[str, ...]
    changes: tuple[tuple[Row | None, Row], ...]
    waiting: int
    inverse: str | None
    why_not: str
    answers: tuple[Answer, ...] = ()
    stopped: str = ""
    key: str = dataclasses.field(default="", compare=False)
    tag: str = dataclasses.field(default="", compare=False)

    @property
    def ok(self) -> bool:
        """Whether a desk accepted each of its statements."""
        count = len(requests.of_stream(self.stream.encode()))
        return len(self.answers) == count and all(one.ok for one in self.answers)


@dataclasses.dataclass(frozen=True)
class EditDays:
    """The days of an application before and after an edit: those on which its runs go, those on which runs come, those
    that stay as they are, and those on which other runs are named instead, with another time, deadline or run cycle."""

    app: str
    goes: tuple[datetime.date, ...]
    comes: tuple[datetime.date, ...]
    stays: tuple[datetime.date, ...]
    other: tuple[datetime.date, ...]


@dataclasses.dataclass(frozen=True)
class Edit:
    """What an edit of definitions does: its words, its statements as a stream without job numbers, what changes and
    what stays in sentences, the days of each application that it concerns, the planning statement that takes it into
    the long-term plan (None if none does), the stream that gives the definitions as they were, and the words of the
    edit that takes it back (None if no single one does). `answers` has those of a desk that did it."""

    words: tuple[str, ...]
    stream: str
    sentences: tuple[str, ...]
    days: tuple[EditDays, ...]
    modify: str | None
    inverse: str
    edit_back: tuple[str, ...] | None
    answers: tuple[Answer, ...] = ()

    @property
    def ok(self) -> bool:
        """Whether a desk accepted each of its statements."""
        count = len(requests.of_stream(self.stream.encode()))
        return len(self.answers) == count and all(one.ok for one in self.answers)


class NotDoable(Error):
    """Why there is no act: the plan doesn't allow it, or several rows fit (`choices`), or none does."""

    def __init__(self, text: str, choices: tuple[Row, ...] = ()) -> None:
        super().__init__(text)
        self.choices = choices


class Plan:
    """The file of a plan, as it was when this was made: it reads a private copy, so it doesn't keep the file open.
    Close it by `with` or `close`. Raises Plan.Unreadable."""

    Unreadable, NotDoable = Unreadable, NotDoable

    def __init__(self, path: str) -> None:
        with contextlib.ExitStack() as stack:
            self._plan = stack.enter_context(plan_file.opened(path))
            self._end = weakref.finalize(self, stack.pop_all().close)

    def __enter__(self) -> Self:
        return self

    def __exit__(self, kind: type[BaseException] | None, error: BaseException | None, at: TracebackType | None) -> None:
        self.close()

    def close(self) -> None:
        """Deletes the private copy."""
        self._end()

    def rows(self, name: str = "cp", *, app: str | None = None, first: Moment | None = None,
             last: Moment | None = None, status: str | None = None) -> list[Row]:
        """The rows of a list, by input arrival, application and serial: perhaps only those of an application, that
        arrive from `first` to `last`, or that have one of some statuses (`"WE"`). Raises ValueError."""
        check_list(name)
        begin, end = (None if one is None else minutes_of(one) for one in (first, last))
        found = map(row_of, waits.rows_of_set(self._plan, TABLES[name], app, begin, end))
        return [row for row in found if status is None or (row.status or "-") in status]

    def ready(self, now: Moment | None = None, *, app: str | None = None) -> list[Row]:
        """What may be started at a moment, else now, the earliest deadline first. Raises ValueError."""
        at = moments.now() if now is None else minutes_of(now)
        return [row_of(one) for one in ready.of_plan(self._plan, at, app)]

    def why(self, app: str, ia: Moment, now: Moment | None = None) -> Why:
        """Why the occurrence of a key is where it is, at a moment, else now. Raises ValueError."""
        at = moments.now() if now is None else minutes_of(now)
        found = waits.rows_of_key(self._plan, app, minutes_of(ia))
        if not found:
            return Why(None, "nowhere")
        if found[0].place not in "WL":
            return Why(row_of(found[0]), statuses.STATES[found[0].place])
        chain = waits.chain(self._plan, found[0])
        before = chain[found[0].serial]
        return Why(row_of(found[0]), waits.state(found[0], bool(before), at), tuple(map(row_of, before)),
                   tuple(map(row_of, waits.roots(chain, found[0]))))

    def act(self, verb: str, of: str = "", *, to: str | None = None, due: str | None = None, chain: bool = False,
            followers: bool = False, now: Moment | None = None) -> Act:
        """What a verb (`rerun`, `move` and so on) would do to an occurrence, named as `PAY 06.00` or by its serial.
        Nothing is done: its stream is for opcplan. Raises Plan.NotDoable and ValueError."""
        at = moments.now() if now is None else minutes_of(now)
        wanted = intention_of(verb, of, to, due, chain, followers)
        return act_of(values.answer(loaded.world_of(self._plan), wanted, at, [], None))

    def edit(self, *words: str, first: datetime.date | str | None = None, last: datetime.date | str | None = None,
             now: Moment | None = None) -> Edit:
        """What an edit of the definitions would do, in the words of `./plan edit` (`"calendar", "DEFAULT",
        "2027-12-24", "free"`), with the days before and after it from `first` to `last`, else of a year. Nothing is
        done: its stream is for opcplan. Raises Plan.NotDoable and ValueError."""
        at = moments.now() if now is None else minutes_of(now)
        return edit_of(edit_previews.answer(loaded.world_of(self._plan), edit_asked(words, first, last), at))

    def definitions(self) -> Definitions:
        """The definitions, as opcplan.rules.definitions has them: days are numbers since 1970-01-01."""
        return plan_definitions.of_plan(self._plan)


class Desk:
    """A desk, by its address (`http://HOST:PORT`) or the path of its socket, or several of these with commas between
    them; and a token, else that of the environment (OPCPLAN_TOKEN_FILE, OPCPLAN_TOKEN). Raises Desk.Wrong.

    Each method raises Desk.Refused if the desk refuses the request (`status` is HTTP's), and Desk.Away if no complete
    answer came (`may_be_done` says whether the request may be done all the same)."""

    Away, Refused, Wrong = client.DeskUnreachable, client.RequestRefused, client.InvalidAddress
    NotDoable = NotDoable

    def __init__(self, url: str, token: str | None = None) -> None:
        self._client = client.Client(url, client.token() if token is None else token)

    def statements(self, stream: str, key: str | None = None, *, wait: float = 60) -> list[Answer]:
        """Sends a job stream; the answers to its statements. The stream is done once under its key (else under a new
        one), however often it is sent. While the desk is away, it is sent again for `wait` seconds."""
        data = stream if stream.endswith("\n") else f"{stream}\n"
        heads = {"Accept": "application/x-ndjson"}
        used = key or secrets.token_hex(16)
        found = self._client.statements(data.encode(), used, time.monotonic() + wait, heads)
        return [answer_of(json.loads(line)) for line in found.decode().splitlines()]

    def rows(self, name: str = "cp", *, app: str | None = None, first: datetime.date | str | None = None,
             last: datetime.date | str | None = None, status: str | None = None,
             fresh: bool | int = False) -> list[Row]:
        """The rows of a list, as those of Plan, but `first` and `last` are days. With `fresh`, a desk that shares its
        log answers with all that any desk of the log has answered till now; with 2, once a majority of them has
        answered that alike. Raises ValueError."""
        check_list(name)
        asked = {"list": name, "app": app, "from": day_text(first), "to": day_text(last), "status": status,
                 "fresh": str(int(fresh)) if fresh else None}
        query = urllib.parse.urlencode({word: value for word, value in asked.items() if value is not None})
        _, found = self._client.request("GET", f"/rows?{query}")
        return [row_of_object(json.loads(line), name) for line in found.decode().splitlines()]

    def act(self, verb: str, of: str = "", *, to: str | None = None, due: str | None = None, chain: bool = False,
            followers: bool = False, entry: int | None = None, dry_run: bool = False) -> Act:
        """Does a verb (`rerun`, `move`, `undo` and so on) to an occurrence, named as `PAY 06.00` or by its serial; with
        `dry_run` it only says what it would do. If somebody else changes the plan, it is done all the same as long as
        it would do the same. Raises Desk.NotDoable, ValueError, and Desk.Refused with status 412 if others keep
        changing what it would do."""
        wanted = intention_of(verb, of, to, due, chain, followers, entry)
        first: Act | None = None
        for _ in range(MOST_SENT):
            found = self._acts(values.values_of(wanted))
            act = dataclasses.replace(act_of(found), tag=found["tag"], key=f"{undoing.ACT_KEY}{secrets.token_hex(16)}")
            if dry_run:
                return act
            if first is not None and act != first:
                break
            first = act
            try:
                return self.do(act)
            except client.RequestRefused as why:
                if why.status != CHANGED:
                    raise
        raise client.RequestRefused(CHANGED, "the plan has changed, and the act would now do something else")

    def do(self, act: Act, *, wait: float = 60) -> Act:
        """Does an act that `act(.., dry_run=True)` returned, or what is left of one that was stopped. However often you
        call it, nothing is done twice. If somebody else changes the plan in between, it goes on as long as what is left
        can be done; else `stopped` of the act says why. While the desk is away, it is asked again for `wait` seconds.
        Raises Desk.Refused with status 412 if somebody changed the plan before its first statement, and ValueError if
        the act is none of a desk."""
        if not act.key:
            raise ValueError("the act is none of a desk; `Desk.act` with `dry_run=True` returns one")
        until = time.monotonic() + wait
        body, key, tag = {"stream": act.stream}, {"Idempotency-Key": act.key}, act.tag
        for _ in range(MOST_SENT):
            found = self._acts(body, {**key, "If-Match": tag}, until)
            if found["is_whole"]:
                break
            found = self._acts(body, key, until)
            if found["act"] is None:
                break
            tag = found["tag"]
        stopped = "" if found["is_whole"] else found["why_not"] or "others kept changing the plan"
        return dataclasses.replace(act, answers=tuple(map(answer_of, found["answers"])), stopped=stopped)

    def _acts(self, body: Mapping[str, Any], heads: client.Heads = client.NO_HEADS, until: float = 0.0) -> Any:
        """The answer to `POST /acts`; while the desk is away, it is asked again until a moment of the steady clock."""
        while True:
            try:
                return json.loads(self._client.request("POST", "/acts", json.dumps(body).encode(), heads)[1])
            except (client.DeskUnreachable, client.RequestRefused) as why:
                is_away = isinstance(why, client.DeskUnreachable) or why.status == UNAVAILABLE
                if not is_away or time.monotonic() + REST > until:
                    raise
                time.sleep(REST)

    def edit(self, *words: str, first: datetime.date | str | None = None, last: datetime.date | str | None = None,
             dry_run: bool = False) -> Edit:
        """Does an edit of the definitions, in the words of `./plan edit`; with `dry_run` it only says what it would do.
        If somebody else changes the plan, it is done all the same as long as it would do the same. It isn't in the
        long-term plan before its statement `modify` is sent. Raises Desk.NotDoable, ValueError, and Desk.Refused with
        status 412 if others keep changing what it would do."""
        asked = json.dumps(edit_asked(words, first, last)).encode()
        before: Edit | None = None
        for _ in range(MOST_SENT):
            _, body = self._client.request("POST", "/edits", asked)
            found = json.loads(body)
            made = edit_of(found)
            if dry_run:
                return made
            if before is not None and made != before:
                break
            before = made
            heads = {"If-Match": found["tag"], "Idempotency-Key": f"{undoing.ACT_KEY}{secrets.token_hex(16)}"}
            try:
                _, body = self._client.request("POST", "/edits", json.dumps({"stream": made.stream}).encode(), heads)
                return dataclasses.replace(made, answers=tuple(map(answer_of, json.loads(body)["answers"])))
            except client.RequestRefused as why:
                if why.status != CHANGED:
                    raise
        raise client.RequestRefused(CHANGED, "the plan has changed, and the edit would now do something else")

    def log(self, serial: int) -> str:
        """The ends of the logs of an occurrence's job, one try after the other, as agents sent them to the desk; empty
        if none did. It needs the role `operate`."""
        return self._client.request("GET", f"/logs/{int(serial)}")[1].decode()

    def events(self, since: int | None = None) -> Iterator[Answer]:
        """Each change once it is answered, without an end: all after an entry of the journal, else those that come from
        now on. Raises Desk.Refused with status 410 if the desk doesn't have all of these any more."""
        heads = {} if since is None else {"Last-Event-ID": str(since)}
        with self._client.answer("GET", "/events", None, heads) as answer:
            for event, fields in events_of(answer):
                if event == "entry":
                    yield answer_of(fields)
                elif fields.get("tag") == ANEW:
                    raise client.RequestRefused(410, f"the desk doesn't have all entries after {since}: look at the "
                                                     "rows")


def intention_of(verb: str, of: str, to: str | None, due: str | None, chain: bool, followers: bool,
                 entry: int | None = None) -> Intention:
    """What is wanted. Raises ValueError."""
    wanted = Intention(verb, of, to, due, chain, followers, entry)
    try:
        verbs.check(wanted)
    except verbs.InvalidIntention as why:
        raise ValueError(str(why)) from None
    return wanted


def act_of(found: Mapping[str, Any]) -> Act:
    """The Act of an answer. Raises NotDoable."""
    act = found["act"]
    if act is None:
        choices = found["found"]["choices"] if found["found"] else ()
        raise NotDoable("\n".join(values.lines_of(found)), tuple(row_of_act(one) for one in choices))
    changes = tuple((None if one["was"] is None else row_of_act(one["was"]), row_of_act(one["row"]))
                    for one in act["changes"])
    row = None if act["row"] is None else row_of_act(act["row"])
    return Act(act["verb"], row, act["stream"], tuple(act["lines"]), tuple(act["notes"]), changes, act["waiting"],
               act["inverse"], act["why_not"])


def edit_asked(words: tuple[str, ...], first: datetime.date | str | None, last: datetime.date | str | None
               ) -> dict[str, Any]:
    """What a desk is asked for an edit. Raises ValueError."""
    asked = {"edit": list(words), "from": day_text(first), "to": day_text(last)}
    found = {name: value for name, value in asked.items() if value is not None}
    try:
        edit_previews.asked_of(found)
    except edit_previews.InvalidEdit as why:
        raise ValueError(str(why)) from None
    return found


def edit_of(found: Mapping[str, Any]) -> Edit:
    """The Edit of an answer. Raises NotDoable."""
    made = found["edit"]
    if made is None:
        raise NotDoable(found["why_not"])
    first, back = datetime.date.fromisoformat(made["first"]), made["edit_back"]
    return Edit(tuple(made["edit"]), made["stream"], tuple(made["sentences"]),
                tuple(edit_days_of(one, first) for one in made["apps"]), made["modify"], made["inverse"],
                None if back is None else tuple(back))


def edit_days_of(found: Mapping[str, Any], first: datetime.date) -> EditDays:
    """The EditDays of an application in an answer, whose first sign is that of a day."""
    def dates(sign: str) -> tuple[datetime.date, ...]:
        return tuple(first + datetime.timedelta(place) for place, one in enumerate(found["signs"]) if one == sign)

    return EditDays(found["app"], dates(edit_days.GOES), dates(edit_days.COMES), dates(edit_days.SAME),
                    dates(edit_days.OTHER))


def row_of_act(fields: Mapping[str, Any]) -> Row:
    """The Row of an object in an act."""
    ia, deadline = (minutes_of(fields[word]) for word in ("ia", "deadline"))
    return row_of(waits.Row(fields["serial"], fields["app"], ia, deadline, fields["run_cycle"], fields["place"]))


def check_list(name: str) -> None:
    """Checks that a name is that of a list of rows. Raises ValueError."""
    if name not in LISTS:
        raise ValueError(f"there is no list {name!r} of rows; the lists are {', '.join(LISTS)}")


def minutes_of(moment: Moment) -> int:
    """A moment in minutes since 1970, as a plan has it. Raises ValueError."""
    if isinstance(moment, str):
        found = moments.typed_moment(moment)
        if found is None:
            raise ValueError(f"{moment!r} is not a moment such as 2026-11-25/06.00")
        return found
    if moment.tzinfo is not None:
        raise ValueError(f"{moment} has a time zone, but a plan has none")
    return int((moment - moments.EPOCH).total_seconds()) // 60


def day_text(day: datetime.date | str | None) -> str | None:
    """A day as text, as a desk accepts it."""
    return f"{day:%Y-%m-%d}" if isinstance(day, datetime.date) else day


def moment_of(minutes: int) -> datetime.datetime:
    """A moment of a plan, from its minutes since 1970."""
    return moments.EPOCH + datetime.timedelta(minutes=minutes)


def row_of(row: waits.Row) -> Row:
    """The Row of a plan's row."""
    name, is_gone = OF_PLACE[row.place], row.place in "owp"
    status = None if is_gone or name == "ltp" else "C" if name == "history" else row.place
    return Row(row.serial, row.app, moment_of(row.ia), moment_of(row.deadline), row.cycle, name, status,
               row.place.upper() if is_gone else None)


def row_of_object(fields: Mapping[str, Any], name: str) -> Row:
    """The Row of an object in a desk's list."""
    ia, deadline = (moment_of(minutes_of(fields[word])) for word in ("ia", "deadline"))
    return Row(fields["serial"], fields["app"], ia, deadline, fields["run_cycle"], name, fields.get("status"),
               fields.get("reason"))


def answer_of(fields: Mapping[str, Any]) -> Answer:
    """The Answer of an object in a desk's answer."""
    return Answer(fields["statement"], fields["reply"], fields["seq"], fields["job"], tuple(fields["rows"]),
                  fields.get("at"), fields.get("key"), fields.get("means", ""))


def events_of(answer: http.client.HTTPResponse) -> Iterator[tuple[str, Mapping[str, Any]]]:
    """The events that a server sends: name and data of each."""
    name = ""
    for line in answer:
        word, _, text = line.decode().rstrip("\r\n").partition(": ")
        if word == "event":
            name = text
        elif word == "data":
            yield name, json.loads(text)
