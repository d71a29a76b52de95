"""The schemas of a desk's bodies, for its OpenAPI document. No I/O."""

import types
import typing
from collections.abc import Mapping
from typing import Any, NamedTuple

from opcplan.acts import previews, values, verbs
from opcplan.desk import routes
from opcplan.edits import previews as edit_previews
from opcplan.needs import facts, need
from opcplan.rules import columns, statements
from opcplan.webpage import page_values

Schema = Mapping[str, Any]
TEXT: Schema = {"type": "string"}
NUMBER: Schema = {"type": "number"}
FLAG: Schema = {"type": "boolean"}
COUNT: Schema = {"type": "integer", "minimum": 0}
DAY: Schema = {"type": "string", "pattern": "^[0-9]{4}-[0-9]{2}-[0-9]{2}$"}
MOMENT: Schema = {"type": "string", "pattern": r"^[0-9]{4}-[0-9]{2}-[0-9]{2}/[0-9]{2}\.[0-9]{2}$"}
AT: Schema = {"type": "string", "pattern": r"^[0-9]{4}-[0-9]{2}-[0-9]{2}T[0-9]{2}:[0-9]{2}:[0-9]{2}\.[0-9]{3}Z$"}
ROLE: Schema = {"enum": [*(role.name.lower() for role in statements.Role), "none"]}
SERIAL = "^0*[1-9][0-9]{0,8}$"
# by what Python has
SIMPLE: Mapping[object, Schema] = {
    int: {"type": "integer"}, str: TEXT, float: NUMBER, bool: FLAG, type(None): {"type": "null"}, object: {}, Any: {}}
# by the form of a column of a list
BY_FORM: Mapping[columns.Form, Schema] = {
    columns.Form.SERIAL: COUNT,
    columns.Form.NAME: TEXT,
    columns.Form.CYCLE: {"type": ["string", "null"]},
    columns.Form.LETTER: {"type": "string", "pattern": "^[A-Z]$"},
    columns.Form.MOMENT: MOMENT,
    columns.Form.HOURS: {"type": ["integer", "null"]},
}


def ref(name: str) -> Schema:
    """A reference to one of COMPONENTS."""
    return {"$ref": f"#/components/schemas/{name}"}


def listed(one: Schema) -> Schema:
    """A list of such values."""
    return {"type": "array", "items": one}


def by_name(one: Schema) -> Schema:
    """An object that has such a value under each name."""
    return {"type": "object", "additionalProperties": one}


def maybe(one: Schema) -> Schema:
    """Such a value, or null."""
    return {"anyOf": [one, {"type": "null"}]}


def record(optional: Mapping[str, Schema] | None = None, **required: Schema) -> Schema:
    """An object with these values by name. Later versions may add names."""
    return {"type": "object", "properties": {**required, **(optional or {})}, "required": list(required)}


def of_type(kind: Any) -> Schema:
    """The schema of a type's values as JSON has them: of a NamedTuple a list, of a TypedDict an object."""
    if kind in SIMPLE:
        return SIMPLE[kind]
    origin, words = typing.get_origin(kind), typing.get_args(kind)
    if isinstance(kind, types.UnionType):
        return {"anyOf": [of_type(one) for one in words]}
    if origin is list:
        return listed(of_type(words[0]))
    if origin is dict:
        return by_name(of_type(words[1]))
    values = {name: of_type(one) for name, one in typing.get_type_hints(kind).items()}
    if issubclass(kind, tuple):
        return {"type": "array", "prefixItems": [*values.values()], "minItems": len(values), "items": False}
    return {"type": "object", "properties": values, "required": sorted(kind.__required_keys__)}


def of_line(line: columns.Line) -> Schema:
    """The schema of a row of a list."""
    return record(**{column.name: BY_FORM[column.form] for column in line.columns.values()})


STATE = {"tag": TEXT, "position": COUNT}
CHANGE = {"seq": COUNT, "statement": TEXT, "job": COUNT, "rows": listed(TEXT), "reply": TEXT, "at": AT}
OF_MEMBER = {"bytes": COUNT, "in use": COUNT, "quota": maybe(COUNT), "leads": FLAG, "version": TEXT, "why": TEXT}
COMPONENTS: Mapping[str, Schema] = {
    "Answer": {"description": "the answer to a statement, and the state of the plan after it", **record(
        **CHANGE | STATE | {"seq": maybe(COUNT), "job": maybe(COUNT), "key": maybe(TEXT)})},
    "ActAnswer": {"description": "the answer to a statement of an act; `means` has a refusal in words", **record(
        **CHANGE | STATE | {"key": maybe(TEXT)}, means=TEXT)},
    "Entry": {"description": "an answered change", **record(**CHANGE, key=maybe(TEXT), who=TEXT)},
    "State": {"description": "a state of the plan: its tag, and the last entry that the plan has", **record(**STATE)},
    **{f"Row_{name}": {"description": f"a row of the list `{name}`", **of_line(line)}
       for name, line in columns.LISTS.items()},
    "Need": {"description": "what needs a person", **record(
        name=TEXT, kind={"enum": list(need.KINDS)}, level={"type": "integer"}, since=maybe(MOMENT), text=TEXT,
        advice=TEXT, app=maybe(TEXT), ia=maybe(MOMENT), serial=maybe(COUNT), waiting=COUNT, late=COUNT,
        apps=listed(TEXT))},
    "Member": {"description": "a node of etcd", **record(OF_MEMBER, endpoint=TEXT, answers=FLAG)},
    "ActRow": {"description": "an occurrence; `place` is its status, or L, H, o, w, p in the other lists", **record(
        serial=COUNT, app=TEXT, ia=MOMENT, deadline=MOMENT, run_cycle=maybe(TEXT), list=TEXT, place={
            "enum": [*"LWSECDHowp"]})},
    "Act": {"description": "what an act does, before it is done", **record(
        verb={"enum": [*verbs.VERBS, previews.REST]}, row=maybe(ref("ActRow")), stream=TEXT, role=ROLE,
        statements=listed(TEXT), replies=listed(TEXT),
        parts=listed(record(of=TEXT, row=maybe(ref("ActRow")), texts=listed(TEXT), why_not=TEXT)),
        changes=listed(record(was=maybe(ref("ActRow")), row=ref("ActRow"))),
        waits=listed(record(row=ref("ActRow"), was=listed(ref("ActRow")), now=listed(ref("ActRow")))),
        waiting=COUNT, notes=listed(TEXT), lines=listed(TEXT), inverse=maybe(TEXT), why_not=TEXT)},
    "Run": {"description": "a run that the definitions name", **record(ia=MOMENT, deadline=MOMENT, run_cycle=TEXT)},
    "AppDays": {"description": "the days of an application before and after an edit: a sign for each", **record(
        app=TEXT, signs={"type": "string", "pattern": "^[ =+~.-]*$"}, goes=COUNT, comes=COUNT, stays=COUNT, other=COUNT,
        differences=listed(record(day=DAY, was=listed(ref("Run")), now=listed(ref("Run")))), obstacle_before=TEXT,
        obstacle=TEXT)},
    "Edit": {"description": "what an edit does, before it is done", **record(
        edit=listed(TEXT), stream=TEXT, role=ROLE, statements=listed(TEXT), sentences=listed(TEXT), modify=maybe(TEXT),
        first=DAY, last=DAY, begin=maybe(MOMENT), apps=listed(ref("AppDays")), inverse=TEXT,
        edit_back=maybe(listed(TEXT)))},
}
EVENTS: Schema = {"description": "one event; `data` is JSON", "anyOf": [
    record(id=TEXT, event={"const": "entry"}, data=ref("Entry")), record(event={"const": "state"}, data=ref("State"))]}
HEALTH: Schema = record({
    "why": TEXT, **STATE, "planner": maybe(COUNT), "running since": maybe(NUMBER), "starts": COUNT, "waiting": COUNT,
    "journal": TEXT, "report": TEXT, "plan": TEXT, "log": TEXT, "head": COUNT, "behind": COUNT,
    "etcd": record(bytes=maybe(COUNT), quota=maybe(COUNT), why=TEXT, members=listed(ref("Member"))),
}, status={"enum": ["ok", "stopped"]})
STATUS: Schema = record(
    plan=TEXT, at=AT, position=COUNT, now=MOMENT, plan_end=maybe(MOMENT), last_day=maybe(DAY), counts=by_name(COUNT),
    needs=listed(ref("Need")), followers=by_name(TEXT), is_whole=FLAG, forecast=TEXT,
    agents=by_name(record(looks=COUNT, age=NUMBER)), etcd=listed(ref("Member")), trouble=TEXT)
PAGE: Schema = record(
    plan=of_type(page_values.Data),
    desk=record(**STATE, who=TEXT, role=ROLE, clock=NUMBER, zone=NUMBER, stands=FLAG, signs=FLAG,
                acts=by_name(record(**{"from": TEXT, "alone": FLAG, "done": TEXT})), reply=TEXT))
ACTS: Schema = record(**STATE, act=maybe(ref("Act")), why_not=TEXT, answers=listed(ref("ActAnswer")),
                      left=listed(TEXT), is_whole=FLAG,
                      found=maybe(record(choices=listed(ref("ActRow")), row=maybe(ref("ActRow")), why=TEXT,
                                         before=maybe(ref("ActRow")), after=maybe(ref("ActRow")),
                                         lines=listed(TEXT))))
EDITS: Schema = record(**STATE, edit=maybe(ref("Edit")), why_not=TEXT, answers=listed(ref("Answer")), is_whole=FLAG)
DOCUMENT: Schema = record(openapi=TEXT, info=record(title=TEXT, version=TEXT), paths=by_name({"type": "object"}),
                          components={"type": "object"})
# what callers send
LONGEST = 1 << 24  # of a number in a report
OF_NUMBER: Schema = {"type": "integer", "minimum": 0, "maximum": LONGEST}
OF_AGENT: Schema = record({
    "idle": {"type": "object", "propertyNames": {"pattern": SERIAL}, "additionalProperties": record(
        {"text": TEXT, "where": TEXT}, why={"enum": [facts.ROOM, facts.PLACE, facts.PROGRAM, facts.REFUSED]})},
    "unknown": {"type": "object", "propertyNames": {"pattern": SERIAL}, "additionalProperties": TEXT},
    "trouble": TEXT})
OF_ROLL: Schema = record(outcome={"enum": [facts.DONE, facts.STOPPED, facts.FAILED]}, end=MOMENT, ahead=OF_NUMBER,
                         reserve=OF_NUMBER, every=OF_NUMBER, why=TEXT)
OF_ACTS: Schema = {"anyOf": [
    record({"of": TEXT, "each": {"type": "array", "items": TEXT, "maxItems": verbs.MOST_EACH}, "to": TEXT, "due": TEXT,
            "chain": FLAG, "followers": FLAG,
            "entry": {"type": "integer", "minimum": 1, "maximum": values.MOST_ENTRY}},
           verb={"enum": list(verbs.VERBS)}),
    record(of=TEXT), record({"done": {"type": "integer", "minimum": 0, "maximum": values.MOST_DONE}}, stream=TEXT)]}
OF_EDITS: Schema = {"anyOf": [
    record({"from": DAY, "to": DAY}, edit={"type": "array", "items": {**TEXT, "maxLength": edit_previews.MOST_TEXT},
                                           "minItems": 1, "maxItems": edit_previews.MOST_WORDS}),
    record(stream=TEXT)]}
OF_CALLS: Schema = record({"watch": TEXT}, undelivered=listed(record(
    id=TEXT, target=TEXT, since={"type": "number", "minimum": 0, "maximum": 1 << 32}, tries=OF_NUMBER, why=TEXT)))


class Bodies(NamedTuple):
    """The schemas of a route's bodies: of the answer, by the kind of the body, and of the request. If an answer has
    many lines or events, it is the schema of each."""

    answer: Mapping[str, Schema]
    request: Schema | None = None


BODIES: Mapping[str, Bodies] = {
    "post_edits": Bodies({routes.JSON: EDITS}, OF_EDITS),
    "post_acts": Bodies({routes.JSON: ACTS}, OF_ACTS),
    "post_statements": Bodies({routes.TEXT: TEXT, routes.LINES: ref("Answer")}, TEXT),
    "get_page": Bodies({routes.HTML: TEXT}),
    "get_page_data": Bodies({routes.JSON: PAGE}),
    "get_rows": Bodies({routes.LINES: {"anyOf": [ref(f"Row_{name}") for name in columns.LISTS]}}),
    "get_events": Bodies({routes.EVENTS: EVENTS}),
    "get_journal": Bodies({routes.LINES: ref("Entry")}),
    "get_health": Bodies({routes.JSON: HEALTH}),
    "get_metrics": Bodies({routes.TEXT: TEXT}),
    "get_status": Bodies({routes.JSON: STATUS}),
    "put_reports_agent": Bodies({}, OF_AGENT),
    "put_reports_roll": Bodies({}, OF_ROLL),
    "put_reports_calls": Bodies({}, OF_CALLS),
    "get_snapshot": Bodies({routes.SQLITE: {"contentMediaType": routes.SQLITE}}),
    "put_logs_serial": Bodies({}, TEXT),
    "get_logs_serial": Bodies({routes.TEXT: TEXT}),
    "post_session": Bodies({routes.JSON: record(who=TEXT, role=ROLE)}),
    "delete_session": Bodies({}),
    "get_openapi_json": Bodies({routes.JSON: DOCUMENT}),
}
