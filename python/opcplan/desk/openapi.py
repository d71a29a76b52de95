"""The table of routes as an OpenAPI 3.1 document."""

from typing import Any

from opcplan.desk import routes, schemas

# the meaning of each status; docs/use/DESK.md says it in more words
SAID = {
    "400": "nothing was done: the request is faulty; the body says why, in a sentence",
    "401": "nothing was done: the request needs a token that the desk knows",
    "403": "nothing was done: the caller lacks the role, or the request came from a page of another origin",
    "503": "no answer for now; send the request again",
}
MORE = {
    "304": "the state is still the one that If-None-Match names",
    "204": "there is none",
    "408": "nothing was done: the body didn't arrive in time",
    "409": "nothing was done: another stream has the key, or the occurrence was never started",
    "412": "nothing was done: the plan isn't in the state that If-Match names",
    "413": "nothing was done: the body is too long",
    "507": "nothing was done: there is no room, or the disk refuses to write",
}
# statuses of answers without a body
BARE = {"204", "304"}
SENTENCE: schemas.Schema = {"type": "string", "description": "a sentence, for a person"}
OF_STATE = {
    "ETag": {"description": "the state of the plan that the answer shows", "schema": {"type": "string"}},
    "X-Opcplan-Position": {"description": "the last entry that the answer covers",
                           "schema": {"type": "string", "pattern": f"^{routes.NUMBER}$"}},
}
OWN = {"name": "X-Opcplan", "in": "header", "required": True, "schema": {"const": "desk"},
       "description": "no form on a page of another origin can send it"}


def document(version: str) -> dict[str, Any]:
    """The document, with a version of ./plan."""
    paths: dict[str, dict[str, Any]] = {}
    for route in routes.ROUTES:
        paths.setdefault(route.path, {})[route.method.lower()] = operation(route)
    bearer = {"type": "http", "scheme": "bearer"}
    return {
        "openapi": "3.1.0",
        "info": {"title": "opcplan desk", "version": version, "description": "One plan, many callers."},
        "paths": paths,
        "components": {"securitySchemes": {"token": bearer}, "schemas": schemas.COMPONENTS},
        "security": [{"token": []}, {}],
    }


def operation(route: routes.Route) -> dict[str, Any]:
    """A route as an operation. `x-opcplan-role` has its role; each statement also needs its own role."""
    found: dict[str, Any] = {
        "operationId": route.name,
        "description": route.answer,
        "x-opcplan-role": route.role.name.lower(),
        "parameters": [*map(parameter, route.parameters), *([OWN] if route.method != "GET" else [])],
        "responses": responses(route),
    }
    if route.body:
        schema = schemas.BODIES[route.name].request
        found["requestBody"] = {"required": True, "content": {route.body: {"schema": schema}}}
    return found


def parameter(one: routes.Parameter) -> dict[str, Any]:
    """A parameter as an object of OpenAPI."""
    schema = {"type": "string", "pattern": f"^(?:{one.pattern})$"}
    always = {"required": True} if one.place == routes.Place.PATH else {}
    return {"name": one.name, "in": str(one.place), "description": one.about, "schema": schema, **always}


def responses(route: routes.Route) -> dict[str, Any]:
    """The answers of a route, by status."""
    said = SAID | {status: MORE[status] for status in route.statuses}
    found: dict[str, Any] = {
        status: {"description": text} | ({} if status in BARE else {"content": {routes.TEXT: {"schema": SENTENCE}}})
        for status, text in said.items()}
    heads = {"headers": OF_STATE} if route.is_of_state else {}
    content = {kind: {"schema": schema} for kind, schema in schemas.BODIES[route.name].answer.items()}
    if not route.kind:
        return {"204": {"description": route.answer}, **found}
    if "304" in found:
        found["304"] |= heads
    if route.has_own_503:
        found["503"]["content"] |= content
    return {"200": {"description": route.answer, **heads, "content": content}, **found}
