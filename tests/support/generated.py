"""Requests that are made at random from an OpenAPI document: as it describes them, and with faults."""

import json
import re
import string
import urllib.parse
from typing import NamedTuple

MOST_REPEATED = 12  # signs of a pattern that has no bound, or a high one
ODD_TEXTS = ("", " ", "0", "-1", "a" * 600, "%", "é", "\\", '"', "2024-13-99", "9999-12-31/23.59", "0001-01-01/00.00",
             "1" * 40, "cp&x", "*", "..")
# bodies that are no JSON, or none that anybody means
ODD_BODIES = (b"", b"\0", b"\xff\xfe", b"{", b"[]", b"null", b"[" * 100_000, b'{"a":' * 50_000, b"1e999", b"NaN",
              b'{"idle": {"1": null}, "unknown": 7}', b'{"undelivered": [[]]}', b'{"trouble": "\\ud800"}')


class Made(NamedTuple):
    """A request: its method, its path with the query, its headers, and its body."""

    method: str
    path: str
    heads: dict
    body: bytes | None


def fitting(pattern, rnd):
    """A text that a pattern matches."""
    return "".join(signs(re._parser.parse(pattern), rnd))


def signs(parsed, rnd):
    """The signs of a text that a parsed pattern matches."""
    for what, value in parsed:
        name = str(what)
        if name == "LITERAL":
            yield chr(value)
        elif name == "ANY":
            yield rnd.choice(string.ascii_letters + string.digits + ' "-')
        elif name == "IN":
            yield rnd.choice([sign for one, given in value for sign in of_class(str(one), given)])
        elif name == "MAX_REPEAT":
            least, most, inner = value
            for _ in range(rnd.randint(least, max(least, min(most, MOST_REPEATED)))):
                yield from signs(inner, rnd)
        elif name == "BRANCH":
            yield from signs(rnd.choice(value[1]), rnd)
        elif name == "SUBPATTERN":
            yield from signs(value[3], rnd)
        elif name != "AT":
            raise AssertionError(f"a pattern has {name}")


def of_class(name, given):
    """The signs of a part of a class of signs."""
    return [chr(given)] if name == "LITERAL" else [chr(one) for one in range(given[0], given[1] + 1)]


def value_of(schema, rnd):
    """A value that fits a schema of a request."""
    if "enum" in schema:
        return rnd.choice(schema["enum"])
    if "anyOf" in schema:
        return value_of(rnd.choice(schema["anyOf"]), rnd)
    if schema["type"] == "boolean":
        return rnd.random() < 0.5
    if schema["type"] == "object":
        found = {name: value_of(one, rnd) for name, one in schema.get("properties", {}).items()
                 if name in schema.get("required", ()) or rnd.random() < 0.7}
        if isinstance(schema.get("additionalProperties"), dict):
            names = schema["propertyNames"]["pattern"]
            found |= {fitting(names, rnd): value_of(schema["additionalProperties"], rnd)
                      for _ in range(rnd.randrange(4))}
        return found
    if schema["type"] == "array":
        return [value_of(schema["items"], rnd) for _ in range(rnd.randrange(4))]
    if schema["type"] == "integer":
        return rnd.randint(schema["minimum"], schema["maximum"])
    if schema["type"] == "number":
        return rnd.uniform(schema["minimum"], schema["maximum"])
    return fitting(schema["pattern"], rnd) if "pattern" in schema else rnd.choice(ODD_TEXTS)


def faulty(value, rnd):
    """A value with a fault somewhere."""
    if isinstance(value, (dict, list)) and value and rnd.random() < 0.8:
        place = rnd.choice(list(value) if isinstance(value, dict) else range(len(value)))
        changed = value.copy()
        changed[place] = faulty(value[place], rnd)
        return changed
    return rnd.choice((None, True, -1, 1 << 70, 1.5, "", "x" * 600, [], [[]], {}, {"": None}, float("nan")))


def request_of(document, path, method, rnd, lines, is_faulty):
    """A request of an operation. `lines` are those of which a job stream is made."""
    operation, query, heads = document["paths"][path][method], {}, {}
    wrong = rnd.choice(operation["parameters"])["name"] if is_faulty and operation["parameters"] else None
    for one in operation["parameters"]:
        schema = one["schema"]
        text = schema["const"] if "const" in schema else fitting(schema["pattern"], rnd)
        if one["name"] == wrong and one["in"] != "path":
            text = rnd.choice(ODD_TEXTS)
        if one["in"] == "path":
            text = rnd.choice(("0", "x", "1" * 40)) if one["name"] == wrong else text
            path = path.replace(f"{{{one['name']}}}", text)
        elif one.get("required") or rnd.random() < 0.4 or one["name"] == wrong:
            (query if one["in"] == "query" else heads)[one["name"]] = text
    if query:
        path += "?" + urllib.parse.urlencode(query)
    body = None
    for kind, given in operation.get("requestBody", {"content": {}})["content"].items():
        if kind == "text/plain":
            text = "".join(rnd.choice(lines) for _ in range(rnd.randrange(6))).encode()
            body = bytes(rnd.randrange(256) for _ in range(rnd.randrange(200))) if is_faulty else text
        else:
            found = value_of(given["schema"], rnd)
            body = rnd.choice(ODD_BODIES) if is_faulty and rnd.random() < 0.5 else json.dumps(
                faulty(found, rnd) if is_faulty else found).encode()
    heads = {name: text.encode("utf-8", "replace").decode("latin-1") for name, text in heads.items()}
    return Made(method.upper(), path, heads, body)
