"""The OpenAPI document of a desk: real answers fit its schemas, and it has each answer to requests that are made from
it at random."""

import contextlib
import hashlib
import http.client
import json
import random
import unittest

from support import desks, generated
from test_desk_routes import TOKENS

try:
    import jsonschema
except ImportError:  # .ci/run installs Debian's python3-jsonschema
    jsonschema = None

START, COMPLETE = (f"cp-{what} --app APP00 --ia 2024-01-01/08.00\n" for what in ("start", "complete"))
FAIL = "cp-fail --app APP01 --ia 2024-01-01/08.01\n"
LINES = (START, COMPLETE, FAIL, "list cp --app APP00\n", "list links\n", "x\n", "* a comment\n", "\n",
         "define calendars\nC,2024-01-01,FREE\n/*\n", "define periods\nP,X\n/*\n", "dp-trial replan\n",
         "undefine calendars --name C\n", "days --app APP01 --from 2024-01-01 --to 2024-01-03\n", "cp-start\n")
# of the fuzz: seeds, and requests for each operation; the slow ones start a process
SEEDS, EACH, EACH_SLOW = range(2), 12, 2
SLOW = {"/acts", "/edits", "/", "/page/data", "/status", "/snapshot", "/metrics"}
REPORT = {"idle": {"1": {"why": "place", "text": "t", "where": "w"}}, "unknown": {"2": "u"}, "trouble": "t"}
ROLL = {"outcome": "stopped", "end": "2024-01-03/00.00", "ahead": 1, "reserve": 2, "every": 3, "why": "w"}
CALLS = {"watch": "w", "undelivered": [{"id": "i", "target": "t", "since": 1.5, "tries": 1, "why": "w"}]}


@unittest.skipIf(desks.why_not() or jsonschema is None, desks.why_not() or "there is no jsonschema here")
class Document(desks.Case):
    def setUp(self):
        super().setUp()
        path = self.room / "tokens"
        path.write_text("".join(f"{hashlib.sha256(token.encode()).hexdigest()} {name} {name}\n"
                                for name, token in TOKENS.items()), encoding="ascii")
        self.serving = self.desk("--tokens", str(path))
        self.document = json.loads(self.asked("GET", "/openapi.json")[2])
        self.seen = set()

    def asked(self, method, path, body=None, token="plan", **heads):
        """Status, kind and body of an answer; of events the first ones."""
        given = {"X-Opcplan": "desk", "Authorization": f"Bearer {TOKENS[token]}"} if token else {"X-Opcplan": "desk"}
        with contextlib.closing(http.client.HTTPConnection("127.0.0.1", self.serving.port, timeout=60)) as connection:
            given |= {name.replace("_", "-"): text for name, text in heads.items()}
            connection.request(method, path, body, given)
            answer = connection.getresponse()
            kind = (answer.getheader("Content-Type") or "").split(";")[0]
            data = first_events(answer) if kind == "text/event-stream" else answer.read()
            return answer.status, kind, data if kind == "application/vnd.sqlite3" else data.decode()

    def assert_fits(self, operation, answer, about):
        """Asks that the document has an answer."""
        status, kind, text = answer
        self.assertIn(str(status), operation["responses"], (about, text[:300]))
        content = operation["responses"][str(status)].get("content", {})
        if not content:
            self.assertFalse(text, about)
            return
        self.assertIn(kind, content, (about, status, text[:300]))
        schema = {**content[kind]["schema"], "components": self.document["components"]}
        validator = jsonschema.Draft202012Validator(schema)
        for value in values_of(kind, text):
            for error in validator.iter_errors(value):
                self.fail(f"{about}: {error.json_path}: {error.message[:500]}")
        self.seen.add((operation["operationId"], status, kind))

    def check(self, method, path, body=None, token="plan", at=None, **heads):
        """Asks something, and that the document has the answer."""
        operation = self.document["paths"][at or path.partition("?")[0]][method.lower()]
        found = self.asked(method, path, body, token, **heads)
        self.assert_fits(operation, found, f"{method} {path}")
        return found

    def test_real_answers_fit_their_schemas(self):
        for one in (*self.document["components"]["schemas"].values(), *schemas_in(self.document["paths"])):
            jsonschema.Draft202012Validator.check_schema(one)
        stream = f"{START}{FAIL}list cp\nx\n"
        for kind in ("text/plain", "application/x-ndjson"):
            self.check("POST", "/statements", stream, Accept=kind, Idempotency_Key=f"key-{kind}")
        self.check("POST", "/statements", "define x", token="read")
        self.check("POST", "/statements", START, token="read")
        self.check("POST", "/statements", START, If_Match='"x"')
        self.check("POST", "/statements", COMPLETE, Idempotency_Key="key-text/plain")
        self.check("POST", "/statements", "x" * (33 << 20))
        self.check_acts()
        self.check_edits()
        for name, body in (("agent", REPORT), ("roll", ROLL), ("calls", CALLS)):
            self.check("PUT", f"/reports/{name}", json.dumps(body), X_Opcplan_Agent="a1")
            self.check("PUT", f"/reports/{name}", "{")
        self.check("PUT", "/reports/agent", " " * (2 << 20))
        for name in ("ltp", "cp", "history", "deletions", "dependencies", "links"):
            self.check("GET", f"/rows?list={name}")
        tag = self.serving.asked("GET", "/rows", Authorization=f"Bearer {TOKENS['read']}")[1]["ETag"]
        self.assertEqual(self.check("GET", "/rows", If_None_Match=tag)[0], 304)
        self.check("GET", "/rows?list=none")
        self.check("GET", "/events?since=0")
        self.check("GET", "/journal")
        self.check("PUT", "/logs/1", "the end\n", at="/logs/{serial}")
        self.assertEqual(self.check("GET", "/logs/1", at="/logs/{serial}")[0], 200)
        self.assertEqual(self.check("GET", "/logs/2", at="/logs/{serial}")[0], 204)
        for path in ("/", "/page/data", "/health", "/metrics", "/status", "/snapshot", "/openapi.json"):
            self.check("GET", path)
        for path in ("/", "/health", "/status", "/rows"):
            self.check("GET", path, token=None)
        for method in ("POST", "DELETE"):
            self.check(method, "/session")
        for path, item in self.document["paths"].items():
            for operation in item.values():
                for status in {"200", "204"} & operation["responses"].keys():
                    kinds = operation["responses"][status].get("content", {"": {}})
                    for kind in kinds if kinds != {"": {}} else ():
                        self.assertIn((operation["operationId"], int(status), kind), self.seen, path)
        self.end(self.serving)

    def check_acts(self):
        """Asks acts: their previews, several that fit, none, and what is done in a state."""
        for asked in ({"verb": "start", "of": "APP02 2024-01-01"}, {"verb": "start", "of": "APP02"},
                      {"verb": "cancel", "of": "APP04 2024-02-01"}, {"verb": "undo"}, {"verb": "fail", "of": "APP06"},
                      {"verb": "move", "of": "APP08 2024-01-05", "to": "09.00"}):
            status, _, text = self.check("POST", "/acts", json.dumps(asked))
            self.assertEqual(status, 200, text)
        found = json.loads(text)
        do = json.dumps({"stream": found["act"]["stream"]})
        self.assertEqual(self.check("POST", "/acts", do, If_Match='"x"')[0], 412)
        done = self.check("POST", "/acts", do, If_Match=found["tag"], Idempotency_Key="an-act")
        self.assertTrue(json.loads(done[2])["is_whole"], done)
        left = json.loads(self.check("POST", "/acts", do, Idempotency_Key="an-act")[2])
        self.assertEqual((left["left"], left["is_whole"]), ([], True))
        self.assertEqual(self.check("POST", "/acts", do)[0], 400)
        self.assertEqual(self.check("POST", "/acts", do, token="read", If_Match=found["tag"])[0], 403)
        self.check_stopped(left["tag"])
        self.assertEqual(self.check("POST", "/acts", json.dumps({"verb": "go"}))[0], 400)
        self.check("POST", "/acts", "{")

    def check_stopped(self, tag):
        """Asks an act that ends at a refusal, and what is left of it."""
        lines = [f"cp-delete --app APP99 --ia 2024-01-0{day}/06.00" for day in (1, 2)]
        do = json.dumps({"stream": "".join(f"{line}\n" for line in lines)})
        self.assertTrue(json.loads(self.check("POST", "/acts", do, Idempotency_Key="a-stop")[2])["why_not"])
        found = json.loads(self.check("POST", "/acts", do, If_Match=tag, Idempotency_Key="a-stop")[2])
        self.assertEqual((found["left"], found["is_whole"], found["act"]), (lines[1:], False, None))
        self.assertTrue(found["answers"][0]["means"])
        left = json.loads(self.check("POST", "/acts", do, Idempotency_Key="a-stop")[2])
        self.assertEqual((left["answers"][0]["means"], left["why_not"]), (
            found["answers"][0]["means"], found["why_not"]))
        left = json.loads(self.check("POST", "/acts", json.dumps({**json.loads(do), "done": 1}))[2])
        self.assertEqual((left["act"]["statements"], left["act"]["replies"]), (lines[1:], ["refused 28"]))

    def check_edits(self):
        """Asks edits: a preview, what can't be done, and what is done in a state."""
        words = ["run-cycle", "APP02", "RC", "rule=E", "ia=09.00"]
        found = json.loads(self.check("POST", "/edits", json.dumps({"edit": words}))[2])
        self.assertEqual([one["app"] for one in found["edit"]["apps"]], ["APP02"])
        span = {"edit": ["calendar", "NONE", "MON", "free"], "from": "2024-01-01", "to": "2024-01-31"}
        self.assertTrue(json.loads(self.check("POST", "/edits", json.dumps(span))[2])["why_not"])
        do = json.dumps({"stream": found["edit"]["stream"]})
        self.assertEqual(self.check("POST", "/edits", do, If_Match='"x"')[0], 412)
        self.assertEqual(self.check("POST", "/edits", do, token="operate", If_Match=found["tag"])[0], 403)
        done = self.check("POST", "/edits", do, If_Match=found["tag"], Idempotency_Key="an-edit")
        self.assertTrue(json.loads(done[2])["is_whole"], done)
        self.assertEqual(self.check("POST", "/edits", do)[0], 400)
        self.check("POST", "/edits", "{")

    def test_answers_to_requests_at_random(self):
        for seed in SEEDS:
            rnd = random.Random(seed)
            for path, item in self.document["paths"].items():
                for method, operation in item.items():
                    for place in range(EACH_SLOW if path in SLOW else EACH):
                        made = generated.request_of(self.document, path, method, rnd, LINES, bool(place % 2))
                        if operation["operationId"] == "post_statements" and place % 3 == 0:
                            made.heads["Accept"] = "application/x-ndjson"
                        token = rnd.choice(("plan", "plan", "plan", "read", None))
                        found = self.asked(made.method, made.path, made.body, token, **made.heads)
                        self.assert_fits(operation, found, f"seed {seed}, place {place}: {made}"[:1000])
        self.assertEqual(self.serving.health()["status"], "ok")
        self.end(self.serving)
        self.assertEqual([line for line in self.serving.said if "listening" not in line], [])


def first_events(answer):
    """The events that come at once: up to the state of the plan."""
    found = b""
    while b"event: state" not in found or not found.endswith(b"\n\n"):
        found += answer.read1()
    return found


def values_of(kind, text):
    """What of an answer a schema is about: a value, each line, or each event."""
    if kind == "application/json":
        return [json.loads(text)]
    if kind == "application/x-ndjson":
        return [json.loads(line) for line in text.splitlines()]
    if kind == "text/event-stream":
        events = [dict(line.split(": ", 1) for line in one.splitlines()) for one in text.strip().split("\n\n")]
        return [one | {"data": json.loads(one["data"])} for one in events]
    return [text]


def schemas_in(value):
    """Each schema in a part of the document."""
    if isinstance(value, dict):
        for name, one in value.items():
            if name == "schema":
                yield one
            else:
                yield from schemas_in(one)
    elif isinstance(value, list):
        for one in value:
            yield from schemas_in(one)


if __name__ == "__main__":
    unittest.main()
