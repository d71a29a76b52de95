"""The table of routes of a desk: who may what, the table of docs/use/DESK.md, and the document for programs."""

import contextlib
import hashlib
import http.client
import json
import re
import time
import types
import unittest

from support import TOP, desks

from opcplan.desk import client, routes, rows
from opcplan.rules.statements import KINDS, Role

DAY = "2024-01-05"
VALUES = {"app": "APP01", "name": "A", "from": DAY, "to": DAY, "ia": f"{DAY}/08.00"}
TOKENS = {role.name.lower(): f"token-{role.name}" for role in Role}


def line_of(kind):
    """A line that is a statement of a kind, without its number, and its data."""
    word, options = kind.by_word[0] if kind.by_word else (kind.words[0] if kind.words else "", kind.options)
    given = (f"--{option} {DAY}/00.00" if option == "to" and kind.name.startswith("dp-") else
             f"--{option} {VALUES[option]}" for option in options if option != "job")
    return " ".join(filter(None, [kind.name, word, *given])) + ("\n/*\n" if kind.name == "define" else "\n")


# a body that each route takes
BODIES = {"/statements": "list cp\n", "/acts": '{"verb": "start", "of": "APP00"}', "/logs/{serial}": "list cp\n",
          "/edits": '{"edit": ["options", "max_extension_hours=48"]}', "/reports/agent": "{}",
          "/reports/calls": '{"undelivered": []}', "/reports/roll": json.dumps(
              {"outcome": "done", "end": f"{DAY}/06.00", "ahead": 2880, "reserve": 60, "every": 1440, "why": ""})}

# what has the occurrence started whose logs are asked for
STARTS = "cp-start --app APP06 --ia 2024-01-01/08.06\n"


def path_of(path):
    """The path of a route with a value in each place."""
    return path.replace("{serial}", "7")


@unittest.skipIf(desks.why_not(), desks.why_not())
class Routes(desks.Case):
    def desk_with_tokens(self):
        """A desk whose callers by its address have tokens, one for each role."""
        path = self.room / "tokens"
        path.write_text("".join(f"{hashlib.sha256(token.encode()).hexdigest()} {name} {name}\n"
                                for name, token in TOKENS.items()), encoding="ascii")
        desk = self.desk("--tokens", str(path))
        client.Client(str(desk.socket)).statements(STARTS.encode(), "start", time.monotonic())
        return desk

    @staticmethod
    def status(connection, method, path, body=None, **heads):
        """The status of an answer, whose body may have no end."""
        with contextlib.closing(connection):
            connection.request(method, path_of(path), body, {"X-Opcplan": "desk", **heads})
            return connection.getresponse().status

    def by_token(self, desk, token, method, path, body=None):
        """The status for the bearer of a token, or for one without a token."""
        heads = {"Authorization": f"Bearer {token}"} if token else {}
        return self.status(http.client.HTTPConnection("127.0.0.1", desk.port, timeout=60), method, path, body, **heads)

    def test_each_route_asks_for_its_role(self):
        desk = self.desk_with_tokens()
        for route in routes.ROUTES:
            body = BODIES[route.path] if route.body else None
            for name, token in TOKENS.items():
                status = self.by_token(desk, token, route.method, route.path, body)
                self.assertEqual(status in (200, 204), Role[name.upper()] >= route.role, (route.name, name, status))
            wanted = 200 if route.lesser else 401
            for token in (None, "unknown"):
                self.assertEqual(self.by_token(desk, token, route.method, route.path, body), wanted, route.name)
            if route.method == "GET":
                self.assertEqual(self.by_token(desk, TOKENS[route.role.name.lower()], "HEAD", route.path),
                                 405 if route.in_pieces else 200, route.name)
                self.assertIn(self.by_token(desk, None, "HEAD", route.path), (wanted, 405), route.name)
            self.assertEqual(self.by_token(desk, TOKENS["plan"], "PATCH", route.path), 405)
        for path in ("/none", "/rows/", "/page", "/page/none", "//rows"):
            self.assertEqual(self.by_token(desk, None, "GET", path), 401, path)
            self.assertEqual(self.by_token(desk, TOKENS["read"], "GET", path), 404, path)
        self.end(desk)

    def refusal(self, desk, route, method, **heads):
        """Status, headers (without the length and the moment) and body of an answer."""
        with contextlib.closing(http.client.HTTPConnection("127.0.0.1", desk.port, timeout=60)) as connection:
            connection.request(method, path_of(route.path), BODIES.get(route.path), {"X-Opcplan": "desk", **heads})
            answer = connection.getresponse()
            found = {name: text for name, text in answer.getheaders() if name not in ("Date", "Content-Length")}
            return answer.status, found, "" if method == "HEAD" else answer.read().decode()

    def test_401_and_403_are_alike_on_all_routes(self):
        """A caller without a token that is known gets one 401 everywhere, and one with too small a role one 403, apart
        from the role that it names: the same headers and a sentence, whichever route and method."""
        desk = self.desk_with_tokens()
        server = self.refusal(desk, routes.ROUTES[0], "PATCH")[1]["Server"]
        heads = {"Content-Type": "text/plain; charset=utf-8", "Cache-Control": "no-store", "Server": server,
                 "X-Content-Type-Options": "nosniff"}
        no_token = (401, {**heads, "WWW-Authenticate": "Bearer"},
                    "the request has no token that this desk knows; send `Authorization: Bearer TOKEN`\n")
        refused, small = 0, 0
        for route in routes.ROUTES:
            for method in (route.method, "HEAD") if route.method == "GET" else (route.method,):
                body = method != "HEAD"
                for given in ({}, {"Authorization": "Bearer unknown"}, {"Authorization": "Bearer"},
                              {"Authorization": f"Basic {TOKENS['plan']}"}, {"Cookie": "opcplan-desk=unknown"}):
                    if not route.lesser:
                        self.assertEqual(self.refusal(desk, route, method, **given),
                                         no_token if body else (*no_token[:2], ""), (route.name, method, given))
                        refused += 1
                for role in (one for one in Role if one < route.role):
                    name, needs = role.name.lower(), route.role.name.lower()
                    said = f"{name} may not {needs}: that needs the role {needs}\n" if body else ""
                    found = self.refusal(desk, route, method, Authorization=f"Bearer {TOKENS[name]}")
                    self.assertEqual(found, (403, heads, said), (route.name, method, role))
                    small += 1
        # all but the page and /health, nine of them by HEAD too; /logs by PUT, GET and HEAD, the reports of an agent
        # and, for two roles, of roll
        self.assertEqual((refused, small), (5 * (len(routes.ROUTES) - 2 + 9), 6))
        self.end(desk)

    def test_a_user_without_a_role_is_refused(self):
        users = self.room / "users"
        users.write_text("anna operate\n", encoding="ascii")
        desk = self.desk("--users", str(users), "--proxy", desks.own_name(), "--host", "localhost")
        by_anna = {"X-Forwarded-User": "anna"}
        self.status(client.BySocket(str(desk.socket), 60), "POST", "/statements", STARTS, **by_anna)
        for route in routes.ROUTES:
            body = BODIES[route.path] if route.body else None
            as_anna = {200, 204, 401} if route.role <= Role.OPERATE else {403}
            for name, wanted in (("anna", as_anna), ("bert", {200 if route.path == "/health" else 403})):
                status = self.status(client.BySocket(str(desk.socket), 60), route.method, route.path, body,
                                     **{"X-Forwarded-User": name})
                self.assertIn(status, wanted, (route.name, name))
        self.end(desk)

    def test_each_statement_asks_for_its_role(self):
        desk = self.desk_with_tokens()
        for kind in KINDS.values():
            for name, token in TOKENS.items():
                status = self.by_token(desk, token, "POST", "/statements", line_of(kind))
                self.assertEqual(status, 200 if Role[name.upper()] >= kind.role else 403, (kind.name, name))
        self.end(desk)

    def test_the_document_has_each_route(self):
        desk = self.desk_with_tokens()
        status, heads, text = desk.asked("GET", "/openapi.json", Authorization=f"Bearer {TOKENS['read']}")
        self.assertEqual((status, heads["Content-Type"].split(";")[0]), (200, "application/json"))
        found = json.loads(text)
        self.assertRegex(found["openapi"], r"^3\.1\.")
        self.assertEqual(found["info"]["version"], (TOP / "VERSION").read_text(encoding="utf-8").strip())
        wanted = {(route.method.lower(), route.path): route for route in routes.ROUTES}
        seen = {(method, path): one for path, item in found["paths"].items() for method, one in item.items()}
        self.assertEqual(seen.keys(), wanted.keys())
        self.assertEqual(len({one["operationId"] for one in seen.values()}), len(seen))
        for key, one in seen.items():
            route = wanted[key]
            self.assertEqual(one["x-opcplan-role"], route.role.name.lower())
            own = [("header", "X-Opcplan")] if route.method != "GET" else []
            self.assertEqual([(said["in"], said["name"]) for said in one["parameters"]],
                             [(place, name) for place, name, *_ in route.parameters] + own)
            self.assertEqual("requestBody" in one, bool(route.body))
            for said in one["parameters"]:
                re.compile(said["schema"].get("pattern", ""))
                self.assertEqual(f"{{{said['name']}}}" in route.path, said["in"] == "path")
            for answer in one["responses"].values():
                self.assertTrue(answer["description"])
            self.by_kind(desk, route, one["responses"])
        self.end(desk)

    def by_kind(self, desk, route, message):
        """Asks that a route is answered by a status and in a kind that the document has."""
        with contextlib.closing(http.client.HTTPConnection("127.0.0.1", desk.port, timeout=60)) as connection:
            heads = {"X-Opcplan": "desk", "Authorization": f"Bearer {TOKENS['plan']}"}
            connection.request(route.method, path_of(route.path), BODIES.get(route.path), heads)
            answer = connection.getresponse()
            kind = (answer.getheader("Content-Type") or "").split(";")[0]
            self.assertIn(kind, message[str(answer.status)].get("content", {"": {}}), route.name)

    def test_parameters_are_those_that_the_desk_reads(self):
        (found,) = (route.parameters for route in routes.ROUTES if route.name == "get_rows")
        self.assertEqual({one.name for one in found if one.place == "query"}, set(rows.WORDS))

    def test_the_page_has_the_same_table(self):
        text = (TOP / "docs" / "use" / "DESK.md").read_text(encoding="utf-8")
        table = re.search(r"\| Request \| Role \| Answer \|\n\|[-|]+\|\n((?:\|.*\n)+)", text)[1]
        found = [[cell.strip() for cell in line.strip("|").split(" | ")] for line in table.splitlines()]
        wanted = [(f"{route.method} {route.path}", f"{route.role.name.lower()}{', or less' if route.lesser else ''}",
                   route.answer) for route in routes.ROUTES]
        self.assertEqual([(asked.strip("`").partition("?")[0], *more) for asked, *more in found], wanted)

    def test_a_handler_that_is_not_in_the_table_is_not_asked(self):
        resource = types.SimpleNamespace(canonical="/more")
        request = types.SimpleNamespace(
            method="GET", match_info=types.SimpleNamespace(route=types.SimpleNamespace(resource=resource)))
        self.assertRaises(KeyError, routes.of_request, request)


if __name__ == "__main__":
    unittest.main()
