"""The live page of a desk: what it may do in a browser, who sees what, and which entry changes which rows."""

import base64
import hashlib
import html.parser
import json
import os
import re
import sqlite3
import tempfile
import unittest
import urllib.parse
from contextlib import closing
from pathlib import Path

from support import desks, page_reader as read, plans

from opcplan.rules import moments
from opcplan.webpage import page_html


NOW = "2024-01-02/12.00"
OTHER_TABLES = """ltp_row history_row deletion_row dependency application run_cycle run_cycle_offset predecessor
    link_in_force calendar_entry plan_period plan_meta""".split()
# ways to have a browser read a text as HTML or run it, of which the page uses none
UNSAFE = re.compile(r"innerHTML|outerHTML|insertAdjacentHTML|document\.write|\beval\b|new Function|srcdoc|javascript:"
                    r"|setTimeout\(['\"`]|createContextualFragment|DOMParser|\.href\s*=|window\.open")


class Parts(html.parser.HTMLParser):
    """What a page is made of: its elements with their attributes, and the texts within scripts and styles."""

    def __init__(self, text):
        super().__init__()
        self.elements, self.texts, self.title = [], [], ""
        self.within = None
        self.feed(text)

    def handle_starttag(self, tag, attributes):
        self.elements.append((tag, dict(attributes)))
        self.within = tag
        if tag in ("script", "style"):
            self.texts.append((tag, dict(attributes), ""))

    def handle_endtag(self, tag):
        self.within = None

    def handle_data(self, data):
        if self.within in ("script", "style"):
            tag, attributes, text = self.texts[-1]
            self.texts[-1] = (tag, attributes, text + data)
        if self.within == "title":
            self.title += data

    def value(self, name):
        """A value of JSON in the page."""
        return next(json.loads(text) for _, attributes, text in self.texts if attributes.get("id") == name)


def hash_of(text):
    return "'sha256-" + base64.b64encode(hashlib.sha256(text.encode()).digest()).decode() + "'"


def directives(policy):
    """A policy by its directives."""
    return {words[0]: words[1:] for words in (part.split() for part in policy.split(";")) if words}


def tables_of(data):
    """What stock SQLite finds in a copy of a plan: the statuses by serial, the rows without them, and all else."""
    with tempfile.TemporaryDirectory() as folder:
        path = os.path.join(folder, "copy.db")
        Path(path).write_bytes(data)
        with closing(sqlite3.connect(path)) as db:
            rows = db.execute("SELECT * FROM cp_row").fetchall()
            names = [column[1] for column in db.execute("PRAGMA table_info(cp_row)")]
            serial, status = names.index("serial"), names.index("status")
            others = {table: sorted(map(repr, db.execute(f"SELECT * FROM {table}"))) for table in OTHER_TABLES}
    plain = sorted(repr(row[:status] + row[status + 1:]) for row in rows)
    return {row[serial]: row[status] for row in rows}, plain, others


@unittest.skipIf(desks.why_not(), desks.why_not())
class LivePage(desks.Case):
    def page(self, desk, query=f"?now={NOW}", **heads):
        status, found, text = desk.asked("GET", f"/{query}", **heads)
        self.assertEqual(status, 200, text)
        return found, Parts(text), text

    def assert_policy(self, heads, parts):
        """Asks that a page may run what stands within it alone, and speak with its own desk alone."""
        self.assertEqual(heads["Content-Type"].lower(), "text/html; charset=utf-8")
        self.assertEqual((heads["Cache-Control"], heads["X-Content-Type-Options"], heads["X-Frame-Options"]),
                         ("no-store", "nosniff", "DENY"))
        policy = directives(heads["Content-Security-Policy"])
        scripts = [text for tag, attributes, text in parts.texts
                   if tag == "script" and attributes.get("type") != "application/json"]
        styles = [text for tag, _, text in parts.texts if tag == "style"]
        self.assertEqual(policy, {
            "default-src": ["'none'"], "img-src": ["data:"], "connect-src": ["'self'"],
            "style-src": list(map(hash_of, styles)), "script-src": list(map(hash_of, scripts)),
            "frame-ancestors": ["'none'"], "base-uri": ["'none'"], "form-action": ["'none'"]})
        within = next(attributes["content"] for tag, attributes in parts.elements
                      if tag == "meta" and attributes.get("http-equiv") == "Content-Security-Policy")
        for name, allowed in directives(within).items():
            self.assertEqual(allowed, policy[name], name)
        for tag, attributes in parts.elements:
            self.assertFalse([name for name in attributes if name.startswith("on") or name == "style"], attributes)
            self.assertNotIn("src", attributes)
            self.assertRegex(attributes.get("href", "#"), "^(#|data:,)")

    def test_the_page_is_of_the_plan_and_safe(self):
        desk = self.desk()
        desk.posted("cp-start --app APP00 --ia 2024-01-01/08.00\ncp-start --app APP02 --ia 2024-01-01/08.02\n"
                    "cp-fail --app APP02 --ia 2024-01-01/08.02\n")
        heads, parts, text = self.page(desk)
        self.assert_policy(heads, parts)
        self.assertEqual([tag for tag, _, _ in parts.texts].count("script"), 3)
        data, own = parts.value("data"), parts.value("desk")
        self.assertEqual((own["who"], own["role"], own["position"], own["stands"]), (own["who"], "plan", 3, True))
        self.assertEqual(heads["X-Opcplan-Position"], "3")
        self.assertEqual(heads["ETag"], f'"{own["tag"]}"')
        statuses, _, _ = tables_of(self.snapshot(desk))
        shown = dict(zip(read.serials_in(data), data["state"], strict=True))
        self.assertEqual({status: list(statuses.values()).count(status) for status in "SEW"}, {"S": 1, "E": 1, "W": 38})
        for status, letters in (("S", "S"), ("E", "E"), ("C", "C"), ("W", "RBF")):
            self.assertEqual({serial for serial, state in shown.items() if state in letters},
                             {serial for serial, state in statuses.items() if state == status}, status)
        status, _, body = desk.asked("GET", f"/page/data?since=3&now={NOW}")
        fetched = json.loads(body)
        self.assertEqual((status, fetched["plan"]), (200, {**data, "made": fetched["plan"]["made"]}))
        self.assertEqual({**fetched["desk"], "clock": 0}, {**own, "clock": 0})
        for wrong in ("/?now=yesterday", "/page/data?since=x", "/page/data?since=-1"):
            self.assertEqual(desk.asked("GET", wrong)[0], 400, wrong)
        self.end(desk)

    def snapshot(self, desk, **heads):
        with closing(desks.http.client.HTTPConnection("127.0.0.1", desk.port, timeout=60)) as connection:
            connection.request("GET", "/snapshot", headers=heads)
            return connection.getresponse().read()

    def test_no_part_reads_a_text_as_html(self):
        parts = [*page_html.PARTS.glob("*.js"), *page_html.PARTS.glob("*.html")]
        self.assertIn("live_events.js", [part.name for part in parts])
        for part in parts:
            text = part.read_text(encoding="utf-8")
            self.assertEqual(UNSAFE.findall(text), [], part.name)
            self.assertEqual(re.findall(r"<\w+[^>]*\son\w+\s*=", text), [], part.name)

    def test_what_is_embedded_stays_text(self):
        odd = "<b>&\"'</script><script>x()<!--"
        name = odd.replace("/", "")
        os.rename(self.plan, self.room / f"{name}.db")
        self.plan = self.room / f"{name}.db"
        tokens = self.room / "tokens"
        tokens.write_text(f"{hashlib.sha256(b'token').hexdigest()} {odd} plan\n")
        desk = self.desk("--tokens", tokens)
        heads, parts, text = self.page(desk, Authorization="Bearer token")
        self.assert_policy(heads, parts)
        self.assertEqual([tag for tag, _ in parts.elements].count("script"), 3)
        self.assertNotIn(("b", {}), parts.elements[:8])
        self.assertIn(f"{name}.db", parts.title)
        self.assertEqual((parts.value("data")["file"], parts.value("desk")["who"]), (f"{name}.db", odd))
        self.end(desk)

    def test_who_sees_what(self):
        words = {"read": "r" * 40, "operate": "o" * 40, "plan": "p" * 40}
        tokens = self.room / "tokens"
        tokens.write_text("".join(f"{hashlib.sha256(token.encode()).hexdigest()} {role}er {role}\n"
                                  for role, token in words.items()))
        desk = self.desk("--tokens", tokens)
        heads, parts, text = self.page(desk)
        self.assert_policy(heads, parts)
        self.assertNotRegex(text, r"APP0|plan\.db|2024")
        self.assertEqual([attributes["type"] for tag, attributes in parts.elements if tag == "input"], ["password"])
        self.assertIn(desk.asked("GET", "/page/data")[0], (401, 403))
        for role, token in words.items():
            status, heads, body = desk.asked("POST", "/session", Authorization=f"Bearer {token}", X_Opcplan="desk")
            self.assertEqual(json.loads(body), {"who": f"{role}er", "role": role})
            flags = [part.strip().lower() for part in heads["Set-Cookie"].split(";")]
            self.assertTrue({"httponly", "samesite=strict"} <= set(flags), flags)
            cookie = heads["Set-Cookie"].partition(";")[0]
            own = self.page(desk, Cookie=cookie)[1].value("desk")
            self.assertEqual((own["who"], own["role"], own["signs"]), (f"{role}er", role, True))
            start = desk.posted("cp-start --app APP00 --ia 2024-01-01/08.00", Cookie=cookie)[0]
            plan = desk.posted("dp-replan", Cookie=cookie)[0]
            self.assertEqual((start, plan), {"read": (403, 403), "operate": (200, 403), "plan": (200, 200)}[role])
            foreign = desk.posted("dp-replan", Cookie=cookie, Origin="http://127.0.0.1:1")[0]
            plain = desk.posted("dp-replan", Cookie=cookie, X_Opcplan=None)[0]
            self.assertEqual((foreign, plain), (403, 403))
        self.assertEqual(desk.asked("DELETE", "/session", Cookie=cookie, X_Opcplan="desk")[0], 204)
        self.assertNotIn("APP0", self.page(desk, Cookie=cookie)[2])
        self.end(desk)

    def test_a_page_that_was_made_is_given_again_until_something_changes(self):
        desk = self.desk()
        first = self.page(desk)[1].value("desk")
        again = self.page(desk)[1].value("desk")
        self.assertEqual(first["tag"], again["tag"])
        desk.posted("cp-start --app APP00 --ia 2024-01-01/08.00")
        later = self.page(desk)[1]
        self.assertEqual((later.value("desk")["position"], later.value("data")["state"].count("S")), (1, 1))
        other = self.page(desk, f"?now={urllib.parse.quote('2024-01-01/09.00')}")[1].value("data")
        self.assertEqual(other["now"], moments.moment_of("2024-01-01/09.00"))
        self.assertEqual(self.page(desk, "")[1].value("desk")["stands"], True)  # the clock is outside this plan
        self.end(desk)

    def test_which_entry_changes_which_rows(self):
        """What the page takes for a change of one status is that and no more; for all else it fetches the rows."""
        desk = self.desk()
        own = self.page(desk)[1].value("desk")
        keys = [f"--app APP{n:02} --ia 2024-01-01/08.{n:02}" for n in range(20)]
        asked = [f"cp-start {keys[1]}", f"cp-start {keys[0]}", f"cp-start {keys[0]}", f"cp-fail {keys[0]}",
                 f"cp-reset {keys[0]}", f"cp-start {keys[0]}", f"cp-complete {keys[0]}", f"cp-start {keys[1]}",
                 f"cp-fail {keys[1]}", f"cp-complete {keys[1]}", "cp-add --app APP02 --ia 2024-01-01/08.01",
                 f"cp-delete {keys[2]}", f"cp-delete {keys[5]}", "ltp-add --app APP00 --ia 2024-01-05/01.00",
                 "ltp-delete --app APP00 --ia 2024-01-05/08.00", "dp-extend --to 2024-01-04/00.00", "dp-replan",
                 "ltp-modify-all", "ltp-modify-one --app APP02", "ltp-extend --to 2024-02-03",
                 "undefine predecessors --name APP07", "define applications\nNEW,A,\n/*", "list cp"]
        before, kinds = tables_of(self.snapshot(desk)), set()
        for text in asked:
            line = json.loads(desk.posted(text, Accept="application/x-ndjson")[2])
            after = tables_of(self.snapshot(desk))
            act = re.match("cp-([a-z]+)", line["statement"])
            found = act and act[1] in own["acts"] and re.search(own["reply"], line["reply"])
            if found and own["acts"][act[1]]["alone"]:
                self.assertEqual(after, ({**before[0], int(found[1]): found[2]}, *before[1:]), text)
                kinds.add("alone")
            elif found:
                self.assertEqual(after[:2], ({**before[0], int(found[1]): found[2]}, before[1]), text)
                kinds.add("alone, and pairs" if after[2] != before[2] else "alone, as it came")
            elif not line["reply"].startswith("ok"):
                self.assertEqual(after, before, text)
                kinds.add("refused")
            elif line["seq"] is not None:
                kinds.add("others")
            before = after
        self.assertTrue({"alone", "alone, and pairs", "refused", "others"} <= kinds, kinds)
        self.end(desk)

    def test_what_a_status_allows(self):
        """The buttons that a row has are those that the planner accepts."""
        desk = self.desk()
        acts = self.page(desk)[1].value("desk")["acts"]
        self.end(desk)
        ways = {"W": [], "S": ["start"], "E": ["start", "fail"], "C": ["start", "complete"], "D": ["delete"]}
        for status, way in ways.items():
            for act in acts:
                planner = plans.planner_from(desks.CENTRE)
                lines = [f"cp-{step} --app APP00 --ia 2024-01-01/08.00 --job {50 + n}\n"
                         for n, step in enumerate([*way, act])]
                reply = plans.plain.run("".join(lines).encode(), planner)[-1]
                self.assertEqual(reply.startswith("ok"), status in acts[act]["from"], (status, act, reply))

    def test_what_cannot_be_undone(self):
        """By the plain planner: from the status that an act gives no acts lead back to the status of before."""
        desk = self.desk()
        acts = self.page(desk)[1].value("desk")["acts"]
        self.end(desk)
        ways = {"W": [], "S": ["start"], "E": ["start", "fail"], "C": ["start", "complete"], "D": ["delete"]}
        steps = {}
        for status, way in ways.items():
            for act in acts:
                planner = plans.planner_from(desks.CENTRE)
                lines = [f"cp-{step} --app APP00 --ia 2024-01-01/08.00 --job {50 + n}\n"
                         for n, step in enumerate([*way, act])]
                reply = plans.plain.run("".join(lines).encode(), planner)[-1]
                if reply.startswith("ok"):
                    steps.setdefault(status, {})[act] = reply.split()[-1]
        for status, found in steps.items():
            for act, after in found.items():
                reached, left = {after}, [after]
                while left:
                    new = set(steps.get(left.pop(), {}).values()) - reached
                    reached |= new
                    left += new
                self.assertEqual(status not in reached, acts[act]["final"], (status, act))


if __name__ == "__main__":
    unittest.main()
