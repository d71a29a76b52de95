"""docs/use/MONITORING.md: its rules are ones that a watch takes, and the page, the rules of Prometheus and the
dashboard of Grafana name what a desk counts, and all of it."""

import json
import re
import secrets
import shutil
import subprocess
import tempfile
import unittest
from pathlib import Path

from support import TOP, desks

from opcplan.needs import need
from opcplan.watch import metrics, rulebook

FOLDER = TOP / "docs" / "use" / "monitoring"
METRIC = re.compile(r"\bopcplan_[a-z_]+")
TAILS = ("_bucket", "_sum", "_count")
# prints what several desks count more than one; by itself, since the tests' own Python may lack what a desk needs
SHARED = """
import types
from opcplan.desk import etcd_log
shared = types.SimpleNamespace(head=types.SimpleNamespace(last=1), members=[], sizes=lambda: {"bytes": 1, "quota": 1})
print(*etcd_log.EtcdLog.gauges(shared, 0))
"""


def page():
    return (TOP / "docs" / "use" / "MONITORING.md").read_text(encoding="utf-8")


RULES, OF_WATCH = (FOLDER / f"{name}.rules.yml" for name in ("opcplan", "opcplan-watch"))


def exprs_of(path):
    """What a file of rules of Prometheus asks for."""
    return re.findall("(?m)^ +expr: (.+)$", path.read_text(encoding="utf-8"))


def exprs():
    """What the rules of Prometheus for desks and the dashboard ask for."""
    board = json.loads((FOLDER / "opcplan-dashboard.json").read_text(encoding="utf-8"))
    return exprs_of(RULES), [target["expr"] for one in board["panels"] for target in one["targets"]]


class Page(unittest.TestCase):
    def test_the_rules_are_taken(self):
        (text,) = re.findall(r"```toml\n(.*?)```", page(), re.S)
        found = rulebook.of_text(text)
        self.assertEqual({kind for rule in found.rules for kind in rule.kinds}, set(need.KINDS))
        beats = {beat.target for beat in found.heartbeats}
        self.assertEqual(set(found.routes()) | beats, set(found.targets))
        self.assertTrue(beats)

    def test_the_table_of_rules_has_each_word(self):
        table = page().partition("| `on` | Keys |")[2].partition("\n\n")[0]
        rows = re.findall(r"^\| `([a-z-]+)` \| ([^|]*) \|$", table, re.M)
        named = {on: set(re.findall("`([a-z]+)`", words)) for on, words in rows}
        self.assertEqual(named, {on: set(may) for on, may in rulebook.WORDS.items()})

    def test_the_table_of_needs_has_each_kind(self):
        table = page().partition("| Kind | A need is |")[2].partition("\n\n")[0]
        self.assertEqual(re.findall(r"^\| `([a-z-]+)` \|", table, re.M), list(need.KINDS))

    def test_the_rules_of_prometheus_are_whole(self):
        for path in (RULES, OF_WATCH):
            self.check_rules(path.read_text(encoding="utf-8"), exprs_of(path))

    def check_rules(self, text, asked):
        counts = {word: len(re.findall(f"(?m)^ +(- )?{word}:", text)) for word in ("alert", "expr", "for", "summary")}
        self.assertEqual(set(counts.values()), {len(asked)}, counts)
        try:
            import yaml
        except ImportError:
            return
        (group,) = yaml.safe_load(text)["groups"]
        self.assertEqual([rule["expr"] for rule in group["rules"]], asked)
        self.assertEqual(len({rule["alert"] for rule in group["rules"]}), counts["alert"])
        self.assertTrue(all(rule["labels"] and rule["annotations"]["summary"] for rule in group["rules"]))

    def test_the_dashboard_has_a_place_for_each_panel(self):
        panels = json.loads((FOLDER / "opcplan-dashboard.json").read_text(encoding="utf-8"))["panels"]
        self.assertEqual(len({one["id"] for one in panels}), len(panels))
        taken = set()
        for one in panels:
            place = one["gridPos"]
            cells = {(x, y) for x in range(place["x"], place["x"] + place["w"])
                     for y in range(place["y"], place["y"] + place["h"])}
            self.assertTrue(max(x for x, _ in cells) < 24 and not cells & taken, one["title"])
            taken |= cells


# what Prometheus gets each minute, and which alerts there are at a moment: by rule the plans and kinds
SERIES = """
      - series: 'opcplan_desk_up{plan="main",instance="a"}'
        values: '1x30 _x60'
      - series: 'opcplan_desk_up{plan="main",instance="b"}'
        values: '1x30 0x60'
      - series: 'opcplan_desk_up{plan="other",instance="c"}'
        values: '1x90'
      - series: 'opcplan_desk_stopped{plan="other",instance="c"}'
        values: '0x10 1x80'
      - series: 'opcplan_plan_needs{plan="main",kind="error",instance="a"}'
        values: '0x10 1x20 _x60'
      - series: 'opcplan_plan_needs{plan="main",kind="error",instance="b"}'
        values: '0x10 2x10 0x70'
      - series: 'opcplan_plan_needs{plan="other",kind="disk",instance="c"}'
        values: '0x30 1x60'
      - series: 'opcplan_plan_needs{plan="other",kind="late",instance="c"}'
        values: '0x30 1x10 0x50'
      - series: 'opcplan_plan_in_error{plan="other",instance="c"}'
        values: '5x90'
      - series: 'opcplan_agent_age_seconds{plan="main",agent="etl",instance="a"}'
        values: '1x10 400x80'
      - series: 'opcplan_agent_age_seconds{plan="main",agent="etl",instance="b"}'
        values: '1x40 400x50'
      - series: 'opcplan_desk_watch_age_seconds{plan="other",watch="w",instance="c"}'
        values: '30x60 301x30'
"""
ALERTS = {
    ("9m", "OpcplanNeedsPerson"): [], ("9m", "OpcplanNoDesk"): [], ("9m", "OpcplanDeskGone"): [],
    ("13m", "OpcplanNeedsPerson"): [{"plan": "main", "kind": "error"}],
    ("25m", "OpcplanNeedsPerson"): [{"plan": "main", "kind": "error"}],
    ("40m", "OpcplanNeedsPerson"): [],
    ("13m", "OpcplanDeskStopped"): [{"plan": "other"}],
    ("40m", "OpcplanDeskGone"): [{"plan": "main"}], ("40m", "OpcplanDeskDown"): [{"plan": "main"}],
    ("40m", "OpcplanNeedsCare"): [], ("50m", "OpcplanNeedsCare"): [{"plan": "other", "kind": "disk"}],
    ("44m", "OpcplanLate"): [],
    ("30m", "OpcplanAgentAway"): [], ("45m", "OpcplanAgentAway"): [{"plan": "main", "agent": "etl"}],
    ("60m", "OpcplanWatchAway"): [], ("65m", "OpcplanWatchAway"): [{"plan": "other", "watch": "w"}],
    ("89m", "OpcplanNoDesk"): [],
}
# of two watches of `main` one hangs from minute 30 on, and is gone from minute 51 on; `other` has one, and `new` none
OF_WATCH_SERIES = """
      - series: 'opcplan_desk_up{plan="main",instance="a"}'
        values: '1x90'
      - series: 'opcplan_desk_up{plan="new",instance="a"}'
        values: '_x70 1x20'
      - series: 'opcplan_watch_last_poll_timestamp_seconds{plan="main",instance="a"}'
        values: '0+60x30 1800x20 _x40'
      - series: 'opcplan_watch_last_poll_timestamp_seconds{plan="main",instance="b"}'
        values: '0+60x90'
      - series: 'opcplan_watch_last_poll_timestamp_seconds{plan="other",instance="c"}'
        values: '0+60x90'
      - series: 'opcplan_watch_unheard_age_seconds{plan="main",instance="a"}'
        values: '0x10 60+60x10 0x70'
      - series: 'opcplan_watch_unheard_age_seconds{plan="main",instance="b"}'
        values: '0x10 60+60x10 0x70'
      - series: 'opcplan_watch_undelivered_age_seconds{plan="main",who="chat",instance="a"}'
        values: '0x10 60+60x15 0x70'
      - series: 'opcplan_watch_undelivered_age_seconds{plan="main",who="pager",instance="a"}'
        values: '0x10 60+60x15 0x70'
      - series: 'opcplan_watch_heartbeat_timestamp_seconds{plan="main",who="switch",instance="a"}'
        values: '0+60x90'
      - series: 'opcplan_watch_heartbeat_timestamp_seconds{plan="other",who="switch",instance="c"}'
        values: '0+60x40 2400x50'
"""
OF_WATCH_ALERTS = {
    ("20m", "OpcplanNoWatch"): [], ("20m", "OpcplanWatchGone"): [], ("20m", "OpcplanHeartbeatOld"): [],
    ("35m", "OpcplanWatchBlind"): [], ("39m", "OpcplanWatchBlind"): [{"plan": "main"}],
    ("62m", "OpcplanWatchBlind"): [], ("50m", "OpcplanWatchGone"): [], ("62m", "OpcplanWatchGone"): [{"plan": "main"}],
    ("75m", "OpcplanWatchGone"): [{"plan": "main"}, {"plan": "new"}], ("75m", "OpcplanNoWatch"): [],
    ("15m", "OpcplanCallUnheard"): [], ("18m", "OpcplanCallUnheard"): [{"plan": "main"}],
    ("23m", "OpcplanCallUnheard"): [], ("20m", "OpcplanCallUndelivered"): [],
    ("23m", "OpcplanCallUndelivered"): [{"plan": "main"}], ("28m", "OpcplanCallUndelivered"): [],
    ("59m", "OpcplanHeartbeatOld"): [], ("62m", "OpcplanHeartbeatOld"): [{"plan": "other"}],
}
PAGES = dict.fromkeys(["OpcplanNeedsCare", "OpcplanCountsOld", "OpcplanCallUndelivered", "OpcplanHeartbeatOld"],
                      "ticket")


def series_of(name):
    """A series that is 1 for ten minutes, as promtool has it."""
    return f'\n      - series: "{name}"\n        values: "1x10"\n'


@unittest.skipUnless(shutil.which("promtool"), "there is no promtool: Debian's package prometheus has it")
class ByPrometheus(unittest.TestCase):
    """What Prometheus's own tool says of the rules."""

    def ran(self, *words):
        return subprocess.run(["promtool", *map(str, words)], capture_output=True, text=True, check=False, timeout=300)

    def test_rules_are_right(self):
        ran = self.ran("check", "rules", RULES, OF_WATCH)
        self.assertEqual((ran.returncode, ran.stderr), (0, ""))

    def answer_to(self, rules, series, alerts):
        """What promtool answers where these alerts are expected, by their labels alone."""
        tests = []
        for (at, name), found in alerts.items():
            tests += ["      - eval_time: " + at, "        alertname: " + name, "        exp_alerts:"]
            tests += [] if found else ["          []"]
            for labels in found:
                labels = {**labels, "severity": PAGES.get(name, "page")}
                tests += ["          - exp_labels:", *(f"              {key}: {one}" for key, one in labels.items())]
        with tempfile.TemporaryDirectory() as room:
            # a summary says how many and how long; here only whom the alert names counts
            bare = re.sub(r"(?m)^        annotations:\n          summary: .*\n", "", rules)
            Path(room, "rules.yml").write_text(bare, encoding="utf-8")
            head = "rule_files: [rules.yml]\nevaluation_interval: 1m\ntests:\n  - interval: 1m\n    input_series:"
            text = "\n".join([f"{head}{series}    alert_rule_test:", *tests, ""])
            Path(room, "test.yml").write_text(text, encoding="utf-8")
            return self.ran("test", "rules", Path(room, "test.yml"))

    def test_alerts_are_one_for_a_plan(self):
        rules = RULES.read_text(encoding="utf-8")
        ran = self.answer_to(rules, SERIES, ALERTS)
        self.assertEqual(ran.returncode, 0, ran.stdout + ran.stderr)
        ran = self.answer_to(rules.replace("by (plan, kind)", "by (plan, kind, instance)"), SERIES, ALERTS)
        self.assertNotEqual(ran.returncode, 0)
        ran = self.answer_to(rules, series_of("up"), {("9m", "OpcplanNoDesk"): [{}]})
        self.assertEqual(ran.returncode, 0, ran.stdout + ran.stderr)

    def test_alerts_about_a_watch_are_one_for_a_plan(self):
        rules = OF_WATCH.read_text(encoding="utf-8")
        for series, alerts in (
            (OF_WATCH_SERIES, OF_WATCH_ALERTS),
            (series_of("up"), {("9m", "OpcplanNoWatch"): [{}], ("9m", "OpcplanWatchGone"): []}),
            (series_of("opcplan_desk_up{plan='main'}"),
             {("9m", "OpcplanNoWatch"): [], ("9m", "OpcplanWatchGone"): [{"plan": "main"}]}),
        ):
            ran = self.answer_to(rules, series, alerts)
            self.assertEqual(ran.returncode, 0, ran.stdout + ran.stderr)
        for one, other in (("by (plan)", "by (plan, who)"), ("[1d]", "[1m]")):
            ran = self.answer_to(rules.replace(one, other), OF_WATCH_SERIES, OF_WATCH_ALERTS)
            self.assertNotEqual(ran.returncode, 0, other)


@unittest.skipIf(desks.why_not(), desks.why_not())
class Counted(desks.Case):
    def counted(self):
        """The names of all that desks count."""
        desk = self.desk()
        desk.posted("cp-start --app APP00 --ia 2024-01-01/08.00\n", Idempotency_Key=f"agent-{secrets.token_hex(12)}")
        self.assertEqual(desk.asked("PUT", "/reports/calls", '{"undelivered": []}', X_Opcplan="desk")[0], 204)
        text = desk.asked("GET", "/metrics")[2]
        self.end(desk)
        self.assertEqual(re.findall("^# HELP ([a-z_]+) ", text, re.M), re.findall("^# TYPE ([a-z_]+) ", text, re.M))
        if shutil.which("promtool"):
            ran = subprocess.run(["promtool", "check", "metrics"], input=text, text=True, capture_output=True,
                                 check=False)
            self.assertEqual((ran.returncode, ran.stdout, ran.stderr), (0, "", ""))
        ran = subprocess.run([desks.python(), "-c", SHARED], env={"PYTHONPATH": str(TOP / "python")}, text=True,
                             capture_output=True, check=True)
        return {*re.findall("^# TYPE ([a-z_]+) ", text, re.M), *(f"opcplan_desk_{name}" for name in ran.stdout.split())}

    def test_the_page_and_the_files_name_what_is_counted(self):
        counted = self.counted()
        table = page().partition("## Metrics")[2]
        named = set(METRIC.findall(re.sub(r"`docs/[^`]*`|/etc/[^\n]*", "", table)))
        self.assertEqual(named, counted | set(metrics.METRICS))
        for asked in exprs_of(OF_WATCH):
            self.assertEqual(set(METRIC.findall(asked)) - counted - set(metrics.METRICS), set())
        for asked in exprs():
            named = {name for expr in asked for name in METRIC.findall(expr)}
            known = counted | {f"{name}{tail}" for name in counted for tail in TAILS}
            self.assertEqual(named - known, set())
            self.assertGreaterEqual(named, {"opcplan_plan_needs", "opcplan_agent_age_seconds"})


if __name__ == "__main__":
    unittest.main()
