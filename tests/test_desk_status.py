"""What a desk tells of its plan by /status and /metrics: counts and rows by the plain planner, the forecast by a
journal that was worked out by hand, and the agents that look."""

import dataclasses
import hashlib
import json
import re
import secrets
import tempfile
import time
import unittest
from pathlib import Path

from support import data_centre, desks, journals, plans

from opcplan.agent.record import Record
from opcplan.desk import metrics, needs
from opcplan.desk.agents import Agents
from opcplan.plans import plan_file, plan_name
from opcplan.rules import moments

NAMES = ("monday", "week-of-daily-plans", "statuses-carried", "predecessor-fails-and-goes")
# PAY of two days, BILL that waits for it
TWO = "\n".join([
    "define periods --job 1", "DAY,A,2024-01-01,1", "/*", "define applications --job 2", "PAY,A,", "BILL,A,", "/*",
    "define run-cycles --job 3", "PAY,RC,N,DAY,3,1,2024-01-01,,08.00,0,10.00",
    "BILL,RC,N,DAY,3,1,2024-01-01,,09.00,0,12.00",
    "/*", "define predecessors --job 4", "BILL,PAY", "/*", "ltp-create --from 2024-01-06 --to 2024-01-09 --job 5",
    "dp-extend --to 2024-01-08/00.00 --job 6", "cp-start --app PAY --ia 2024-01-06/08.00 --job 7",
    "cp-complete --app PAY --ia 2024-01-06/08.00 --job 8", ""]).encode()


def wanted(planner, now):
    """Counts, and the serials of rows that are in error, late and at risk, by the rules of docs/use/MONITORING.md."""
    rows = {serial: (row, status) for serial, (row, status) in planner.current.items() if status in "WSE"}
    before = {serial: {first for later, first in planner.pairs if later == serial and first in rows} for serial in rows}
    error = {serial for serial, (_, status) in rows.items() if status == "E"}
    late = {serial for serial, (row, _) in rows.items() if row[3] < now}

    def is_held_up(serial):
        waits = before[serial] if rows[serial][1] == "W" else ()
        return any(first in error or first in late or is_held_up(first) for first in waits)

    counts = dict.fromkeys(("in_error", "started", "ready", "blocked", "to_come"), 0)
    for serial, (row, status) in rows.items():
        waiting = "to_come" if row[2] > now else "blocked" if before[serial] else "ready"
        counts[{"E": "in_error", "S": "started"}.get(status, waiting)] += 1
    risk = {serial for serial in rows if is_held_up(serial)} - error - late
    return {**counts, "late": len(late), "at_risk": len(risk)}, error, late, risk


def late_ones(found):
    """The serials that a list of needs names as late, each or as a follower."""
    return {one["serial"] for one in found["needs"] if one["kind"] == "late"} | set(map(int, found["followers"]))


class Needs(unittest.TestCase):
    def check(self, path, planner, now):
        with plan_file.opened(path) as plan:
            found, usual = (needs.of_plan(plan, None, now, by_usual=by_usual) for by_usual in (False, True))
        counts, error, late, risk = wanted(planner, now)
        self.assertEqual((found["counts"], usual["counts"]), (counts, counts))
        # usual deadlines count for what was added by hand alone (test_usual_due.py)
        for serial in late_ones(usual) ^ late_ones(found):
            self.assertIsNone(planner.current[serial][0][4], serial)
        self.assertEqual({one["name"] for one in found["needs"] if one["kind"] == "error"},
                         {f"error:{serial}:0" for serial in error})
        self.check_late(found, planner, error, late, now)
        self.assertEqual((found["plan_end"], found["last_day"], found["now"], found["is_whole"]),
                         (moments.moment_word(planner.bounds[2]), moments.day_text(planner.bounds[1]),
                          moments.moment_word(now), True))
        return found["needs"]

    def check_late(self, found, planner, error, late, now):
        """Each late row is listed or counted once, by the need of something that it waits for or of its chain."""
        names = {one["name"]: one for one in found["needs"]}
        listed = {one["serial"] for one in found["needs"] if one["kind"] in ("error", "late")}
        counted = {int(serial): names[name] for serial, name in found["followers"].items()}
        self.assertEqual(listed | set(counted), error | late)
        self.assertFalse(listed & set(counted))
        for serial, one in counted.items():
            before, left = set(), [serial]
            while left:
                more = {first for later, first in planner.pairs if later in left} - before
                before |= more
                left = list(more)
            self.assertTrue(one["kind"] == "late" or one["serial"] in before, (serial, one))
        for one in found["needs"]:
            if one["serial"] is not None:
                known = planner.current[one["serial"]][0]
                self.assertEqual((one["app"], one["ia"]), (known[1], moments.moment_word(known[2])))
                self.assertLessEqual({one["app"]}, set(one["apps"]))

    def test_counts_and_rows_are_those_of_the_plain_planner(self):
        for name in NAMES:
            planner = plans.planner_of(plans.stream(name))
            for now in (planner.bounds[2] - 2000, planner.bounds[2] - 60, planner.bounds[2] + 900):
                with self.subTest(name, now=now):
                    self.check(plans.of_worked(name), planner, now)

    def test_a_night_that_went_wrong(self):
        text = data_centre.whole()
        path, planner, now = plans.of_stream(text), plans.planner_of(text), moments.moment_of(data_centre.NOW)
        found = self.check(path, planner, now)
        self.assertTrue(found[0]["kind"] == "error" and any(one["kind"] == "late" for one in found))
        self.assertTrue(any(one["waiting"] and one["late"] for one in found))
        for hours in (-12, -3, 3, 12):
            self.check(path, planner, now + hours * 60)

    def test_a_plan_without_its_first_day(self):
        with plan_file.opened(plans.of_stream(b"")) as plan:
            found = needs.of_plan(plan, None, 0)
        self.assertEqual((found["plan_end"], found["counts"], found["needs"]), (None, {}, []))

    def test_the_forecast_is_that_of_a_journal(self):
        """PAY took three hours the day before, so it is going to end at 11.00 and not by 10.00."""
        with tempfile.TemporaryDirectory() as room, plan_file.opened(plans.of_stream(TWO)) as plan:
            serial = plan.db.execute("SELECT serial FROM cp_row WHERE app = 'PAY' AND status = 'C'").fetchone()[0]
            key = (serial, "PAY", "2024-01-06/08.00")
            path = journals.write(Path(room) / "journal", [(*key, "S", "2024-01-06/08.00"),
                                                           (*key, "C", "2024-01-06/11.00")])
            now = moments.moment_of("2024-01-07/07.30")
            found = needs.of_plan(plan, str(path), now)
            serials = {(app, ia): serial for serial, app, ia in plan.db.execute("SELECT serial, app, ia FROM cp_row")}
            bill, pay = (serials[app, moments.moment_of(ia)] for app, ia in (("BILL", "2024-01-06/09.00"),
                                                                             ("PAY", "2024-01-07/08.00")))
            self.assertEqual([(one["name"], one["kind"], one["since"]) for one in found["needs"]],
                             [(f"unstarted:{bill}:0", "unstarted", "2024-01-06/11.00"), (f"late:{pay}", "risk", None),
                              ("long-term-end:2024-01-09", "long-term-end", "2023-12-27/00.00")])
            self.assertIn("is expected to end 2024-01-07 11.00", found["needs"][1]["text"])
            self.assertEqual((found["counts"]["at_risk"], found["counts"]["late"], found["forecast"]), (1, 1, ""))
            found = needs.of_plan(plan, str(Path(room) / "none"), now)
            self.assertEqual(found["counts"]["at_risk"], 0)
            self.assertIn("there is no such journal", found["forecast"])

    def test_entries_that_a_copy_lacks_do_not_count(self):
        """PAY failed, and another try follows; in the journal the next one is started already."""
        fails = "cp-start --app PAY --ia 2024-01-07/08.00 --job 9\ncp-fail --app PAY --ia 2024-01-07/08.00 --job 10\n"
        run, at = "agent-etl-1-" + "0a" * 12, "2024-01-07/10.30"
        with tempfile.TemporaryDirectory() as room, plan_file.opened(plans.of_stream(TWO + fails.encode())) as plan:
            (serial,) = plan.db.execute("SELECT serial FROM cp_row WHERE app = 'PAY' AND status = 'E'").fetchone()
            steps = (("S", run), ("E", f"{run}-again600"), ("W", f"{run}.1-reset"), ("S", f"{run}.2"))
            path = journals.write(
                Path(room) / "journal", [(serial, "PAY", "2024-01-07/08.00", status, at) for status, _ in steps],
                [(at, "agent", key, 20 + place, "x", "x") for place, (_, key) in enumerate(steps)])

            def kinds(**how):
                found = needs.of_plan(plan, str(path), moments.moment_of(at), **how)["needs"]
                return [one["kind"] for one in found if one["serial"] == serial]

            self.assertEqual((kinds(), kinds(upto=2)), (["error"], ["late"]))


class Looks(unittest.TestCase):
    def test_agents_and_others(self):
        now = [100.0]
        agents = Agents({"old"}, lambda: now[0])
        agents.looked("anna")
        agents.looked("batch")
        for key in (None, "agent-1", "agent-" + "0" * 24 + "-x", "x"):
            agents.sent("anna", key)
        self.assertEqual(agents.values(), {"old": {"looks": 0, "age": 0}})
        agents.sent("batch", "agent-" + "0a" * 12)
        now[0] = 107.5
        self.assertEqual(agents.values(), {"batch": {"looks": 1, "age": 7.5}, "old": {"looks": 0, "age": 7.5}})
        agents.looked("batch")
        self.assertEqual(agents.values()["batch"], {"looks": 2, "age": 0})

    def test_agents_that_share_a_user_have_names_of_their_own(self):
        now = [100.0]
        agents = Agents({"batch"}, lambda: now[0])
        self.assertEqual(agents.contacts(), {("batch", ""): (0, 0)})
        now[0] = 200.0
        agents.looked("batch")
        agents.looked("batch", "etl-1")
        agents.looked("anna", "x")
        now[0] = 260.0
        agents.looked("batch", "etl-2")
        self.assertEqual(agents.contacts(), {("batch", "etl-1"): (60, 60), ("batch", "etl-2"): (0, 0)})
        now[0] = 499.0
        agents.looked("batch", "etl-1")  # within five minutes: no break
        now[0] = 560.0
        agents.looked("batch", "etl-2")  # it was away
        self.assertEqual(agents.contacts(), {("batch", "etl-1"): (61, 360), ("batch", "etl-2"): (0, 0)})
        self.assertEqual(agents.values()["batch"]["age"], 0)

    def test_each_key_that_an_agent_makes_names_it(self):
        for name in ("", "agent-", "etl-1.example-"):
            run = Record(1, "AA", "2024-01-01/08.00", f"agent-{name}{'0a' * 12}", 0, None, tries=999)
            for attempt in (1, 2, 999):
                one = dataclasses.replace(run, attempt=attempt)
                for key in (one.start_key, one.end_key, one.reset_key):
                    agents = Agents(())
                    agents.sent("batch", key)
                    self.assertEqual(list(agents.values()), ["batch"], key)

    def test_names_that_a_label_has_to_escape(self):
        self.assertEqual(metrics.lines_of("opcplan_agent_age_seconds", "p", [({"agent": 'a"b\\c\nd'}, 1)])[2],
                         'opcplan_agent_age_seconds{plan="p",agent="a\\"b\\\\c\\nd"} 1')


@unittest.skipIf(desks.why_not(), desks.why_not())
class Status(desks.Case):
    def test_status_and_metrics(self):
        desk = self.desk()
        key = f"agent-etl-1-{secrets.token_hex(12)}"
        fails = "cp-start --app APP00 --ia 2024-01-01/08.00\ncp-fail --app APP00 --ia 2024-01-01/08.00\n"
        self.assertEqual(desk.posted(fails, Idempotency_Key=key)[0], 200)
        desk.health()
        planner = plans.planner_from(desks.CENTRE)
        numbers = iter((900, 901))
        plans.plain.run(re.sub("\n", lambda _: f" --job {next(numbers)}\n", fails).encode(), planner)
        now = moments.moment_of("2024-01-02/12.00")
        counts, error, late, risk = wanted(planner, now)
        self.assertTrue(error and late and risk == set())
        status, heads, text = desk.asked("GET", "/status?now=2024-01-02/12.00")
        values = json.loads(text)
        self.assertEqual((status, values["position"], heads["X-Opcplan-Position"]), (200, 2, "2"))
        self.assertEqual(values["counts"], counts)
        self.assertEqual(values["plan"], plan_name.of_path(desk.plan))
        listed = {one["serial"] for one in values["needs"] if one["kind"] in ("error", "late")}
        self.assertEqual(listed | set(map(int, values["followers"])), error | late)
        self.assertEqual((values["plan_end"], values["last_day"]), ("2024-01-03/00.00", "2024-01-31"))
        name = desks.own_name()
        self.assertEqual((list(values["agents"]), values["agents"][name]["looks"] >= 1, values["etcd"],
                          values["trouble"]), ([name], True, [], ""))
        self.check_metrics(desk, planner, name)
        self.check_two_moments(desk)
        self.assertEqual(desk.asked("GET", "/status?now=today")[0], 400)
        self.end(desk)
        again = self.desk()  # the journal says who is an agent
        values = json.loads(again.asked("GET", "/status")[2])
        self.assertEqual((list(values["agents"]), values["agents"][name]["looks"]), ([name], 0))
        self.end(again)

    def check_two_moments(self, desk):
        """A page that stays at a moment and a watch that goes by the clock don't take each other's list away."""
        asked = ["/status", "/status?now=2024-01-02/12.00"] * 2
        clock, named, later, again = (json.loads(desk.asked("GET", path)[2]) for path in asked)
        self.assertEqual((named["now"], named["at"]), (again["now"], again["at"]))
        if clock["now"] == later["now"]:  # in the same minute
            self.assertEqual(clock["at"], later["at"])

    def check_metrics(self, desk, planner, name):
        desk.asked("GET", "/status")  # a scrape doesn't wait long for the first counts
        text = desk.asked("GET", "/metrics")[2]
        plan = plan_name.of_path(desk.plan)
        found = {line.replace(f'plan="{plan}",', "").replace(f'{{plan="{plan}"}}', "").rsplit(" ", 1)[0]:
                 line.rsplit(" ", 1)[1] for line in text.splitlines() if line[0] != "#"}
        self.assertEqual(text.count(f'plan="{plan}"'), len(found))
        counts, *_ = wanted(planner, moments.now())
        for what, count in counts.items():
            self.assertEqual(found[f"opcplan_plan_{what}"], str(count), what)
        self.assertEqual(found['opcplan_plan_needs{kind="error"}'], "1")
        self.assertEqual((found['opcplan_plan_needs{kind="disk"}'], found['opcplan_plan_needs_level{kind="disk"}']),
                         ("0", "-1"))
        end = time.mktime((2024, 1, 3, 0, 0, 0, 0, 0, -1))
        self.assertEqual(float(found["opcplan_plan_end_timestamp_seconds"]), end)
        self.assertEqual(float(found["opcplan_plan_last_day_end_timestamp_seconds"]),
                         time.mktime((2024, 2, 1, 0, 0, 0, 0, 0, -1)))
        self.assertLess(float(found[f'opcplan_agent_age_seconds{{agent="{name}"}}']), desks.PATIENCE)
        self.assertAlmostEqual(float(found["opcplan_plan_as_of_timestamp_seconds"]), time.time(), delta=desks.PATIENCE)

    def needs(self, desk, *kinds):
        """The names of the needs of some kinds that a desk lists now."""
        return [one["name"] for one in json.loads(desk.asked("GET", "/status")[2])["needs"] if one["kind"] in kinds]

    def put(self, desk, what, body, **heads):
        """Sends a report; the status of the answer, and its text."""
        status, _, text = desk.asked("PUT", f"/reports/{what}", body, X_Opcplan="desk", **heads)
        return status, text

    def lists(self, desk, names, *kinds):
        """Waits until a desk lists these needs of some kinds: it makes the list no more often than it can."""
        until = time.monotonic() + desks.PATIENCE
        while (found := self.needs(desk, *kinds)) != names:
            self.assertLess(time.monotonic(), until, found)
            time.sleep(0.1)

    def test_reports_are_part_of_the_list(self):
        desk, name = self.desk(), desks.own_name()
        desk.posted("cp-start --app APP00 --ia 2024-01-01/08.00\n",
                    Idempotency_Key=f"agent-etl-1-{secrets.token_hex(12)}")
        body = json.dumps({"unknown": {"1": "its job left no end"}, "trouble": "jobs.toml: it is missing",
                           "idle": {"2": {"why": "place", "where": "etl*"}, "3": {"why": "room"}}})
        self.assertEqual(self.put(desk, "agent", body, X_Opcplan_Agent="etl-1"), (204, ""))
        serial = json.loads(desk.asked("GET", "/rows?app=APP00&from=2024-01-01&to=2024-01-01")[2])["serial"]
        self.assertEqual(serial, 1)
        self.lists(desk, ["unknown:1:1", f"settings:{name}"], "unknown", "settings")
        for own, digest in (("etl-1", hashlib.sha256(body.encode()).hexdigest()[:16]), ("etl-2", "")):
            found = json.loads(desk.asked("GET", "/health", X_Opcplan_Agent=own)[2])
            self.assertEqual(found["report"], digest)
        # two agents of one user are told apart from here on
        self.put(desk, "agent", "{}", X_Opcplan_Agent="etl-2")
        self.lists(desk, [f"settings:{name}/etl-1"], "settings")
        desk.posted("cp-complete --app APP00 --ia 2024-01-01/08.00\n")
        self.put(desk, "agent", "{}", X_Opcplan_Agent="etl-1")
        self.lists(desk, [], "unknown", "settings")
        late = {"id": "x-1", "target": "me", "since": time.time() - 600, "tries": 3, "why": "no answer"}
        self.put(desk, "calls", json.dumps({"undelivered": [late]}))
        self.lists(desk, ["call:x-1"], "call")
        self.assertIn(f'opcplan_desk_undelivered_calls{{plan="{plan_name.of_path(desk.plan)}",watch="{name}"}} 1\n',
                      desk.asked("GET", "/metrics")[2])
        self.put(desk, "calls", '{"undelivered": []}')
        self.lists(desk, [], "call")
        # another watch of the same user takes nothing away
        for own, calls in (("a", [late]), ("b", []), ("a", [late]), ("b", [])):
            self.put(desk, "calls", json.dumps({"watch": own, "undelivered": calls}))
        self.lists(desk, ["call:x-1"], "call")
        counted = desk.asked("GET", "/metrics")[2]
        self.assertIn(f'opcplan_desk_undelivered_calls{{plan="{plan_name.of_path(desk.plan)}",watch="{name}"}} 1\n',
                      counted)
        self.assertEqual(counted.count("opcplan_desk_watch_age_seconds{"), 1)
        self.put(desk, "calls", '{"watch": "a", "undelivered": []}')
        self.lists(desk, [], "call")
        self.end(desk)

    def test_watches_of_one_user(self):
        """Each keeps its report until it hasn't reported for five minutes and another one of the user does."""
        from opcplan.desk.reports import MOST_WATCHES, Reports  # it needs what a desk needs

        now = 0.0
        reports = Reports(Agents(()), steady=lambda: now)
        one, other = ({"id": name, "target": "me", "since": 60.0, "tries": 1, "why": "no"} for name in "xy")

        def told(who, own, *calls):
            before = reports.version
            reports.take_calls(who, json.dumps({"watch": own, "undelivered": calls}).encode())
            return [call.id for call in reports.undelivered()], reports.version - before

        self.assertEqual([told("w", "a", one), told("w", "b"), told("w", "a", one), told("w", "b", other)],
                         [(["x"], 1), (["x"], 0), (["x"], 0), (["x", "y"], 1)])
        now = 200.0
        self.assertEqual(told("w", "b", other), (["x", "y"], 0))
        self.assertEqual(reports.of_watches(), {"w": (0.0, 2)})
        now = 299.0
        self.assertEqual(told("root", "c"), (["x", "y"], 0))
        self.assertEqual(told("w", "b", other), (["x", "y"], 0))
        now = 600.0  # only another one of the same user takes its place
        self.assertEqual(told("root", "c"), (["x", "y"], 0))
        self.assertEqual(told("w", "b", other), (["y"], 1))
        self.assertEqual(reports.of_watches(), {"w": (0.0, 1), "root": (0.0, 0)})
        for number in range(2 * MOST_WATCHES):
            told("many", str(number))
        self.assertLessEqual(len(reports.watches), MOST_WATCHES)

    def test_reports_that_are_wrong(self):
        desk = self.desk()
        roll = {"outcome": "done", "why": "", "end": "2024-01-03/00.00", "ahead": 2880, "reserve": 60, "every": 1440}
        for path, body in (
            ("agent", "x"), ("agent", "[]"), ("agent", '{"idle": []}'), ("agent", '{"idle": {"0": {"why": "room"}}}'),
            ("agent", '{"idle": {"1": {"why": "x"}}}'), ("agent", '{"unknown": {"1": 7}}'), ("agent", '{"trouble": 7}'),
            ("roll", json.dumps({**roll, "outcome": "x"})), ("roll", json.dumps({**roll, "end": "today"})),
            ("roll", json.dumps({**roll, "ahead": -1})), ("roll", "{}"), ("calls", "{}"),
            ("calls", '{"undelivered": [{"id": "x"}]}'),
        ):
            status, text = self.put(desk, path, body)
            self.assertEqual((status, text.count("\n")), (400, 1), (path, body, text))
            self.assertIn("this isn't a report that docs/use/DESK.md describes: ", text)
        self.end(desk)

    def test_a_change_shows_soon(self):
        desk = self.desk()
        before = json.loads(desk.asked("GET", "/status")[2])["counts"]
        desk.posted("cp-start --app APP00 --ia 2024-01-01/08.00\n")
        until = time.monotonic() + desks.PATIENCE
        while (now := json.loads(desk.asked("GET", "/status")[2]))["counts"]["started"] != before["started"] + 1:
            self.assertLess(time.monotonic(), until)
            time.sleep(0.05)
        self.assertEqual(now["position"], 1)
        self.end(desk)


if __name__ == "__main__":
    unittest.main()
