"""What an agent reports to its desk: why it doesn't start what is ready, which ends nobody knows, wrong settings."""

import json
import os
import signal
import unittest
from pathlib import Path
from unittest import mock

from support.agents import day_stream, PlainDesk, Room

from opcplan.agent import needs, record, reports
from opcplan.agent.known_plan import Row
from opcplan.desk import client


class Reported(PlainDesk):
    """A desk that takes reports."""

    def __init__(self, text):
        super().__init__(text)
        self.data, self.digest, self.named, self.refuses = [], "", set(), False

    def request(self, method, path, body=None, heads=()):
        if path == "/health":
            self.named.add(heads["X-Opcplan-Agent"])
            heads, data = super().request(method, path, body, heads)
            return heads, json.dumps({**json.loads(data), "report": self.digest}).encode()
        if path != "/reports/agent":
            return super().request(method, path, body, heads)
        if self.refuses:
            raise client.RequestRefused(403, "your role doesn't allow this")
        self.named.add(heads["X-Opcplan-Agent"])
        self.data.append(body)
        self.digest = reports.digest_of(body)
        return {}, b""

    @property
    def last(self):
        """What the last report says."""
        return json.loads(self.data[-1])


def row(serial, app):
    return Row(serial, app, "2024-01-01/08.00", 0, 0, "W")


class Made(unittest.TestCase):
    """The report of facts, worked out by hand."""

    def made(self, rows, lost=(), **more):
        wrong = needs.Needs()
        for name, text in more.pop("needs", {}).items():
            wrong.put(name, text)
        known = reports.Facts(wrong, {}, {}, lambda app: True, lambda app: True)._replace(**more)
        return json.loads(reports.report(rows, dict(lost), known))

    def test_nothing_is_wrong(self):
        self.assertEqual(self.made([]), {"idle": {}, "unknown": {}, "trouble": ""})
        self.assertEqual(self.made([row(7, "AA")])["idle"], {})  # the agent is about to start it

    def test_each_reason(self):
        rows = [row(serial, f"A{serial}") for serial in range(1, 7)]
        found = self.made(rows, elsewhere={"A1": "etl*"}, needs={"job A2": "it is a link", "jobs.toml": "it is gone"},
                          refused={3: "refused 29", 4: "refused 30"}, has_room=lambda app: app not in ("A4", "A5"),
                          has_program=lambda app: app != "A6", lost={9: "left no end"})
        self.assertEqual(found["idle"], {
            "1": {"why": "place", "where": "etl*"}, "2": {"why": "program", "text": "it is a link"},
            "3": {"why": "refused", "text": "refused 29"}, "4": {"why": "room"}, "5": {"why": "room"},
            "6": {"why": "program", "text": "this agent has no job for A6"}})
        self.assertEqual((found["unknown"], found["trouble"]), ({"9": "left no end"}, "it is gone"))

    def test_a_folder_that_is_wrong_stops_all_but_those_of_others(self):
        found = self.made([row(1, "AA"), row(2, "BB")], needs={"folder": "others may write it", "jobs.toml": "gone"},
                          elsewhere={"BB": "web"}, has_room=lambda app: False)
        self.assertEqual(found["idle"], {"1": {"why": "program", "text": "others may write it"},
                                         "2": {"why": "place", "where": "web"}})
        self.assertEqual(found["trouble"], "gone; others may write it")

    def test_a_report_has_bounds(self):
        found = self.made([row(serial, "AA") for serial in range(1, 9000)], needs={"job AA": "x" * 900},
                          lost={serial: "y" * 900 for serial in range(10000, 12000)})
        self.assertEqual((len(found["idle"]), len(found["unknown"])), (5000, 1000))
        self.assertEqual([len(found["idle"][serial]["text"]) for serial in ("1", "1000", "1001")], [500, 500, 0])
        found = self.made([row(serial, "AA") for serial in range(1, 9000)], has_room=lambda app: False)
        self.assertEqual(set(map(str, found["idle"].values())), {"{'why': 'room'}"})
        self.assertLess(len(json.dumps(found)), 1 << 20)


@mock.patch.object(reports, "EVERY", 0.0)
class Sent(Room):
    """Agents, and what their desk gets."""

    def looked(self, agent, count=1):
        return "".join(self.until(lambda: True, agent) for _ in range(count))

    def test_it_is_sent_once_and_again_after_a_change_or_a_new_start_of_the_desk(self):
        desk = Reported(day_stream({"AA": "", "BB": ""}))
        self.job("AA", self.wait)
        agent = self.agent(desk, most=1, name="etl1")
        self.looked(agent, 4)
        self.assertEqual((len(desk.data), desk.named), (1, {"etl1"}))
        self.assertEqual(desk.last, {"idle": {"2": {"why": "room"}}, "unknown": {}, "trouble": ""})
        desk.digest = ""  # it was started again
        self.looked(agent, 2)
        self.assertEqual((len(desk.data), desk.data[0]), (2, desk.data[1]))
        self.go()
        self.until(lambda: desk.status("AA") == "C" and not agent.state.records, agent)
        self.looked(agent, 2)
        self.assertEqual(desk.last["idle"], {"2": {"why": "program", "text": "this agent has no job for BB"}})
        self.job("BB")
        (self.jobs / "BB").chmod(0o777)
        self.looked(agent, 2)
        self.assertIn(f"{self.jobs}/BB: others than", desk.last["idle"]["2"]["text"])
        (self.jobs / "BB").chmod(0o755)
        self.until(lambda: desk.status("BB") == "C" and not agent.state.records, agent)
        self.looked(agent, 2)
        self.assertEqual(desk.last, {"idle": {}, "unknown": {}, "trouble": ""})

    def test_an_end_that_nobody_knows(self):
        desk = Reported(day_stream({"AA": ""}))
        self.job("AA", f"echo $PPID $$ > {self.room}/pids; {self.wait}")
        agent = self.agent(desk)
        self.until(lambda: len(self.pids()) == 2, agent)
        for pid in self.pids():
            os.kill(pid, signal.SIGKILL)
        self.until(lambda: desk.data and desk.last["unknown"], agent)
        self.assertRegex(desk.last["unknown"]["1"], "^was started by an agent here: its job began at .* left no end$")
        desk.put("cp-fail --app AA --ia 2024-01-01/08.00")
        self.until(lambda: not desk.last["unknown"], agent)

    def pids(self):
        path = self.room / "pids"
        return [int(one) for one in path.read_text(encoding="ascii").split()] if path.exists() else []

    def test_settings_that_are_wrong(self):
        desk = Reported(day_stream({"AA": ""}))
        toml = Path(f"{self.jobs}.toml")
        toml.write_text('[AA]\nwhere = "web"\n', encoding="utf-8")
        toml.chmod(0o644)
        agent = self.agent(desk)
        self.looked(agent, 2)
        self.assertEqual(desk.last, {"idle": {"1": {"why": "place", "where": "web"}}, "unknown": {}, "trouble": ""})
        toml.unlink()
        self.looked(agent, 2)
        self.assertIn(f"{toml}: the file is gone", desk.last["trouble"])
        toml.write_text('[AA]\nwhere = "web"\n', encoding="utf-8")
        toml.chmod(0o644)
        self.looked(agent, 2)
        self.assertEqual(desk.last["trouble"], "")

    def test_what_the_desk_refuses_to_start(self):
        desk = Reported(day_stream({"AA": ""}))
        self.job("AA")
        agent, statement = self.agent(desk), desk.statement

        def refusing(text, key, condition):
            return statement(text.replace("AA", "ZZ"), key, condition)

        with mock.patch.object(desk, "statement", refusing):
            self.looked(agent, 2)
        self.assertEqual(desk.last["idle"]["1"]["why"], "refused")
        self.assertIn("the desk answers `refused", desk.last["idle"]["1"]["text"])

    def test_a_desk_that_does_not_take_it(self):
        desk = Reported(day_stream({"AA": ""}))
        desk.refuses = True
        self.job("AA")
        agent = self.agent(desk)
        said = self.until(lambda: desk.status("AA") == "C" and not agent.state.records, agent)
        self.assertEqual(said.count("the desk didn't accept the agent's report: your role doesn't allow this"), 1)

    def test_a_desk_that_takes_no_reports(self):
        desk = PlainDesk(day_stream({"AA": ""}))
        self.job("AA")
        agent = self.agent(desk)
        said = self.until(lambda: desk.status("AA") == "C" and not agent.state.records, agent)
        self.assertNotIn("report", said)
        self.assertEqual(record.serials(self.logs), [])


if __name__ == "__main__":
    unittest.main()
