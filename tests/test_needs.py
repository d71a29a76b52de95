"""What needs a person, case by case: since when something is ready and why nobody starts it, ends of plans, `roll`,
forecasts, machines and calls, and the facts of a plan and its journal. Each value is worked out by hand."""

import contextlib
import json
import os
import sqlite3
import tempfile
import time
import unittest
from pathlib import Path
from unittest import mock

from support import journals, plans

from opcplan.needs import faults, found, horizon, live_values, loaded, machines, need
from opcplan.needs.facts import (
    DONE, FAILED, PLACE, PROGRAM, REFUSED, ROOM, STOPPED, Agent, Away, Change, Disk, Done, Ends, Extension, Facts, Idle,
    Jump, Live, Roll, Undelivered)
from opcplan.plans import actual, plan_file, plan_name, run_keys
from opcplan.plans.forecast import Expected
from opcplan.plans.waits import Row
from opcplan.rules import moments
from opcplan.rules.horizons import Shortfall

KEY = "agent-etl-1-" + "0a" * 12
NOW = moments.moment_of("2024-01-02/12.00")
DAY = moments.DAY
FAR = Ends(0, NOW // DAY + 90, NOW + 2 * DAY)


def row(serial, status="W", ia=NOW - 60, deadline=NOW + 600, app="PAY", cycle="RC"):
    return Row(serial, app, ia, deadline, cycle, status)


def listed(facts):
    """The needs of facts, by name."""
    return {one.name: one for one in found.of_facts(facts).needs}


class Unstarted(unittest.TestCase):
    def since(self, *, rows=(row(1),), agents=(), **more):
        """Since when row 1 hasn't been started, None if that is no need."""
        facts = Facts(NOW, True, rows, live=Live(agents=tuple(agents), **more.pop("live", {})), **more)
        one = listed(facts).get(f"unstarted:1:{more.get('changes', {}).get(1, Change(0, '', 0)).seq}")
        return None if one is None else one.since

    def test_what_began_it(self):
        self.assertEqual(self.since(), NOW - 60)  # it arrived
        self.assertEqual(self.since(rows=(row(1, ia=NOW - 5),)), NOW - 5)
        self.assertIsNone(self.since(rows=(row(1, ia=NOW - 4),)))
        self.assertEqual(self.since(changes={1: Change(7, "W", NOW - 9)}), NOW - 9)  # it was reset
        self.assertEqual(self.since(changes={1: Change(7, "S", NOW - 9)}), None)  # that isn't its status now
        after = {"done": {2: Done(NOW, NOW - 20), 3: Done(NOW, NOW - 30)}, "done_pairs": [(1, 2), (1, 3)]}
        self.assertEqual(self.since(**after), NOW - 20)  # the last one that it waited for ended
        # the plan was extended in two steps after two days, and the second brought it
        steps = [Extension(NOW - 8, NOW + 900), Extension(NOW - 10, NOW - 70), Extension(NOW - 9000, NOW - 5000)]
        self.assertEqual(self.since(extensions=steps), NOW - 8)
        self.assertEqual(self.since(extensions=steps, rows=(row(1, ia=NOW - 80),)), NOW - 10)
        self.assertEqual(self.since(extensions=steps, rows=(row(1, ia=NOW - 6000),)), NOW - 6000)
        self.assertEqual(self.since(extensions=steps, rows=(row(1, cycle=None),)), NOW - 60)
        self.assertEqual(self.since(added={1: NOW - 6}, rows=(row(1, cycle=None),)), NOW - 6)

    def test_what_has_to_be_there_first(self):
        self.assertIsNone(self.since(live={"accepts_since": NOW - 4}))
        self.assertEqual(self.since(live={"accepts_since": NOW - 5}), NOW - 60)
        self.assertIsNone(self.since(live={"trouble": Away("main", NOW - 9, "the disk is full")}))
        self.assertIsNone(self.since(freed=NOW - 4))
        self.assertIsNone(self.since(agents=[Agent("a", NOW, NOW - 4)]))
        self.assertIsNone(listed(Facts(NOW, False, [row(1)])).get("unstarted:1:0"))  # nobody knows since when

    def test_why(self):
        def text(*idle, gone=()):
            agents = [Agent(f"a{place}", NOW, 0, f"a{place}", {1: one}) for place, one in enumerate(idle)]
            agents += [Agent(name, NOW - 5, 0, name) for name in gone]
            return {name: one.text for name, one in listed(Facts(NOW, True, [row(1)], live=Live(
                agents=tuple(agents)))).items()}

        no_file, refused = Idle(PROGRAM, "/jobs/PAY: no such file"), Idle(REFUSED, "the desk answers `refused 30 1`")
        self.assertIn("isn't started: /jobs/PAY: no such file; it is due", text(no_file)["unstarted:1:0"])
        both = text(no_file, refused)["unstarted:1:0"]
        self.assertIn(": /jobs/PAY: no such file; the desk answers `refused 30 1`; it is due", both)
        self.assertEqual(text(no_file, Idle(ROOM, "")), {})  # one of them starts it when it has a place
        elsewhere = Idle(PLACE, "", "etl-9")
        self.assertIn("`where` in jobs.toml names etl-9", text(elsewhere)["unstarted:1:0"])
        self.assertEqual(set(text(elsewhere, gone=["etl-9"])), {"agent:etl-9"})
        self.assertIn("; 1 of what it should start", text(elsewhere, gone=["etl-9"])["agent:etl-9"])
        self.assertEqual(set(text(elsewhere, gone=["other"])), {"agent:other", "unstarted:1:0"})
        self.assertIn("no agent is known here", text()["unstarted:1:0"])
        self.assertEqual(set(text(gone=["x"])), {"agent:x"})


class Failures(unittest.TestCase):
    def name(self, key, minutes, agents=(Agent("b", NOW, 0, "etl-1"),), serial=1):
        facts = Facts(NOW, True, [row(serial, "E")], changes={serial: Change(9, "E", NOW - minutes, key)},
                      live=Live(agents=agents))
        return set(listed(facts))

    def test_a_try_that_follows(self):
        self.assertEqual(self.name(f"{KEY}-end", 0), {"error:1:9"})
        self.assertEqual(self.name(None, 0), {"error:1:9"})
        for pause, minutes, is_need in ((600, 14, False), (600, 15, True), (601, 15, False), (601, 16, True),
                                        (0, 4, False), (0, 5, True)):
            self.assertEqual(self.name(f"{KEY}.2-again{pause}", minutes), {"error:1:9"} if is_need else set())
        full = (Agent("b", NOW, 0, "etl-1", {7: Idle(ROOM, "")}),)
        self.assertEqual(self.name(f"{KEY}-again0", 60, full), set())
        self.assertEqual(self.name(f"{KEY}-again0", 60, (Agent("b", NOW - 5, 0, "etl-1"),)), {"agent:b"})

    def test_keys(self):
        for text, agent, pause in ((KEY, "etl-1", None), (f"{KEY}-again60", "etl-1", 60), (f"{KEY}.12-reset", "etl-1",
                                                                                         None),
                                   ("agent-" + "0a" * 12 + "-end", "", None)):
            self.assertEqual(run_keys.of_text(text), (agent, pause))
        for text in (None, "", "x", f"{KEY}-again", f"{KEY}-x"):
            self.assertIsNone(run_keys.of_text(text))

    def test_deadlines_and_followers(self):
        rows = [row(1, "E", deadline=NOW + 5), row(2, deadline=NOW - 5, app="BILL"), row(3, app="TAX")]
        listing = found.of_facts(Facts(NOW, True, rows, [(2, 1), (3, 2)]))
        (one,) = listing.needs
        self.assertEqual((one.name, one.level, one.waiting, one.late, one.apps, dict(listing.followers)),
                         ("error:1:0", 1, 2, 1, ("BILL", "PAY"), {2: "error:1:0"}))
        self.assertTrue(one.text.endswith("; it is due 2024-01-02 12.05; 2 wait for it, 1 of them late"), one.text)
        self.assertEqual(listed(Facts(NOW, True, [row(1, "E")]))["error:1:0"].level, 0)


class Risks(unittest.TestCase):
    def test_one_for_a_chain_named_by_the_one_that_is_worst(self):
        rows = [row(1, "S", deadline=NOW + 100), row(2, deadline=NOW + 110, app="BILL"), row(3, app="TAX")]
        ends = {1: Expected(0, (NOW + 101) * 60.0, False, None), 2: Expected(0, (NOW + 130) * 60.0, True, 1),
                3: Expected(0, (NOW + 140) * 60.0, True, 2)}
        facts = Facts(NOW, True, rows, [(2, 1), (3, 2)], expected=ends)
        listing = found.of_facts(facts)
        (one,) = listing.needs
        self.assertEqual((one.name, one.kind, one.level, one.serial, dict(listing.followers)),
                         ("late:2", "risk", 0, 2, {1: "late:2"}))
        self.assertIn("expected to end not before 2024-01-02 14.10; it is blocked; it waits for PAY 2024-01-02 11.00 "
                      "(serial 1), started; 1 more of its chain is at risk", one.text)
        late = found.of_facts(facts._replace(now=NOW + 111))
        self.assertEqual([(one.name, one.kind, one.level) for one in late.needs], [("late:1", "late", 1)])
        self.assertEqual(dict(late.followers), {2: "late:1"})

    def test_levels_of_what_is_late(self):
        for minutes, level in ((1, 1), (15, 1), (29, 1), (30, 2), (60, 3), (120, 4)):
            one = listed(Facts(NOW, True, [row(1, "S", deadline=NOW - minutes)]))["late:1"]
            self.assertEqual((one.level, one.since), (level, NOW - minutes))


class Horizon(unittest.TestCase):
    def kinds(self, left, roll=None, extensions=(), **more):
        """The needs of a current plan that has so many minutes left."""
        ends = FAR._replace(plan_end=NOW + left)
        return {one.kind: one for one in horizon.of_facts(Facts(NOW, True, ends=ends, extensions=extensions, live=Live(
            roll=roll), **more))}

    @staticmethod
    def rolled(ago, end, outcome=DONE, since=0, ahead=2 * DAY, reserve=60):
        return Roll(NOW - ago, outcome, NOW - since, "why", NOW + end, ahead, reserve, DAY)

    def test_a_plan_that_roll_extends(self):
        """INSTALL.md: at 05.30 up to 06.00 two days later, so that at least 24 h 30 min are left."""
        for ago in range(0, DAY + horizon.LATE, 10):
            left = 2 * DAY + 30 - ago
            self.assertEqual(self.kinds(left, self.rolled(ago, left)), {}, ago)
        ago = DAY + horizon.LATE
        one = self.kinds(2 * DAY + 30 - ago, self.rolled(ago, 0))["plan-end"]
        self.assertEqual((one.since, one.level), (NOW - horizon.LATE, 0))
        self.assertIn("in 23 h 30 min, and wasn't extended when that was due", one.text)
        # it ran and reaches so far, by a longer rule: nothing was due
        self.assertEqual(self.kinds(9 * DAY, self.rolled(3 * DAY, 0)), {})
        self.assertEqual([self.kinds(left, self.rolled(9 * DAY, 0))["plan-end"].level for left in (720, 360, 1, 0)],
                         [1, 2, 9, 10])

    def test_what_stops_roll(self):
        one = self.kinds(600, self.rolled(5, 600, STOPPED, 30))["roll"]
        self.assertEqual((one.name, one.level, one.since), ("roll:2024-01-02/22.00", 0, NOW - 30))
        self.assertEqual(one.text, "roll is stopped: why; the current plan ends 2024-01-02 22.00, in 10 h, and nothing "
                         "new starts after that")
        self.assertEqual([self.kinds(600, self.rolled(5, 600, FAILED, since))["roll"].level
                          for since in (59, 60, 120, 240, 480)], [0, 1, 2, 3, 4])
        over = self.kinds(-60, self.rolled(5, -60, FAILED, 30))
        self.assertEqual((set(over), over["roll"].level), ({"roll"}, need.WORST + 1))
        # somebody extended the plan since
        self.assertEqual(self.kinds(2 * DAY, self.rolled(5, 600, STOPPED, 30)), {})

    def test_a_plan_of_which_only_the_journal_is_known(self):
        # it had 24 h 30 min left when it was extended last, and may have an hour less
        by_roll = [Extension(NOW - 1500, NOW + 1410, True), Extension(NOW - 1500 - DAY, NOW - 30, True)]
        self.assertEqual(horizon.time_left(by_roll), 1470 - 60)
        self.assertEqual(self.kinds(1411, extensions=by_roll), {})
        self.assertEqual(set(self.kinds(1410, extensions=by_roll)), {"plan-end"})
        by_hand = [Extension(NOW - 60, NOW + 5 * DAY), Extension(NOW - DAY, NOW + 4 * DAY)]
        self.assertEqual(horizon.time_left(by_hand), 720 - 60)
        self.assertEqual(horizon.time_left([]), 720)
        # two steps of one run count as one
        steps = [Extension(NOW - 9, NOW + 2 * DAY, True), Extension(NOW - 10, NOW + DAY, True),
                 Extension(NOW - DAY, NOW + 100, True)]
        self.assertEqual(horizon.time_left(steps), 110 - 60)

    def test_an_empty_plan(self):
        facts = Facts(NOW, True, ends=Ends(NOW // DAY + 1, NOW // DAY + 90, (NOW // DAY + 1) * DAY))
        (one,) = horizon.of_facts(facts)
        self.assertIn("the current plan is empty: the first `dp-extend` fills it, from 2024-01-03 00.00 on", one.text)

    def test_the_long_term_plan(self):
        def found_at(days, roll=None):
            ends = FAR._replace(last_day=NOW // DAY + days - 1)
            facts = Facts(NOW, True, ends=ends, live=Live(roll=roll))
            return [(one.name, one.level) for one in horizon.of_facts(facts)]

        self.assertEqual(found_at(15), [])
        self.assertEqual(found_at(14), [("long-term-end:2024-01-15", 0)])
        self.assertEqual(found_at(7), [("long-term-end:2024-01-08", 1)])
        self.assertEqual(found_at(0), [("long-term-end:2024-01-01", need.WORST + 1)])
        short = self.rolled(5, 2 * DAY, reserve=10)
        self.assertEqual((found_at(9, short), found_at(8, short)), ([], [("long-term-end:2024-01-09", 0)]))

    def test_definitions_keep_their_names(self):
        today = NOW // DAY
        for last in (today + 90, today + 120):
            (one,) = horizon.of_facts(Facts(NOW, True, ends=FAR, shortfalls=[
                Shortfall("ends", ("MONTH", today + 32, last), "MONTH ends")]))
            self.assertEqual((one.name, one.level), ("definitions:ends:MONTH:2024-02-03", 1))
        over = Shortfall("over", ("PAY", "RC", today, today + 90), "RC is over")
        (one,) = horizon.of_facts(Facts(NOW, True, ends=FAR, shortfalls=[over]))
        self.assertEqual((one.name, one.level), ("definitions:over:PAY:RC:2024-01-02", need.WORST))


class Machines(unittest.TestCase):
    def test_agents(self):
        self.assertEqual(listed(Facts(NOW, live=Live(agents=(Agent("a", NOW - faults.GONE + 1),)))), {})
        agents = [Agent("a", NOW - 5), Agent("b", NOW - 10, trouble="x"), Agent("c", NOW, trouble="jobs.toml: no",
                                                                               trouble_since=NOW - 7)]
        found_ = listed(Facts(NOW, live=Live(agents=tuple(agents))))
        self.assertEqual({name: (one.level, one.since) for name, one in found_.items()},
                         {"agent:a": (0, NOW - 5), "agent:b": (1, NOW - 10), "settings:c": (0, NOW - 7)})
        self.assertEqual(found_["settings:c"].text, "the agent c: jobs.toml: no")

    def test_nodes_desk_disks_and_calls(self):
        live = Live(trouble=Away("main", NOW - 1, "no room"), nodes=(Away("e1", NOW - 4), Away("e2", NOW - 20, "gone")),
                    disks=(Disk("/a", 89.9), Disk("/b", 95.0, NOW), Disk("/c", "no such file")), undelivered=(
                        Undelivered("x-1", "me", NOW - 4, 2, "no"), Undelivered("x-2", "me", NOW - 20, 3, "no")))
        self.assertEqual({name: one.level for name, one in listed(Facts(NOW, live=live)).items()},
                         {"desk:main": 0, "etcd:e2": 2, "disk:/b": 1, "disk:/c": 0, "call:x-2": 2})
        (one,) = machines.of_calls(live.undelivered[1:], NOW)
        self.assertEqual(one.text, "a call to me isn't delivered after 20 min and 3 tries: no")

    def test_live_facts_pass_as_json(self):
        live = Live(5, Away("main", 1, "x"), (Agent("a", 1, 2, "b", {7: Idle(PLACE, "", "e*")}, {8: "lost"}, "t", 3),),
                    Roll(1, DONE, 1, "", 2, 3, 4, 5), (Undelivered("i", "t", 1, 2, "w"),),
                    (Away("n", 3),), (Disk("/x", "why"),), "main")
        self.assertEqual(live_values.of_values(json.loads(json.dumps(live_values.values(live)))), live)

    def test_a_need_passes_as_json(self):
        for one in listed(Facts(NOW, True, [row(1, "E"), row(2, "S", deadline=NOW - 9)], [], ends=FAR._replace(
                plan_end=NOW - 5))).values():
            self.assertEqual(need.of_values(json.loads(json.dumps(one.values()))), one)
            self.assertNotIn("{plan}", one.advice)
        for wrong in ({"kind": "x"}, {"since": "today"}, {"level": "x"}):
            with self.assertRaises(ValueError):
                need.of_values({**one.values(), **wrong})

    def test_names_of_plans(self):
        paths = ("/var/lib/opcplan/main/plan.db", "/srv/pay.db", "/plan.db")
        self.assertEqual([plan_name.of_path(path) for path in paths], ["main", "pay", "plan"])


# zones whose clock is set forth from 02.00 to 03.00, or back from 03.00 to 02.00, on 2024-01-02 (universal time 02.00)
FORTH, BACK = "NOR0SUM,M1.1.2/2,M12.5.0/3", "NOR0SUM,M12.5.0/2,M1.1.2/3"
JUMPS = {FORTH: Jump(NOW - 600, NOW - 540), BACK: Jump(NOW - 540, NOW - 600)}


class Clocks(unittest.TestCase):
    """Nights on which the clock is set. LEDGER of Monday's plan arrives at 18.00, and REPORT waits for it."""

    def zone(self, text):
        """Has this process live in a zone."""
        before = os.environ.get("TZ")
        self.addCleanup(time.tzset)
        self.addCleanup(lambda: os.environ.pop("TZ") if before is None else os.environ.update(TZ=before))
        os.environ["TZ"] = text
        time.tzset()

    def needs(self, plan, ended, clock):
        """The needs at a moment of universal time, of which LEDGER's last status is from a moment of it."""
        serials = {app: serial for serial, app in plan.db.execute("SELECT serial, app FROM cp_row")}
        with tempfile.TemporaryDirectory() as room:
            path = journals.write(Path(room) / "journal", [(serials["LEDGER"], "LEDGER", "2024-01-01/18.00", "C",
                                                            "2024-01-02/01.00")])
            with contextlib.closing(sqlite3.connect(path)) as db:
                db.execute("UPDATE happened SET at = ?", (f"2024-01-02T{ended}:00.000Z",))
                db.commit()
            seconds = actual.seconds_of(f"2024-01-02T{clock}:07.000Z")
            with mock.patch.object(loaded.time, "time", return_value=seconds):
                facts, why = loaded.of_plan(plan, str(path), actual.moment(seconds))
        self.assertEqual(why, "")
        return facts, listed(facts).get(f"unstarted:{serials['REPORT']}:0")

    def test_five_minutes_are_minutes_that_pass(self):
        """LEDGER ends two minutes before the clock is set: 01:58 of universal time. REPORT is ready then."""
        for zone, jump in JUMPS.items():
            self.zone(zone)
            with self.subTest(zone), plan_file.opened(plans.of_worked("monday")) as plan:
                facts, one = self.needs(plan, "01:58", "02:02")
                self.assertEqual((facts.jump, one), (jump, None))
                facts, one = self.needs(plan, "01:58", "02:03")
                self.assertEqual(facts.now - one.since, 5)
                facts, _ = self.needs(plan, "01:58", "01:59")
                self.assertIsNone(facts.jump)
        self.assertEqual([JUMPS[FORTH].passed(NOW - minutes) for minutes in (601, 600, 590, 541, 540, 530)],
                         [NOW - minutes for minutes in (541, 540, 540, 540, 540, 530)])
        self.assertEqual([JUMPS[BACK].passed(NOW - minutes) for minutes in (601, 600, 541, 540, 530)],
                         [NOW - minutes for minutes in (661, 660, 601, 540, 530)])

    def test_what_arrives_in_an_hour_that_is_left_out_arrives_behind_it(self):
        """At 02.30, which the clock doesn't show on that day: it is ready at 03.00."""
        now = NOW - 540  # 03.00
        facts = Facts(now, True, [row(1, ia=now - 30)], jump=JUMPS[FORTH])
        self.assertEqual(listed(facts), {})
        self.assertEqual(listed(facts._replace(now=now + 4)), {})
        self.assertEqual(listed(facts._replace(now=now + 5))["unstarted:1:0"].since, now)

    def test_a_clock_that_is_set_back_delays_no_call(self):
        """What the journal has of a time that hasn't come says nothing; a need of it is called at once."""
        facts = Facts(NOW, True, [row(1, "E"), row(2)], changes={1: Change(7, "E", NOW + 90)}, freed=NOW + 60,
                      done={3: Done(NOW, NOW + 90)}, done_pairs=[(2, 3)])
        found_ = listed(facts)
        self.assertEqual({name: one.since for name, one in found_.items()},
                         {"error:1:7": NOW + 90, "unstarted:2:0": NOW - 60})


class Loaded(unittest.TestCase):
    """The facts of Monday's plan: LEDGER complete at 02.10 and REPORT, which waits for it."""

    def test_a_journal(self):
        with tempfile.TemporaryDirectory() as room, plan_file.opened(plans.of_worked("monday")) as plan:
            serials = {app: serial for serial, app in plan.db.execute("SELECT serial, app FROM cp_row")}
            ledger, report = serials["LEDGER"], serials["REPORT"]
            path = journals.write(Path(room) / "journal", [
                (ledger, "LEDGER", "2024-01-01/18.00", "S", "2024-01-02/01.00"),
                (ledger, "LEDGER", "2024-01-01/18.00", "C", "2024-01-02/02.10")])
            now = moments.moment_of("2024-01-02/02.20")
            facts, why = loaded.of_plan(plan, str(path), now)
            self.assertEqual((why, facts.is_told, facts.done_pairs), ("", True, [(report, ledger)]))
            self.assertEqual(facts.done[ledger].ended, moments.moment_of("2024-01-02/02.10"))
            one = listed(facts)[f"unstarted:{report}:0"]
            self.assertEqual(one.since, moments.moment_of("2024-01-02/02.10"))
            facts, why = loaded.of_plan(plan, str(Path(room) / "none"), now)
            self.assertIn("there is no such journal", why)
            self.assertEqual((facts.is_told, facts.changes), (False, {}))
            self.assertEqual(loaded.of_plan(plan, None, now)[1], "there is no journal")


if __name__ == "__main__":
    unittest.main()
