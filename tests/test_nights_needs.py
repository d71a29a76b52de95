"""What needs a person at night, each alone and two at once: who is called, when, how often, and when it is over.

The calls are worked out by hand from the rules of docs/use/MONITORING.md and the plan of support/nights/centre.py."""

import difflib
import functools
import itertools
import tempfile
import unittest
from pathlib import Path

from support import desks
from support.nights import centre, night as nights
from support.nights.world import BY_ITS_UNIT, EACH_MINUTE, NIGHT

from opcplan.rules import moments

FIRST, DAY = "2026-01-01", "2026-01-04"


class OtherCalls(AssertionError):
    """A night has other calls than it has to have."""


@functools.cache
def saved_morning():
    """The healthy morning from which all nights of a file begin."""
    folder = tempfile.TemporaryDirectory(prefix="nights-", dir=desks.IN_MEMORY)
    unittest.addModuleCleanup(saved_morning.cache_clear)
    unittest.addModuleCleanup(folder.cleanup)
    room = Path(folder.name)
    return nights.Saved(room / "room", room / "saved", moments.day_of(FIRST), moments.day_of(DAY))


class Case(unittest.TestCase):
    """Nights that begin on one healthy morning. `plants` are bugs that the desk gets."""

    plants = ()

    @classmethod
    def setUpClass(cls):
        if cls is Case or (why := desks.why_not()):
            raise unittest.SkipTest("" if cls is Case else why)
        cls.saved = saved_morning()

    def night(self, begin, end, pace=NIGHT):
        """A night that is looked at often from one time to another."""
        found = self.saved.night(self.plants)
        self.addCleanup(found.close)
        found.between(begin, end, pace)
        return found

    def check(self, night, *calls, until=None):
        """Asks that these calls come, and no others. Those of one minute may come in any order."""
        found = night.goes_on(until)
        if in_order(found) != in_order(calls):
            others = "".join(f"\n  {line}" for line in difflib.ndiff(in_order(calls), in_order(found)))
            raise OtherCalls(f"{others}\n{night.said.getvalue()[-3000:]}")


class Errors(Case):
    """ORDERS arrives at 20.00, takes 20 minutes and is due at 21.00; CLEARING waits for it from 21.00 on. HELLO arrives
    at 00.05, takes a minute and has three tries, with pauses of one and of five minutes."""

    def test_a_job_that_fails_and_is_reset(self):
        night = self.night("20.00", "21.00")
        night.fates["ORDERS"] = 20, 1
        night.on("20.35", night.fates.clear)
        night.on("20.35", night.send, "reset", "ORDERS")
        self.check(night, "20.20 new error ORDERS", "20.35 over error ORDERS")

    def test_it_is_worse_once_its_deadline_passes(self):
        night = self.night("20.00", "22.30")
        night.fates["ORDERS"] = 20, 1
        night.on("22.00", night.send, "complete", "ORDERS")
        self.check(night, "20.20 new error ORDERS", "21.01 worse error ORDERS", "22.00 over error ORDERS",
                   until="08.30")

    def test_a_second_failure_between_two_looks_is_a_second_need(self):
        night = self.night("20.00", "21.00")
        night.fates["ORDERS"] = 20, 1
        key = f"--app ORDERS --ia {DAY}/20.00"
        night.on("20.25", night.by_hand, f"cp-reset {key}\ncp-start {key}\ncp-fail {key}\n")
        night.on("20.35", night.fates.clear)
        night.on("20.35", night.send, "reset", "ORDERS")
        self.check(night, "20.20 new error ORDERS", "20.25 new error ORDERS", "20.25 over error ORDERS",
                   "20.35 over error ORDERS")

    def test_tries_that_mend_themselves_call_nobody(self):
        night = self.night("00.00", "00.30")
        night.fates |= {("HELLO", 1): (1, 1), ("HELLO", 2): (1, 1)}
        self.check(night)
        self.assertEqual(night.said.getvalue().count("HELLO 2026-01-05/00.05 (serial 5): ended: status 1"), 2)

    def test_the_last_try_fails(self):
        """From 00.05 to 00.06, from 00.07 to 00.08, and from 00.13 to 00.14."""
        night = self.night("00.00", "01.00")
        night.fates["HELLO"] = 1, 1
        night.on("00.30", night.fates.clear)
        night.on("00.30", night.send, "reset", "HELLO")
        self.check(night, "00.14 new error HELLO", "00.30 over error HELLO")


class Unstarted(Case):
    """SCRATCH arrives at 12.00 and takes 15 minutes; five minutes after it was ready somebody is called."""

    CALLS = "12.05 new unstarted SCRATCH", "12.20 over unstarted SCRATCH"

    def test_no_file(self):
        night = self.night("11.00", "13.00")
        night.on("11.00", night.remove_job, "SCRATCH")
        night.on("12.20", night.write_job, "SCRATCH")
        self.check(night, *self.CALLS)

    def test_a_wrong_command(self):
        night = self.night("11.00", "13.00")
        night.on("11.00", night.write_jobs_toml, '[SCRATCH]\ncommand = ["/nowhere/scratch"]\n')
        night.on("12.20", night.write_jobs_toml, "")
        self.check(night, *self.CALLS)

    def test_no_agent_for_its_place(self):
        night = self.night("11.00", "13.00")
        night.on("11.00", night.write_jobs_toml, '[SCRATCH]\nwhere = "etl*"\n')
        night.on("12.20", night.write_jobs_toml, "")
        self.check(night, *self.CALLS)

    def test_an_agent_that_is_gone(self):
        """At 12.05 while SCRATCH runs. MIDDAY arrives at 12.30 and waits for it: the call about the agent counts it."""
        night = self.night("12.00", "13.30")
        night.on("12.05", night.stop_agent)
        night.on("12.50", night.start_agent)
        self.check(night, "12.10 new agent", "12.15 worse agent", "12.25 worse agent", "12.45 worse agent",
                   "12.50 over agent")

    def test_an_agent_that_goes_for_less_than_five_minutes(self):
        night = self.night("12.00", "13.30")
        night.on("12.05", night.stop_agent)
        night.on("12.09", night.start_agent)
        self.check(night)

    def test_all_places_are_taken_by_what_runs(self):
        """ORDERS and CARDS at 20.00, one at a time: nothing is wrong."""
        night = self.night("19.50", "21.30")
        night.set_options("OPCPLAN_AGENT_OPTIONS", "--most 1")
        night.on("19.50", night.start_agent)
        self.check(night)


class Unknown(Case):
    """POST begins at 23.00, takes 40 minutes and is due at 01.00."""

    def test_a_runner_that_is_killed(self):
        night = self.night("23.00", "00.30")
        night.on("23.20", night.kill_runner, "POST")
        night.on("23.40", night.send, "complete", "POST")
        self.check(night, "23.20 new unknown POST", "23.40 over unknown POST")

    def test_a_machine_that_is_booted(self):
        """It is down for ten minutes; nobody is called about the agent, which contacts its desk a little later."""
        night = self.night("23.00", "00.30")
        night.on("23.20", night.go_down)
        night.on("23.30", night.come_up)
        night.on("23.40", night.send, "complete", "POST")
        self.check(night, "23.30 new unknown POST", "23.40 over unknown POST", until="08.30")


class Late(Case):
    def test_one_call_for_a_chain(self):
        """CLEARING is due at 22.30, and ends at 23.50 in place of 21.25. Then MATCH, due at 23.30, takes 20 minutes,
        and POST comes in time."""
        night = self.night("22.00", "01.00")
        night.fates["CLEARING"] = 170, 0
        self.check(night, "22.45 new late CLEARING", "23.00 worse late CLEARING", "23.30 worse late CLEARING",
                   "00.10 over late CLEARING", until="08.30")
        (new,) = [one.values for one in night.heard if one.minute == night.minute("22.45")]
        # MATCH, POST, INTEREST, LEDGER, STATEMENTS, PRINT, BALANCE, LIMITS, RISK, REPORT, BACKUP
        self.assertIn("; 11 more in its chain", new["events"][0]["text"])

    def test_a_night_looked_at_every_30_seconds(self):
        """The same chain, and a desk that is gone from 13.00 to 13.25: the calls are those of other nights, in which
        the watch looks less often."""
        night = self.night("12.55", "13.30", BY_ITS_UNIT)
        night.between("22.40", "23.35", BY_ITS_UNIT)
        night.on("13.00", night.stop_desk)
        night.on("13.25", night.start_desk)
        night.fates["CLEARING"] = 170, 0
        self.check(night, "13.05 new desk", "13.10 worse desk", "13.20 worse desk", "13.25 over desk",
                   "22.45 new late CLEARING", "23.00 worse late CLEARING", "23.30 worse late CLEARING", until="23.40")

    def test_a_chain_at_risk(self):
        """STOCK and PRICES are due at 07.30, and PRICES usually takes 10 minutes. STOCK ends at 07.25 in place of
        06.10, and PRICES takes 3 minutes then."""
        night = self.night("07.00", "08.00", EACH_MINUTE)
        night.fates |= {"STOCK": (85, 0), "PRICES": (3, 0)}
        self.check(night, "07.21 new risk PRICES", "07.28 over risk PRICES")


class Ends(Case):
    def test_roll_is_stopped(self):
        """MIDDAY fails at 12.55, and is due at 15.00. `roll` runs at 05.30, and then every ten minutes."""
        night = self.night("12.30", "15.30")
        night.between("05.00", "07.00")
        night.set_options("OPCPLAN_ROLL_OPTIONS", "--at 06.00 --stop-on error")
        night.fates["MIDDAY"] = 25, 1
        night.on("06.40", night.send_of, "complete", "MIDDAY", f"{DAY}/12.30")
        self.check(night, "12.55 new error MIDDAY", "15.01 worse error MIDDAY", "05.30 new roll", "06.30 worse roll",
                   "06.40 over error MIDDAY", "06.40 over roll")

    def test_the_timer_is_off(self):
        night = self.night("05.00", "08.30")
        night.is_timed = False
        night.on("08.00", night.roll)
        self.check(night, "06.30 new plan-end", "08.00 over plan-end")

    def test_the_long_term_plan_ends_soon(self):
        """It has eleven days, and somebody extends the plans by hand."""
        first = moments.day_of(FIRST)
        with tempfile.TemporaryDirectory(prefix="nights-", dir=desks.IN_MEMORY) as folder:
            world = nights.first_day(Path(folder) / "room", first, nights.MORNING, 10,
                                     lambda world: world.by_hand("dp-extend --to 2026-01-03/06.00\n"))
            self.addCleanup(world.close)
            world.at(first * moments.DAY + 540, lambda: world.by_hand("ltp-extend --to 2026-03-31\n"))
            world.run_to(first * moments.DAY + 550)
            world.close()
        self.assertEqual([line for one in world.heard for line in nights.lines(one)],
                         ["08.30 new long-term-end", "09.00 over long-term-end"])

    def test_definitions_end(self):
        """HELLO has a run cycle that ends before the long-term plan does."""
        night = self.night("12.30", "14.30")
        night.on("13.00", night.by_hand, cycle_of_hello("2026-01-25"))
        night.on("14.00", night.by_hand, cycle_of_hello(""))
        self.check(night, "13.00 new definitions", "14.00 over definitions")


class Machines(Case):
    def test_a_desk_that_is_gone(self):
        night = self.night("12.55", "14.30")
        night.on("13.00", night.stop_desk)
        night.on("13.50", night.start_desk)
        self.check(night, "13.05 new desk", "13.10 worse desk", "13.20 worse desk", "13.40 worse desk",
                   "13.50 over desk")

    def test_a_disk_that_is_full(self):
        """To 92% and 96%, by a rule from 90% on: 4% is less than half of the free space of the rule."""
        night = self.night("12.55", "14.30")
        night.on("13.00", night.use_disk, 92)
        night.on("13.30", night.use_disk, 96)
        night.on("14.00", night.use_disk, 50)
        self.check(night, "13.00 new disk", "13.30 worse disk", "14.00 over disk")

    def test_settings_that_are_faulty(self):
        night = self.night("12.55", "14.30")
        night.on("13.00", night.write_jobs_toml, "[SCRATCH]\ntries = 0\n")
        night.on("13.20", night.write_jobs_toml, "")
        self.check(night, "13.00 new settings", "13.20 over settings")


class Away(Case):
    """The watch is away. ORDERS and CARDS arrive at 20.00, take 20 and 30 minutes, and are due at 21.00 and 21.30."""

    def test_the_watch_is_away_while_something_comes_and_goes(self):
        """ORDERS fails at 20.20, a second time at 20.26, and is reset at 20.30; CARDS fails at 20.30. The watch is away
        from 20.25 to 20.35: the second failure is called by nobody."""
        night = self.night("20.00", "21.00")
        night.fates |= {"ORDERS": (20, 1), "CARDS": (30, 1)}
        key = f"--app ORDERS --ia {DAY}/20.00"
        night.on("20.25", night.stop_watch)
        night.on("20.26", night.by_hand, f"cp-reset {key}\ncp-start {key}\ncp-fail {key}\n")
        night.on("20.30", night.fates.pop, "ORDERS")
        night.on("20.30", night.send, "reset", "ORDERS")
        night.on("20.35", night.start_watch)
        night.on("20.40", night.fates.clear)
        night.on("20.40", night.send, "reset", "CARDS")
        self.check(night, "20.20 new error ORDERS", "20.35 over error ORDERS", "20.35 new error CARDS",
                   "20.40 over error CARDS")

    def test_a_watch_begins_without_its_state(self):
        """ORDERS fails at 20.20. The agent goes at 20.25, so the watch, which begins at 20.40, finds it gone for 15
        minutes. What was called before is called once more."""
        night = self.night("20.00", "21.00")
        night.fates["ORDERS"] = 20, 1
        night.on("20.25", night.stop_watch)
        night.on("20.25", night.stop_agent)
        night.on("20.40", night.lose_state)
        night.on("20.40", night.start_watch)
        night.on("20.50", night.send, "complete", "ORDERS")
        night.on("20.50", night.start_agent)
        self.check(night, "20.20 new error ORDERS", "20.40 new error ORDERS", "20.40 new agent", "20.45 worse agent",
                   "20.50 over error ORDERS", "20.50 over agent")


SECOND = """
[who.second]
command = ["/usr/bin/second"]

[[rule]]
on = "call"
call = "second"
"""


class Undelivered(Case):
    """`log`, the page's receiver, can't be reached from 20.10 to 20.40. `second` is called about calls that aren't
    delivered, and so is `log`, once it can be reached."""

    def test_who_is_called_in_place_of_somebody(self):
        """ORDERS fails at 20.20, so the call to `log` isn't delivered for 5 minutes at 20.25, for 10 at 20.30, and for
        20 at 20.40. The watch is begun anew at 20.35. It tries at once, and then after pauses of 10, 20, 40, 80 and 160
        seconds, which end between two looks: at 20.35.30, 20.36, 20.37, 20.38.30 and 20.41.30. The look after that
        finds it delivered, and the desk has that from the next one, at 20.42.30."""
        night = self.night("20.05", "20.55", BY_ITS_UNIT)
        night.write_rules(night.files.printed(nights.RULES) + SECOND)
        night.add_receiver("second")
        night.start_watch()
        night.on("20.10", night.lose_receiver)
        night.fates["ORDERS"] = 20, 1
        night.on("20.35", night.stop_watch)
        night.on("20.35", night.start_watch)
        night.on("20.40", night.find_receiver)
        night.on("20.50", night.send, "complete", "ORDERS")
        self.check(night, "20.25 new call to second", "20.30 worse call to second", "20.40 worse call to second",
                   "20.41 new error ORDERS", "20.41 new call", "20.42 over call", "20.42 over call to second",
                   "20.50 over error ORDERS")


class TwoAtOnce(Case):
    def test_a_job_fails_while_the_desk_is_gone(self):
        """SCRATCH ends at 12.15; the agent reports it at 12.30."""
        night = self.night("12.00", "13.30")
        night.fates["SCRATCH"] = 15, 1
        night.on("12.10", night.stop_desk)
        night.on("12.30", night.start_desk)
        night.on("12.40", night.fates.clear)
        night.on("12.40", night.send, "reset", "SCRATCH")
        self.check(night, "12.15 new desk", "12.20 worse desk", "12.30 over desk", "12.30 new error SCRATCH",
                   "12.40 over error SCRATCH")

    def test_two_jobs_fail_in_one_minute(self):
        night = self.night("20.00", "21.00")
        night.fates |= {"ORDERS": (20, 1), "CARDS": (20, 1)}
        night.on("20.35", night.fates.clear)
        night.on("20.35", night.send, "reset", "ORDERS")
        night.on("20.35", night.send, "reset", "CARDS")
        self.check(night, "20.20 new error CARDS", "20.20 new error ORDERS", "20.35 over error CARDS",
                   "20.35 over error ORDERS")

    def test_an_agent_is_gone_while_a_disk_is_full(self):
        night = self.night("12.00", "13.30")
        night.on("12.05", night.stop_agent)
        night.on("12.10", night.use_disk, 92)
        night.on("12.20", night.start_agent)
        night.on("12.30", night.use_disk, 50)
        self.check(night, "12.10 new agent", "12.10 new disk", "12.15 worse agent", "12.20 over agent",
                   "12.30 over disk")

    def test_an_error_beside_a_late_chain(self):
        night = self.night("21.00", "01.00")
        night.fates |= {"CLEARING": (170, 0), "HELLO": (1, 1)}
        night.on("00.30", night.fates.clear)
        night.on("00.30", night.send, "complete", "HELLO")
        self.check(night, "22.45 new late CLEARING", "23.00 worse late CLEARING", "23.30 worse late CLEARING",
                   "00.10 over late CLEARING", "00.14 new error HELLO", "00.30 over error HELLO")


def in_order(calls):
    """Calls with those of one minute in the order of their letters."""
    return [line for _, lines in itertools.groupby(calls, lambda line: line[:5]) for line in sorted(lines)]


def cycle_of_hello(last):
    """The page's run cycle of HELLO with a last day of its validity."""
    return centre.block("run-cycles", [f"HELLO,DAILY,N,DAY,3,1,{FIRST},{last},00.05,0,23.00"]) + "ltp-modify-all\n"


if __name__ == "__main__":
    unittest.main()
