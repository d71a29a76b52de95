"""What needs a person on the page: the page draws the one list as it came, and judges nothing itself.

What always holds: the page has one entry for each need of the list, under its name and in its order, with its text, and
with what to do first unless the next one says the same. The entry of a need that is about an occurrence leads to that
row; opened, it has the rows that the need counts, and no others. What the page draws is compared with what GET /status
has, for every kind of need; node runs the scripts of the page."""

import json
import shutil
import subprocess
import tempfile
import unittest
from pathlib import Path

from support import TOP, data_centre, journals, page_reader as read, plans

from opcplan.desk import needs
from opcplan.needs import need
from opcplan.needs.facts import STOPPED, Agent, Away, Disk, Live, Roll, Undelivered
from opcplan.plans import plan_file
from opcplan.rules import moments
from opcplan.webpage import page_data, page_html

from test_desk_status import TWO
from test_reaches import BASE, EXTEND

NOW = moments.moment_of(data_centre.NOW)
PARTS = ["model.js", "words.js", "now.js", "day.js", "needs.js"]
# what a desk knows besides the plan and its journal
LIVE = Live(
    accepts_since=NOW - 10_000, trouble=Away("main", NOW - 30, "the disk is full"),
    agents=(Agent("batch", NOW - 20), Agent("etl", NOW, trouble="jobs.toml: it is missing", trouble_since=NOW - 7)),
    roll=Roll(NOW - 60, STOPPED, NOW - 60, "PAY is in error", moments.moment_of("2026-11-26/00.00"), 2880, 60, 1440),
    undelivered=(Undelivered("x-1", "night", NOW - 20, 3, "no answer"),), nodes=(Away("http://n1", NOW - 9),),
    disks=(Disk("/var/lib/<b>opcplan</b>", 95.0, NOW - 3),), plan="main")
OLD_DESK = "This desk is older than this page, and doesn’t list what needs a person: reload the page."


def drawn(data, driver, parts=(), **given):
    """What the page's parts show of its data, as a driver in JavaScript prints it."""
    text = f"const GIVEN = {page_html.data_text({'data': data, **given})};\n"
    text += (TOP / "tests" / "support" / "page_dom.js").read_text(encoding="utf-8")
    text += page_html.joined(PARTS) + "".join(parts)
    asked = subprocess.run(["node", "-"], input=f"{text}\n{{ {driver} }}\n", capture_output=True, encoding="utf-8",
                           check=False)
    if asked.returncode:
        raise AssertionError(asked.stderr[-3000:])
    return json.loads(asked.stdout)


def status_of(path, now, journal=None, live=Live()):
    """What GET /status has of a plan, as JSON."""
    with plan_file.opened(path) as plan:
        return json.loads(json.dumps(needs.of_plan(plan, journal, now, live)))


@unittest.skipUnless(shutil.which("node"), "there is no node here: Debian's package nodejs has it")
class Drawn(unittest.TestCase):
    """The parts of the page, run by node."""

    maxDiff = None

    @classmethod
    def setUpClass(cls):
        cls.centre = str(plans.of_stream(data_centre.whole()))

    def check(self, found, listed):
        """Asks that what is drawn is the list."""
        entries, wanted = found["entries"], listed["needs"]
        self.assertEqual([one["name"] for one in entries], [one["name"] for one in wanted])
        self.assertEqual([one["serial"] for one in entries], [one["serial"] for one in wanted])
        self.assertEqual(found["head"].split(), ["Needs", "you", *([str(len(wanted))] if wanted else [])])
        for place, (entry, one) in enumerate(zip(entries, wanted, strict=True)):
            self.assertEqual(sorted(entry["counts"]), sorted(
                int(serial) for serial, name in listed["followers"].items() if name == one["name"]))
            own = "" if one["serial"] is None else \
                f"{one['app']} {one['ia'].replace('/', ' ')} (serial {one['serial']}) "
            text = one["text"].replace("`", "")
            self.assertEqual(own + entry["text"], text if own else text[0].upper() + text[1:])
            is_last = wanted[place + 1:place + 2] == [] or wanted[place + 1]["advice"] != one["advice"]
            self.assertEqual(entry["first"], [f"First: {one['advice'].replace('`', '')}."] if is_last else [])
            self.assertEqual(entry["look"].split()[2:],
                             ["over"] if one["level"] > need.WORST else ["worse"] if one["level"] else [])
        counted = [serial for entry in entries for serial in (*entry["counts"], entry["serial"])]
        self.assertFalse(set(counted) & set(found["beside"]), "a row that is in the list is nowhere else")
        return {one["kind"] for one in wanted}

    def live(self, data, driver, **own):
        """What the parts of the live page show."""
        desk = {"tag": "a-5", "stands": True, "zone": 0, **own}
        parts = ["const desk = GIVEN.desk, live = { isOld: false, isFetching: false };\n",
                 page_html.joined(["live_needs.js"])]
        return drawn(data, driver, parts, desk=desk)

    def test_every_kind_of_need(self):
        """A night of the data centre as its desk tells of it, and a plan of two applications with a journal."""
        kinds, path = set(), self.centre
        with tempfile.TemporaryDirectory() as room:
            small = plans.of_stream(TWO)
            serial, = read.ask(small, "SELECT serial FROM cp_row WHERE app = 'PAY' AND status = 'C'")[0]
            key = (serial, "PAY", "2024-01-06/08.00")
            journal = journals.write(Path(room) / "journal", [(*key, "S", "2024-01-06/08.00"),
                                                              (*key, "C", "2024-01-06/11.00")])
            started, = read.ask(path, "SELECT serial FROM cp_row WHERE status = 'S' LIMIT 1")[0]
            batch, etl = LIVE.agents
            live = LIVE._replace(agents=(batch, etl._replace(unknown={started: "its job left no end"})))
            worlds = [(path, NOW, None, live), (path, NOW + 1080, None, Live()), (path, NOW - 1440, None, LIVE),
                      (small, moments.moment_of("2024-01-07/07.30"), str(journal), Live()),
                      (plans.of_stream(BASE + EXTEND), moments.moment_of("2027-01-05/12.00"), None, Live())]
            for plan, now, own, known in worlds:
                listed = status_of(plan, now, own, known)
                data = page_data.data_of(str(plan), now, has_needs=False)
                found = self.live(data, "needed.list = GIVEN.listed; drawNeeds(); console.log(JSON.stringify(shown()))"
                                  .replace("GIVEN.listed", page_html.data_text(listed)))
                kinds |= self.check(found, listed)
        self.assertEqual(kinds, set(need.KINDS))

    def test_page_of_a_file_has_the_list_of_a_desk_over_it(self):
        for now in (NOW, NOW - 1440, NOW + 1080):
            path = self.centre
            data, listed = page_data.data_of(path, now), status_of(path, now)
            self.assertEqual(json.loads(json.dumps(data["needs"])), {
                **{name: listed[name] for name in ("needs", "followers", "is_whole")}, "lacks": "there is no journal"})
            found = drawn(data, "drawNeeds(); console.log(JSON.stringify(shown()))")
            self.assertIn("error", self.check(found, listed))
            self.assertEqual(found["said"], ["Made from the plan’s file alone: there is no journal. A desk lists "
                                             "agents, machines and calls too."])

    def test_what_is_filtered_hidden_cut_or_empty(self):
        path = self.centre
        data = page_data.data_of(path, NOW)
        late = next(one for one in data["needs"]["needs"] if one["kind"] == "late")
        driver = """const found = [], step = () => { drawNeeds(); found.push(shown()); };
            view.find = [GIVEN.word]; step();
            view.find = ['NOSUCH']; step();
            view.find = []; needed.list.is_whole = false; step();
            Object.assign(needed.list, { needs: [], followers: {}, is_whole: true }); step();
            D.plan.created = false; step();
            console.log(JSON.stringify(found))"""
        one, none, cut, empty, gone = drawn(data, driver, word=late["app"])
        self.assertEqual([entry["name"] for entry in one["entries"]], [late["name"]])
        self.assertEqual((none["entries"], none["said"][0]), ([], "None of these needs a person."))
        self.assertEqual(cut["said"][0], f"The list has the {len(data['needs']['needs'])} worst; there are more.")
        self.assertEqual((empty["entries"], empty["said"][0], empty["hidden"]), ([], "Nothing needs a person.", False))
        self.assertTrue(gone["hidden"])

    def test_a_row_that_the_page_has_not_got_is_no_button(self):
        """The list may be newer than the rows: a row that came has no button, nor has one whose serial is another's."""
        path = self.centre
        data = page_data.data_of(path, NOW)
        first, second = data["needs"]["needs"][:2]
        text = first["text"].replace(f"(serial {first['serial']})", "(serial 999999)")
        first.update(serial=999_999, text=text)
        second.update(app="OTHER", text=second["text"].replace(str(second["app"]), "OTHER"))
        found = drawn(data, "drawNeeds(); console.log(JSON.stringify(shown()))")["entries"]
        self.assertEqual([one["serial"] for one in found[:2]], [None, None])
        self.assertEqual(text, found[0]["text"])
        self.assertEqual(found[0]["named"], [])

    def test_rows_that_a_text_names_are_buttons(self):
        path = self.centre
        data = page_data.data_of(path, NOW)
        serial, app, ia = read.ask(path, "SELECT serial, app, ia FROM cp_row WHERE status = 'C' LIMIT 1")[0]
        moment = moments.moment_text(ia)
        data["needs"]["needs"][0]["text"] += f"; it waits for {app} {moment} (serial {serial}), and not for " \
            f"OTHER {moment} (serial {serial})"
        found = drawn(data, "drawNeeds(); console.log(JSON.stringify(shown()))")["entries"][0]
        self.assertEqual(found["named"], [serial])
        self.assertIn(f"and not for OTHER {moment} (serial {serial})", found["text"])

    def test_what_the_desk_answers(self):
        """The list that a desk sends is drawn, and the page says how it belongs to its rows, or why there is none."""
        path = self.centre
        listed = status_of(path, NOW)
        steps = [
            ("the first", {"body": listed, "tag": '"a-5"'}, "As of 06.00."),
            ("an older one", {"body": listed, "tag": 'W/"a-4"'}, "As of 06.00, before the last change."),
            ("of another log", {"body": listed, "tag": '"b-9"'}, "As of 06.00, before the last change."),
            ("a newer one", {"body": listed, "tag": '"a-6"'}, "As of 06.00, newer than the rows."),
            ("without a tag", {"body": listed, "tag": None}, "As of 06.00."),
            ("none", {"status": 503, "text": "the desk can't copy the plan\n"},
             "The list can’t be fetched: the desk can't copy the plan. As of 06.00."),
            ("no answer", {"gone": True}, "The list can’t be fetched: fetch failed. As of 06.00."),
            ("a desk that knows no such path", {"status": 404, "text": "404"}, f"{OLD_DESK} As of 06.00."),
            ("a desk that has no list", {"body": {"errors": []}, "tag": '"a-5"'}, OLD_DESK),
            ("an empty one", {"body": {**listed, "needs": [], "followers": {}}, "tag": '"a-5"'},
             "Nothing needs a person."),
        ]
        driver = """
            const asked = [], found = [];
            globalThis.fetch = async path => {
              asked.push(path);
              const { gone, body, tag, status = 200, text } = GIVEN.steps[found.length - 1][1];
              if (gone) throw new TypeError('fetch failed');
              return { ok: status === 200, status, headers: { get: () => tag }, json: async () => body,
                text: async () => text };
            };
            drawNeeds();
            found.push(shown());
            (async () => {
              for (const _ of GIVEN.steps) {
                clearTimeout(listing.resting);
                await fetchNeedsNow();
                found.push(shown());
              }
              process.stdout.write(JSON.stringify({ asked, found, again: listing.isOld }), () => process.exit(0));
            })();"""
        data = page_data.data_of(path, NOW, has_needs=False)
        found = self.live(data, driver.replace("GIVEN.steps", "STEPS").replace(
            "const asked", f"const STEPS = {page_html.data_text(steps)}, asked", 1))
        first, *others = found["found"]
        self.assertEqual((first["entries"], first["said"]), ([], ["The desk is making the list."]))
        self.assertEqual(set(found["asked"]), {f"/status?now={data_centre.NOW}"})
        for (name, given, said), one in zip(steps, others, strict=True):
            with self.subTest(name):
                self.assertEqual(one["said"][0], said)
                has_list = name not in ("a desk that has no list", "an empty one")
                self.check(one, listed if has_list else {**listed, "needs": [], "followers": {}})

    def test_when_it_is_fetched_again(self):
        """Once for all requests that come while it is fetched or rests; again if it is older than the rows; not while
        these are being fetched."""
        driver = """
            const waits = [], asked = [];
            globalThis.setTimeout = (act, rest) => waits.push([act, rest]);
            const TAGS = ['"a-4"', '"a-5"', '"a-5"'];
            globalThis.fetch = async () => ({ ok: true, status: 200, headers: { get: () => TAGS[asked.push(1) - 1] },
              json: async () => LISTED });
            const turn = () => new Promise(done => setImmediate(done));
            (async () => {
              const found = [];
              fetchNeeds(); fetchNeeds();
              await turn();
              found.push([asked.length, waits.length]);
              waits.pop()[0]();  // the list was older than the rows
              await turn();
              found.push([asked.length, waits.length]);
              waits.pop()[0]();  // now it isn't
              await turn();
              found.push([asked.length, waits.length]);
              document.visibilityState = 'hidden';
              fetchNeeds();
              await turn();
              found.push([asked.length, waits.length]);
              document.visibilityState = 'visible';
              live.isFetching = true;
              fetchNeeds();
              await turn();
              found.push([asked.length, waits.length]);
              live.isFetching = false;
              fetchNeeds();
              await turn();
              found.push([asked.length, waits.length, waits[0][1] >= 1000]);
              console.log(JSON.stringify(found));
            })();"""
        path = self.centre
        data = page_data.data_of(path, NOW, has_needs=False)
        found = self.live(data, f"const LISTED = {page_html.data_text(status_of(path, NOW))};{driver}")
        self.assertEqual(found, [[1, 1], [2, 1], [2, 0], [2, 0], [2, 0], [3, 1, True]])


if __name__ == "__main__":
    unittest.main()
