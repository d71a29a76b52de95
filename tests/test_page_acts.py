"""The buttons of a row on the live page: their order, and the second press that what can't be undone needs.

What always holds, for each status: the first button that is allowed can be undone, unless none can; the others stand
apart, after those; and the desk is sent nothing by one press of them, nor by a double click. node runs the scripts of
the page."""

import json
import shutil
import subprocess
import unittest

from support import data_centre, page_reader as read, plans

from opcplan.desk import live_parts
from opcplan.rules import moments
from opcplan.webpage import page_data, page_html

from test_page_needs import drawn

try:
    from opcplan.desk import page
except ImportError:  # the gate's Python may have no package
    page = None

NOW = moments.moment_of(data_centre.NOW)
OWN = """const inCard = [], inAppCard = [], sent = [], MOST_LOOKS = 4;
    const showCard = () => {}, tellLink = () => {}, meaning = () => [];
    globalThis.crypto ??= require('crypto').webcrypto;
    globalThis.fetch = async (path, given) => {
      sent.push([path, given.body.trim(), given.headers['Idempotency-Key']]);
      return { ok: true, text: async () => GIVEN.reply, headers: new Map() };
    };
    const ofRow = i => ({
      groups: actsOf(i).all(one => ofClass('buttons')(one)).map(group => [ofClass('final')(group),
        group.all(one => one.tagName === 'button').map(one => [one.attributes['data-act'],
          !('disabled' in one.attributes), one.textContent])]),
      said: actsOf(i).all(ofClass('answer'))[0].textContent,
    });
    const click = (i, act, detail = 1) => {
      const [button] = actsOf(i).all(one => one.attributes['data-act'] === act);
      return 'disabled' in button.attributes ? null : button.listeners.click({ detail });
    };
"""
WAITING = """WITH RECURSIVE way (s) AS (SELECT successor FROM dependency JOIN cp_row ON serial = successor
    WHERE predecessor = ? AND status NOT IN ('C', 'D') UNION
    SELECT successor FROM dependency JOIN way ON predecessor = s
    JOIN cp_row ON serial = successor WHERE status NOT IN ('C', 'D')) SELECT count(*) FROM way"""


@unittest.skipUnless(shutil.which("node"), "there is no node here: Debian's package nodejs has it")
@unittest.skipIf(page is None, "there is no aiohttp here: Debian's package python3-aiohttp has it")
class Buttons(unittest.TestCase):
    """The parts of the page, run by node."""

    @classmethod
    def setUpClass(cls):
        cls.path = str(plans.of_stream(data_centre.whole()))
        cls.data = page_data.data_of(cls.path, NOW, has_needs=False)

    def acts(self, driver, reply="", role="operate", **given):
        """What a driver prints of the buttons."""
        desk = {"role": role, "acts": page.ACTS, "tag": "a-5"}
        parts = [OWN, "const live = {}, ownKeys = new Set();\n",
                 page_html.joined(["live_asks.js", "live_acts.js", "live_doing.js", "live_verbs.js"])]
        return drawn(self.data, f"(async () => {{ {driver} }})()", parts, desk=desk, reply=reply, **given)

    def test_the_first_button_can_be_undone(self):
        driver = """const found = {};
            for (let i = 0; i < rowCount; i++) if ('ESRBF'.includes(state(i))) found[state(i)] ??= ofRow(i).groups;
            console.log(JSON.stringify(found));"""
        found = self.acts(driver)
        first = {"E": "reset", "S": "fail", "R": "start"}
        for status, groups in found.items():
            self.assertEqual([is_final for is_final, _ in groups], [False, True], status)
            for is_final, buttons in groups:
                self.assertTrue(all(page.ACTS[act]["final"] == is_final for act, _, _ in buttons), status)
            allowed = [act for _, buttons in groups for act, is_allowed, _ in buttons if is_allowed]
            if status in first:
                self.assertEqual(allowed[0], first[status])
            else:
                self.assertEqual(allowed, ["complete", "delete"], status)
        self.assertTrue({"E", "S", "R", "B"} <= set(found), found)

    def test_completing_an_error_says_who_waits_and_wants_a_second_press(self):
        serials = [serial for serial, in read.ask(self.path, "SELECT serial FROM cp_row WHERE status = 'E'")]
        reply = json.dumps({"reply": "ok serial 1 status C"})
        driver = """const found = [];
            for (const number of GIVEN.serials) {
              const i = rowOfSerial(number), before = sent.length;
              click(i, 'complete');
              found.push({ number, ...ofRow(i), sent: sent.length - before, who: asText(whoWaits(i)) });
            }
            console.log(JSON.stringify(found));"""
        found = self.acts(driver, serials=serials)
        counts = []
        for one in found:
            count, = read.ask(self.path, WAITING, one["number"])[0]
            counts.append(count)
            self.assertEqual(one["sent"], 0, "one press does nothing")
            begin = f"{count} wait for it. " if count > 1 else f"{one['who'] or 'Nothing waits for it'}. "
            self.assertTrue(one["said"].startswith(begin), (count, one["said"]))
            self.assertIn("Its job ended in error", one["said"])
            self.assertIn(["complete", True, "Complete: sure?"], one["groups"][1][1])
        self.assertTrue(max(counts) > 1, counts)
        driver = """const i = rowOfSerial(GIVEN.number), counts = [];
            const step = async (act, detail) => { await click(i, act, detail); counts.push(sent.length); };
            await step('complete', 1); await step('complete', 2); await step('delete', 1); await step('complete', 1);
            await step('complete', 1);
            console.log(JSON.stringify({ counts, sent, ...ofRow(i), row: streamName(i) }));"""
        found = self.acts(driver, reply, number=serials[0])
        self.assertEqual(found["counts"], [0, 0, 0, 0, 1], "neither a double click nor one press of each does it")
        self.assertEqual([one[:2] for one in found["sent"]], [["/statements", f"cp-complete {found['row']}"]])
        self.assertEqual(found["said"], "It is complete (ok serial 1 status C).")

    def test_another_status_asks_again(self):
        """What was asked of a row in error isn't taken for a press on it once it is started."""
        serial, = read.ask(self.path, "SELECT serial FROM cp_row WHERE status = 'E'")[0]
        driver = """const i = rowOfSerial(GIVEN.number), counts = [], state = [];
            D.state = Array.from(D.state);
            await click(i, 'complete');
            D.state[i] = 'S';
            state.push(ofRow(i).said);
            await click(i, 'complete'); counts.push(sent.length); state.push(ofRow(i).said);
            await click(i, 'complete'); counts.push(sent.length);
            console.log(JSON.stringify({ counts, state }));"""
        found = self.acts(driver, json.dumps({"reply": "ok serial 1 status C"}), number=serial)
        self.assertEqual((found["counts"], found["state"][0]), ([0, 1], ""))
        self.assertNotIn("ended in error", found["state"][1])

    def test_what_can_be_undone_needs_one_press(self):
        serial, = read.ask(self.path, "SELECT serial FROM cp_row WHERE status = 'E'")[0]
        driver = """const i = rowOfSerial(GIVEN.number);
            await click(i, 'reset');
            console.log(JSON.stringify({ sent, row: streamName(i) }));"""
        found = self.acts(driver, json.dumps({"reply": "ok serial 1 status W"}), number=serial)
        self.assertEqual([one[1] for one in found["sent"]], [f"cp-reset {found['row']}"])

    def test_a_verb_is_shown_first_and_done_in_the_state_of_its_preview(self):
        text = "cp-add --app PAY --ia 2026-11-25/06.01\n"
        act = {"lines": ["PAY 2026-11-25/05.00 is complete."], "stream": text, "statements": [text.strip()],
               "role": "operate", "inverse": None, "parts": [{"of": "", "row": None, "texts": [text], "why_not": ""}]}
        preview = {"act": act, "found": None, "why_not": "", "answers": [], "is_whole": False}
        other = {**preview, "act": {**act, "lines": ["another"]}}
        done = {"act": None, "found": None, "why_not": "", "is_whole": True, "answers": [
            {"statement": act["statements"][0], "reply": "ok serial 999"}]}
        driver = """const i = rowOfSerial(GIVEN.number), steps = [];
            const replies = GIVEN.replies.slice(), asked = [];
            globalThis.fetch = async (path, given) => {
              asked.push([path, JSON.parse(given.body), given.headers['If-Match'] ?? null]);
              const [status, reply] = replies.shift();
              return { ok: status === 200, status, text: async () => JSON.stringify(reply),
                headers: new Map([['ETag', '"t-' + asked.length + '"']]) };
            };
            const shown = () => verbsOf(i).all(ofClass('preview'))[0];
            const press = async () => {
              const [button] = shown().all(ofClass('do'));
              await button.listeners.click({ detail: 1 });
              steps.push([asked.length, shown().textContent]);
            };
            const [rerun] = verbsOf(i).all(one => one.attributes['data-verb'] === 'rerun');
            await rerun.listeners.click({ detail: 1 });
            await doLooked({ detail: 2 });
            steps.push([asked.length, shown().textContent]);
            while (replies.length) await press();
            console.log(JSON.stringify({ asked, steps }));"""
        serial, = read.ask(self.path, "SELECT serial FROM cp_row WHERE status = 'E'")[0]
        ask, do = {"verb": "rerun", "of": str(serial)}, {"stream": act["stream"]}
        worlds = [
            ([(200, preview), (200, done)], [(ask, None), (do, '"t-1"')], [1, 2]),
            ([(200, preview), (412, "x"), (200, preview), (200, done)],
             [(ask, None), (do, '"t-1"'), (ask, None), (do, '"t-3"')], [1, 4]),
            ([(200, preview), (412, "x"), (200, other), (200, done)],
             [(ask, None), (do, '"t-1"'), (ask, None), (do, '"t-3"')], [1, 3, 4]),
        ]
        for replies, asked, counts in worlds:
            found = self.acts(driver, number=serial, replies=replies)
            self.assertEqual([(one[1], one[2]) for one in found["asked"]], asked)
            self.assertEqual([count for count, _ in found["steps"]], counts)
            self.assertIn("Nothing is done yet.", found["steps"][0][1])
            self.assertIn(act["lines"][0], found["steps"][0][1])
            self.assertEqual(found["steps"][-1][1], "Done: 1 statement.")
        self.assertIn("Nothing was done: the plan has changed", found["steps"][1][1])

    def test_scripts_go_together(self):
        """No name of one part of the live page is one of another."""
        asked = subprocess.run(["node", "--check", "-"], input=page_html.joined(live_parts.SCRIPTS),
                               capture_output=True, encoding="utf-8", check=False)
        self.assertEqual((asked.returncode, asked.stderr), (0, ""))

    def test_who_may_only_read_has_none(self):
        driver = "console.log(JSON.stringify(Array.from({ length: rowCount }, (_, i) => actsOf(i)).filter(Boolean)))"
        self.assertEqual(self.acts(driver, role="read"), [])


if __name__ == "__main__":
    unittest.main()
