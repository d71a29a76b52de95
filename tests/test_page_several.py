"""The bar of several chosen rows on the live page, and what its search shows.

What always holds, for each choice of rows: a verb is offered if and only if the desk would do it with each of them;
those that can't be undone stand apart, after the others; one press shows and sends nothing that changes the plan; and
what can't be undone needs one press more than what can, of which a double click is one. node runs the scripts of the
page."""

import itertools
import json
import shutil
import unittest

from support import data_centre, page_reader as read, plans

from opcplan.acts import loaded, values, verbs
from opcplan.plans import plan_file
from opcplan.rules import moments
from opcplan.webpage import page_data, page_html

from test_page_needs import drawn

try:
    from opcplan.desk import page
except ImportError:  # the gate's Python may have no package
    page = None

NOW = moments.moment_of(data_centre.NOW)
PARTS = ["live_asks.js", "live_acts.js", "live_doing.js", "live_verbs.js", "live_several.js", "search.js",
         "live_search.js"]
OWN = """const inCard = [], inAppCard = [], onFind = [], alsoDrawn = [], BOXES = [], KEYS = [], sent = [];
    const MOST_LOOKS = 4;
    const showCard = () => {}, tellLink = () => {}, meaning = () => [], close = () => '', link = i => fullName(i);
    const address = () => {}, showApp = () => {}, find = () => {}, live = {}, ownKeys = new Set();
    const CSS = { escape: text => text };
    globalThis.crypto ??= require('crypto').webcrypto;
    const answers_ = GIVEN.answers || [];
    globalThis.fetch = async (path, given) => {
      sent.push([path, JSON.parse(given.body), given.headers['If-Match'] ?? null]);
      const reply = answers_.shift();
      return { ok: true, status: 200, text: async () => JSON.stringify(reply), headers: new Map([['ETag', '"t"']]) };
    };
    const bar = () => { drawBar(); return document.querySelector('#several'); };
    const offered = () => bar().all(one => ofClass('buttons')(one)).map(group => [ofClass('final')(group),
      group.all(one => one.tagName === 'button').map(one => one.textContent)]);
    const click = async (key, detail = 1) => {
      const [button] = bar().all(one => one.attributes['data-key'] === key && !('disabled' in one.attributes));
      if (button) await button.listeners.click({ detail });
      return button !== undefined;
    };
    const said = () => bar().all(ofClass('preview')).map(one => one.textContent).join(' ');
"""
# the verb of each button, as the desk is asked
WANTED = {"Reset": ("reset", {}), "Start": ("start", {}), "Fail": ("fail", {}), "Rerun": ("rerun", {}),
          "Rerun with followers": ("rerun", {"followers": True}), "Complete": ("complete", {}),
          "Complete with all before them": ("complete", {"chain": True}), "Cancel": ("cancel", {})}
FINAL = ("Complete", "Complete with all before them", "Cancel")


@unittest.skipUnless(shutil.which("node"), "there is no node here: Debian's package nodejs has it")
@unittest.skipIf(page is None, "there is no aiohttp here: Debian's package python3-aiohttp has it")
class Bar(unittest.TestCase):
    @classmethod
    def setUpClass(cls):
        cls.path = str(plans.of_stream(data_centre.whole()))
        cls.data = page_data.data_of(cls.path, NOW, has_needs=False)
        cls.state = dict(zip(read.serials_in(cls.data), cls.data["state"], strict=True))

    def found(self, driver, role="operate", **given):
        """What a driver prints."""
        desk = {"role": role, "acts": page.ACTS, "tag": "a-5"}
        parts = [OWN, page_html.joined(PARTS)]
        return drawn(self.data, f"(async () => {{ {driver} }})()", parts, desk=desk, **given)

    def some(self, *states):
        """Two rows of each state."""
        return [[serial for serial, one in self.state.items() if one == state][:2] for state in states]

    def test_a_verb_is_offered_if_the_desk_would_do_it_with_each(self):
        kinds = self.some(*"ESRBFCL")
        choices = [kind for kind in kinds if kind]
        choices += [[*one[:1], *other[:1]] for one, other in itertools.combinations(kinds, 2)]
        driver = """const found = [];
            for (const numbers of GIVEN.choices) {
              several.serials = new Set(numbers);
              found.push(offered());
            }
            console.log(JSON.stringify(found));"""
        found = self.found(driver, choices=choices)
        seen = set()
        with plan_file.opened(self.path) as plan:
            for numbers, groups in zip(choices, found, strict=True):
                buttons = [text for _, texts in groups for text in texts]
                for text, (verb, more) in WANTED.items():
                    can = all(values.answer(loaded.world_of(plan), verbs.Intention(verb, str(number), **more), NOW, [],
                                            None)["act"] for number in numbers)
                    if text == "Complete with all before them" and "Complete" in buttons:
                        can = False  # it does the same there
                    self.assertEqual(text in buttons, can, (text, numbers, groups))
                    seen |= {text} if can else set()
                for is_final, texts in groups:
                    self.assertTrue(all((text in FINAL) == is_final for text in texts), groups)
                self.assertEqual([is_final for is_final, _ in groups], sorted(is_final for is_final, _ in groups))
        self.assertEqual(seen, set(WANTED))

    def act(self, serials, inverse):
        texts = [f"cp-reset --app A{serial} --ia 2026-11-25/06.00\n" for serial in serials]
        return {"act": {"verb": "reset", "lines": ["2 runs."], "stream": "".join(texts), "role": "operate",
                        "statements": [text.strip() for text in texts], "replies": ["ok"] * len(texts),
                        "inverse": inverse, "why_not": "" if inverse else "it is final",
                        "parts": [{"of": str(serial), "row": None, "texts": [text], "why_not": ""}
                                  for serial, text in zip(serials, texts)]},
                "found": None, "why_not": "", "answers": [], "is_whole": False}

    def test_presses(self):
        """One press shows; one more does it; what can't be undone needs yet another one, and no double click is two."""
        serials = self.some("E")[0]
        done = {"act": None, "found": None, "why_not": "", "is_whole": True, "answers": [
            {"statement": "x", "reply": "ok serial 1 status W"}] * len(serials)}
        driver = """several.serials = new Set(GIVEN.serials);
            const counts = [];
            for (const [key, detail] of GIVEN.presses) {
              await click(key, detail);
              counts.push(sent.filter(one => one[2] !== null).length);
            }
            console.log(JSON.stringify({ counts, sent, said: said() }));"""
        presses = [["all Reset", 1], ["do it", 2], ["do it", 1], ["do it", 2], ["do it", 1]]
        for inverse, counts in (("x\n", [0, 0, 1, 1, 1]), (None, [0, 0, 0, 0, 1])):
            found = self.found(driver, serials=serials, presses=presses, answers=[self.act(serials, inverse), done])
            self.assertEqual(found["counts"], counts)
            self.assertEqual(found["sent"][0][1], {"verb": "reset", "each": list(map(str, serials))})
            self.assertEqual(len(found["sent"]), 2)
            self.assertEqual(found["said"], f"Done: {len(serials)} runs, {len(serials)} statements.")

    def test_who_may_only_read_chooses_none(self):
        found = self.found("console.log(JSON.stringify([onLines.length, KEYS.length, BOXES]))", role="read")
        self.assertEqual(found, [0, 0, []])
        found = self.found("console.log(JSON.stringify([onLines.length, KEYS.length, BOXES]))")
        self.assertEqual(found, [1, 1, ["#several"]])

    def test_too_many(self):
        serials = [serial for serial, state in self.state.items() if state == "L"][:201]
        driver = """several.serials = new Set(GIVEN.serials);
            console.log(JSON.stringify([await click('all Cancel'), bar().textContent]));"""
        pressed, text = self.found(driver, serials=serials)
        self.assertEqual(pressed, False)
        self.assertIn("At most 200 rows at once", text)
        self.assertEqual(verbs.MOST_EACH, 200)

    def test_what_the_search_shows(self):
        """The answers are the resolver's own; the card has its sentence, and each run that it names."""
        driver = """const found = [];
            for (const [text, answer] of GIVEN.texts) {
              showFound(text, answer);
              view.other();
              found.push(document.querySelector('#card').textContent);
            }
            console.log(JSON.stringify(found));"""
        app, ia = read.ask(self.path, "SELECT app, ia FROM cp_row WHERE status = 'E' ORDER BY serial LIMIT 1")[0]
        of = f"{app} {moments.minute_text(ia % 1440)}"
        texts = [of, f"{app} 2026-11-25/00.01", "NOSUCH", "999999", f"{app} 2026-13-01"]
        with plan_file.opened(self.path) as plan:
            answers = [json.loads(json.dumps(values.found_of(loaded.world_of(plan), text, NOW))) for text in texts]
        found = self.found(driver, texts=list(zip(texts, answers)))
        several, none, unknown, serial, wrong = found
        choices = answers[0]["found"]["choices"]
        self.assertGreater(len(choices), 1)
        self.assertIn(f"{len(choices)} runs fit {of}.", several)
        for row in choices[:20]:
            self.assertIn(f"(serial {row['serial']})", several)
        self.assertIn(f"No run of {app} arrives then", none)
        for name in ("before", "after"):
            self.assertIn(f"(serial {answers[1]['found'][name]['serial']})", none)
        self.assertIn("The application NOSUCH isn't defined", unknown)
        self.assertIn("No occurrence has the serial 999999", serial)
        self.assertIn("neither a day nor a minute", wrong)


if __name__ == "__main__":
    unittest.main()
