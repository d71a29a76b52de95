"""Acts of the live page that are done, stop half way and go on: every interleaving of a small world.

What always holds, whatever somebody else changes before, between and after the page's requests, whichever answer is
lost, and after whichever statement the desk ends:

- The desk accepts no statement of an act twice.
- It accepts only statements that the page had shown as they were done, in the press before.
- After a refused statement of a part none of this part is accepted. So nothing is deleted whose new run was refused.
- What the page says at the end is so: how many runs are done, which are refused, and each run is one of the two.
- If nobody else changes anything and nothing is refused, one preview and one press do it. If the desk is away for
  longer than the page tries, one more press does.

node runs the scripts of the page, with a desk of a few rows."""

import shutil
import unittest

from support import TOP, data_centre, plans

from opcplan.rules import moments
from opcplan.webpage import page_data, page_html

from test_page_needs import drawn

NOW = moments.moment_of(data_centre.NOW)
PARTS = ["live_asks.js", "live_doing.js"]
OWN = """const MOST_LOOKS = 4, live = {}, ownKeys = new Set(), sent = [];
    const tellLink = () => {}, meaning = reply => [': refused with ' + reply.split(' ')[1]];
    globalThis.crypto ??= require('crypto').webcrypto;
    globalThis.setTimeout = act => act();
"""
# presses until nothing is left to press, and says what came of it
DRIVER = """(async () => {
    const run = async script => {
      const desk_ = new ActingDesk(GIVEN.rows, script, GIVEN.refuses), presses = [];
      let shown = null, limit = 0;
      globalThis.fetch = (path, given) => desk_.fetch(path, given);
      const tell = one => { shown = one; };
      tell(await lookedUp('bar', { verb: GIVEN.verb, each: Object.keys(GIVEN.rows) }));
      let parts = [];
      while ((shown.act || shown.isLeft) && limit++ < 12) {
        parts = shown.progress.parts;
        if (!shown.act) { tell(await lookedAtRest(shown)); continue; }
        const before_ = desk_.accepted.length, shownAct_ = shown.act.statements;
        await doAct(shown, tell);
        presses.push([shownAct_, desk_.accepted.slice(before_).map(one => one[0])]);
      }
      return [desk_, { script, presses, accepted: desk_.accepted, text: shown.text, look: shown.look, limit,
        asked: desk_.asked, ends: desk_.ends, absences: desk_.absences, changes: desk_.changes,
        parts: parts.map(({ of, texts, replies, closed }) => ({ of, texts, replies, closed })),
        rows: desk_.rows }];
    };
    console.log(JSON.stringify(await everyScript(GIVEN.most, run)));
})()"""


@unittest.skipUnless(shutil.which("node"), "there is no node here: Debian's package nodejs has it")
class Doing(unittest.TestCase):
    @classmethod
    def setUpClass(cls):
        cls.data = page_data.data_of(str(plans.of_stream(data_centre.whole())), NOW, has_needs=False)

    def found(self, verb, rows, most, refuses):
        """What came of each script."""
        desk = (TOP / "tests" / "support" / "acting_desk.js").read_text(encoding="utf-8")
        parts = [OWN, page_html.joined(PARTS), desk]
        return drawn(self.data, DRIVER, parts, desk={"role": "operate"}, verb=verb, rows=rows, most=most,
                     refuses=refuses)

    def check(self, one):
        """Asks all of one script."""
        accepted = [line for line, _ in one["accepted"]]
        self.assertEqual(len(accepted), len(set(accepted)), "nothing is done twice")
        for shown, done in one["presses"]:
            self.assertLessEqual(set(done), set(shown), "only what was shown is done")
        self.assertLess(one["limit"], 12, "it ends")
        whole = 0
        for part in one["parts"]:
            texts = [text.strip() for text in part["texts"]]
            mine = [line for line in accepted if line in texts]
            self.assertEqual(mine, texts[:len(mine)], "no statement of a part is done after a refused one")
            oks = [reply for reply in part["replies"] if reply and reply.startswith("ok")]
            self.assertEqual(len(oks), len(mine), "what the page counts is what was done")
            whole += bool(texts) and len(mine) == len(texts)
            self.assertTrue(not texts or len(mine) == len(texts) or part["closed"] or "Nothing was done" in one["text"])
        asked = [part for part in one["parts"] if part["texts"]]
        if not one["changes"] and all(reply.startswith("ok") for part in asked for reply in part["replies"] if reply):
            self.assertEqual((len(one["presses"]), one["asked"]), (1 + one["absences"], 1), "one press does it")
            self.assertTrue(one["text"].startswith("Done: "), one["text"])
        if asked and whole == len(asked):
            self.assertEqual(one["text"].startswith("Done: "), True, one["text"])
            self.assertEqual(one["look"], "is-done")
        elif accepted and len(asked) > 1:
            self.assertIn(f"{whole} of {len(asked)} runs {'is' if whole == 1 else 'are'} done", one["text"])
            for part in asked:
                if part["closed"]:
                    self.assertIn(part["of"], one["text"])
        return whole == len(asked) and bool(asked)

    def test_every_interleaving(self):
        worlds = (("complete", {"A": "W", "B": "W"}, 2, False), ("move", {"A": "W", "B": "E"}, 2, True),
                  ("reset", {"A": "E", "B": "E", "C": "W"}, 2, False), ("move", {"A": "W"}, 3, False))
        for verb, rows, most, refuses in worlds:
            found = self.found(verb, rows, most, refuses)
            seen = {"whole": 0, "stopped": 0, "half": 0, "ended": 0}
            self.assertTrue(self.check(found[0]), found[0])
            for one in found:
                with self.subTest(verb=verb, rows=rows, script=one["script"]):
                    seen["whole" if self.check(one) else "stopped"] += 1
                    seen["ended"] += one["ends"] > 0 and not one["changes"]
                    seen["half"] += any(0 < len([reply for reply in part["replies"] if reply]) < len(part["texts"])
                                        for part in one["parts"])
            self.assertGreater(len(found), 50, (verb, seen))
            self.assertTrue(seen["whole"] and seen["stopped"] and seen["ended"], (verb, seen))
            if verb != "reset":
                self.assertTrue(seen["half"], (verb, seen))


if __name__ == "__main__":
    unittest.main()
