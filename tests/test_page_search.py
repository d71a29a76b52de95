"""The search of the page without a desk: which run a text names, for each text over a small plan, and what is said.

What always holds: Enter finds what the command line finds for the same text (acts/resolver.py), of all rows that the
page has. One that fits is opened; several are listed; if none fits, the nearest ones are named. node runs the scripts
of the page."""

import itertools
import shutil
import unittest

from support import act_worlds, page_reader as read, plans

from opcplan.acts import resolver
from opcplan.acts.world import World
from opcplan.rules import moments
from opcplan.webpage import page_data, page_html

from test_page_needs import drawn
from test_resolver import PLAN

NOW = moments.moment_of("2024-01-02/12.00")
# ODD has a run in history and one in the long-term plan, and none in the current plan
DONE = "cp-complete --app PAY --ia 2024-01-01/06.00 --job 7\n"
ODD = PLAN.replace("DAY,A,", "TWO,A,2024-01-01,2\nDAY,A,").replace("NEVER,A,", "ODD,A,\nNEVER,A,").replace(
    "BANK,R,", "ODD,R,N,TWO,3,1,2024-01-01,,06.00,0,22.00\nBANK,R,").replace(
        DONE, DONE + DONE.replace("PAY", "ODD").replace("complete", "start").replace("7", "20")
        + DONE.replace("PAY", "ODD").replace("7", "21"))
OWN = """const address = () => {}, showCard = () => {}, find = () => {}, close = () => '';
    const showApp = () => {};
    const link = (i, more) => fullName(i) + ', ' + more;
"""
# what a text finds, and what its card shows
DRIVER = """const keep = row => row && row.serial, answers = GIVEN.texts.map(text => {
      const upper = text.trim().toUpperCase(), answer = foundHere(upper), { found, wrong } = answer ?? {};
      if (!found) return { isNone: !answer, wrong };
      const before_ = chosen.length;
      openMeant(upper, answer);
      const isOpened = chosen.length > before_;
      if (!isOpened) view.other();
      return { row: keep(found.row), choices: found.choices.map(keep), before: keep(found.before),
        after: keep(found.after), opened: isOpened ? chosen.at(-1) : null,
        shown: isOpened ? '' : document.querySelector('#card').textContent };
    });
    console.log(JSON.stringify(answers));"""
DAYS = ("", "2023-12-31", "2024-01-01", "2024-01-02", "2024-01-03", "2024-01-04", "2024-01-31", "2024-02-30")
MINUTES = ("", "06.00", "18:00", "06.01", "24.00", "6.00")


@unittest.skipUnless(shutil.which("node"), "there is no node here: Debian's package nodejs has it")
class Search(unittest.TestCase):
    @classmethod
    def setUpClass(cls):
        cls.data = page_data.data_of(str(plans.of_stream(ODD.encode())), NOW, has_needs=False)

    def found(self, texts):
        """What the page finds for each text."""
        return dict(zip(texts, drawn(self.data, DRIVER, [OWN, page_html.joined(["search.js"])], texts=texts)))

    def test_it_finds_what_the_command_line_finds(self):
        texts = [f"{app} {day}{between if day and minute else ''}{minute}".strip() for app, day, minute, between in
                 itertools.product(("PAY", "bank", "ODD", "NEVER"), DAYS, MINUTES, ("/", " ", "T"))]
        texts += ["PAY 01.01.2024", "pay  2024-01-02", "PAY 2024-01-02/06.00 x", "PAY now", "PAY 2024-1-2"]
        texts += [form.format(row) for row in read.serials_in(self.data) for form in ("{}", "#{}", "serial {}", "0{}")]
        seen = set()
        world = World(act_worlds.Source(ODD))
        for text, found in self.found(texts := list(dict.fromkeys(texts))).items():
            with self.subTest(text):
                try:
                    wanted = resolver.resolve(world, resolver.read(text))
                except resolver.UnknownForm:
                    self.assertIn("is neither a day nor a minute nor a moment", found["wrong"])
                    seen.add("wrong")
                    continue
                serials = [row and row.serial for row in (wanted.row, wanted.before, wanted.after)]
                self.assertEqual([found["row"], found["before"], found["after"]], serials)
                self.assertEqual(found["choices"], [row.serial for row in wanted.several])
                self.assertEqual(found["opened"], wanted.row and wanted.row.serial)
                if wanted.several:
                    self.assertIn(f"{len(wanted.several)} runs fit {text.upper()}.", found["shown"])
                for row in wanted.several:
                    self.assertIn(row.key, found["shown"])
                if wanted.why:
                    self.assertRegex(found["shown"], "No run of .* arrives then|has no run on this page")
                seen.add("one" if wanted.row else "several" if wanted.several else "near" if any(serials) else "none")
        self.assertEqual(seen, {"one", "several", "near", "none", "wrong"})

    def test_what_names_nothing(self):
        """A part of a name is none: it opens the first application that has it. A serial that isn't here is said so."""
        found = self.found(["PA", "NOSUCH", "NOSUCH 2024-01-01", "999999", "P Y"])
        for text in ("PA", "NOSUCH", "NOSUCH 2024-01-01", "P Y"):
            self.assertEqual(found[text], {"isNone": True}, text)
        self.assertIn("No occurrence on this page has the serial 999999.", found["999999"]["shown"])


if __name__ == "__main__":
    unittest.main()
