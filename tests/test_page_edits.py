"""Changes of definitions on the live page: what is typed becomes the words of an edit, a year's calendar shows its
days, and a second press does it.

What always holds: the desk is asked for a preview by the first press, and for statements by the second one only, in the
state of a preview that shows the same; each day of the year has the sign that the desk's answer has, in the place of
its weekday, with a text beside its colour. node runs the scripts of the page."""

import calendar
import datetime
import shutil
import unittest

from support import data_centre, plans

from opcplan.acts import loaded
from opcplan.edits import previews
from opcplan.plans import plan_file
from opcplan.rules import moments
from opcplan.webpage import page_data, page_html

from test_page_needs import drawn

NOW = moments.moment_of(data_centre.NOW)
OWN = """const inCard = [], asked = [], said = [], live = {}, ownKeys = new Set(), MOST_LOOKS = 4;
    const RULES = { E: 'e', 1: 'a', 2: 'b', 3: 'c', 4: 'd' }, WAITING = 'Sent', close = () => '';
    const showCard = () => {}, tellLink = () => {}, WORKS = [{ done: 'ltp-modify-all' }, { done: 'ltp-modify-one' }];
    globalThis.crypto ??= require('crypto').webcrypto;
    const replies = GIVEN.replies?.slice() ?? [];
    globalThis.fetch = async (path, given) => {
      const key = given.headers['Idempotency-Key'];
      asked.push([path, JSON.parse(given.body), given.headers['If-Match'] ?? null, key ? key.slice(0, 4) : null, key]);
      const [status, reply] = replies.shift();
      if (!status) throw new Error('away');
      return { ok: status === 200, status, headers: new Map([['ETag', '"t-' + asked.length + '"']]),
        text: async () => typeof reply === 'string' ? reply : JSON.stringify(reply) };
    };
    const k = D.apps.findIndex(one => one[0] === GIVEN.app);
    view.app = k;
    const own = () => editsOf(k);
    const named = key => own().all(one => one.attributes['data-key'] === key)[0];
    const type = (key, value) => {
      const one = named('edit ' + key);
      one.value = value;
      (one.listeners.input ?? one.listeners.change)();
    };
    const press = (key, detail = 1) => {
      const one = named('edit ' + key);
      return one && !('disabled' in one.attributes) ? one.listeners.click({ detail }) : undefined;
    };
    const answered = () => own().all(ofClass('answer'))[0]?.textContent ?? '';
"""
CELLS = """const year = own().all(ofClass('year'))[0];
    const months = year.all(one => one.tagName === 'table').map(table => ({
      caption: table.all(one => one.tagName === 'caption')[0].textContent,
      weeks: table.all(one => one.tagName === 'tbody')[0].children.map(row => row.children.map(cell => ({
        day: typeof cell.childNodes[0] === 'string' ? +cell.childNodes[0] : null, kind: cell.attributes.class ?? '',
        mark: cell.all(one => one.tagName === 'i')[0]?.textContent ?? '', title: cell.attributes.title ?? '',
        text: cell.all(ofClass('hidden'))[0]?.textContent ?? '' }))) }));
    const legend = own().all(ofClass('days-legend'))[0].children.map(one => one.textContent);
    console.log(JSON.stringify({ months, legend }));
"""
KINDS = {"=": ("stays", "=", " stays"), "-": ("goes", "−", " goes"), "+": ("comes", "+", " comes"),
         "~": ("other", "~", " has other runs"), ".": ("", "", ""), " ": ("planned", "", " is planned already")}


@unittest.skipUnless(shutil.which("node"), "there is no node here: Debian's package nodejs has it")
class Edits(unittest.TestCase):
    """The parts of the page, run by node."""

    @classmethod
    def setUpClass(cls):
        cls.path = str(plans.of_stream(data_centre.whole()))
        cls.data = page_data.data_of(cls.path, NOW, has_needs=False)
        with plan_file.opened(cls.path) as plan:
            cls.world = loaded.world_of(plan)
            cls.world.rows("PAYROLL")
            cls.apps = [app for app, one in cls.world.defined.applications.items()
                        if one.is_active and cls.world.defined.run_cycles.get(app)]

    def preview(self, words, **more):
        """The answer of a desk to an edit."""
        with plan_file.opened(self.path) as plan:
            found = previews.answer(loaded.world_of(plan), {"edit": words, **more}, NOW)
        return {**found, "answers": [], "is_whole": False}

    def run_page(self, driver, app=None, role="plan", **given):
        """What a driver prints of the card of an application."""
        scripts = page_html.joined(["live_asks.js", "live_year.js", "live_edits.js"])
        parts = [page_html.joined(["apps.js"]), OWN, scripts]
        return drawn(self.data, f"(async () => {{ {driver} }})()", parts, app=app or self.apps[0],
                     desk={"role": role, "tag": "a-5"}, **given)

    def test_what_is_typed_becomes_words(self):
        app = self.apps[0]
        (name, cycle), *_ = self.world.defined.run_cycles[app].items()
        own = self.world.defined.calendar_name(app)
        other = next(one for one in self.world.defined.calendars if one != own)
        cases = (
            ("day", {"first": "2026-12-28"}, ["calendar", own, "2026-12-28", "free"]),
            ("day", {"first": "2026-12-28", "last": "2026-12-29", "status": "work"},
             ["calendar", own, "2026-12-28..2026-12-29", "work"]),
            ("day", {"first": "2026-12-24", "last": "2026-12-24", "status": "unlist"},
             ["calendar", own, "2026-12-24", "unlist"]),
            (f"cycle {name}", {"ia": "05:13", "offsets": "2, -1"},
             ["run-cycle", app, name, "offsets=2 -1", "ia=05.13"]),
            (f"cycle {name}", {"rule": "4", "deadline-time": "23:30:00", "deadline-day": "3", "period": "DAY"},
             ["run-cycle", app, name, "period=DAY", "rule=4", "deadline-day=3", "deadline-time=23.30"]),
            (f"cycle {name}", {"out-of-effect": "2027-06-30", "in-effect": "2026-12-01"},
             ["run-cycle", app, name, "in-effect=2026-12-01", "out-of-effect=2027-06-30"]),
            ("new", {"name": "extra", "period": "DAY", "ia": "05:00", "deadline-time": "06:00"},
             ["run-cycle", app, "extra", "new", "type=N", "period=DAY", "rule=E", "offsets=1", "ia=05.00",
              "deadline-day=0", "deadline-time=06.00"]),
            ("application", {"active": "pending"}, ["application", app, "pending"]),
            ("application", {"calendar": other}, ["application", app, f"calendar={other}"]),
        )
        self.assertTrue(cycle.due)
        driver = """editOf(k);
            for (const [what, typed] of GIVEN.cases) {
              Object.assign(edit, { what, typed: {}, shown: null });
              for (const [key, value] of Object.entries(typed)) type(key, value);
              await press('look');
            }
            console.log(JSON.stringify(asked.map(one => one.slice(0, 4))));"""
        reply = self.preview(cases[0][2])
        found = self.run_page(driver, cases=[[what, typed] for what, typed, _ in cases],
                              replies=[[200, reply]] * len(cases))
        self.assertEqual([(path, body["edit"], tag, key) for path, body, tag, key in found],
                         [("/edits", words, None, None) for _, _, words in cases])
        for _, _, words in cases:
            answer = self.preview(words)
            self.assertTrue(answer["edit"] and answer["edit"]["statements"], (words, answer["why_not"]))

    def test_nothing_is_sent_where_nothing_is_typed(self):
        driver = """editOf(k);
            const found = [];
            for (const [what] of editables(k)) {
              Object.assign(edit, { what, typed: {}, shown: null });
              await press('look');
              found.push(answered());
            }
            console.log(JSON.stringify({ asked, found }));"""
        found = self.run_page(driver)
        self.assertEqual(found["asked"], [])
        self.assertEqual(set(found["found"]), {"Choose a day.", "Nothing is changed yet.", "Name the run cycle."})

    def test_the_year_shows_each_day_in_its_place(self):
        cases = (["calendar", "DEFAULT", "2026-12-28..2026-12-30", "free"],
                 ["run-cycle", self.apps[0], next(iter(self.world.defined.run_cycles[self.apps[0]])), "ia=05.13"],
                 ["application", self.apps[0], "pending"], ["calendar", "DEFAULT", "SAT", "work"])
        signs = set()
        for words in cases:
            reply = self.preview(words)
            shown = reply["edit"]["apps"][0]
            signs |= set(shown["signs"])
            driver = "editOf(k); await lookAtEdit(GIVEN.words);" + CELLS
            found = self.run_page(driver, app=shown["app"], words=words, replies=[[200, reply]])
            first, last = (datetime.date.fromisoformat(reply["edit"][one]) for one in ("first", "last"))
            self.check_year(found, shown, first, last)
        self.assertEqual(signs, set("=-+~. "))

    def check_year(self, found, shown, first, last):
        """Compares the drawn months with the signs, by the calendar of Python."""
        differ = {one["day"] for one in shown["differences"]}
        days = [first + datetime.timedelta(place) for place in range((last - first).days + 1)]
        months = {(day.year, day.month) for day in days}
        self.assertEqual([month["caption"] for month in found["months"]],
                         [f"{calendar.month_abbr[month]} {year}" for year, month in sorted(months)])
        for (year, month), drawn_month in zip(sorted(months), found["months"]):
            weeks = [[day or None for day in week] for week in calendar.Calendar(0).monthdayscalendar(year, month)]
            cells = [[cell["day"] for cell in week] for week in drawn_month["weeks"]]
            self.assertEqual([week + [None] * (7 - len(week)) for week in cells], weeks)
            for cell in (one for week in drawn_month["weeks"] for one in week if one["day"]):
                day = datetime.date(year, month, cell["day"])
                sign = shown["signs"][(day - first).days]
                self.assertEqual((cell["kind"], cell["mark"], cell["text"]), KINDS[sign], day)
                self.assertEqual(bool(cell["title"]), day.isoformat() in differ, day)
        self.assertTrue(all(shown["signs"][(datetime.date.fromisoformat(day) - first).days] in "+-~" for day in differ))
        counts = [shown["signs"].count(sign) for sign in "-+~="]
        self.assertEqual([int(line.lstrip("−+~=").split()[0]) for line in found["legend"][:4]], counts)
        self.assertEqual(len(found["legend"]), 4 + (" " in shown["signs"]))

    def test_a_second_press_does_what_was_shown_in_its_state(self):
        words = ["calendar", "DEFAULT", "2026-12-28", "free"]
        look, other = self.preview(words), self.preview(["calendar", "DEFAULT", "2026-12-28..2026-12-29", "free"])
        nothing = {"edit": None, "why_not": "nothing would change", "answers": [], "is_whole": False}
        done = {"edit": None, "why_not": "", "is_whole": True,
                "answers": [{"statement": "define calendars", "reply": "ok defined 1"}]}
        refused = {**done, "answers": [{"statement": "define calendars", "reply": "refused 11 1"}]}
        stream = {"stream": look["edit"]["stream"]}
        driver = """editOf(k);
            const steps = [];
            await lookAtEdit(GIVEN.words);
            steps.push([asked.length, answered(), !!named('edit do')]);
            await press('do', 2);
            while (replies.length) {
              await press('do');
              steps.push([asked.length, answered(), !!named('edit do')]);
            }
            console.log(JSON.stringify({ asked, steps, keys: [...ownKeys], back: edit.shown.after ?? null }));"""
        ask = {"edit": words}
        worlds = (  # replies; what is asked, with its tag; after each press how much was asked, and the text
            ([(200, look), (200, done)], [(ask, None), (stream, '"t-1"')], [1, 2], "Done: 1 statement."),
            ([(200, look), (412, "x"), (200, look), (200, done)],
             [(ask, None), (stream, '"t-1"'), (ask, None), (stream, '"t-3"')], [1, 4], "Done: 1 statement."),
            ([(200, look), (412, "x"), (200, other), (200, done)],
             [(ask, None), (stream, '"t-1"'), (ask, None), ({"stream": other["edit"]["stream"]}, '"t-3"')], [1, 3, 4],
             "Done: 1 statement."),
            ([(200, look), (412, "x"), (200, nothing)], [(ask, None), (stream, '"t-1"'), (ask, None)], [1, 3],
             "Nothing was done: somebody has changed the definitions since you looked. Nothing would change"),
            ([(200, look), *[(412, "x"), (200, look)] * 4, (200, done)],
             [(ask, None), *[one for n in range(4) for one in ((stream, f'"t-{2 * n + 1}"'), (ask, None))],
              (stream, '"t-9"')], [1, 9, 10], "Done: 1 statement."),
            ([(200, look), (403, "no"), ], [(ask, None), (stream, '"t-1"')], [1, 2], "Nothing was done: no"),
            ([(200, look), (200, refused)], [(ask, None), (stream, '"t-1"')], [1, 2],
             "Refused: define calendars (refused 11 1)."),
        )
        for replies, wanted, counts, text in worlds:
            found = self.run_page(driver, words=words, replies=[list(one) for one in replies])
            self.assertEqual([(body, tag) for _, body, tag, *_ in found["asked"]], wanted)
            self.assertEqual([step[0] for step in found["steps"]], counts)
            self.assertEqual(found["steps"][0][1:], ["Nothing is done yet.", True])
            self.assertTrue(found["steps"][-1][1].startswith(text), (found["steps"][-1][1], text))
            if text.startswith("Done"):
                self.assertIn("ltp-modify-all puts it there", found["steps"][-1][1])
                self.assertEqual(found["back"]["modify"], "ltp-modify-all")
                self.assertTrue(found["back"]["back"])
            sent = [key for _, body, _, _, key in found["asked"] if "stream" in body]
            self.assertTrue(all(key.startswith("act-") and key in found["keys"] for key in sent))
            if replies[2:3] and replies[2][1] is not look:
                self.assertIn("would now do something else" if replies[2][1] is other else "Nothing would change",
                              found["steps"][1][1])

    def test_without_an_answer_the_next_press_has_the_same_key(self):
        words = ["calendar", "DEFAULT", "2026-12-28", "free"]
        done = {"edit": None, "why_not": "", "is_whole": True,
                "answers": [{"statement": "define calendars", "reply": "ok defined 1"}]}
        driver = """RESTS.splice(0);
            editOf(k);
            await lookAtEdit(GIVEN.words);
            await press('do');
            const first = answered();
            await press('do');
            console.log(JSON.stringify({ asked, first, last: answered() }));"""
        found = self.run_page(driver, words=words, replies=[[200, self.preview(words)], [0, ""], [200, done]])
        (_, _, tag, _, key), (_, _, again, _, same) = found["asked"][1:]
        self.assertEqual((tag, key), (again, same))
        self.assertIn("No answer", found["first"])
        self.assertTrue(found["last"].startswith("Done"))

    def test_it_is_taken_back_by_the_edit_that_the_desk_names(self):
        words = ["calendar", "DEFAULT", "2026-12-28", "free"]
        look = self.preview(words)
        done = {"edit": None, "why_not": "", "is_whole": True,
                "answers": [{"statement": "define calendars", "reply": "ok defined 1"}]}
        driver = """editOf(k);
            await lookAtEdit(GIVEN.words);
            await press('do');
            await press('back');
            console.log(JSON.stringify({ last: asked.at(-1)[1], text: answered() }));"""
        found = self.run_page(driver, words=words, replies=[[200, look], [200, done], [200, look]])
        self.assertEqual(found["last"], {"edit": ["calendar", "DEFAULT", "2026-12-28", "unlist"]})
        self.assertEqual(found["text"], "Nothing is done yet.")

    def test_a_day_beyond_the_year_is_shown_in_its_own(self):
        first = datetime.date(1970, 1, 1) + datetime.timedelta(self.world.bounds.plan_end // moments.DAY)
        driver = "console.log(JSON.stringify(GIVEN.days.map(day => usualFrom(['calendar', 'X', day, 'free']) ?? null)))"
        days = [first.isoformat(), (first + datetime.timedelta(300)).isoformat(), "2028-03-05..2028-04-01",
                "2025-02-28", "SAT"]
        self.assertEqual(self.run_page(driver, days=days), [None, None, "2028-03-01", "2025-02-01", None])

    def test_who_may_not_plan_has_none(self):
        for role in ("read", "operate"):
            self.assertEqual(self.run_page("console.log(JSON.stringify(own()))", role=role), "")

    def test_texts_are_shown_as_texts(self):
        reply = self.preview(["calendar", "DEFAULT", "2026-12-28", "free"])
        reply["edit"]["sentences"] = ["<img src=x onerror=1> `a`"]
        driver = """editOf(k); await lookAtEdit(['x']);
            console.log(JSON.stringify(own().all(one => one.tagName === 'li')[0].textContent));"""
        self.assertEqual(self.run_page(driver, replies=[[200, reply]]), "<img src=x onerror=1> a")


if __name__ == "__main__":
    unittest.main()
