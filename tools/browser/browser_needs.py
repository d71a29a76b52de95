"""What tools/browser/page-in-browser asks of the list of what needs a person, by what ./plan status prints; of runs
that are one line, of signs, and of what runs into one another, by stock SQLite."""

import re
import sqlite3
from contextlib import closing

import test_page_needs
from support import data_centre, hourly, plans

from opcplan.rules import moments
from opcplan.webpage import page_data, page_html

from browser_checks import LATE, NOW, SIZES, ask_plan, row_of, texts
from browser_keys import focus
from browser_plans import FAINT, NAMELESS, written

EVENING = moments.moment_of(hourly.NOW)
# own entries of the list, and the rows of its parts, by serial
NEEDS = "[...document.querySelectorAll('#needs > .pane > .list > .entry > .go')].map(x => serial[+x.dataset.i])"
INSIDE = ("(document.querySelectorAll('#needs details').forEach(x => { x.drawLines?.(); x.open = true; }), "
          "[...document.querySelectorAll('#needs details .go, #needs .waits .in')].map(x => serial[+x.dataset.i]))")
NEXT = "[...document.querySelectorAll('#next .go')].map(x => serial[+x.dataset.i])"
# of each entry its text, and what to do first or nothing
SAID = "[...document.querySelectorAll('#needs [data-need]')].map(x => [...x.querySelectorAll(':scope > p')]" \
    ".map(y => y.textContent.trim()))"
# which texts of the axis run into one another
NEAR = """(() => {
  const boxes = [...document.querySelectorAll('.axis span')].map(x => [x.textContent, x.getBoundingClientRect()])
    .sort((a, b) => a[1].left - b[1].left);
  return boxes.slice(1).filter(([, box], k) => box.left < boxes[k][1].right + 2)
    .map(([text], k) => [boxes[k][0], text]);
})()"""
SIGNS = """Object.fromEntries([...document.querySelectorAll('.row[data-i] .b')].map(x =>
    [state(+x.closest('.row').dataset.i), x.textContent]))"""


def hourly_page(folder):
    """The page of a site whose jobs run many times a day."""
    return written(folder, "hourly", plans.of_stream(hourly.whole()), EVENING)


def ask_hourly(text, *given):
    """What stock SQLite answers of that site's plan."""
    with closing(sqlite3.connect(plans.of_stream(hourly.whole()))) as db:
        return db.execute(text, given).fetchall()


def each_once(browser, ask, look, asked, now):
    """All that is in error or late is in the list or counted there, all that is ready there or beside it, and nothing
    of these twice. Here no failure is tried again."""
    browser.js("document.querySelectorAll('#now .more').forEach(x => x.click())")
    needs, inside, beside = browser.js(NEEDS), browser.js(INSIDE), browser.js(NEXT)
    wanted = {serial for serial, in asked(f"SELECT serial FROM cp_row WHERE status = 'E' OR {LATE}", now)}
    ask(wanted <= {*needs, *inside}, f"{look}: all that is in error or late", wanted - {*needs, *inside})
    ready = {serial for serial, in asked("""SELECT serial FROM cp_row WHERE status = 'W' AND ia <= ? AND NOT EXISTS
        (SELECT 1 FROM dependency JOIN cp_row p ON p.serial = predecessor WHERE successor = cp_row.serial
            AND p.status <> 'C')""", now)}
    ask(ready <= {*needs, *inside, *beside}, f"{look}: all that is ready", ready - {*needs, *inside, *beside})
    every = [*needs, *inside, *beside]
    twice = sorted(serial for serial in set(every) if every.count(serial) > 1)
    ask(not twice, f"{look}: each row once", twice)
    return needs


def as_status_says(browser, ask, look, path, now):
    """The page has what ./plan status prints, in its order."""
    printed = plans.plan("status", path, "--now", now).stdout.split("Needs a person:\n")[1].split("\n\n")[0].split("\n")
    wanted = []
    for line in printed:
        if line.startswith("    First: "):
            wanted[-1].append(line.strip().replace("`", ""))
        else:
            wanted.append([line.strip().replace("`", "")])
    found = browser.js(SAID)
    is_same = len(found) == len(wanted) and all(
        len(one) == len(other) and other[0].lower().endswith(one[0].lower()) and one[1:] == other[1:]
        for one, other in zip(found, wanted, strict=True))
    ask(is_same, f"{look}: what ./plan status prints", (found, wanted))
    return len(wanted)


def needs_of_a_night(browser, page, ask):
    """The list of the centre's night is that of ./plan status; a click and the keys lead to rows."""
    browser.open(page)
    day = browser.js("document.querySelector('#day').getBoundingClientRect().top")
    ask(day < 700, "the day begins on the first screen", day)
    needs = each_once(browser, ask, "the centre", ask_plan, NOW)
    count = as_status_says(browser, ask, "the centre", plans.of_stream(data_centre.whole()), data_centre.NOW)
    heads = browser.js(texts("#now h3"))
    ask(heads[0] == f"Needs you {count}" and heads[1].startswith("Ready, and arriving next "), "headings", heads)
    browser.js("document.querySelectorAll('#needs details').forEach(x => { x.open = false; })")
    browser.js("document.querySelector('#needs .go').click()")
    ask(browser.js("serial[view.pick]") == needs[0], "a click leads to the row")
    browser.js("choose(-1); document.querySelectorAll('#needs > .pane > .list > .entry > .go')[1].focus()")
    browser.key("Enter")
    ask(browser.js("serial[view.pick]") == needs[1], "so does Enter")
    browser.key("Tab")
    ask(focus(browser)[0] == "SUMMARY", "Tab leads to what it counts", focus(browser))
    browser.key("Enter")
    browser.key("Tab")
    row = browser.js("serial[+document.activeElement.dataset.i]")
    browser.key("Enter")
    ask(row not in needs and browser.js("serial[view.pick]") == row, "which Enter opens and chooses", row)


def needs_of_an_evening(browser, folder, ask):
    """The list of a site of hourly jobs; runs to come are told once."""
    page = hourly_page(folder)
    browser.open(page)
    each_once(browser, ask, "the site", ask_hourly, EVENING)
    as_status_says(browser, ask, "the site", plans.of_stream(hourly.whole()), hourly.NOW)
    text = browser.js("document.querySelector('#next').innerText")
    coming = ask_hourly("SELECT count(*) FROM cp_row WHERE app = 'MAILRUN' AND ia > ?", EVENING)[0][0]
    ask(f"; {coming - 1} more of it later" in text, "runs to come are told once", text)
    ready = browser.js("[...document.querySelectorAll('#needs .go')].filter(x => state(+x.dataset.i) === 'R').length")
    ask(ready and f"{ready} more {'is' if ready == 1 else 'are'} ready: see “Needs you”." in text,
        "what is ready elsewhere", text)
    pages = len(re.findall(rb"/Type\s*/Page\b(?!s)", browser.pdf()))
    ask(pages <= 2, "a small plan is on two pages of paper", pages)


def needs_of_every_kind(browser, folder, ask):
    """A list that only a desk can have: at each width, light and dark, nothing stands out and all can be read."""
    path = str(plans.of_stream(data_centre.whole()))
    data = page_data.data_of(path, NOW)
    data["needs"] |= test_page_needs.status_of(path, NOW, None, test_page_needs.LIVE)
    out = f"{folder}/kinds.html"
    with open(out, "w", encoding="utf-8") as file:
        file.write(page_html.page_of(data))
    for width, height in SIZES:
        for dark in (False, True):
            browser.open(out, width, height, dark)
            look = f"every kind at {width}, {'dark' if dark else 'light'}"
            browser.js("document.querySelector('#needs .more').click()")
            names = browser.js("[...document.querySelectorAll('[data-need]')].map(x => x.dataset.need)")
            ask(names == [one["name"] for one in data["needs"]["needs"]] and len(names) > 8, look, names)
            shown = browser.js("document.querySelector('#needs').innerText")
            ask("The disk of /var/lib/<b>opcplan</b> is full to 95.0%" in shown, f"{look}: texts stay text", shown)
            wide = browser.js("document.documentElement.scrollWidth")
            ask(wide <= width, f"{look}: nothing stands out", wide)
            for what, question in (("contrast", FAINT), ("names", NAMELESS)):
                ask(not browser.js(question), f"{look}: {what}", browser.js(question))
            ask(not browser.complaints(), f"{look}: the console", browser.complaints())


def runs(browser, folder, ask):
    """The runs of an application through a day are one line with their number, which opens; in the months they are no
    darker than others."""
    browser.open(hourly_page(folder))
    browser.js("view.kind = 'all'; showFrom(dayOf(D.now) * DAY)")
    found = browser.js("[...document.querySelectorAll('.row.group')].map(x => [x.querySelector('.name').textContent, "
                       "+x.querySelector('em').textContent, x.getAttribute('aria-label')])")
    ask([one[:2] for one in found] == [["HEALTH", 24], ["MAILRUN", 12]], "applications of many runs", found)
    first = EVENING // 1440 * 1440
    late = ask_hourly(f"SELECT count(*) FROM cp_row WHERE app = 'HEALTH' AND ia BETWEEN ?2 AND ?2 + 1439 AND "
                      f"{LATE.replace('?', '?1')}", EVENING, first)[0][0]
    ask(found[0][2] == f"HEALTH: 24 runs, {late} late", "what a reader hears of them", found[0])
    lines = browser.js("document.querySelectorAll('.row').length")
    ask(lines == 5, "lines of the day", lines)
    browser.js("document.querySelector('.row.group').focus()")
    browser.key("Enter")
    ask(browser.js("[document.activeElement.getAttribute('aria-expanded'), laid.buttons.size]") == ["true", 27],
        "Enter opens them", browser.js("laid.buttons.size"))
    browser.key("Enter")
    ask(browser.js("laid.buttons.size") == 3, "and puts them away")
    serial = ask_hourly("SELECT serial FROM cp_row WHERE app = 'MAILRUN' AND ia > ? ORDER BY ia", EVENING)[0][0]
    browser.js(f"view.kind = 'open'; choose(rowOfSerial({serial}))")
    ask(browser.js("laid.buttons.has(view.pick)"), "what is chosen is opened")
    looks = browser.js("[...new Set([...document.querySelectorAll('td[data-d]')]"
                       ".filter(x => +x.dataset.d > dayOf(D.now)).map(x => x.className))]")
    ask(looks == ["n1"], "days as usual look alike", looks)


def signs(browser, page, ask):
    """Each state has a letter of its own, in rows, on cards and in the graph, which fills what is in error."""
    browser.open(page)
    browser.js("view.kind = 'all'; drawDay()")
    found = browser.js(SIGNS)
    wanted = {"E": "E", "S": "S", "R": "R", "B": "B", "F": "W", "C": "C"}
    ask(wanted.items() <= found.items(), "the letters of states", found)
    seen = browser.js(texts(".legend .count"))
    ask([text[0] for text in seen] == list("CSRBWE"), "the letters are told beside the counts", seen)
    browser.js("view.kind = 'open'; showAsGraph(true)")
    for key, part, other in (("E", "fill", "backgroundColor"), ("S", "fill", "backgroundColor"),
                             ("R", "stroke", "borderTopColor")):
        same = browser.js(f"getComputedStyle(document.querySelector('.node.s{key} .sign')).{part} === "
                          f"getComputedStyle(document.querySelector('#now .b.{key}')).{other}")
        ask(same, f"the sign {key} in the graph looks as in the lists")
    letters = browser.js("Object.fromEntries([...document.querySelectorAll('.node')].map(x => "
                         "[state(+x.dataset.i), x.querySelector('.letter').textContent]))")
    ask(letters.items() <= wanted.items(), "the letters of the graph", letters)


def legend(browser, page, ask):
    """The signs and keys take no room until they are asked for, and Escape puts them away."""
    browser.open(page)
    wide = "document.querySelector('main').offsetWidth"
    whole = browser.js(wide)
    ask(whole >= 1380 and not browser.js("document.querySelector('#card').getClientRects().length"), "no legend", whole)
    browser.key("?")
    ask(focus(browser)[1] == "card" and browser.js("document.querySelector('#help').ariaExpanded") == "true",
        "? shows the signs and keys", focus(browser))
    ask(len(browser.js(texts("#card kbd"))) >= 8 and browser.js(wide) < whole, "they are beside the page")
    browser.key("Escape")
    ask(focus(browser)[1] == "help" and browser.js(wide) == whole, "Escape puts them away", focus(browser))
    browser.key("Enter")
    browser.js(f"choose({row_of('LEDGERPOST')}); choose(-1)")
    ask(browser.js(f"[{wide}, view.help]") == [whole, False], "a row takes their place")
    browser.js("document.querySelector('#day').scrollIntoView({behavior: 'instant'}); "
               "document.querySelectorAll('.row')[4].focus()")
    place = "document.activeElement.getBoundingClientRect().top"
    before = browser.js(place)
    browser.key("Enter")
    ask(abs(browser.js(place) - before) <= 1, "a row that is chosen stays at its height", (before, browser.js(place)))


def trouble(browser, page, ask):
    """The key t goes to those in error first, then to the late, then to those at risk."""
    browser.open(page)
    states = []
    for _ in range(browser.js("[...Array(rowCount).keys()].filter(isTrouble).length")):
        browser.key("t")
        states.append(browser.js("state(view.pick) === 'E' ? 0 : late.has(view.pick) ? 1 : 2"))
    ask(states == sorted(states) and states.count(0) == 2, "t goes to the worst first", states)


def readable(browser, page, ask):
    """The other rows can be read while one is chosen, as rows and as a graph; no arrow goes over a remark."""
    for dark in (False, True):
        browser.open(page, dark=dark)
        browser.js(f"choose({row_of('LEDGERPOST')})")
        faint = browser.js(FAINT)
        clear = browser.js("[...document.querySelectorAll('.row, .row .lab, .remark')]"
                           ".every(x => getComputedStyle(x).opacity === '1')")
        ask(not faint and clear, f"rows beside a chosen one, dark: {dark}", faint[:5])
        below = browser.js("[...document.querySelectorAll('.remark')].filter(x => !(getComputedStyle(x).zIndex > "
                           "getComputedStyle(document.querySelector('.overlay')).zIndex) || "
                           "/, 0\\)$/.test(getComputedStyle(x).backgroundColor)).length")
        ask(below == 0 and browser.js("document.querySelectorAll('.remark').length") > 5, "remarks over arrows", below)
        browser.js("showAsGraph(true)")
        ask(not browser.js(FAINT), f"the graph beside a chosen one, dark: {dark}", browser.js(FAINT)[:5])


def reader(browser, page, ask):
    """What a screen reader hears: landmarks, headings in their order, what is opened, and the state of each row."""
    browser.open(page)
    nodes = [one for one in browser.call("Accessibility.getFullAXTree")["nodes"] if not one["ignored"]]

    def named(role):
        return [one.get("name", {}).get("value", "") for one in nodes if one["role"]["value"] == role]

    def is_expanded(name):
        return [value["value"]["value"] for one in nodes if one.get("name", {}).get("value") == name
                for value in one.get("properties", []) if value["name"] == "expanded"]

    ask(len(named("main")) == len(named("banner")) == 1 and named("navigation") == ["Parts of the page"], "landmarks")
    wanted = {"centre.db", "Now", "Needs you 3", "Day", "Month", "Changes"}
    ask(wanted <= set(named("heading")), "headings", named("heading"))
    ask(is_expanded("Signs and keys") == [False], "the legend is put away", is_expanded("Signs and keys"))
    inside = [name for name in named("DisclosureTriangle") if name.startswith("Counts ")]
    ask(inside and "late; first due: " in inside[0], "what an entry counts", named("DisclosureTriangle"))
    states = [name for name in named("button") if ", due " in name]
    words = ("in error", "started", "nothing is in its way", "waits for")
    dumb = [name for name in states if not any(word in name for word in words)]
    ask(len(states) > 20 and not dumb, "the state of each row", dumb[:3])


def axis(browser, folder, ask):
    """The texts of the axis don't run into one another, at whatever moment and width."""
    page = hourly_page(folder)
    for width, height in SIZES:
        browser.open(page, width, height)
        near = browser.js(f"""Array.from({{length: 96}}, (_, k) => {{
            D.now = {EVENING} + 15 * k;
            showNow();
            return [clock(D.now), ...{NEAR}];
        }}).filter(x => x.length > 1)""")
        ask(not near, f"the axis at {width}", near[:5])
        browser.js(f"D.now = {EVENING}; showNow()")
        marks = browser.js(texts(".axis span"))
        ask("22.30" in marks and (width < 500 or "Tue 5 Jan" in marks), f"now and the day at {width}", marks)


OF_NEEDS = [needs_of_a_night, signs, legend, trouble, readable, reader]
OF_SITE = [needs_of_an_evening, needs_of_every_kind, runs, axis]
