"""What tools/browser/page-in-browser asks of the page of a data centre's night."""

import re
import sqlite3
from contextlib import closing

from support import data_centre, plans

from opcplan.rules import columns, moments


SIZES = [(1440, 900), (1024, 768), (390, 844)]
NOW = moments.moment_of(data_centre.NOW)
DAY = moments.day_of("2026-11-25") * 1440
LATE = "status IN ('W', 'S', 'E') AND deadline < ?"
OPEN_PAIRS = """SELECT p.serial FROM dependency JOIN cp_row p ON p.serial = predecessor
    WHERE successor = ? AND p.status <> 'C'"""
ROOTS = """WITH RECURSIVE way (s) AS (SELECT ? UNION SELECT predecessor FROM dependency JOIN way ON successor = s
    JOIN cp_row ON serial = predecessor WHERE status <> 'C')
    SELECT serial FROM cp_row JOIN way ON s = serial WHERE NOT EXISTS (SELECT 1 FROM dependency
        JOIN cp_row p ON p.serial = predecessor WHERE successor = way.s AND p.status <> 'C')"""
ARRIVALS = """SELECT app, count(*) FROM (SELECT app, ia FROM ltp_row UNION ALL SELECT app, ia FROM history_row
    UNION ALL SELECT app, ia FROM cp_row WHERE status <> 'D') WHERE ia / 1440 BETWEEN ? AND ? GROUP BY 1"""
SHOWN_ROWS = "[...document.querySelectorAll('.row[data-i]')].map(x => +x.dataset.i)"
# opens the runs of each application that are one line
OPENED = "D.apps.forEach(one => view.opened.add('runs ' + one[0]))"
# what is typed into the search is drawn a little later, by a clock that a busy machine holds up too
SETTLED = "new Promise(done => setTimeout(done, 300))"


def ask_plan(text, *given):
    """What stock SQLite answers."""
    with closing(sqlite3.connect(plans.of_stream(data_centre.whole()))) as db:
        return db.execute(text, given).fetchall()


def row_of(name):
    """The place of an application's row that isn't complete, as an expression."""
    return f"[...Array(rowCount).keys()].find(i => name(i) === '{name}' && isOpen(i))"


def texts(selector):
    """The texts of all that a selector finds, as an expression."""
    return f"[...document.querySelectorAll({selector!r})].map(x => x.textContent.trim())"


def counts(browser, page, ask):
    """The tiles and the title are what SQLite counts."""
    browser.open(page)
    ask(not browser.complaints(), "the console", browser.complaints())
    errors = ask_plan("SELECT count(*) FROM cp_row WHERE status = 'E'")[0][0]
    late = ask_plan(f"SELECT count(*) FROM cp_row WHERE {LATE}", NOW)[0][0]
    hour = ask_plan("""SELECT count(*) FROM cp_row WHERE status IN ('W', 'S', 'E')
        AND deadline BETWEEN ?1 AND ?1 + 60""", NOW)[0][0]
    started = ask_plan("SELECT count(*) FROM cp_row WHERE status = 'S'")[0][0]
    tiles = [int(text) for text in browser.js(texts(".tiles b"))]
    ask([tiles[0], tiles[1], tiles[3], tiles[4]] == [errors, late, hour, started], "tiles", tiles)
    ask(browser.js("document.title").startswith(f"{errors} in error, {late} late: "), "title")
    for place, number in enumerate(tiles):
        browser.js(f"document.querySelectorAll('.tiles button')[{place}].click()")
        shown = len(browser.js(SHOWN_ROWS))
        ask(shown == number, f"a click on the tile {place} shows its rows", shown)
    browser.js("showNow()")


def rows_of_the_day(browser, page, ask):
    """A day has a row for each occurrence and no other, by SQLite and by the lists of the planner."""
    browser.js(f"{OPENED}; view.kind = 'all'; showFrom({DAY})")
    shown = browser.js(f"{SHOWN_ROWS}.filter(i => !isGone(i)).map(i => serial[i])")
    wanted = {serial for serial, in ask_plan(f"""SELECT serial FROM (SELECT serial, ia, deadline, status FROM cp_row
        WHERE status <> 'D' UNION ALL SELECT serial, ia, deadline, 'L' FROM ltp_row
        UNION ALL SELECT serial, ia, deadline, 'H' FROM history_row)
        WHERE ia < ?2 + 1440 AND max(ia + 1, iif({LATE.replace('?', '?1')}, ?1, deadline)) > ?2""", NOW, DAY)}
    ask(len(shown) == len(set(shown)) and set(shown) == wanted, "rows of a day", set(shown) ^ wanted)
    planner = plans.planner_of(data_centre.whole())
    listed = {}
    for what in ("cp", "ltp", "history"):
        for line in planner.list(what, None):
            row = columns.LISTS[what].values(line)
            if row["ia"].startswith("2026-11-25/") and row.get("status") != "D":
                listed[row["serial"]] = row["app"]
    arriving = browser.js(f"{SHOWN_ROWS}.filter(i => !isGone(i) && dayOf(ia[i]) * DAY === {DAY})"
                          ".map(i => [serial[i], name(i)])")
    ask(dict(arriving) == listed, "what arrives on a day, by the lists", set(dict(arriving)) ^ set(listed))
    browser.js("view.opened.clear(); view.kind = 'open'; showNow()")


def card(browser, page, ask):
    """A blocked row's card shows what it waits for and its root, as SQLite says, and its arrows are drawn."""
    browser.js(f"choose({row_of('ONLINEOPEN')})")
    serial = browser.js("serial[view.pick]")
    wanted = {one for one, in ask_plan(OPEN_PAIRS, serial)}
    first = ("[...[...document.querySelectorAll('#card h3')].find(x => x.textContent === 'Waits for')"
             ".nextElementSibling.querySelectorAll(':scope > li > button')].map(x => serial[+x.dataset.i])")
    ask(set(browser.js(first)) == wanted, "what a row waits for", browser.js(first))
    roots = {one for one, in ask_plan(ROOTS, serial)}
    ask(browser.js("serial[rootOf.get(view.pick)]") in roots, "the root of a row", roots)
    text = browser.js("document.querySelector('#card').innerText")
    ask("root: POSTLOANS Tue 23.00 (in error" in text, "the card names the root", text)
    ask(f"and {len(wanted) - 1} more" in text, "the card counts what a row waits for", text)
    ask(browser.js("document.querySelectorAll('.pairs .own').length") == len(wanted), "arrows of the chosen row")
    browser.js("choose(-1)")
    ask(browser.js("document.querySelectorAll('.pairs.all g').length") > 5, "faint arrows of all rows")


def months(browser, page, ask):
    """The sums of each month are SQLite's, and its free days those on which a daily application doesn't run."""
    for number in range(browser.js("months.length")):
        browser.js(f"view.month = {number}; drawMonth()")
        a_month(browser, ask)
    browser.js("view.month = null; drawMonth()")
    cells = browser.js("[...document.querySelectorAll('td[data-d]')].filter(x => x.classList.contains('bad'))"
                       ".map(x => [D.apps[+x.dataset.a][0], +x.dataset.d])")
    errors = ask_plan("SELECT app, ia / 1440 FROM cp_row WHERE status = 'E'")
    ask(sorted(map(tuple, cells)) == sorted(errors), "cells in error", cells)


def a_month(browser, ask):
    first, last = browser.js("[months[view.month], (months[view.month + 1] ?? D.last + 1) - 1]")
    wanted = dict(ask_plan(ARRIVALS, first, last))
    rows = browser.js("[...document.querySelectorAll('.month tr:has(td[data-d])')].map(x => "
                      "[x.querySelector('th').textContent, x.lastChild.textContent])")
    ask({app: int(total) for app, total in rows} == wanted, "the sums of applications", rows)
    total = browser.js(texts(".month .sum td"))[-1]
    ask(int(total) == sum(wanted.values()), "the sum of the month", total)
    planner = plans.planner_of(data_centre.whole())
    free = browser.js("Object.fromEntries([...document.querySelectorAll('.calendar')].map(x => "
                      "[x.firstChild.textContent, [...x.querySelectorAll('td')].map(y => y.textContent)]))")
    for calendar, app in (("BANK", "FEEDSWIFT"), ("DEFAULT", "FEEDBRANCH")):
        work = {moments.day_of(line[:10]) for line in planner.days(app, first, last)}
        ask(free[calendar][:-1] == ["" if day in work else "free" for day in range(first, last + 1)], calendar, free)


def changes(browser, page, ask):
    """The jobs since the last daily plan are counted, and what was refused is told; so is what changed since."""
    browser.open(page)
    jobs = ask_plan("SELECT number, substr(CAST(body AS TEXT), 1, 9), reply FROM job ORDER BY number")
    begun = max(place for place, (_, text, reply) in enumerate(jobs) if text == "dp-extend" and reply.startswith("ok"))
    refused = [reply for _, _, reply in jobs[begun:] if reply.startswith("refused")]
    text = browser.js("document.querySelector('#changed').innerText")
    ask(f"Jobs since the last daily plan: {len(jobs) - begun}, {len(refused)} refused" in text, "jobs", text)
    serial = refused[0].split()[2]
    app = ask_plan("SELECT app FROM cp_row WHERE serial = ?", int(serial))[0][0]
    ask(f"refused 30 {serial}: it waited for {app}" in text, "what was refused", text)
    errors = ask_plan("SELECT count(*) FROM cp_row WHERE status = 'E'")[0][0]
    ask(f"{errors} ended in error" in text and "1 of the definitions" in text, "what changed since", text)


def paper(browser, page, ask):
    """On paper: few pages, light although the viewer likes the dark, and all that is late."""
    browser.open(page, dark=True)
    pages = len(re.findall(rb"/Type\s*/Page\b(?!s)", browser.pdf()))
    ask(1 <= pages <= 6, "pages of paper", pages)
    browser.media(dark=True, printed=True)
    browser.js("dispatchEvent(new Event('beforeprint'))")
    ask(browser.js("getComputedStyle(document.body).backgroundColor") == "rgb(255, 255, 255)", "paper is white")
    seen = browser.js("[...document.querySelectorAll('#needs .go')]"
                      ".filter(x => x.getClientRects().length).map(x => serial[+x.dataset.i])")
    late = {serial for serial, in ask_plan(f"SELECT serial FROM cp_row WHERE {LATE}", NOW)}
    ask(late <= set(seen), "all that is late is on paper", late - set(seen))
    browser.media()


OF_CENTRE = [counts, rows_of_the_day, card, months, changes, paper]
