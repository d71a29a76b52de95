"""What tools/browser/page-in-browser asks of the keys: those of the day, the months and the search, and what Tab
reaches."""

import datetime

from browser_checks import ARRIVALS, SETTLED, ask_plan, texts

INTERACTIVE = "a[href], button, input, select, summary, td[data-d]"


def focus(browser):
    """What has the focus: its element, the row or the cell."""
    return browser.js("(x => [x.tagName, x.id, x.className, x.dataset.i ?? x.dataset.d ?? ''])(document.activeElement)")


def keys(browser, page, ask):
    """The keys of the day and of the month."""
    browser.open(page)
    browser.key("t")
    ask("row" in focus(browser)[2] and focus(browser)[3] == str(browser.js("view.pick")), "t", focus(browser))
    first = browser.js("view.pick")
    browser.key("ArrowDown")
    browser.key("Enter")
    second = browser.js("view.pick")
    ask(second != first and focus(browser)[3] == str(second), "arrow and Enter", (first, second))
    browser.key("Enter")
    ask(focus(browser)[1] == "card", "Enter once more leads to the card", focus(browser))
    browser.key("Escape")
    ask(browser.js("view.pick") == -1 and "row" in focus(browser)[2], "Escape closes", focus(browser))
    browser.js("document.activeElement.blur(); showNow()")
    start = browser.js("view.from")
    for key, wanted in (("ArrowRight", start + 720), ("ArrowLeft", start), ("ArrowLeft", start - 720), ("n", start)):
        browser.key(key)
        ask(browser.js("view.from") == wanted, f"key {key}", browser.js("view.from"))
    months_by_keys(browser, ask)
    ask(browser.js("document.querySelectorAll('[tabindex=\"0\"]').length") <= 3, "tab stops of rows and cells")
    browser.js("document.querySelector('[data-key=\"month on\"]').focus()")
    browser.key("Enter")
    ask(browser.js("document.activeElement.dataset.key") == "month on", "a button that is drawn anew keeps the focus")


def months_by_keys(browser, ask):
    browser.js("document.querySelector('td[data-d][tabindex=\"0\"]').focus()")
    browser.key("ArrowRight", 3)
    browser.key("ArrowDown")
    ask(focus(browser)[0] == "TD", "arrows go through the month", focus(browser))
    browser.key("ArrowLeft", 9)
    ask(focus(browser)[0] == "BUTTON", "arrows lead to the application's name", focus(browser))
    browser.key("ArrowRight", 4)
    day = int(focus(browser)[3])
    browser.key("Enter")
    ask(browser.js("[view.from, view.kind]") == [day * 1440, "all"], "Enter shows the day", browser.js("view.from"))


def search(browser, page, ask):
    """The search shows what has the letters alone, opens an application, and is emptied."""
    browser.open(page)
    browser.key("/")
    ask(focus(browser)[1] == "find", "/ leads to the search", focus(browser))
    browser.type("PAY")
    browser.js(SETTLED)
    lists = ".row .name", ".month tbody button", "#now .go .name"
    names = [name for where in lists for name in browser.js(texts(where))]
    ask(names and all("PAY" in name for name in names), "what the search shows", names)
    first, last = browser.js("[months[view.month], (months[view.month + 1] ?? D.last + 1) - 1]")
    wanted = [app for app, _ in ask_plan(ARRIVALS, first, last) if "PAY" in app]
    ask(wanted == browser.js(texts(".month tbody button")), "applications of the search", wanted)
    browser.key("Enter")
    title = browser.js("document.querySelector('#card h2').textContent")
    ask(title.startswith("PAYROLL") and focus(browser)[1] == "card", "Enter opens the application", title)
    row = ask_plan("SELECT serial, app, ia FROM cp_row WHERE status = 'E' ORDER BY serial")[0]
    at = datetime.datetime(1970, 1, 1) + datetime.timedelta(minutes=row[2])
    for typed in (f"#{row[0]}", f"{row[0]:09}", f"{row[1]} {at:%Y-%m-%d %H.%M}", f"{row[1]} {at:%Y-%m-%dT%H:%M}"):
        browser.js(f"choose(-1); document.querySelector('#find').value = '{typed}'")
        browser.js("document.querySelector('#find').focus()")
        browser.key("Enter")
        found = browser.js("[serial[view.pick], document.querySelector('#find').value]")
        ask(found == [row[0], ""] and focus(browser)[1] == "card", f"Enter opens {typed}", found)
    browser.js(f"choose(-1); document.querySelector('#find').value = '{row[1]} 2026-11-25 00.01'; "
               "document.querySelector('#find').focus()")
    browser.key("Enter")
    card = browser.js("document.querySelector('#card').textContent")
    ask(f"No run of {row[1]} on this page arrives then" in card and "Before" in card, "the nearest are named", card)
    ask(focus(browser)[1] == "card", "they have the focus", focus(browser))
    browser.key("Escape")
    ask(browser.js("view.other") is None, "Escape closes them")
    browser.js("document.querySelector('#find').value = 'PAY'; document.querySelector('#find').focus(); find()")
    browser.js(SETTLED)
    browser.key("Escape")
    browser.js(SETTLED)
    ask(browser.js("[view.find, view.kind]") == [[], "open"], "Escape empties the search", browser.js("view.kind"))


def tab(browser, page, ask):
    """The Tab key, and arrows within the day and the month, lead to all that can be pressed."""
    browser.open(page)
    inner = ".row, .month tbody *, details:not([open]) > :not(summary) *"
    browser.js(f"window.left = new Set([...document.querySelectorAll('{INTERACTIVE}')].filter(x => "
               f"x.getClientRects().length && !x.matches('{inner}')));"
               "addEventListener('focusin', event => left.delete(event.target)); 0")
    for _ in range(400):
        browser.key("Tab")
        if not browser.js("left.size"):
            break
    missed = browser.js("[...left].map(x => x.outerHTML.slice(0, 80))")
    ask(not missed, "what Tab doesn't reach", missed[:5])


OF_KEYS = [keys, search, tab]
