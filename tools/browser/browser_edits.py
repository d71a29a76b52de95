"""What tools/browser/desk-in-browser asks of changes of definitions: by keys and by pointer, with another editor beside
the browser, and how the year's calendar looks."""

import json
import os
import time

from opcplan.desk import client

from browser_plans import FAINT, NAMELESS

SIZES = [(1920, 1080), (1280, 800), (390, 844)]
SHOWN = "document.querySelector('#edit-shown')?.textContent ?? ''"
READY = "document.querySelector('[data-key=\"edit do\"]:not(:disabled)')"
FOCUS = "document.activeElement.dataset.key ?? document.activeElement.tagName + ' ' + document.activeElement.id"
YEAR = """[...document.querySelectorAll('.year td')].filter(x => /^[0-9]/.test(x.textContent)).map(x =>
    ({ goes: '-', comes: '+', other: '~', stays: '=', planned: ' ' })[x.className] ?? '.').join('')"""
DAY = "2026-12-28"  # a Monday
PATIENCE = 150  # seconds


def comes(room, holds, what):
    """Waits until something holds: a preview is a process of its own, which goes last where processors are short."""
    until = time.monotonic() + PATIENCE
    while not room.holds(holds) and time.monotonic() < until:
        time.sleep(0.1)
    room.ask(room.holds(holds), what)


def edit(room, *words):
    """What another editor is answered to an edit, which it does."""
    caller = client.Client(str(room.desk.socket))
    found = json.loads(caller.request("POST", "/edits", json.dumps({"edit": words}).encode())[1])
    heads = {"If-Match": found["tag"]}
    done = caller.request("POST", "/edits", json.dumps({"stream": found["edit"]["stream"]}).encode(), heads)
    return json.loads(done[1])["answers"]


def looked(room, *words):
    """What a desk shows of an edit."""
    caller = client.Client(str(room.desk.socket))
    return json.loads(caller.request("POST", "/edits", json.dumps({"edit": words}).encode())[1])


def tab_to(room, key, most=60, own=FOCUS):
    """Goes with Tab to the element of a key."""
    for _ in range(most):
        if room.js(own) == key:
            break
        room.browser.key("Tab")
    room.ask(room.js(own) == key, f"Tab leads to {key}", room.js(own))


def typed_day(room, name, day):
    """Types a day into a field with a date."""
    room.js(f"(x => {{ x.value = '{day}'; x.dispatchEvent(new Event('input')); }})"
            f"(document.querySelector('[data-key=\"edit {name}\"]'))")


def an_app(room):
    """An application whose runs go on that day if it is free."""
    found = looked(room, "calendar", "DEFAULT", DAY, "free")["edit"]
    return next(one["app"] for one in found["apps"] if one["goes"] == 1 and one["stays"] > 100), found


def by_keys(room):
    """The way from the search to a free day and back, by keys."""
    browser, ask = room.browser, room.ask
    app, wanted = an_app(room)
    position = room.desk.health()["position"]
    browser.key("/")
    browser.type(app)
    browser.key("Enter")
    comes(room, "document.querySelector('#card [data-a]')", "its runs, or one of them, come into the card")
    tab_to(room, app, own="D.apps[document.activeElement.dataset.a ?? -1]?.[0]")
    browser.key("Enter")
    comes(room, f"document.querySelector('#card h2')?.textContent === {json.dumps(app)}", "the card of it comes")
    tab_to(room, "SUMMARY", own="document.activeElement.tagName")
    browser.key("Enter")
    ask(room.js("document.querySelector('.edits').open"), "Enter opens the part that changes definitions")
    browser.key("Tab")
    ask(room.js(FOCUS) == "edit what", "what is changed comes first", room.js(FOCUS))
    tab_to(room, "edit first")
    typed_day(room, "first", DAY)
    tab_to(room, "edit look")
    browser.key("Enter")
    comes(room, READY, "a preview comes")
    ask(room.js(SHOWN).startswith("Nothing is done yet."), "nothing is done yet", room.js(SHOWN)[:200])
    signs = next(one["signs"] for one in wanted["apps"] if one["app"] == app)
    ask(room.js(YEAR) == signs, "the year has the days that the desk named", room.js(YEAR))
    ask(room.js("document.querySelector('#say').textContent.includes('1 day goes')"), "the number is said",
        room.js("document.querySelector('#say').textContent"))
    ask(room.js(FOCUS) == "DIV edit-shown", "the preview has the focus", room.js(FOCUS))
    browser.key("Enter")
    ask(room.desk.health()["position"] == position, "Enter on it does nothing")
    tab_to(room, "edit do")
    browser.key("Enter")
    comes(room, f"({SHOWN}).startsWith('Done: 1 statement.')", "one press does it")
    ask(looked(room, "calendar", "DEFAULT", DAY, "free")["why_not"].endswith("nothing would change"), "it is done")
    tab_to(room, "edit back")
    browser.key("Enter")
    comes(room, READY, "what takes it back is shown")
    ask(room.js(YEAR) == signs.replace("-", "+"), "the day comes again", room.js(YEAR))
    tab_to(room, "edit do")
    browser.key("Enter")
    comes(room, f"({SHOWN}).startsWith('Done: 1 statement.')", "it is taken back")
    ask(looked(room, "calendar", "DEFAULT", DAY, "unlist")["why_not"].endswith("nothing would change"), "it is back")
    tab_to(room, "edit modify")
    browser.key("Enter")
    comes(room, "document.querySelector('#told')?.textContent.startsWith('Nothing is done')", "its trial comes")


def clicked(room, key):
    """Clicks the button of a key with the pointer."""
    room.js(f"document.querySelector('[data-key=\"{key}\"]').scrollIntoView("
            "{ block: 'center', behavior: 'instant' })")
    x, y = room.js(f"(r => [r.x + r.width / 2, r.y + r.height / 2])"
                   f"(document.querySelector('[data-key=\"{key}\"]').getBoundingClientRect())")
    for kind in ("mousePressed", "mouseReleased"):
        room.browser.call("Input.dispatchMouseEvent", type=kind, x=x, y=y, button="left", clickCount=1)


def with_another(room):
    """A run cycle by the pointer, while another editor changes it too."""
    ask = room.ask
    app = an_app(room)[0]
    room.js(f"showApp(D.apps.findIndex(one => one[0] === {json.dumps(app)}))")
    cycle = room.js("D.apps[view.app][3][0][0]")
    room.js("document.querySelector('.edits').open = true; (x => { x.value = 'cycle " + cycle + "'; "
            "x.dispatchEvent(new Event('change')); })(document.querySelector('[data-key=\"edit what\"]'))")
    room.js("(x => { x.value = '05:13'; x.dispatchEvent(new Event('input')); })"
            "(document.querySelector('[data-key=\"edit ia\"]'))")
    clicked(room, "edit look")
    comes(room, READY, "a preview of a run cycle comes")
    ask("~" in room.js(YEAR), "its days have other runs", room.js(YEAR))
    room.post("cp-add --app " + app + " --ia 2026-11-25/05.51\n")
    clicked(room, "edit do")
    comes(room, f"({SHOWN}).startsWith('Done: 1 statement.')", "what has nothing to do with it is no reason")
    room.js("(x => { x.value = '05:14'; x.dispatchEvent(new Event('input')); })"
            "(document.querySelector('[data-key=\"edit ia\"]'))")
    clicked(room, "edit look")
    comes(room, READY, "another preview comes")
    answers = edit(room, "run-cycle", app, cycle, "rule=3")
    ask(answers[0]["reply"].startswith("ok"), "another editor changes its rule", answers)
    clicked(room, "edit do")
    comes(room, f"({SHOWN}).includes('somebody has changed the definitions')", "it is told, with a new preview")
    found = looked(room, "run-cycle", app, cycle, "rule=3")
    ask("nothing would change" in found["why_not"], "what the other one did stays", found["why_not"])
    clicked(room, "edit do")
    comes(room, f"({SHOWN}).startsWith('Done: 1 statement.')", "the next press does it")
    found = [looked(room, "run-cycle", app, cycle, field)["why_not"] for field in ("rule=3", "ia=05.14")]
    ask(all("nothing would change" in why for why in found), "both are done", found)


def looks(room, pictures):
    """At three widths, light, dark and with forced colours."""
    browser, ask = room.browser, room.ask
    for width, height in SIZES:
        for colours in ("light", "dark", "forced"):
            look = f"edits, {width} {colours}"
            room.open(width, height, colours == "dark")
            if colours == "forced":
                browser.call("Emulation.setEmulatedMedia", features=[{"name": "forced-colors", "value": "active"}])
            room.js(f"showApp(D.apps.findIndex(one => one[0] === {json.dumps(an_app(room)[0])})); "
                    "document.querySelector('.edits').open = true")
            room.js("lookAtEdit(['calendar', 'DEFAULT', '2026-12-28..2026-12-30', 'free', 'SAT', 'work'])")
            comes(room, READY, f"{look}: a preview comes")
            wide = room.js("document.documentElement.scrollWidth")
            ask(wide <= width, f"{look}: nothing stands out", wide)
            inside = room.js("[...document.querySelectorAll('.edits *')].filter(x => x.getClientRects().length && "
                             "!x.closest('.hidden') && x.getBoundingClientRect().right > document.querySelector("
                             "'#card').getBoundingClientRect().right + 1).map(x => x.tagName + '.' + x.className)")
            ask(not inside, f"{look}: nothing stands out of the card", inside[:5])
            if colours != "forced":
                faint = browser.js(FAINT.replace("'.hidden", "':disabled, .hidden"))
                ask(not faint, f"{look}: contrast", faint[:5])
            ask(not browser.js(NAMELESS), f"{look}: names", browser.js(NAMELESS))
            kinds = room.js("['goes', 'comes', 'stays'].map(kind => (x => x && (s => [x.textContent.replace(/[0-9]/g, "
                            "''), s.borderTopStyle, s.textDecorationLine].join())(getComputedStyle(x)))"
                            "(document.querySelector('.year td.' + kind)))")
            ask(all(kinds) and len(set(kinds)) == 3, f"{look}: the days differ by more than colour", kinds)
            if pictures:
                room.js("document.querySelector('#edit-shown').scrollIntoView({ behavior: 'instant' })")
                browser.picture(os.path.join(pictures, f"edits-{width}-{colours}.png"))
            ask(not room.complaints(), f"{look}: the console", room.complaints())
    browser.media()


def check(room, pictures=None):
    """All of them."""
    room.open()
    by_keys(room)
    with_another(room)
    others = [one for one in room.complaints() if "412" not in str(one)]  # those the page expects
    room.ask(not others, "edits: the console", others)
    looks(room, pictures)
