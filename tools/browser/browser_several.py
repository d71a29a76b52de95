"""What tools/browser/desk-in-browser asks of several chosen rows, of acts that stop half way, of the search, and of
runs that are added or moved with a deadline: by keys and by the pointer."""

import json
import signal
import threading

from browser_desk import CTRL, SAID, SETTLED, STATE, Room, clicked_at
from headless import SHIFT

BAR = "document.querySelector('#several')"
SHOWN = "(document.querySelector('#several-preview')?.textContent ?? '')"
READY = "document.querySelector('#several-preview [data-key=\"do it\"]:not(:disabled)')"
CHOSEN = "markedRows().map(i => serial[i])"
ROW = "document.querySelector('#lines .row[data-i=\"' + rowOfSerial({}) + '\"]')"


def focused(room):
    """The key of the element that has the focus, or its id."""
    return room.js("document.activeElement.dataset.key ?? document.activeElement.id")


def to_button(room, key):
    """Goes by `a` and Tab to a button of the bar."""
    room.browser.key("a")
    for _ in range(30):
        if focused(room) == key:
            return
        room.browser.key("Tab")
    room.ask(False, f"a and Tab lead to {key}", focused(room))


def choose_rows(room, numbers):
    """Chooses rows by their serials, without keys or the pointer."""
    room.js("several.serials.clear()")
    room.js(f"mark({json.dumps(numbers)}.map(number => rowOfSerial(number)), true)")


def rows(room, holds, most=9):
    """The serials of rows for which an expression holds of `i`."""
    return room.js(f"[...Array(rowCount).keys()].filter(i => {holds}).slice(0, {most}).map(i => serial[i])")


def several_by_keys(browser, folder, ask):
    """Rows are chosen and several are reset by keys alone; Enter again, or a, never does what can't be undone."""
    room = Room(browser, folder, ask)
    room.open()
    errors = rows(room, "state(i) === 'E'")
    room.js("showKind('error')")
    room.js("document.querySelector('#lines .row').focus()")
    browser.key(" ")
    ask(room.js(CHOSEN) == errors[:1] and room.js("view.pick") == -1, "Space chooses a row and opens no card",
        room.js(CHOSEN))
    ask(room.js(f"{BAR}.querySelector('b').textContent") == "1 row chosen", "the bar says how many")
    browser.key("ArrowDown", len(errors) - 1, SHIFT)
    ask(sorted(room.js(CHOSEN)) == sorted(errors), "Shift and arrows choose on", room.js(CHOSEN))
    room.comes(f"{SAID} === '{len(errors)} rows chosen'", "it is said to a screen reader")
    heard = room.js("(x => [x.getAttribute('role'), x.getAttribute('aria-selected'), x.closest('[role=treegrid]')"
                    ".getAttribute('aria-multiselectable')])(document.activeElement)")
    ask(heard == ["gridcell", "true", "true"], "what the rows are", heard)
    browser.key("a", modifiers=CTRL)
    ask(room.js(CHOSEN) == [], "Ctrl+A of what is chosen whole chooses none")
    browser.key("a", modifiers=CTRL)
    ask(sorted(room.js(CHOSEN)) == sorted(errors), "Ctrl+A chooses all")
    browser.key("a")
    ask(focused(room) == "all Reset", "a leads to Reset", focused(room))
    browser.key("Enter")
    room.comes(READY, "a preview of all comes", 6)
    told = room.js(SHOWN)
    ask(f"{len(errors)} runs." in told and f"{len(errors)} statements: " in told, "it says what changes", told)
    ask(focused(room) == "several-preview", "it has the focus", focused(room))
    browser.key("Enter", 3)
    ask(room.desk.health()["position"] == 0, "a preview changes nothing, nor does Enter again")
    browser.key("Tab")
    browser.key("Enter")
    room.comes(f"{SHOWN}.startsWith('Done: {len(errors)} runs, {len(errors)} statements.')", "it is done", 6)
    room.comes(f"{json.dumps(errors)}.every(number => 'RBF'.includes(state(rowOfSerial(number))))", "all are reset", 4)
    position = room.desk.health()["position"]
    ask(position == len(errors), "each once", position)
    browser.key("Enter", 2)
    browser.key("a")
    first = room.js("document.activeElement.closest('.final') === null && document.activeElement.dataset.verb")
    ask(first not in (False, "complete", "cancel"), "after it a leads to nothing that can't be undone", first)
    ask(room.desk.health()["position"] == position, "Enter does nothing after it")
    browser.key("Escape")
    ask(room.js(SHOWN) == "" and room.js(CHOSEN) != [], "Escape drops what is shown")
    room.js("view.kind = 'all'; drawDay()")
    browser.key("Escape")
    ask(room.js(f"{BAR}.hidden") and room.js(CHOSEN) == [] and room.js("document.activeElement.matches('.row')"),
        "Escape chooses none, and the focus goes to the rows", focused(room))
    room.same("a reset of several")
    ask(not room.complaints(), "the console", room.complaints())
    room.end()


def several_by_pointer(browser, folder, ask):
    """Rows are chosen with Ctrl, Shift and their boxes; what can't be undone wants one press more."""
    room = Room(browser, folder, ask)
    room.open()
    room.js("showKind('all'); document.querySelector('#day').scrollIntoView({behavior: 'instant'})")
    waiting = room.js("drawnLines.filter(line => typeof line === 'number' && statusOfRow(line) === 'W').slice(0, 4)"
                      ".map(i => serial[i])")
    for number in waiting[:2]:
        clicked_at(room, ROW.format(number), modifiers=CTRL)
    ask(sorted(room.js(CHOSEN)) == sorted(waiting[:2]) and room.js("view.pick") == -1, "Ctrl and a click choose",
        room.js(CHOSEN))
    clicked_at(room, f"{ROW.format(waiting[0])}.parentElement.querySelector('.tick')")
    ask(room.js(CHOSEN) == [waiting[1]], "a click on the box of a chosen row takes it away", room.js(CHOSEN))
    ticked = room.js(f"{ROW.format(waiting[0])}.parentElement.querySelector('input').checked")
    ask(ticked is False, "its box isn't ticked")
    clicked_at(room, ROW.format(waiting[3]), modifiers=SHIFT)
    among = room.js(f"(([a, b]) => drawnLines.slice(Math.min(a, b), Math.max(a, b) + 1).flatMap(rowsOfLine).length)("
                    f"[{waiting[0]}, {waiting[3]}].map(n => drawnLines.indexOf(rowOfSerial(n))))")
    ask(len(room.js(CHOSEN)) == among, "Shift and a click choose all between", (len(room.js(CHOSEN)), among))
    clicked_at(room, ROW.format(waiting[2]))
    ask(room.js("serial[view.pick]") == waiting[2] and len(room.js(CHOSEN)) == among, "a click opens a card alone")
    room.js("choose(-1)")
    choose_rows(room, waiting[:2])
    clicked_at(room, f"{BAR}.querySelector('[data-key=\"all Cancel\"]')")
    room.comes(READY, "a preview of Cancel comes", 6)
    is_final = room.js("several.shown.act.inverse === null")
    position = room.desk.health()["position"]
    clicked_at(room, READY, times=2)
    if is_final:
        ask("Press once more" in room.js(SHOWN), "what can't be undone asks again", room.js(SHOWN))
        ask(room.desk.health()["position"] == position, "a double click does nothing")
        clicked_at(room, READY)
    room.comes(f"{SHOWN}.startsWith('Done: 2 runs')", "it is done", 6)
    room.comes(f"{json.dumps(waiting[:2])}.every(number => state(rowOfSerial(number)) === 'D')", "both are deleted", 4)
    ask(is_final, "a deletion of rows that a run cycle names can't be undone")
    room.same("a deletion of two")
    ask(not room.complaints(), "the console", room.complaints())
    room.end()


def half_way(browser, folder, ask):
    """Somebody else changes the plan while an act of many rows is done: the bar says how far it came, and goes on from
    there on request; each row is deleted once."""
    room = Room(browser, folder, ask)
    room.open()
    chosen = rows(room, "state(i) === 'L' && name(i) !== 'STOCKUPDATE'", 60)
    choose_rows(room, chosen)
    busy = room.key_of(room.row("state(i) === 'R'"))
    over = threading.Event()

    def other():
        while not over.is_set() and not room.desk.health()["position"]:
            pass
        room.post(f"cp-start {busy}\n")

    room.js(f"{BAR}.querySelector('[data-key=\"all Cancel\"]').click()")
    room.comes(READY, "a preview of many rows comes", 10)
    beside = threading.Thread(target=other)
    beside.start()
    stops = []
    for _ in range(9):
        room.comes("several.shown && !several.shown.busy", "the desk answers", 10)
        if not room.holds("several.shown.act || several.shown.isLeft"):
            break
        told = room.js(SHOWN)
        stops += [told] if " done: " in told else []
        room.js("document.querySelector('#several-preview :is([data-key=\"do it\"], [data-key=\"look again\"])')"
                ".click()")
    over.set()
    beside.join()
    if stops:
        ask("Left: " in stops[0] and "in between" in stops[0] and "Go on as shown" in stops[0], "it says what is left",
            stops[0][:300])
    else:
        print("half_way: nobody came in between")
    ask(room.js(SHOWN).startswith("Done: 60 runs, 60 statements."), "it goes on to its end", room.js(SHOWN))
    lines = [json.loads(line) for line in room.desk.asked("GET", "/journal")[2].splitlines()]
    deleted = [one["statement"].split(" --job")[0] for one in lines if one["statement"].startswith("ltp-delete")]
    ask(len(deleted) == len(set(deleted)) == 60, "each is deleted once", len(deleted))
    keys = {one["key"].partition("#")[0] for one in lines if one["statement"].startswith("ltp-delete")}
    ask(len(keys) == 1, "all under one key, so that undo takes all of them", keys)
    room.same("an act that was stopped")
    room.end()


def search_of_desk(browser, folder, ask):
    """Enter in the search opens the run that is meant, lists several, and names the nearest if none fits."""
    room = Room(browser, folder, ask)
    room.open()
    number = room.row("state(i) === 'E'")
    app, day, minute = room.js(f"(i => [name(i), isoDay(dayOf(ia[i])), clock(ia[i])])(rowOfSerial({number}))")
    card = "document.querySelector('#card').textContent"
    for typed in (str(number), f"{app} {day}", f"{app.lower()} {day}/{minute}", f"{app} {day} {minute}"):
        room.js("choose(-1); document.activeElement.blur()")
        browser.key("/")
        browser.type(typed)
        browser.key("Enter")
        room.comes(f"serial[view.pick] === {number} && document.activeElement.id === 'card'", f"Enter opens {typed}", 5)
        left = room.js("document.querySelector('#find').value")
        ask(left == "", "the search is emptied", (typed, left))
    room.js("choose(-1)")
    browser.key("/")
    browser.type(f"{app} {minute}")
    browser.key("Enter")
    fits = len(room.js(f"[...Array(rowCount).keys()].filter(i => name(i) === '{app}' && clock(ia[i]) === '{minute}' "
                       "&& 'ESRBFC'.includes(state(i)))"))
    if fits > 1:
        room.comes(f"{card}.includes('{fits} runs fit {app} {minute}.')", "several are listed", 5)
        ask(room.js("document.activeElement.id") == "card", "the list has the focus")
        browser.key("Tab", 2)
        browser.key("Enter")
        room.comes(f"view.pick >= 0 && name(view.pick) === '{app}'", "one of them is opened")
    else:
        room.comes(f"view.pick >= 0 && name(view.pick) === '{app}'", "one that fits is opened", 5)
    room.js("choose(-1); document.querySelector('#find').value = ''; find()")
    browser.key("/")
    browser.type(f"{app} 2026-11-25/00.01")
    browser.key("Enter")
    room.comes(f"{card}.includes('No run of {app} arrives then') && {card}.includes('Before')",
               "none that fits: the nearest are named", 5)
    room.comes(f"{SAID}.includes('No run of {app} arrives then')", "it is said to a screen reader")
    browser.key("Escape")
    ask(room.js("view.other === null") and not room.holds("document.body.matches('.chosen')"), "Escape closes it")
    browser.key("/")
    browser.type(f"{app} 2026-13-25")
    browser.key("Enter")
    room.comes(f"{card}.includes('is neither a day nor a minute nor a moment')", "a text that names none", 5)
    ask(not room.complaints(), "the console", room.complaints())
    room.desk.ended(signal.SIGKILL)
    room.comes("live.lost", "the desk is gone")
    room.js("choose(-1); document.querySelector('#find').value = ''; find()")
    browser.key("/")
    browser.type(f"{app} {day}/{minute}")
    browser.key("Enter")
    room.comes(f"serial[view.pick] === {number} && document.activeElement.id === 'card'", "it finds without a desk", 5)
    room.end()


def card_verbs(browser, folder, ask):
    """On the card: Complete of a row that waits, a run that is added, and one that is moved with its deadline."""
    room = Room(browser, folder, ask)
    room.open()
    shown = "(document.querySelector('#preview')?.textContent ?? '')"
    ready = "document.querySelector('#preview [data-key=\"do it\"]:not(:disabled)')"
    blocked = room.row("state(i) === 'B' && behind(i).length > 0 && [...walk(i, before)].filter(isOpen).length < 5")
    ahead, behind = room.js(f"(i => [[...walk(i, before)].filter(isOpen).length, behind(i).length])"
                            f"(rowOfSerial({blocked}))")
    room.js(f"choose(rowOfSerial({blocked}))")
    button = "document.querySelector('.acts [data-act=complete]')"
    ask(room.js(f"{button}.textContent") == f"Complete with {ahead} before it", "Complete says how many are before it",
        room.js(f"{button}.textContent"))
    clicked_at(room, button)
    room.comes(ready, "its preview comes", 6)
    told = room.js(shown)
    ask(f"{behind} run" in told and "wait" in told and "can't be undone" in told, "it says who waits", told)
    ask(room.js("document.activeElement.id") == "preview" and room.desk.health()["position"] == 0,
        "nothing is done yet")
    browser.key("Enter", 2)
    ask(room.desk.health()["position"] == 0, "Enter does nothing")
    clicked_at(room, ready)
    room.comes(f"{STATE.format(blocked)} === 'C'", "it is complete with all before it", 6)
    room.same("Complete of a chain")
    app = room.js("name([...Array(rowCount).keys()].find(i => state(i) === 'L'))")
    last = room.js("D.plan.last")
    room.js(f"showApp(D.apps.findIndex(one => one[0] === '{app}'))")
    day = f"isoDay({last})"
    room.js(f"((day) => {{ for (const [name, value] of [['day', day], ['time', '03:33'], ['due time', '04:44']]) {{"
            f"const one = inputOf('add app {app} ' + name); one.value = value; "
            f"one.dispatchEvent(new Event('input')); }} }})({day}); document.querySelector('[data-verb=add]').focus()")
    browser.key("Enter")
    room.comes(f"{ready} || {shown}.length > 40", "a preview of an addition comes", 6)
    ask(room.js("document.activeElement.id") == "preview", "it has the focus", room.js(shown))
    room.post("cp-start " + room.key_of(room.row("state(i) === 'R'")) + "\n")
    room.comes(SETTLED, "another caller's change is drawn", 4)
    ask(room.js(f"inputOf('add app {app} time').value") == "03:33", "what is typed stays")
    browser.key("Tab")
    browser.key("Enter")
    room.comes(f"{shown}.startsWith('Done: ')", "it is added", 8)
    room.comes(f"[...Array(rowCount).keys()].some(i => name(i) === '{app}' && dayOf(ia[i]) === {last} && clock(ia[i]) "
               "=== '03.33' && clock(due[i]) === '04.44')", "with its deadline", 8)
    planned = room.row("state(i) === 'L' && clock(ia[i]) !== '05.55' && dayOf(ia[i]) > dayOf(D.plan.end)")
    room.js(f"choose(rowOfSerial({planned}))")
    room.js(f"(() => {{ for (const [name, value] of [['time', '05:55'], ['due time', '07:07']]) {{ const one = "
            f"inputOf('move {planned} ' + name); one.value = value; one.dispatchEvent(new Event('input')); }} }})();"
            "document.querySelector('[data-verb=move]').click()")
    room.comes(f"{ready}", "a preview of a move with a deadline comes", 6)
    app, day = room.js(f"(i => [name(i), dayOf(ia[i])])(rowOfSerial({planned}))")
    room.js(f"{ready}.click()")
    room.comes(f"[...Array(rowCount).keys()].some(i => name(i) === '{app}' && dayOf(ia[i]) === {day} && clock(ia[i]) "
               "=== '05.55' && clock(due[i]) === '07.07' && state(i) === 'L')", "it is moved with it", 8)
    room.same("a move with a deadline")
    others = [one for one in room.complaints() if "412" not in str(one)]  # those the page expects
    ask(not others, "the console", others)
    room.end()


def forced(browser, folder, ask):
    """With the viewer's own few colours, what can't be undone, what is asked twice and what is chosen still look it."""
    room = Room(browser, folder, ask)
    room.open()
    browser.media(forced=True)
    ask(room.js("matchMedia('(forced-colors: active)').matches"), "the colours are forced")
    room.js("showKind('all')")
    errors = rows(room, "state(i) === 'E'")
    room.js(f"choose(rowOfSerial({errors[0]}))")
    choose_rows(room, errors)
    edge = "[...document.querySelectorAll('{}')].map(x => getComputedStyle(x).borderLeftWidth)"
    for box in (".acts", "#several"):
        apart, others = (room.js(edge.format(f"{box} .buttons{which} button:not(:disabled)"))
                         for which in (".final", ":not(.final)"))
        ask(apart and set(apart) == {"5px"} and set(others) == {"1px"}, f"{box}: what can't be undone", (apart, others))
    room.js("document.querySelector('.acts [data-act=complete]').click()")
    ground = "getComputedStyle(document.querySelector('.acts [data-act={}]')).backgroundColor"
    ask(room.js(ground.format("complete")) != room.js(ground.format("delete")), "what is asked twice",
        room.js(ground.format("complete")))
    line = room.js("(x => x && getComputedStyle(x).textDecorationLine)(document.querySelector('.marked .row .name'))")
    ask(line == "underline", "what is chosen", line)
    browser.media()
    room.end()


OF_SEVERAL = [several_by_keys, several_by_pointer, half_way, search_of_desk, card_verbs, forced]
