"""What tools/browser/desk-in-browser asks of a desk's live page, with another caller beside the browser."""

import contextlib
import gc
import hashlib
import json
import os
import signal
import tempfile
import time

from support import data_centre, desks, large_plans, plans

from opcplan.desk import client
from opcplan.rules import moments
from opcplan.webpage import page_data

import browser_edits
from browser_checks import SIZES
from browser_plans import FAINT, NAMELESS

NOW = moments.moment_of(data_centre.NOW)
END, LATER_END = (moments.moment_of(f"2026-11-{day}/00.00") for day in (26, 27))
ROLES = {"read": "r" * 40, "operate": "o" * 40, "plan": "p" * 40}
SETTLED = "!live.isOld && !live.isFetching && !live.drawing"
SAID = "document.querySelector('#say').textContent"
STATE = "state(rowOfSerial({}))"
# what the page holds of the plan, for a comparison
HELD = """[Array.from(serial), Array.from(ia), Array.from(due), Array.from(D.state).join(''),
    Array.from({length: rowCount}, (_, i) => late.has(i) ? 'l' : risk.has(i) ? 'r' : '.').join(''),
    [...rootOf].map(([i, root]) => [serial[i], serial[root]]).sort((a, b) => a[0] - b[0]),
    Array.from({length: rowCount}, (_, i) => (before.get(i) || []).map(k => serial[k]).sort((a, b) => a - b))]"""


class Room:
    """A desk over a copy of the data centre's plan, a browser that shows its page, and another caller."""

    def __init__(self, browser, folder, ask, *words, plan=None):
        self.browser, self.ask = browser, ask
        self.folder = tempfile.mkdtemp(dir=folder)
        self.plan = plans.copy_of(plan or plans.of_stream(data_centre.whole()), self.folder, "centre.db")
        self.words = words
        self.desk = desks.Desk(self.plan, *words)
        self.token = None

    def open(self, width=1440, height=900, dark=False, query=f"?now={data_centre.NOW}"):
        """Opens the page, and waits until it is live."""
        self.browser.size(width, height)
        self.browser.media(dark)
        self.browser.go("about:blank")
        self.browser.go(f"http://127.0.0.1:{self.desk.port}/{query}")
        return self.comes("document.body.dataset.live === 'yes' && live.source.readyState === 1", "the page is live")

    def js(self, text):
        return self.browser.js(text)

    def comes(self, holds, what, most=1.0):
        """Asks that something holds within a second, or longer where others keep this machine's processors busy."""
        most *= max(1, os.getloadavg()[0] / os.cpu_count())
        begun = time.monotonic()
        while not (is_so := self.holds(holds)) and time.monotonic() < begun + max(20, most):
            pass
        took = time.monotonic() - begun
        self.ask(is_so and took <= most, f"{what}, within {most:.1f} s", f"{took:.2f} s, {is_so}")
        return took

    def holds(self, text):
        """Whether something holds; not where the page goes just now."""
        try:
            return self.js(f"!!({text})")
        except RuntimeError as error:
            if "navigated" in str(error) or "context" in str(error) or "null" in str(error):
                return False
            raise

    def post(self, text):
        """What another caller is answered."""
        heads = {"Authorization": f"Bearer {self.token}"} if self.token else {}
        return self.desk.posted(text, **heads)[2]

    def row(self, holds):
        """The serial of the first row for which an expression holds of `i`."""
        return self.js(f"serial[[...Array(rowCount).keys()].find(i => {holds})]")

    def key_of(self, number):
        return self.js(f"streamName(rowOfSerial({number}))")

    def same(self, what):
        """Asks that the page, once it has heard all, holds what a page that is made anew from the plan would."""
        position = self.desk.health()["position"]
        self.comes(f"live.position === {position} && {SETTLED}", f"{what}: all is heard", 10)
        path = os.path.join(self.folder, "copy.db")
        with contextlib.closing(desks.http.client.HTTPConnection("127.0.0.1", self.desk.port, timeout=60)) as one:
            one.request("GET", "/snapshot", headers={"Authorization": f"Bearer {self.token}"} if self.token else {})
            data = one.getresponse().read()
        with open(path, "wb") as file:
            file.write(data)
        wanted = made_anew(path)
        held = self.js(HELD)
        names = "serials", "arrivals", "deadlines", "states", "marks", "roots", "pairs"
        for name, one, other in zip(names, held, wanted, strict=True):
            self.ask(one == other, f"{what}: {name}", [(held[0][place], *pair) for place, pair in enumerate(
                zip(one, other)) if pair[0] != pair[1]][:9] or (len(one), len(other)))

    def complaints(self):
        own = f"http://127.0.0.1:{self.desk.port}/"
        return [one for one in self.browser.complaints() if not (isinstance(one, str) and one.startswith(own))]

    def end(self):
        if self.desk.process.poll() is None:
            self.desk.ended()


def made_anew(path):
    """What a page of a plan's file has, as HELD has it, by the data that the file's own page is given."""
    data = page_data.data_of(path, NOW)
    gc.enable()
    rows = data["rows"]
    serials, arrivals = sums(rows["serial"]), sums(rows["arrival"])

    def listed(flat):
        at, k, found = 0, 0, {}
        while k < len(flat):
            at += flat[k]
            found[at] = [at - back for back in flat[k + 2 : k + 2 + flat[k + 1]]]
            k += 2 + flat[k + 1]
        return found

    pairs, roots = listed(rows["pairs"]), listed(rows["roots"])
    return [serials, arrivals, [ia + due for ia, due in zip(arrivals, rows["due"], strict=True)], data["state"],
            data["marks"], sorted([serials[place], serials[root]] for place, (root,) in roots.items()),
            [sorted(serials[other] for other in pairs.get(place, [])) for place in range(len(serials))]]


def sums(steps):
    """Numbers that are told by what each is past the one before."""
    found, at = [], 0
    for step in steps:
        at += step
        found.append(at)
    return found


def another_caller(browser, folder, ask):
    """What another caller does shows within a second, and the page then holds what it would hold made anew."""
    room = Room(browser, folder, ask)
    room.open()
    room.same("at first")
    ready = room.row("state(i) === 'R' && (after.get(i) || []).some(k => state(k) === 'B' || state(k) === 'F')")
    key = room.key_of(ready)
    for act, status in (("start", "S"), ("fail", "E"), ("reset", "R"), ("start", "S"), ("complete", "C")):
        ask(room.post(f"cp-{act} {key}\n").startswith("ok"), f"another caller: {act}")
        room.comes(f"{STATE.format(ready)} === '{status}'", f"{act} shows")
        room.comes(f"{SAID}.includes({json.dumps(key.split()[1])})", f"{act} is said")
        room.same(act)
    blocked = room.row("state(i) === 'B' && (after.get(i) || []).length")
    ask(room.post(f"cp-delete {room.key_of(blocked)}\n").startswith("ok"), "another caller: delete")
    room.comes(f"{STATE.format(blocked)} === 'D'", "a deletion shows")
    room.same("delete")
    app = key.split()[1]
    number = room.post(f"cp-add --app {app} --ia 2026-11-25/05.59\n").split()[-1]
    room.comes(f"rowOfSerial({number}) !== undefined", "a row that was added shows")
    room.same("cp-add")
    refused = room.post(f"cp-complete --app {app} --ia 2026-11-25/05.59\n")
    room.comes("document.querySelector('.lately .refused')", f"what was refused shows: {refused}")
    room.post("dp-extend --to 2026-11-27/00.00\n")
    room.comes(f"D.plan.end === {LATER_END}", "a daily plan shows", 1.5)
    room.same("dp-extend")
    tiles = [int(text) for text in room.js("[...document.querySelectorAll('.tiles b')].map(x => x.textContent)")]
    counted = room.js("(n => [n.E, n.late, n.risk, n.hour, n.S, n.R])(countStates(() => true))")
    ask(tiles == counted, "tiles", (tiles, counted))
    ask(not room.complaints(), "the console", room.complaints())
    room.end()


def place(browser, folder, ask):
    """While others change things, the place where one reads, what is opened, selected and in focus stay."""
    room = Room(browser, folder, ask)
    room.open()
    room.js("document.querySelectorAll('.more').forEach(button => button.click())")
    room.js("document.querySelectorAll('#needs details').forEach(one => { one.drawLines?.(); one.open = true; })")
    chosen = room.row("state(i) === 'F' && !(before.get(i) || []).length")
    select = "getSelection().selectAllChildren(document.querySelector('#card code'))"
    room.js(f"choose(rowOfSerial({chosen})); {select}")
    selected = room.js("String(getSelection())")
    room.js("document.querySelector('#month').scrollIntoView({behavior: 'instant'}); scrollBy(0, 40)")
    seen = """(() => { const cell = [...document.querySelectorAll('tbody button[data-a]')]
        .find(x => x.getBoundingClientRect().top > 120);
        return [cell.textContent, cell.getBoundingClientRect().top]; })()"""
    before = room.js(f"[{seen}, document.querySelectorAll('#needs details[open]').length, "
                     "document.querySelectorAll('#next li').length]")
    ready = room.row("state(i) === 'R'")
    for text in (f"cp-start {room.key_of(ready)}\n", "cp-add --app STOCKUPDATE --ia 2026-11-25/05.58\n",
                 f"cp-fail {room.key_of(ready)}\n"):
        count, result = room.js("lately.length"), room.post(text)
        ask(result.startswith("ok"), text, result)
        room.comes(f"lately.length > {count} && {SETTLED}", text.split()[0], 2)
        after = room.js(f"[{seen}, document.querySelectorAll('#needs details[open]').length, "
                        "document.querySelectorAll('#next li').length]")
        ask(after[0][0] == before[0][0] and abs(after[0][1] - before[0][1]) <= 1, "where one reads stays",
            (before[0], after[0]))
        ask(after[1] >= 1 and after[2] > 9, "what is opened stays", after)
        found = room.js("[serial[view.pick], String(getSelection())]")
        may_go = text.startswith("cp-add")  # rows come: the card is drawn anew
        ask(found[0] == chosen and (may_go or found[1] == selected), "what is selected stays", found)
        room.js(select)
    places = (".row", "#next .go", "#monthtools button", "#daytools button", "tbody button[data-a]")
    for minute, where in enumerate(places):
        room.js(f"document.querySelectorAll('{where}')[1].focus()")
        mark = room.js("markOf(document.activeElement)")
        number = room.post(f"cp-add --app STOCKUPDATE --ia 2026-11-25/05.0{minute}\n").split()[-1]
        room.comes(f"rowOfSerial({number}) !== undefined", f"one more, while {where} has the focus")
        ask(room.js("markOf(document.activeElement)") == mark, f"the focus stays in {where}", mark)
    ask(not room.complaints(), "the console", room.complaints())
    room.end()


def listed(room):
    """The needs that the desk lists for the moment of the page: their names, and the serials that they count."""
    heads = {"Authorization": f"Bearer {room.token}"} if room.token else {}
    found = json.loads(room.desk.asked("GET", f"/status?now={data_centre.NOW}", **heads)[2])
    return [[one["name"], sorted(int(serial) for serial, name in found["followers"].items() if name == one["name"])]
            for one in found["needs"]]


def needs(browser, folder, ask):
    """The list is the desk's, whoever changes what; it comes without the rows being fetched again."""
    room = Room(browser, folder, ask)
    shown = """(document.querySelector('#needs .more')?.click(),
        [...document.querySelectorAll('[data-need]')].map(x => {
        const part = x.querySelector('details');
        part?.drawLines();
        return [x.dataset.need, [...part?.querySelectorAll('.go') ?? []].map(y => serial[+y.dataset.i])
            .sort((a, b) => a - b)];
    }))"""
    about = "document.querySelector('#about').textContent"
    fetched = "performance.getEntriesByType('resource').filter(x => x.name.includes('/page/data')).length"

    def same(what):
        wanted = listed(room)
        room.comes(f"JSON.stringify({shown}) === {json.dumps(json.dumps(wanted, separators=(',', ':')))}", what, 10)
        room.comes(f"{about} === 'As of 06.00.'", f"{what}: it belongs to the rows", 10)
        return [name for name, _ in wanted]

    room.open()
    before, whole = same("at first"), room.js(fetched)
    ready = room.row("state(i) === 'R' && (after.get(i) || []).some(k => state(k) === 'B' || state(k) === 'F')")
    key = room.key_of(ready)
    for act in ("start", "fail"):
        ask(room.post(f"cp-{act} {key}\n").startswith("ok"), f"another caller: {act}")
        room.comes(f"{about} === 'As of 06.00, before the last change.' || {about} === 'As of 06.00.'", act)
    names = same("a failure")
    own = next((name for name in names if name.startswith(f"error:{ready}:")), "")
    ask(own and own not in before, "a failure is a need", names)
    ask(room.js(fetched) == whole, "the rows weren't fetched for it", room.js(fetched))
    room.js(f"document.querySelector('[data-need=\"{own}\"] .go').focus()")
    browser.key("Enter")
    ask(room.js("serial[view.pick]") == ready and room.holds("document.querySelector('.acts [data-act=reset]')"),
        "Enter leads to its row, with buttons")
    press(room, "reset")
    room.comes(f"{STATE.format(ready)} === 'R'", "it is reset", 2)
    ask(own not in same("a reset"), "what is reset is no need")
    body = json.dumps({"trouble": "jobs.toml: it is <b>missing</b>"})
    status = room.desk.asked("PUT", "/reports/agent", body, X_Opcplan="desk", X_Opcplan_Agent="etl-1")[0]
    ask(status == 204, "an agent's report", status)
    room.js("document.dispatchEvent(new Event('visibilitychange', { bubbles: true }))")
    ask(any(name.startswith("settings:") for name in same("a report of an agent")), "a report is a need without a row")
    ask("jobs.toml: it is <b>missing</b>" in room.js("document.querySelector('#needs').innerText"), "texts stay text")
    faint = browser.js(FAINT.replace("'.hidden", "':disabled, .hidden"))
    ask(not faint, "contrast", faint[:5])
    room.desk.ended(signal.SIGKILL)
    room.js("document.dispatchEvent(new Event('visibilitychange', { bubbles: true }))")
    room.comes(f"{about}.startsWith('The list can’t be fetched: ')", "a desk that is gone is told", 10)
    ask(len(room.js(shown)) == len(listed_names(room)), "the list stays", room.js(shown))
    room.js("window.fetch = async () => new Response('{}'); fetchNeeds()")
    room.comes("document.querySelector('#needs .empty')?.textContent === OLD_DESK", "an older desk has no list", 15)
    room.end()


def listed_names(room):
    """The names of the needs that the page has."""
    return room.js("needed.list.needs.map(one => one.name)")


def buttons(browser, folder, ask):
    """By keys alone: a row is chosen, started, failed, reset and deleted, each with its answer in words."""
    room = Room(browser, folder, ask)
    room.open()
    number = room.row("state(i) === 'R'")
    room.js(f"document.querySelector('#lines [data-i=\"' + rowOfSerial({number}) + '\"]').focus()")
    browser.key("Enter")
    ask(room.js("serial[view.pick]") == number, "Enter chooses a row")
    ways = [("start", "S", "It is started"), ("fail", "E", "It is in error"), ("reset", "R", "It waits again")]
    for act, status, text in ways:
        press(room, act)
        room.comes(f"{STATE.format(number)} === '{status}'", f"{act} by keys", 2)
        room.comes("document.querySelector('#answer').textContent.includes('ok serial')", f"{act} is answered")
        found = room.js("[document.querySelector('#answer').textContent, document.activeElement.id]")
        ask(found[0].startswith(text) and found[1] == "answer", f"{act}: the answer in words has the focus", found)
        room.comes(f"{SAID}.includes({json.dumps(text)})", f"{act} is said to a screen reader")
    press(room, "delete")
    ask(room.js(STATE.format(number)) == "R", "one press deletes nothing")
    ask("once more" in room.js("document.querySelector('#answer').textContent"), "a second press is asked for")
    press(room, "delete")
    room.comes(f"{STATE.format(number)} === 'D'", "a second press deletes", 2)
    ask(not room.js("document.querySelector('.acts')"), "what is deleted has no buttons")
    room.same("by keys")
    blocked = room.row("state(i) === 'B'")
    room.js(f"choose(rowOfSerial({blocked}))")
    allowed = "[...document.querySelectorAll('.acts button:not(:disabled)')].map(x => x.dataset.act)"
    ask(room.js(allowed) == ["complete", "delete"], "what waits for another can't be started", room.js(allowed))
    text = room.js("document.querySelector('.acts [data-act=complete]').textContent")
    ask(text.endswith(" before it"), "and is completed only with what it waits for", text)
    other = room.row("state(i) === 'R'")
    room.js(f"choose(rowOfSerial({other})); live.source.close()")
    room.post(f"cp-start {room.key_of(other)}\n")
    room.js("document.querySelector('[data-act=start]').click()")
    room.comes("document.querySelector('#answer').textContent.startsWith('Refused: its status')",
               "who comes second is told in words", 3)
    ask(not room.complaints(), "the console", room.complaints())
    room.end()


def final(browser, folder, ask):
    """What can't be undone, by keys and by pointer: `t`, `a` and Enter reset a row in error and complete none; Complete
    says who waits, and neither Enter again nor a double click does it."""
    room = Room(browser, folder, ask)
    room.open()
    browser.key("t")
    number = room.js("serial[view.pick]")
    ask(room.js(STATE.format(number)) == "E", "t leads to a row in error")
    browser.key("a")
    ask(room.js("document.activeElement.dataset.act") == "reset", "a leads to Reset")
    number = room.row("state(i) === 'E' && behind(i).length > 1")
    room.js(f"choose(rowOfSerial({number})); document.activeElement.blur()")
    waiting = room.js("behind(view.pick).length")
    wanted = f"{waiting} wait for it"
    told = "document.querySelector('#answer').textContent"
    press(room, "complete")
    browser.key("Enter", 3)
    ask(waiting and room.js(told).startswith(f"{wanted}. "), "Complete says who waits", room.js(told))
    room.comes(f"{SAID}.includes({json.dumps(wanted)})", "it is said to a screen reader")
    ask(room.desk.health()["position"] == 0, "Enter again and again completes nothing")
    room.js("choose(-1)")
    room.js(f"choose(rowOfSerial({number})); answers.clear(); showCard()")
    room.js("document.querySelector('[data-act=complete]').scrollIntoView({ block: 'center', behavior: 'instant' })")
    clicked(room, "complete", 2)
    ask("once more" in room.js(told), "a double click asks", room.js(told))
    ask(room.desk.health()["position"] == 0, "a double click completes nothing")
    apart = room.js("(([a, b]) => b.top - a.bottom)([...document.querySelectorAll('.acts .buttons')]"
                    ".map(x => x.getBoundingClientRect()))")
    ask(apart >= 8, "what can't be undone stands apart", apart)
    clicked(room, "complete")
    room.comes(f"{STATE.format(number)} === 'C'", "one more click completes it", 2)
    other = room.row("state(i) === 'E'")
    room.js(f"choose(rowOfSerial({other}))")
    browser.key("a")
    browser.key("Enter")
    room.comes(f"'RFB'.includes({STATE.format(other)})", "a and Enter reset a row in error", 2)
    blocked = room.row("state(i) === 'B'")
    room.js(f"choose(rowOfSerial({blocked}))")
    position = room.desk.health()["position"]
    browser.key("a")
    browser.key("Enter", 2)
    ask(not room.js("document.activeElement.dataset.act"), "a leads to nothing that can't be undone")
    ask(room.js(STATE.format(blocked)) == "B" and room.desk.health()["position"] == position, "Enter does nothing")
    ask(not room.complaints(), "the console", room.complaints())
    room.end()


def verbs(browser, folder, ask):
    """Verbs of the card: each shows what it would do and changes nothing, and a second press does it as shown."""
    room = Room(browser, folder, ask)
    room.open()
    number = room.row("state(i) === 'R'")
    app = room.js(f"name(rowOfSerial({number}))")
    shown = "document.querySelector('#preview')?.textContent ?? ''"
    ready = "document.querySelector('#preview .do:not(:disabled)')"
    room.js(f"choose(rowOfSerial({number})); document.querySelector('.verbs [data-verb=cancel]').focus()")
    browser.key("Enter")
    room.comes(ready, "a preview of Cancel comes", 4)
    ask(app in room.js(shown) and room.js("document.activeElement.id") == "preview", "it has the focus", room.js(shown))
    browser.key("Enter", 2)
    ask(room.desk.health()["position"] == 0, "a preview changes nothing, nor does Enter again")
    browser.key("Tab")
    browser.key("Enter")
    room.comes(f"{STATE.format(number)} === 'D'", "Tab and Enter do it", 4)
    room.comes(f"({shown}).startsWith('Done: 1 statement')", "it is told", 4)
    room.same("cancel")
    other = room.row("state(i) === 'R'")
    room.js(f"choose(rowOfSerial({other})); (x => {{ x.value = '05:57'; x.dispatchEvent(new Event('input')); }})"
            "(document.querySelector('.verbs input[type=time]')); document.querySelector('[data-verb=move]').click()")
    room.comes(ready, "a preview of Move comes", 4)
    room.post(f"cp-add --app {app} --ia 2026-11-25/05.51\n")
    name, position = room.js("name(view.pick)"), room.desk.health()["position"]
    room.js(f"{ready}.click()")
    room.comes(f"({shown}).startsWith('Done: ')", "what is shown the same in a later state is done", 6)
    ask(room.desk.health()["position"] > position, "it is done")
    room.comes("[...Array(rowCount).keys()].some(i => name(i) === " + json.dumps(name) +
               " && clock(ia[i]) === '05.57' && 'RBF'.includes(state(i)))", "it is moved", 6)
    last = room.row("state(i) === 'E'")
    room.js(f"choose(rowOfSerial({last})); document.querySelector('[data-verb=rerun]').click()")
    room.comes(ready, "a preview of Rerun comes", 4)
    room.post(f"cp-reset {room.key_of(last)}\n")
    position = room.desk.health()["position"]
    room.js(f"{ready}.click()")
    room.comes(f"({shown}) && !looked.busy", "another state is told", 6)
    ask(room.desk.health()["position"] == position, "what would do something else isn't done", room.js(shown))
    others = [one for one in room.complaints() if "412" not in str(one)]  # those the page expects
    ask(not others, "the console", others)
    room.end()


CTRL = 2


def clicked_at(room, element, times=1, modifiers=0):
    """Clicks an element with the pointer, several times in a row if told."""
    room.js(f"{element}.scrollIntoView({{ block: 'center', behavior: 'instant' }})")
    for count in range(1, times + 1):
        if not room.holds(element):
            return
        x, y = room.js(f"(r => [r.x + Math.min(r.width / 2, 60), r.y + r.height / 2])({element}"
                       ".getBoundingClientRect())")
        for kind in ("mousePressed", "mouseReleased"):
            room.browser.call("Input.dispatchMouseEvent", type=kind, x=x, y=y, button="left", clickCount=count,
                              modifiers=modifiers)


def clicked(room, act, times=1):
    """Clicks a button of the chosen row with the pointer, several times in a row if told."""
    x, y = room.js(f"(r => [r.x + r.width / 2, r.y + r.height / 2])(document.querySelector('.acts [data-act={act}]')"
                   ".getBoundingClientRect())")
    for count in range(1, times + 1):
        if count == 2:  # the text above the buttons may have moved them: the pointer goes after
            x, y = room.js("(r => [r.x + r.width / 2, r.y + r.height / 2])(document.querySelector("
                           f"'.acts [data-act={act}]').getBoundingClientRect())")
        for kind in ("mousePressed", "mouseReleased"):
            room.browser.call("Input.dispatchMouseEvent", type=kind, x=x, y=y, button="left", clickCount=count)


def logs(browser, folder, ask):
    """The end of a job's log in the card of its row: as text, kept up while the job runs, for who may operate."""
    room = Room(browser, folder, ask)
    caller = client.Client(room.desk.socket)
    room.open()
    number = room.row("state(i) === 'S'")

    def put(text):
        caller.request("PUT", f"/logs/{number}?try=1", text.encode())

    shown = "document.querySelector('#card .log pre')?.textContent"
    room.js(f"choose(rowOfSerial({number}))")
    ask(not room.holds(shown), "no log is shown where the desk has none")
    put("first line\n<img src=x onerror=\"window.bad=1\"><script>window.bad=1</script>\n")
    room.comes(f"{shown}?.includes('<img src=x')", "the log of a job that runs comes into its card", 7)
    ask(not room.js("window.bad || document.querySelector('#card .log img, #card .log script')"), "it is text alone")
    room.js("document.querySelector('#card .log').open = true")
    put("first line\nsecond line\n")
    room.comes(f"{shown} === 'first line\\nsecond line'", "it keeps up", 7)
    ask(room.js("document.querySelector('#card .log').open"), "what is opened stays opened")
    put("".join(f"line {one}\n" for one in range(1000)))
    room.comes(f"{shown}?.endsWith('line 999')", "a long one ends with its last line", 7)
    ask(room.js(f"{shown}.split('\\n').length") == 200, "no more than 200 lines are shown")
    put("the end\n")
    room.post(f"cp-fail {room.key_of(number)}\n")
    room.comes(f"{shown} === 'the end'", "a change of the status fetches it at once", 2)
    other = room.row("state(i) === 'C'")
    room.js(f"choose(rowOfSerial({other}))")
    ask(not room.holds(shown), "another card has a log of its own")
    put("after it\n")
    room.js(f"choose(rowOfSerial({number}))")
    room.comes(f"{shown} === 'after it'", "a card that is opened again fetches it", 2)
    ask(not room.complaints(), "logs: no complaints", room.complaints())
    room.end()


def press(room, act):
    """Goes to a button of the chosen row by `a` and Tab, and presses it."""
    room.browser.key("a")
    for _ in range(5):
        if room.js("document.activeElement.dataset.act") == act:
            break
        room.browser.key("Tab")
    room.ask(room.js("document.activeElement.dataset.act") == act, f"a and Tab lead to {act}")
    room.browser.key("Enter")


def trials(browser, folder, ask):
    """A daily plan and a modification: the trial first, and a second press does what was shown, or nothing."""
    room = Room(browser, folder, ask)
    room.open()
    room.js("document.querySelector('#look').focus()")
    browser.key("Enter")
    room.comes("document.querySelector('#do')", "the trial shows", 2)
    found = room.js("document.querySelector('#told').textContent")
    wanted = plans.planner_of(data_centre.whole())
    reply = plans.plain.run(b"dp-trial extend --to 2026-11-27/00.00\n", wanted)[-1].split()
    ask(found == f"Nothing is done yet. The result would be: {reply[2]} moved, {reply[4]} carried, {reply[6]} "
        f"completed, {reply[8]} deleted.", "the trial in words", found)
    ask(room.js("D.plan.end") == END and room.desk.health()["position"] == 0, "a trial changes nothing")
    ask(room.js("document.activeElement.id") == "trial", "the focus is at what it would do")
    ready = room.row("state(i) === 'R'")
    room.post(f"cp-start {room.key_of(ready)}\n")
    room.js("document.querySelector('#do').focus()")
    browser.key("Enter")
    room.comes("document.querySelector('#told')?.textContent.startsWith('Nothing was done: the plan has changed')",
               "what would be other than it was shown isn't done", 3)
    ask(room.desk.health()["position"] == 1, "nothing was done")
    room.js("document.querySelector('#do').focus()")
    browser.key("Enter")
    room.comes("document.querySelector('#told')?.textContent.startsWith('Done: ')", "a second press does it", 3)
    room.comes(f"D.plan.end === {LATER_END}", "the page shows it", 2)
    room.same("a daily plan")
    room.post("ltp-add --app STOCKUPDATE --ia 2026-12-01/01.00\nundefine run-cycles --name STOCKUPDATE\n")
    room.js("const work = document.querySelector('#work'); work.value = 2; work.dispatchEvent(new Event('change')); "
            "document.querySelector('#look').click()")
    room.comes("document.querySelector('#do')", "the trial of a modification shows", 2)
    ask("would be withdrawn" in room.js("document.querySelector('#trial').textContent"), "what would be withdrawn")
    other = room.row("state(i) === 'R'")
    room.post(f"cp-start {room.key_of(other)}\n")
    room.js("document.querySelector('#do').click()")
    room.comes("document.querySelector('#told')?.textContent.startsWith('Done: 0 made, ')",
               "a change that leaves the trial as it was doesn't stop it", 3)
    room.same("a modification")
    room.js("const one = document.querySelector('#work'); one.value = 3; one.dispatchEvent(new Event('change')); "
            "document.querySelector('#field-app').value = 'no name'; document.querySelector('#look').click()")
    ask(room.js("document.querySelector('#told').textContent") == "Name an application.", "what is filled in wrongly")
    room.js("document.querySelector('#field-app').value = 'NOSUCH'; document.querySelector('#look').click()")
    room.comes("document.querySelector('#told')?.textContent.startsWith('Refused: ')", "a refusal in words", 2)
    room.end()


def roles(browser, folder, ask):
    """A token is asked for; who may only read has no buttons, who may operate no planning."""
    tokens = os.path.join(folder, "tokens")
    with open(tokens, "w", encoding="utf-8") as file:
        for role, token in ROLES.items():
            file.write(f"{hashlib.sha256(token.encode()).hexdigest()} {role}er {role}\n")
    room = Room(browser, folder, ask, "--tokens", tokens)
    room.token = ROLES["plan"]
    url = f"http://127.0.0.1:{room.desk.port}/?now={data_centre.NOW}"
    for dark in (False, True):
        browser.size(390, 844)
        browser.media(dark)
        browser.go(url)
        ask(room.js("document.documentElement.scrollWidth") <= 390 and not browser.js(FAINT), "the page that asks",
            browser.js(FAINT))
    browser.size(1440, 900)
    for role, wanted in (("read", [0, 0]), ("operate", [5, 0]), ("plan", [5, 1])):
        browser.go(url)
        room.comes("document.title === 'Sign in' && document.activeElement.id === 'token'",
                   f"{role}: a token is asked for")
        ask("centre" not in room.js("document.documentElement.outerHTML"), "nothing of the plan is told before")
        browser.type("wrong")
        browser.key("Enter")
        told = "document.querySelector('#told').textContent"
        room.comes(f"{told}.includes('doesn’t know this token')", "a wrong token is told")
        room.js("document.querySelector('#token').value = ''; document.querySelector('#token').focus()")
        browser.type(ROLES[role])
        browser.key("Enter")
        room.comes("document.querySelector('#link')?.textContent.startsWith('Live')", f"{role}: signed in", 5)
        room.comes("live.source.readyState === 1", "events come")
        room.js("choose([...Array(rowCount).keys()].find(i => state(i) === 'R'))")
        found = room.js("[document.querySelectorAll('.acts button').length, +!!document.querySelector('#planning')]")
        ask(found == wanted, f"{role}: buttons and planning", found)
        ask(room.js("document.cookie") == "", f"{role}: no script reads the cookie")
        number = room.row("state(i) === 'R'")
        room.post(f"cp-start {room.key_of(number)}\n")
        room.comes(f"{STATE.format(number)} === 'S'", f"{role} sees what others do")
        if role == "read":
            seen = room.js(f"ask('cp-fail ' + streamName(rowOfSerial({number})), 'k').then(found => found.wrong)")
            ask("reader may not" in seen, "who may only read can't, by whatever way", seen)
        browser.go(url)
        room.comes("document.querySelector('#leave')", "a session goes on")
        room.js("document.querySelector('#leave').click()")
        room.comes("document.title === 'Sign in'", f"{role}: signed out", 3)
    room.end()


def gone(browser, folder, ask):
    """Where the desk goes and comes again, the page says so, and then has all that was done."""
    room = Room(browser, folder, ask)
    room.open()
    port = room.desk.port
    room.desk.ended(signal.SIGKILL)
    room.comes("document.querySelector('#link').textContent.startsWith('Not live')", "a desk that is gone is told")
    ready = room.row("state(i) === 'R'")
    room.js(f"choose(rowOfSerial({ready})); document.querySelector('[data-act=start]').click()")
    room.desk = desks.Desk(room.plan, "--listen", f"127.0.0.1:{port}")
    other = room.row(f"state(i) === 'R' && serial[i] !== {ready}")
    room.post(f"cp-start {room.key_of(other)}\n")
    room.comes(f"{STATE.format(other)} === 'S' && {STATE.format(ready)} === 'S'", "what was done meanwhile shows", 15)
    room.comes("document.querySelector('#link').textContent.startsWith('Live')", "it is live again", 15)
    room.comes("document.querySelector('#answer').textContent.startsWith('It is started')", "the press is answered", 15)
    ask(room.desk.health()["position"] == 2, "it was done once", room.desk.health()["position"])
    room.same("a desk that came again")
    keys = [room.js(f"streamName({i})") for i in room.js("[...Array(rowCount).keys()].filter(i => state(i) === 'S')")]
    for round_ in range(20):
        room.post("".join(f"cp-fail {key}\ncp-reset {key}\ncp-start {key}\n" for key in keys))
    room.comes(f"live.position === {room.desk.health()['position']} && {SETTLED}",
               f"{60 * len(keys)} changes at once", 15)
    room.same("many changes")
    room.end()


def looks(browser, folder, ask, pictures=None):
    """At three widths, light and dark, with a card, its buttons and a trial: nothing stands out, all can be read."""
    room = Room(browser, folder, ask)
    for width, height in SIZES:
        for dark in (False, True):
            look = f"{width} {'dark' if dark else 'light'}"
            room.open(width, height, dark)
            steps = {
                "buttons": "choose([...Array(rowCount).keys()].find(i => 'RSE'.includes(state(i)))); "
                           "answers.set(serial[view.pick], { text: ['It is started (ok serial 242 status S).'], "
                           "look: 'is-done' }); showCard()",
                "sure": "answers.set(serial[view.pick], { sure: 'delete', of: statusOfRow(view.pick), look: 'is-late', "
                        "text: ['Press once more'] }); showCard()",
                "several": "choose(-1); showKind('all'); several.serials.clear(); "
                           "mark([...Array(rowCount).keys()].filter(i => 'WSE'.includes(statusOfRow(i))).slice(0, 5), "
                           "true); document.querySelector('#lines').scrollIntoView({behavior: 'instant'})",
                "trial": "clearAll(); choose(-1); document.querySelector('#look').click(); "
                         "new Promise(done => setTimeout(done, 700))",
                "planning": "document.querySelectorAll('#trial details').forEach(one => { one.open = true; }); "
                            "document.querySelector('#planning').scrollIntoView({behavior: 'instant'})",
                "lost": "tellLink('the desk doesn’t answer; the page shows its last answer'); scrollTo(0, 0)",
            }
            for step, text in steps.items():
                room.js(text)
                wide = room.js("document.documentElement.scrollWidth")
                ask(wide <= width, f"{look}, {step}: nothing stands out", wide)
                faint = browser.js(FAINT.replace("'.hidden", "':disabled, .hidden"))
                ask(not faint, f"{look}, {step}: contrast", faint[:5])
                ask(not browser.js(NAMELESS), f"{look}, {step}: names", browser.js(NAMELESS))
                if pictures:
                    browser.picture(os.path.join(pictures, f"{width}-{'dark' if dark else 'light'}-{step}.png"))
            small = room.js("[...document.querySelectorAll('.acts button, .do, #several .buttons button')].filter("
                            "x => x.offsetHeight && x.offsetHeight < 36).length")
            ask(width > 760 or not small, f"{look}: buttons are large enough for a finger", small)
            ask(not room.complaints(), f"{look}: the console", room.complaints())
    heard = [name for role, name in browser.names() if role in ("button", "link", "searchbox", "combobox", "Date")]
    ask(all(heard), "what a screen reader hears of controls", heard)
    live = room.js("[...document.querySelectorAll('[aria-live]')].map(x => x.id)")
    ask(live == ["say"], "what is said to a screen reader", live)
    room.end()


def clock(browser, folder, ask):
    """Without a moment the page goes by the desk's clock, and goes on with it; outside the plan it stands."""
    room = Room(browser, folder, ask)
    room.open(query="")
    stands = room.js("desk.stands")
    first, last = data_centre.FIRST, data_centre.LAST
    today = moments.day_text(moments.now() // moments.DAY)
    ask(stands != (first <= today <= last), "the clock stands outside the plan alone", (stands, today))
    if not stands:
        ask(abs(room.js("D.now") - moments.now()) <= 1, "as of the clock", room.js("D.now"))
        room.js("live.begun -= 3 * 60000; drawSoon()")
        room.comes(f"D.now >= {moments.now() + 2}", "the clock goes on", 2)
        late = room.js("[...Array(rowCount).keys()].filter(i => isOpen(i) && due[i] < D.now).length")
        ask(late == room.js("late.size"), "lateness goes on with it", late)
    room.end()


def large(browser, folder, ask):
    """A start in a plan of 200,000 rows shows within two seconds."""
    room = Room(browser, folder, ask, plan=large_plans.current())
    room.open()
    room.comes(SETTLED, "the page is at rest", 10)
    for _ in range(3):
        ready = room.row("state(i) === 'R'")
        begun = browser.seconds()
        ask(room.post(f"cp-start {room.key_of(ready)}\n").startswith("ok"), "a start")
        room.comes(f"{STATE.format(ready)} === 'S'", "a start among 200,000 rows shows", 2)
        took = browser.seconds() - begun
        ask(took <= 2, "seconds of a processor until a start is drawn", took)
    ask(not room.complaints(), "the console", room.complaints())
    room.end()


def edits(browser, folder, ask):
    """Changes of definitions from the card of an application."""
    room = Room(browser, folder, ask)
    browser_edits.check(room, os.environ.get("EDITS_PICTURES"))
    room.end()


OF_DESKS = [another_caller, needs, place, buttons, final, verbs, edits, logs, trials, roles, gone, clock, large]
