"""What tools/browser/page-in-browser asks of other pages: widths, names, contrast, empty plans, many rows, worked
streams."""

import gc
import os
import subprocess

from support import data_centre, large_plans, plans

from opcplan.rules import moments
from opcplan.webpage import page_data, page_html

from browser_checks import SIZES
from browser_keys import INTERACTIVE

EMPTY = {
    "no plan yet": ("define applications --job 1\nAPP,A,\n/*\n", "There is no long-term plan yet"),
    "no current plan": (plans.stream("data-centre-year"), "The current plan is empty"),
}
# the plain planner takes minutes over its 200,000 rows
WITH_PROGRAM_ALONE = {"full-plan"}
NAMELESS = f"""[...document.querySelectorAll('{INTERACTIVE}')].filter(x => !x.matches('td') && !(x.innerText ||
    x.getAttribute('aria-label') || x.labels?.[0]?.innerText || x.textContent || '').trim()).length"""
# texts whose colour stands out too little from what is behind them
FAINT = """(() => {
  const parse = text => (text.match(/[\\d.]+/g) || [0, 0, 0, 0]).map(Number);
  const linear = x => x <= .04045 ? x / 12.92 : ((x + .055) / 1.055) ** 2.4;
  const light = ([r, g, b]) => .2126 * linear(r / 255) + .7152 * linear(g / 255) + .0722 * linear(b / 255);
  const behind = x => {
    for (; x; x = x.parentElement) {
      const colour = parse(getComputedStyle(x).backgroundColor);
      if (colour.length === 3 || colour[3] > 0) return colour;
    }
    return [255, 255, 255];
  };
  const found = [];
  for (const x of document.querySelectorAll('body *')) {
    const own = [...x.childNodes].some(n => n.nodeType === 3 && n.data.trim());
    if (!own || !x.getClientRects().length || x.closest('.hidden, noscript, title, option, script, style')) continue;
    const style = getComputedStyle(x), text = parse(x.ownerSVGElement ? style.fill : style.color);
    const sign = x.matches('.letter') && parse(getComputedStyle(x.parentNode.querySelector('.sign')).fill);
    const ground = sign && sign.length === 3 ? sign : behind(x.ownerSVGElement?.parentElement || x);
    const [a, b] = [light(text), light(ground)];
    const ratio = (Math.max(a, b) + .05) / (Math.min(a, b) + .05);
    const look = x.tagName + '.' + (x.className.baseVal ?? x.className);
    if (ratio < 4.5) found.push([look, x.textContent.slice(0, 20), ratio]);
  }
  return found;
})()"""


def written(folder, name, path, now=None, **given):
    """The file of a plan's page."""
    gc.disable()
    text = page_html.page_of(page_data.data_of(str(path), now, **given))
    gc.enable()
    out = os.path.join(folder, name + ".html")
    with open(out, "w", encoding="utf-8") as file:
        file.write(text)
    return out


def centre_page(folder, ask):
    """The page of the data centre, by the command itself; and the plan stays as it was, also where it is open."""
    kept = os.path.join(folder, "kept")
    os.mkdir(kept)
    path = plans.copy_of(plans.of_stream(data_centre.whole()), kept, "centre.db")
    out = os.path.join(folder, "centre.html")
    before = plans.prints(path)
    evening = plans.of_stream(data_centre.evening())
    words = ["page", path, "--now", data_centre.NOW, "--since", evening, "-o", out, "--force"]
    asked = plans.plan(*words)
    ask((asked.returncode, asked.stdout, asked.stderr) == (0, "", ""), "status of page", asked.stderr)
    ask(before == plans.prints(path), "the plan and its log stay as they were")
    if plans.PROGRAM.exists():
        beside_the_program(path, words, ask)
    return out


def beside_the_program(path, words, ask):
    """While opcplan has the file open, the page is made, and opcplan answers as it does without."""
    stream, wanted = b"list cp\n", plans.planner_of(data_centre.whole()).list("cp", None)
    with subprocess.Popen([plans.PROGRAM, "--db", path], stdin=subprocess.PIPE, stdout=subprocess.PIPE) as program:
        program.stdin.write(stream)
        program.stdin.flush()
        first = [program.stdout.readline().decode().rstrip("\n") for _ in range(len(wanted) + 1)]
        ask(first[:-1] == wanted, "opcplan before the page", first[-1])
        before = plans.prints(path)
        asked = plans.plan(*words)
        ask(asked.returncode == 0 and before == plans.prints(path), "a page beside opcplan", asked.stderr)
        rest = program.communicate(stream)[0].decode().splitlines()
        ask(rest == first and program.returncode == 0, "opcplan after the page", rest[-1:])


def widths(browser, folder, ask):
    """At three widths, light and dark: nothing stands out, nothing is told, all has a name, all can be read."""
    out = os.path.join(folder, "centre.html")
    for width, height in SIZES:
        for dark in (False, True):
            look = f"{width} {'dark' if dark else 'light'}"
            browser.open(out, width, height, dark)
            ask(browser.js("document.documentElement.scrollWidth") <= width, f"{look}: nothing stands out")
            faint = browser.js(FAINT)
            ask(not faint, f"{look}: contrast", faint[:5])
            browser.js("choose([...rootOf.keys()][0]); view.kind = 'all'; drawDay()")
            ask(browser.js("document.documentElement.scrollWidth") <= width, f"{look}: with a card")
            faint = browser.js(FAINT)
            ask(not faint, f"{look}: contrast with a card", faint[:5])
            ask(not browser.js(NAMELESS), f"{look}: names", browser.js(NAMELESS))
            ask(not browser.complaints(), f"{look}: the console", browser.complaints())
    heard = [name for role, name in browser.names() if role in ("button", "link", "searchbox", "combobox", "Date")]
    ask(all(heard), "what a screen reader hears of controls", heard)


def long_names(browser, folder, ask):
    """Names of sixteen of the widest letters make nothing stand out."""
    names = ["W" * 15 + letter for letter in "ABCD"]
    apps = "".join(f"{name},A,\n" for name in names)
    cycles = "".join(f"{name},WWWWWWWW,N,DAY,3,1,2026-11-01,,0{hour}.00,0,04.00\n" for hour, name in enumerate(names))
    lists = "".join(f"{later},{earlier}\n" for earlier, later in zip(names, names[1:]))
    stream = ("define periods --job 1\nDAY,A,2026-11-01,1\n/*\n" f"define applications --job 2\n{apps}/*\n"
              f"define run-cycles --job 3\n{cycles}/*\ndefine predecessors --job 4\n{lists}/*\n"
              "ltp-create --from 2026-11-24 --to 2026-11-30 --job 5\ndp-extend --to 2026-11-26/00.00 --job 6\n")
    out = written(folder, "W" * 100, plans.of_stream(stream), moments.moment_of("2026-11-24/06.00"))
    for width, height in SIZES:
        browser.open(out, width, height)
        browser.js("choose(2)")
        ask(browser.js("document.documentElement.scrollWidth") <= width, f"{width}: long names")


def empty(browser, folder, ask):
    """Where there is nothing, a sentence says so."""
    for title, (stream, said) in EMPTY.items():
        browser.open(written(folder, title, plans.of_stream(stream)))
        text = browser.js("document.body.innerText")
        ask(said in text and not browser.complaints(), title, browser.complaints() or text[:300])
    browser.open(os.path.join(folder, "centre.html"))
    browser.js("document.querySelector('#find').value = 'NOSUCH'; find(); new Promise(done => setTimeout(done, 400))")
    text = browser.js("document.body.innerText")
    for said in ("Nothing of “NOSUCH” in these hours", "Nothing of “NOSUCH” runs in this month",
                 "None of these needs a person.", "None of these waits to be started",
                 "only applications with “NOSUCH”: 0 of "):
        ask(said in text, f"a search without a match: {said}")
    browser.open(os.path.join(folder, "centre.html"), scripts=False)
    heard = " ".join(name for _, name in browser.names())
    ask("Without that it shows only this:" in heard and "Needs a person: POSTLOANS" in heard, "without a script",
        heard[:200])


def limit(browser, folder, ask):
    """200,000 rows are drawn in two seconds, with few elements; too many rows of a day are grouped."""
    for title, path in (("all planned", large_plans.planned()), ("all in the current plan", large_plans.current())):
        took = browser.open(written(folder, title, path, moments.moment_of(large_plans.NOW)))
        ask(took <= 2, f"{title}: seconds until it is drawn", took)
        ask(browser.js("document.querySelectorAll('*').length") <= 10_000, f"{title}: elements")
        ask(not browser.complaints(), f"{title}: the console", browser.complaints())
        browser.js("view.kind = 'all'; drawDay()")
        number = sum(map(int, browser.js("[...document.querySelectorAll('.row.group em')].map(x => x.textContent)")))
        ask(number == browser.js("rowsOfDay().rows.length"), f"{title}: groups hold all rows of the day", number)
        browser.js("document.querySelector('.row.group').focus()")
        browser.key("Enter")
        opened = browser.js("document.activeElement.getAttribute('aria-expanded')")
        inside = browser.js("laid.buttons.size + laid.folds.size")
        ask(opened == "true" and inside > 0, f"{title}: a group is opened", (opened, inside))
        ask(browser.js("document.querySelectorAll('*').length") <= 10_000, f"{title}: elements of an opened group")


def worked(browser, folder, ask):
    """The plan of each worked stream: nothing is told at any width, light or dark."""
    for file in sorted(plans.DATA.glob("*.in")):
        if file.stem in WITH_PROGRAM_ALONE and not plans.PROGRAM.exists():
            continue
        out = written(folder, "worked", plans.of_worked(file.stem))
        browser.open(out)
        for width, height in SIZES:
            browser.size(width, height)
            for dark in (False, True):
                browser.media(dark)
                wide = browser.js("document.documentElement.scrollWidth")
                ask(wide <= width, f"{file.stem} at {width}: nothing stands out", wide)
        browser.js("if (rowCount) choose(0); showKind('all'); drawMonth()")
        ask(not browser.complaints(), f"{file.stem}: the console", browser.complaints()[:2])


OF_OTHERS = [widths, long_names, empty, limit, worked]
