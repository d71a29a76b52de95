"""What tools/browser/page-in-browser asks of the day as a graph, and of what is filtered: by stock SQLite and plain
loops."""

from support import large_plans

from opcplan.rules import moments

from browser_checks import LATE, NOW, OPENED, OPEN_PAIRS, SETTLED, SIZES, ask_plan, row_of, texts
from browser_keys import focus
from browser_plans import FAINT, written

NODES = "[...drawn.nodes.keys()].map(i => serial[i])"
PAIRS = "drawn.lines.map(line => [serial[line.row], serial[line.successor]])"
PLACES = "[...drawn.nodes].map(([i, item]) => [serial[i], item.x, item.y])"
CRITICAL = ("[...document.querySelectorAll('.node.critical')].map(x => "
            "[+x.querySelector('.number').textContent, serial[+x.dataset.i]]).sort((a, b) => a[0] - b[0])")
NARROWEST, GAP = 40, 10


def open_pairs(first):
    """Each pair (predecessor, successor) of what isn't complete: of rows of 24 hours, and of what they wait for."""
    seen = f"""SELECT serial FROM cp_row WHERE status IN ('W', 'S', 'E') AND ia < ?2 + 1440
        AND max(ia + 1, iif({LATE.replace('?', '?1')}, ?1, deadline)) > ?2"""
    left, found = [serial for serial, in ask_plan(seen, NOW, first)], set()
    while left:
        after = left.pop()
        for before, in ask_plan(OPEN_PAIRS, after):
            found.add((before, after))
            left.append(before)
    return found


def longest(pairs):
    """How many rows the longest chain of pairs has."""
    found, left = {}, set(pairs)

    def of(row):
        if row not in found:
            found[row] = 1 + max((of(before) for before, after in left if after == row), default=0)
        return found[row]

    return max(of(after) for _, after in left)


def graph(browser, page, ask):
    """The graph of what isn't complete has SQLite's pairs and no other, each to the right, apart, its chain marked."""
    browser.open(page)
    browser.js("document.querySelector('[data-key=graph]').click()")
    wanted = open_pairs(browser.js("view.from"))
    shown = {tuple(pair) for pair in browser.js(PAIRS)}
    ask(shown == wanted and len(wanted) > 15, "pairs of the graph", shown ^ wanted)
    ask(set(browser.js(NODES)) == {row for pair in wanted for row in pair}, "boxes of the graph")
    apart(browser, ask)
    chain = [row for _, row in browser.js(CRITICAL)]
    ask(len(chain) == longest(wanted), "as long as the longest chain", chain)
    ask(all(pair in wanted for pair in zip(chain, chain[1:])), "the critical chain is one of pairs", chain)
    names = [ask_plan("SELECT app FROM cp_row WHERE serial = ?", row)[0][0] for row in (chain[0], chain[-1])]
    said = browser.js("document.querySelector('.chain').textContent")
    ask(all(name in said for name in names) and f"{len(chain)} one after the other" in said, "the chain in words", said)
    ask(browser.js("document.querySelectorAll('.pair.critical').length") == len(chain) - 1, "its marked pairs")
    browser.js(f"choose({row_of('LIMITS')}); showKind('chain')")
    serial = browser.js("serial[view.pick]")
    ask({row for row, after in browser.js(PAIRS) if after == serial} >= {one for one, in ask_plan(OPEN_PAIRS, serial)},
        "the chain of one row as a graph")
    counted = browser.js("document.querySelector('[data-key=\"kind chain\"]').textContent")
    ask(counted == f"Its chain {len(browser.js(NODES))}", "the chain's count", counted)
    ask(not browser.complaints(), "the console beside the graph", browser.complaints())


def apart(browser, ask):
    """Each box stands to the right of what it waits for, and none over another."""
    places = {row: (x, y) for row, x, y in browser.js(PLACES)}
    ask(all(places[row][0] < places[after][0] for row, after in browser.js(PAIRS)), "boxes to the right")
    order = sorted(places.values())
    close = [(a, b) for a, b in zip(order, order[1:]) if a[0] == b[0] and b[1] - a[1] < NARROWEST + GAP]
    ask(not close, "boxes are apart", close[:3])


def graph_of_all(browser, page, ask):
    """The graph of a whole day has all pairs among its rows."""
    browser.open(page)
    browser.js("view.graph = true; view.kind = 'all'; drawDay()")
    rows = set(browser.js("rowsOfDay().rows.map(i => serial[i])"))
    pairs = {(before, after) for after, before in ask_plan("SELECT successor, predecessor FROM dependency")}
    shown = {tuple(pair) for pair in browser.js(PAIRS)}
    ask({pair for pair in pairs if set(pair) <= rows} <= shown <= pairs, "pairs of a whole day")
    heard = f"What waits for what: {len(browser.js(NODES))} occurrences, {len(shown)} pairs"
    ask(browser.js("document.querySelector('.graph').getAttribute('aria-label')") == heard, "what a reader hears of it")
    apart(browser, ask)


def graph_widths(browser, page, ask):
    """The graph at three widths, light and dark: nothing stands out, and all can be read."""
    for width, height in SIZES:
        for dark in (False, True):
            look = f"the graph at {width}, {'dark' if dark else 'light'}"
            browser.open(page, width, height, dark)
            browser.js("view.kind = 'all'; showAsGraph(true)")
            ask(browser.js("document.documentElement.scrollWidth") <= width, f"{look}: nothing stands out")
            ask(not browser.js(FAINT), f"{look}: contrast", browser.js(FAINT)[:5])
            wide = browser.js("[...document.querySelectorAll('.node text')].map(x => x.getBBox())"
                              ".filter(box => box.x + box.width > NODE.wide).length")
            ask(not wide, f"{look}: texts stand in their boxes", wide)


def graph_keys(browser, page, ask):
    """The graph by keys: g, arrows along the pairs, Enter, Escape."""
    browser.open(page)
    browser.key("g")
    browser.js("document.querySelector('.node[tabindex=\"0\"]').focus()")
    chain = [row for _, row in browser.js(CRITICAL)]
    ask(browser.js("serial[+document.activeElement.dataset.i]") == chain[0], "the chain's first has the tab stop")
    browser.key("ArrowRight")
    second = browser.js("serial[+document.activeElement.dataset.i]")
    ask((chain[0], second) in open_pairs(browser.js("view.from")), "an arrow leads along a pair", second)
    browser.key("ArrowLeft")
    browser.key("ArrowDown")
    ask(focus(browser)[0] == "g", "arrows lead to boxes", focus(browser))
    browser.key("Enter")
    chosen = browser.js("view.pick")
    ask(str(chosen) == focus(browser)[3], "Enter chooses a box and keeps the focus", focus(browser))
    browser.key("Enter")
    ask(focus(browser)[1] == "card", "Enter once more leads to the card", focus(browser))
    browser.key("Escape")
    ask(browser.js("view.pick") == -1 and focus(browser)[0] == "g", "Escape leads back", focus(browser))
    ask(browser.js("document.querySelectorAll('[tabindex=\"0\"]').length") <= 3, "tab stops beside the graph")
    browser.key("g")
    ask(browser.js("document.querySelectorAll('.row').length") > 0, "g leads back to rows")


def filtered(browser, page, ask):
    """While applications are filtered, tiles, panels, the title and the note say the same, on paper too."""
    browser.open(page)
    for word in ("PAY", "LEDGER", "POSTLOANS", "BACKUPMAIL", "MIS"):
        browser.js(f"document.querySelector('#find').value = '{word}'; find(); {SETTLED}")
        like = f"app LIKE '%{word}%'"
        late = ask_plan(f"SELECT count(*) FROM cp_row WHERE {like} AND {LATE}", NOW)[0][0]
        errors = ask_plan(f"SELECT count(*) FROM cp_row WHERE {like} AND status = 'E'")[0][0]
        started = ask_plan(f"SELECT count(*) FROM cp_row WHERE {like} AND status = 'S'")[0][0]
        tiles = [int(text) for text in browser.js(texts(".tiles b"))]
        ask([tiles[0], tiles[1], tiles[4]] == [errors, late, started], f"tiles of {word}", tiles)
        browser.js("document.querySelectorAll('#needs details').forEach(x => { x.drawLines?.(); x.open = true; })")
        shown = browser.js("[...document.querySelectorAll('#needs .go')].map(x => +x.dataset.i)"
                           ".filter(i => isWanted(i) && state(i) === 'E').length")
        ask(shown == errors, f"what is to be mended of {word}", shown)
        shown = browser.js("[...document.querySelectorAll('#needs .go')].map(x => +x.dataset.i)"
                           ".filter(i => isWanted(i) && late.has(i)).length")
        ask(shown == late, f"what is late of {word}", shown)
        for place, number in enumerate(tiles):
            browser.js(f"document.querySelectorAll('.tiles button')[{place}].click()")
            rows = browser.js("document.querySelectorAll('.row[data-i]').length")
            ask(rows == number, f"a click on the tile {place} of {word}", rows)
        ask(browser.js("document.title").startswith(f"{errors} in error, {late} late of “{word}”: "), "title")
        for printed in (False, True):
            browser.media(printed=printed)
            ask(f"only applications with “{word}”" in browser.js("document.querySelector('header').innerText"),
                f"what is filtered is told: {word}, on paper: {printed}")
        browser.media()
    named = browser.js("[...document.querySelectorAll('.jobs td:nth-child(2)')].map(x => x.textContent)")
    ask(named and all("MIS" in text for text in named), "jobs of what is filtered", named[:3])
    browser.js(f"document.querySelector('#filtered button').click(); {SETTLED}")
    ask(browser.js("[view.find.length, document.querySelector('#filtered').hidden]") == [0, True], "all is shown again")


def distinct_names(browser, page, ask):
    """Wherever a row is named, its arrival stands beside its name."""
    browser.open(page)
    browser.js("document.querySelectorAll('#now details').forEach(x => { x.drawLines?.(); x.open = true; })")
    names = browser.js("[...document.querySelectorAll('#now .in')].map(x => x.textContent)")
    ask(len(names) > 5 and all(name[-3] == "." for name in names), "names in sentences have a time", names[:3])
    heads = browser.js("[...document.querySelectorAll('#now .go')].map(x => x.children[1].textContent)")
    ask(all(head[-3] == "." for head in heads), "names in lists have a time", heads[:3])
    day = browser.js(f"{OPENED}; view.kind = 'all'; drawDay(); [...document.querySelectorAll('.row[data-i]')]"
                     ".map(x => x.querySelector('.lab').textContent.slice(1))")
    ask(len(day) == len(set(day)), "rows of a day are told apart", sorted(one for one in day if day.count(one) > 1)[:3])
    ask(browser.js("document.querySelector('.jobs caption').textContent").endswith("by job number"), "caption")


def large_graph(browser, folder, ask):
    """Of 200,000 rows a graph is drawn in part, and says so; so is what else is long."""
    browser.open(written(folder, "large", large_plans.current(), moments.moment_of(large_plans.NOW)))
    began = browser.seconds()
    browser.js("view.graph = true; view.kind = 'all'; drawDay(); drawn.nodes.size")
    ask(browser.seconds() - began <= 3, "seconds until a large graph is drawn", browser.seconds() - began)
    said = browser.js("document.querySelector('#lines').innerText")
    number, total = browser.js("[drawn.nodes.size, laidGraph(withWaits(rowsOfDay().rows)).count]")
    ask(0 < number <= 240 < total and f"{number} of {total}" in said, "what of a large graph is drawn", said[:300])
    ask(browser.js("document.querySelectorAll('*').length") <= 10_000, "elements of a large graph")


OF_GRAPH = [graph, graph_of_all, graph_widths, graph_keys, filtered, distinct_names]
OF_LARGE = [large_graph]
