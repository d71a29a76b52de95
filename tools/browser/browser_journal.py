"""What tools/browser/page-in-browser asks of a page with a desk's journal: what ended late or is going to, the chain,
cards."""

import test_actual
from browser_checks import SIZES
from browser_plans import FAINT, NAMELESS, written
from support.plans import plain

# as test_actual has it, worked out by hand
LISTS = {
    "Going to end late": ["CHARLIE 08.20 due 08.50 expected to end 09.01, late by 11 min"],
    "Ended late in the 24 hours before": ["CHARLIE Tue 08.20 ended Tue 2 Jan 08.55 due Tue 2 Jan 08.50, late by 5 min",
                                          "DELTA 07.00 ended 07.45 due 07.30, late by 15 min"],
    "All is expected to be done 09.01, by this chain": [
        "ALFA 08.00 08.01 to 08.11 started", "BRAVO 08.10 08.11 to 08.31 its time is to come",
        "CHARLIE 08.20 08.31 to 09.01 its time is to come, late by 11 min"],
}
CARDS = {
    ("DELTA", 3): ["Ran started 07.10, complete 07.45, after 35 min",
                   "Takes 5 min in the middle, 35 min at worst, by the last 3 runs"],
    ("CHARLIE", 3): ["Ran no run is known", "Takes 30 min in the middle, 35 min at worst, by the last 2 runs",
                     "Expected end 09.01, late by 11 min"],
    ("ALFA", 3): ["Ran started 08.01, not ended yet", "Takes 10 min in the middle, 12 min at worst, by the last 2 runs",
                  "Expected end 08.11"],
    ("FOXTROT", 3): ["Ran no run is known", "Takes no whole run is known", "Expected end not before 08.09"],
}
SHOWN = """[...document.querySelectorAll('#ends h3')].map(x => [x.firstChild.textContent,
    [...x.nextElementSibling.querySelectorAll('.entry')].map(y => [...y.querySelectorAll('span:not(.b), p')]
    .filter(z => !z.querySelector('span')).map(z => z.textContent.trim()).filter(Boolean).join(' '))])"""

# lists that stick to the one before them
STICKING = """(() => {
  const boxes = [...document.querySelectorAll('#now .pane:not(details:not([open]) *)')]
    .map(x => x.getBoundingClientRect());
  const isBelow = (a, b) => b.top < a.top && a.left < b.right && b.left < a.right && a.top - b.bottom < 10;
  return [...document.querySelectorAll('#now h3')]
    .filter(x => boxes.some(box => isBelow(x.getBoundingClientRect(), box))).map(x => x.textContent);
})()"""


def lists_and_cards(browser, folder, ask):
    """The lists below what comes next, and the cards of some rows, at each width in light and dark."""
    held = test_actual.Journal("setUp")
    held.setUp()
    try:
        now = plain.read_moment(test_actual.NOW)
        with_journal = written(folder, "journal", held.plan, now, journal=held.journal)
        without = written(folder, "without-journal", held.plan, now)
    finally:
        held.doCleanups()
    for width, height in SIZES:
        for dark in (False, True):
            browser.open(with_journal, width, height, dark)
            look = f"a journal at {width}, {'dark' if dark else 'light'}"
            found = {title: [" ".join(text.split()) for text in texts] for title, texts in browser.js(SHOWN)}
            ask(found == LISTS, f"{look}: lists", found)
            ask(not browser.js(STICKING), f"{look}: lists are apart", browser.js(STICKING))
            for key, wanted in CARDS.items():
                text = browser.js(f"choose(rowOfSerial({held.rows[key][0]})); "
                                  "[...document.querySelectorAll('#card dt')].map(x => x.textContent + "
                                   "' ' + x.nextElementSibling.textContent)")
                ask([line for line in text if line.split()[0] in ("Ran", "Takes", "Expected")] == wanted,
                    f"{look}: the card of {key}", text)
            for what, question in (("names", NAMELESS), ("contrast", FAINT)):
                answer = browser.js(question)
                ask(not answer, f"{look}: {what}", answer)
            wide = browser.js("document.documentElement.scrollWidth - innerWidth")
            ask(wide <= 0, f"{look}: it is wider than the window", wide)
    browser.open(without, *SIZES[0], False)
    ask(browser.js("document.querySelector('#ends').textContent") == "", "without a journal there are no lists")


OF_JOURNAL = [lists_and_cards]
