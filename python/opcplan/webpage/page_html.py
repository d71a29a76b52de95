"""The page as text: its parts and the plan's data. It loads nothing from elsewhere."""

import base64
import hashlib
import html
import itertools
import json
import re
from collections.abc import Iterable, Mapping, Sequence
from pathlib import Path

from opcplan.rules import moments
from opcplan.webpage.page_values import Data

PARTS = Path(__file__).resolve().parent / "page_parts"
STYLES = ["colours.css", "frame.css", "day.css", "graph.css", "month.css", "card.css", "small.css", "print.css"]
SCRIPTS = ["model.js", "words.js", "now.js", "needs.js", "actual.js", "groups.js", "day.js", "arrows.js",
           "layout.js", "graph.js", "month.js", "card.js", "apps.js", "changes.js", "search.js", "keys.js"]
MOST_WITHOUT_SCRIPT = 500
STATES = {"E": "in error", "S": "started", "R": "ready", "B": "blocked", "F": "to come"}


def joined(names: Iterable[str]) -> str:
    """The text of some parts, one after another."""
    return "".join((PARTS / name).read_text(encoding="utf-8") for name in names)


def digest(text: str) -> str:
    """The SHA-256 of a text, as the page's policy has it."""
    return base64.b64encode(hashlib.sha256(text.encode("utf-8", "replace")).digest()).decode()


def page_of(data: Data) -> str:
    """The page of the data of page_data.data_of."""
    return framed(data, data_text(data))


def data_text(data: object) -> str:
    """A value as JSON that may be within a page."""
    return json.dumps(data, separators=(",", ":")).replace("<", "\\u003c")


def policy_of(styles: Sequence[str] = STYLES, scripts: Sequence[str] = SCRIPTS, more: str = "") -> str:
    """The Content-Security-Policy of a page of these parts: its own style and script, and what `more` allows."""
    return (f"default-src 'none'; img-src data:; {more}style-src 'sha256-{digest(joined(styles))}'; "
            f"script-src 'sha256-{digest(joined(scripts))}'")


def framed(
    data: Data, text: str, styles: Sequence[str] = STYLES, scripts: Sequence[str] = SCRIPTS, more: str = ""
) -> str:
    """The page of some parts, with a text in the place of its data; `more` is what its policy also allows."""
    return filled("page.html", {
        "title": html.escape(title(data)),
        "policy": policy_of(styles, scripts, more),
        "style": joined(styles),
        "plain": without_script(data),
        "data": text,
        "script": joined(scripts),
    })


def filled(name: str, texts: Mapping[str, str]) -> str:
    """A part with its placeholders replaced by texts."""
    return re.sub(r"\{\{(\w+)\}\}", lambda found: texts[found[1]], joined([name]))


def title(data: Data) -> str:
    """The title of the page, which says how bad it is."""
    errors, late = data["state"].count("E"), data["marks"].count("l")
    return f"{errors} in error, {late} late: {data['file']} {moments.moment_text(data['now'])}"


def row_of(data: Data, arrivals: list[int], place: int) -> tuple[str, int, int]:
    """A row's application, input arrival and deadline, in minutes since 1970."""
    rows = data["rows"]
    return data["apps"][rows["app"][place]][0], arrivals[place], arrivals[place] + rows["due"][place]


def need_lines(data: Data) -> list[str]:
    """What needs a person, for a browser without scripts; nothing if only a desk knows that."""
    needs = data["needs"]["needs"] if "needs" in data else []
    lines = [f"<p>Needs a person: {html.escape(str(one['text']))}. First: {html.escape(str(one['advice']))}.</p>"
             for one in needs[:MOST_WITHOUT_SCRIPT]]
    more = f"<p>These are {MOST_WITHOUT_SCRIPT} of {len(needs):,}.</p>"
    return [*lines, more] if len(needs) > MOST_WITHOUT_SCRIPT else lines


def without_script(data: Data) -> str:
    """The text for a browser without scripts: how many rows are in each state, what needs a person, and the rows in
    error or late."""
    arrivals = list(itertools.accumulate(data["rows"]["arrival"]))
    late = {place for place, mark in enumerate(data["marks"]) if mark == "l"}
    places = late | {place for place, state in enumerate(data["state"]) if state == "E"}
    rows = sorted(((row_of(data, arrivals, place), data["state"][place], place in late) for place in places),
                  key=lambda one: (one[0][2], one[0]))
    counts = ", ".join(f"{data['state'].count(state)} {words}" for state, words in STATES.items())
    lines = [f"<p>{html.escape(title(data))}. Of the current plan: {counts}.</p>", *need_lines(data)]
    if rows:
        lines.append("<table><tr><th>Application<th>Arrived<th>Due<th>Status</tr>")
        for (app, arrival, due), state, is_late in rows[:MOST_WITHOUT_SCRIPT]:
            status = STATES[state] + (", late" if is_late else "")
            times = f"<td>{moments.moment_text(arrival)}<td>{moments.moment_text(due)}"
            lines.append(f"<tr><td>{html.escape(app)}{times}<td>{status}</tr>")
        lines.append("</table>")
    if len(rows) > MOST_WITHOUT_SCRIPT:
        lines.append(f"<p>The table shows {MOST_WITHOUT_SCRIPT} of {len(rows)}.</p>")
    return "\n".join(lines)
