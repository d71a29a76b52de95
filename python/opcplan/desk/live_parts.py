"""The parts of the live page, and of the page that asks for a token."""

from collections.abc import Sequence

from opcplan.webpage import page_html

STYLES = [*page_html.STYLES, "live.css", "live_edits.css"]
SCRIPTS = [*page_html.SCRIPTS[:-1], "live_model.js", "live_place.js", "live_asks.js", "live_needs.js", "live_acts.js",
           "live_doing.js", "live_verbs.js", "live_several.js", "live_search.js", "live_logs.js", "live_trials.js",
           "live_year.js", "live_edits.js", "live_events.js", page_html.SCRIPTS[-1], "live_start.js"]
SIGN_STYLES, SIGN_SCRIPTS = ["colours.css", "sign_in.css"], ["sign_in.js"]
MORE = "connect-src 'self'; "


def policy(styles: Sequence[str], scripts: Sequence[str]) -> str:
    """The Content-Security-Policy of a page of these parts."""
    alone = "frame-ancestors 'none'; base-uri 'none'; form-action 'none'"
    return f"{page_html.policy_of(styles, scripts, MORE)}; {alone}"


def sign_in() -> str:
    """The page that asks for a token. It has nothing of the plan."""
    return page_html.filled("sign_in.html", {
        "policy": page_html.policy_of(SIGN_STYLES, SIGN_SCRIPTS, MORE),
        "style": page_html.joined(SIGN_STYLES), "script": page_html.joined(SIGN_SCRIPTS)})
