"""What needs a person, for commands: the list of a desk, or that of a plan's file with the journal beside it."""

import json
import urllib.parse

from opcplan.desk import client
from opcplan.errors import Unreadable
from opcplan.needs import found, loaded, need
from opcplan.needs.need import Found, Need
from opcplan.plans.plan_file import Plan
from opcplan.rules import moments


def of_desk(desk: client.Client, now: int | None) -> tuple[Need, ...]:
    """The needs that a desk lists, as of a moment or of its clock. Raises Unreadable."""
    query = "" if now is None else f"?now={urllib.parse.quote(moments.moment_word(now))}"
    try:
        listed = json.loads(desk.request("GET", f"/status{query}")[1])["needs"]
        return tuple(map(need.of_values, listed))
    except (client.DeskUnreachable, client.RequestRefused) as why:
        message = str(why) if str(why).startswith(desk.name) else f"{desk.name}: {why}"
        raise Unreadable(message) from None
    except (ValueError, TypeError, KeyError, AttributeError):
        raise Unreadable(f"{desk.name}: its answer isn't that of a desk; check the address") from None


def of_file(plan: Plan, path: str, now: int) -> Found:
    """The needs of a plan in a file at a moment, by the journal beside it if there is one."""
    facts, _ = loaded.of_file(plan, path, now)
    return found.of_facts(facts)
