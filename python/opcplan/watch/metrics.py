"""What a watch counts, as text for Prometheus: a file that the textfile collector of node_exporter reads."""

import collections
import dataclasses
from collections.abc import Iterable, Iterator

from opcplan.watch.rulebook import Rulebook
from opcplan.watch.state import State

# by metric its kind and what it is
METRICS = {
    "opcplan_watch_last_poll_timestamp_seconds":
        ("gauge", "When a desk last answered the watch, in seconds since 1970, 0 if none has."),
    "opcplan_watch_events": ("gauge", "Events of a rule that are not over."),
    "opcplan_watch_undelivered_calls": ("gauge", "Events of which somebody has not heard how they are."),
    "opcplan_watch_undelivered_age_seconds": ("gauge", "For how long the oldest of these has waited."),
    "opcplan_watch_unheard_age_seconds":
        ("gauge", "For how long the oldest event has waited of which nobody has heard at all."),
    "opcplan_watch_calls_total": ("counter", "Calls and heartbeats that were delivered."),
    "opcplan_watch_failed_tries_total": ("counter", "Tries of calls and heartbeats that failed."),
    "opcplan_watch_heartbeat_timestamp_seconds":
        ("gauge", "When the last heartbeat was delivered, in seconds since 1970, 0 if none was."),
}


@dataclasses.dataclass
class Counts:
    """What a watch has counted since it began: by target calls that were delivered, tries that failed, and when the
    last heartbeat was delivered; and when a desk last answered. Moments are in seconds since 1970."""

    delivered: collections.Counter[str] = dataclasses.field(default_factory=collections.Counter)
    failed: collections.Counter[str] = dataclasses.field(default_factory=collections.Counter)
    beats: dict[str, float] = dataclasses.field(default_factory=dict)
    polled: float = 0.0


def text(plan: str, rules: Rulebook, state: State, counts: Counts) -> str:
    """All metrics of a plan, each with its help and its type."""
    found: dict[str, list[str]] = {name: [] for name in METRICS}
    for name, labels, value in samples(rules, state, counts):
        told = ",".join(f'{label}="{escaped(one)}"' for label, one in (("plan", plan), *labels))
        found[f"opcplan_watch_{name}"].append(f"opcplan_watch_{name}{{{told}}} {value:.17g}\n")
    return "".join(f"# HELP {name} {METRICS[name][1]}\n# TYPE {name} {METRICS[name][0]}\n{''.join(lines)}"
                   for name, lines in found.items() if lines)


def samples(rules: Rulebook, state: State, counts: Counts) -> Iterator[tuple[str, list[tuple[str, str]], float]]:
    """Each sample: its name without what all names begin with, its labels without the plan, and its value."""
    waiting = {one.target: one for one in state.undelivered()}
    yield "last_poll_timestamp_seconds", [], counts.polled
    yield "unheard_age_seconds", [], max((one.unheard_seconds or 0.0 for one in waiting.values()), default=0.0)
    for rule in rules.rules:
        yield "events", [("rule", rule.name)], float(sum(one.rule == rule.name for one in state.events.values()))
    for target in rules.routes():
        one = waiting.get(target)
        yield "undelivered_calls", [("who", target)], float(len(one.texts) if one else 0)
        yield "undelivered_age_seconds", [("who", target)], one.seconds if one else 0.0
    for target in sorted(called(rules)):
        yield "calls_total", [("who", target)], float(counts.delivered[target])
        yield "failed_tries_total", [("who", target)], float(counts.failed[target])
    for beat in rules.heartbeats:
        yield "heartbeat_timestamp_seconds", [("who", beat.target)], counts.beats.get(beat.target, 0.0)


def called(rules: Rulebook) -> Iterable[str]:
    """All who are called or get heartbeats."""
    return {*rules.routes(), *(beat.target for beat in rules.heartbeats)}


def escaped(label: str) -> str:
    """The value of a label as the format has it."""
    return label.replace("\\", "\\\\").replace('"', '\\"').replace("\n", "\\n")
