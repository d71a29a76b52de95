"""The metrics of a desk, in the text format of Prometheus. Each has the name of the plan as the label `plan`."""

import collections
import datetime
import time
from collections.abc import Iterable, Mapping
from typing import Any, TYPE_CHECKING

from opcplan.needs import need
from opcplan.rules import moments

if TYPE_CHECKING:
    from opcplan.desk.core import Desk
    from opcplan.desk.planner import Submission

BOUNDS = (0.001, 0.002, 0.005, 0.01, 0.02, 0.05, 0.1, 0.2, 0.5, 1, 2, 5, 10, 30)
# by name: the type, and what it is
ABOUT = {
    "opcplan_desk_up": ("gauge", "1 if opcplan has the plan open."),
    "opcplan_desk_stopped": ("gauge", "1 if the desk accepts no change."),
    "opcplan_desk_planner_starts_total": ("counter", "How often the desk started opcplan."),
    "opcplan_desk_planner_kills_total": ("counter", "How often the desk killed opcplan because it hung."),
    "opcplan_desk_position": ("gauge", "The last entry that the plan has."),
    "opcplan_desk_queued": ("gauge", "How many changes wait for the log."),
    "opcplan_desk_in_flight": ("gauge", "How many statements opcplan is working on."),
    "opcplan_desk_listeners": ("gauge", "How many callers listen to events."),
    "opcplan_desk_head": ("gauge", "The last entry of the log."),
    "opcplan_desk_behind": ("gauge", "How many entries of the log the plan lacks."),
    "opcplan_desk_etcd_members_up": ("gauge", "How many nodes of etcd answer."),
    "opcplan_desk_etcd_bytes": ("gauge", "The size of the largest database of etcd."),
    "opcplan_desk_etcd_quota": ("gauge", "The smallest quota of the databases of etcd, in bytes."),
    "opcplan_desk_answers_total": ("counter", "Answers by statement and by the first word of the reply."),
    "opcplan_desk_answer_seconds": ("histogram", "How long answers took."),
    "opcplan_plan_needs": ("gauge", "What needs a person, by kind."),
    "opcplan_plan_needs_level": ("gauge", "The highest level of what needs a person, by kind; -1 if nothing does."),
    "opcplan_plan_in_error": ("gauge", "Occurrences in error, also those that are tried again."),
    "opcplan_plan_started": ("gauge", "Occurrences that are started."),
    "opcplan_plan_ready": ("gauge", "Occurrences that may be started."),
    "opcplan_plan_blocked": ("gauge", "Occurrences that have arrived and wait for others."),
    "opcplan_plan_to_come": ("gauge", "Occurrences whose time is to come."),
    "opcplan_plan_late": ("gauge", "Occurrences that are past their deadline."),
    "opcplan_plan_at_risk": ("gauge", "Occurrences that are likely to end past their deadline."),
    "opcplan_plan_end_timestamp_seconds": ("gauge", "When the current plan ends."),
    "opcplan_plan_last_day_end_timestamp_seconds": ("gauge", "When the long-term plan ends."),
    "opcplan_plan_as_of_timestamp_seconds": ("gauge", "The moment as of which the plan's metrics are."),
    "opcplan_agent_age_seconds": ("gauge", "How long ago an agent last contacted the desk."),
    "opcplan_desk_watch_age_seconds": ("gauge", "How long ago a watch last reported to the desk."),
    "opcplan_desk_undelivered_calls": ("gauge", "Calls that a watch made and that aren't delivered."),
}
Values = Iterable[tuple[Mapping[str, str], object]]


class Metrics:
    """Counts answers by statement and by the first word of the reply, and how long they took."""

    def __init__(self) -> None:
        self.answers: collections.Counter[tuple[str | None, str]] = collections.Counter()  # by statement and word
        self.took: collections.Counter[str] = collections.Counter()  # by the least of BOUNDS that it keeps
        self.seconds = 0.0

    def count(self, ask: "Submission", reply: str) -> None:
        """Counts the answer to a caller's statement."""
        took = time.monotonic() - ask.begun
        self.answers[ask.name, reply.partition(" ")[0]] += 1
        self.took[next((str(bound) for bound in BOUNDS if took <= bound), "+Inf")] += 1
        self.seconds += took

    def text(self, desk: "Desk", facts: Mapping[str, Any] | None = None) -> str:
        """All metrics of a desk, and of its plan if its facts (`needs.of_plan`) are known."""
        planner, plan = desk.planner, desk.name
        lines = []
        for name, value in (
            ("up", int(planner.is_open)),
            ("stopped", int(bool(desk.trouble))),
            ("planner_starts_total", planner.lives),
            ("planner_kills_total", planner.kills),
            ("position", desk.position),
            ("queued", len(desk.feed.queue)),
            ("in_flight", len(desk.state.flight) + len(desk.state.line)),
            ("listeners", len(desk.events.listeners)),
            *desk.log.gauges(desk.position).items(),
        ):
            lines += lines_of(f"opcplan_desk_{name}", plan, [({}, value)])
        lines += lines_of("opcplan_desk_answers_total", plan, [
            ({"statement": str(statement), "reply": word}, count)
            for (statement, word), count in sorted(self.answers.items())])
        lines += [*self.seconds_lines(plan), *plan_lines(plan, facts or {})]
        lines += lines_of("opcplan_agent_age_seconds", plan, [
            ({"agent": who}, one["age"]) for who, one in desk.agents.values().items()])
        watches = desk.reports.of_watches().items()
        lines += lines_of("opcplan_desk_watch_age_seconds", plan, [
            ({"watch": who}, round(age, 3)) for who, (age, _) in watches])
        lines += lines_of("opcplan_desk_undelivered_calls", plan, [
            ({"watch": who}, count) for who, (_, count) in watches])
        return "\n".join(lines) + "\n"

    def seconds_lines(self, plan: str) -> list[str]:
        """The lines of a histogram of how long answers took."""
        name, total, values = "opcplan_desk_answer_seconds", 0, []
        for bound in (*map(str, BOUNDS), "+Inf"):
            total += self.took[bound]
            values.append(({"le": bound}, total))
        return [*heads_of(name), *sample_lines(f"{name}_bucket", plan, values),
                *sample_lines(f"{name}_sum", plan, [({}, f"{self.seconds:.6f}")]),
                *sample_lines(f"{name}_count", plan, [({}, total)])]


def plan_lines(plan: str, facts: Mapping[str, Any]) -> list[str]:
    """The lines of what a plan needs, of its counts, and of its ends in seconds since 1970 by the zone of this
    machine."""
    lines = []
    if "needs" in facts:
        levels = collections.defaultdict(list)
        for one in facts["needs"]:
            levels[one["kind"]].append(one["level"])
        lines += lines_of("opcplan_plan_needs", plan, [({"kind": kind}, len(levels[kind])) for kind in need.KINDS])
        lines += lines_of("opcplan_plan_needs_level", plan, [
            ({"kind": kind}, max(levels[kind], default=-1)) for kind in need.KINDS])
    for name, value in facts.get("counts", {}).items():
        lines += lines_of(f"opcplan_plan_{name}", plan, [({}, value)])
    last = facts.get("last_day")
    for name, text in (("end", facts.get("plan_end")), ("last_day_end", last and f"{last}/23.59"),
                       ("as_of", facts.get("now"))):
        moment = moments.moment_of(text) if text else None
        if moment is not None:
            seconds = (moments.EPOCH + datetime.timedelta(minutes=moment + (name == "last_day_end"))).timestamp()
            lines += lines_of(f"opcplan_plan_{name}_timestamp_seconds", plan, [({}, f"{seconds:.0f}")])
    return lines


def lines_of(name: str, plan: str, values: Values) -> list[str]:
    """The lines of a metric: what it is, its type, and its values by their labels; none without a value."""
    samples = sample_lines(name, plan, values)
    return [*heads_of(name), *samples] if samples else []


def heads_of(name: str) -> list[str]:
    """The lines on what a metric is, and its type."""
    kind, about = ABOUT[name]
    return [f"# HELP {name} {about}", f"# TYPE {name} {kind}"]


def sample_lines(name: str, plan: str, values: Values) -> list[str]:
    """A line for each value of a metric."""
    return [f"{name}{{{','.join(f'{key}={label(text)}' for key, text in {'plan': plan, **labels}.items())}}} {value}"
            for labels, value in values]


def label(text: str) -> str:
    """A text as the value of a label, with its quotes."""
    return '"' + text.replace("\\", "\\\\").replace('"', '\\"').replace("\n", "\\n") + '"'
