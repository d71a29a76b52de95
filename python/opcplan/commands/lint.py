"""./plan lint: what a job stream says that is taken without a word, and is likely a slip."""

import argparse
import functools
import os
import textwrap
from collections.abc import Iterable, Iterator

from opcplan.cli import words
from opcplan.commands import explain
from opcplan.plans import progress, stream_file, stream_state
from opcplan.plans.stream_state import Known
from opcplan.rules import (
    blocks, changes, definitions, explanations, horizons, lint_checks, moments, printable, stream,
)
from opcplan.rules.lint_checks import Finding
from opcplan.rules.stream import Item

About = tuple[object, ...]
SUMMARY = "what opcplan accepts in a stream although it is likely a mistake"
PLANNING = ("ltp-create", "ltp-extend", "ltp-modify-all", "ltp-modify-one", "ltp-trial")
LONGER = ("ltp-create", "ltp-extend")
WIDTH = 100


def add_words(parser: words.Parser) -> None:
    """Adds its words to a parser."""
    parser.description = (
        "Reads a job stream and reports, with the line of its record, what opcplan accepts although it is likely a "
        "mistake: " + "; ".join(lint_checks.KINDS.values()) + ". With --plan it knows what the plan defines too. It "
        "then also reports what each block drops or changes of it, and "
        + "; ".join(lint_checks.KINDS_BY_PLAN.values())
        + ". If stream or plan say how far the long-term plan goes, it reports " + "; ".join(horizons.KINDS.values())
        + ". It also reports what is refused in any plan: a line that is no statement, data without an end, and a "
        "faulty record. `./plan check` and `./plan explain` report what else is refused. The exit status is 1 if it "
        "finds something. "
        + stream.BOUND
    )
    words.add_stream(parser)
    explain.add_known_plan(parser)


def run(given: argparse.Namespace) -> int:
    """Does what the words ask for; the exit status."""
    with explain.known_at_first(given.plan) as now, stream_file.opened(given.stream) as source:
        unread: list[Finding] = []
        size = os.path.getsize(given.stream) if os.path.isfile(given.stream) else 0
        with progress.of(f"looks through {given.stream}") as far:
            items = progress.along(stream.items(source), far, lambda: source.size / size if size else 0)
            likely = findings(noted(items, now, unread), now)
    found = sorted([*unread, *likely], key=lambda finding: finding.line or 0)
    for finding in found:
        print("\n".join(finding_lines(finding)))
    if not found:
        words.print_message(f"{given.stream}: no likely mistakes")
    return 1 if found else 0


def noted(items: Iterable[Item], now: Known, unread: list[Finding]) -> Iterator[Item]:
    """The items, of which those that are refused for their own sake are noted, with the reason."""
    for item in items:
        if (reply := own_refusal(item)) is not None:
            text = "; ".join(explanations.refusal_sentences(item, reply, now))
            unread.append(Finding("refused", (), item.line, f"{reply}: {text}"))
        yield item


def own_refusal(item: Item) -> str | None:
    """The answer to an item that is refused for its own sake, in any plan; or None."""
    if item.statement is None:
        return "refused 10"
    if not item.has_data or is_sound(item):
        return None
    fault = block.fault if (block := block_of(item)) is not None else None
    return f"refused 11 {fault.record if fault else 0}"


def finding_lines(finding: Finding) -> list[str]:
    """A finding as it is printed, fit for a terminal."""
    text = printable.fit(f"line {finding.line}: {finding.text}")
    first, *more = textwrap.wrap(text, WIDTH, break_on_hyphens=False)
    return [first, *(f"    {line}" for line in more)]


def findings(items: Iterable[Item], now: Known) -> list[Finding]:
    """All findings of a stream, by line, from what is known before it on. What can't be refused for its own sake is
    taken as accepted."""
    walk = Walk(now)
    for item in items:
        walk.take(item, reply_of(now, item))
    return walk.ended()


class Walk:
    """A way through a stream, with what was found on it: what each statement drops, and what is looked for at each
    planning statement and at the end. What was found in the plan before, and stands there as it was, is not told."""

    def __init__(self, now: Known) -> None:
        self.now = now
        self.found: dict[tuple[str, About, int | None], Finding] = {}
        # the line of the last statement that changed a definition since findings were looked for
        self.changed: int | None = None
        # what these changed: by kind the names; and how far the plans reached when findings were looked for
        self.names: dict[str, set[str]] = {kind: set() for kind in (*stream_state.HELD, "options")}
        self.first, self.bounds = now.definitions_alone(), now.bounds
        self.span = lint_checks.window(self.first)
        self.held = lint_checks.LintCache()

    @functools.cached_property
    def before(self) -> set[tuple[str, About]]:
        """What is found in the plan by itself."""
        if self.now.plan is None:
            return set()
        found = {(one.kind, one.about) for one in lint_checks.all_of(self.first, self.held)}
        self.held.forget(None)
        return found | {(one.kind, one.about) for one in shortfalls(self.first)}

    def take(self, item: Item, reply: str) -> None:
        """Takes an item and what it was answered."""
        is_done = reply.startswith("ok") and item.statement is not None and not self.now.is_repeated(item)
        if is_done and item.asked.name in ("define", "undefine"):
            self.changed = item.line
            self.note(item)
            for finding in losses(self.now, item):
                self.found[finding.kind, finding.about, finding.line] = finding
        planned = self.now.bounds
        self.now.take(item, reply)
        if is_done and item.asked.name in LONGER:
            self.look_ahead(item.line, planned.last_day + 1 if planned else None)
        if is_done and item.asked.name in PLANNING:
            self.look()

    def note(self, item: Item) -> None:
        """Notes the names that a statement changes."""
        if item.statement is not None and item.statement.name == "undefine":
            self.names[item.statement.kind].add(item.statement.values["name"])
        elif (block := block_of(item)) is not None:
            self.names[block.kind] |= {"options"} if block.kind == "options" else set(block.defined)

    def touched(self) -> set[str] | None:
        """The applications of which something may be new since findings were looked for; None for all of them."""
        names, defined = self.names, self.now.defined
        if names["options"] or self.bounds != self.now.bounds or self.span != lint_checks.window(self.now):
            return None
        found = names["applications"] | names["run-cycles"] | names["predecessors"]
        if names["calendars"]:
            found |= {app for app in defined.applications if defined.calendar_name(app) in names["calendars"]}
        if names["periods"]:
            found |= {app for app, cycles in defined.run_cycles.items()
                      if any(cycle.period in names["periods"] for cycle in cycles.values())}
        return found

    def look_ahead(self, line: int, first: int | None = None, only: set[str] | None = None) -> None:
        """Looks for what ends before the long-term plan, whose days from `first` on are new."""
        for one in shortfalls(self.now, first, only):
            if (one.kind, one.about) not in self.before:
                self.found.setdefault((one.kind, one.about, None), Finding(one.kind, one.about, line, one.text))

    def look(self) -> None:
        """Looks for findings, if a definition has changed since that was done last."""
        if self.changed is None:
            return
        before, only = self.before, self.touched()
        self.held.forget(only)
        self.look_ahead(self.changed, only=only)
        for one in lint_checks.all_of(self.now, self.held, only):
            if one.line is None and (one.kind, one.about) in before:
                continue
            one = lint_checks.Finding(one.kind, one.about, one.line or self.changed, one.text)
            self.found.setdefault((one.kind, one.about, one.line), one)
        self.changed, self.bounds, self.span = None, self.now.bounds, lint_checks.window(self.now)
        for names in self.names.values():
            names.clear()

    def ended(self) -> list[Finding]:
        """All that was found, by line, once the stream has ended."""
        self.look()
        return sorted(self.found.values(), key=lambda finding: (finding.line, finding.kind, finding.about))


def shortfalls(now: Known, first: int | None = None, only: set[str] | None = None) -> list[horizons.Shortfall]:
    """What ends before the long-term plan, whose days from `first` on are new: all of them in a plan that is new."""
    if now.bounds is None:
        return []
    first = now.bounds.plan_end // moments.DAY if first is None else first
    return horizons.shortfalls(now.defined, first, now.bounds.last_day, only)


def losses(now: Known, item: Item) -> Iterator[Finding]:
    """What a `define` drops or changes of what is defined before it, as findings."""
    block = block_of(item)
    if block is None or block.fault:
        return
    if block.kind == "options":
        given = definitions.Definitions(
            default_calendar=block.defined["default_calendar"], max_hours=block.defined["max_extension_hours"]
        )
        differences = changes.of_options(now.defined, given) if now.is_whole else ()
    else:
        held = getattr(now.defined, stream_state.HELD[block.kind])
        differences = (change for name, new in block.defined.items() if name in held
                       for change in changes.of_name(block.kind, name, held[name], new))
    for number, change in enumerate(differences):
        line = block.lines.get(change.about)
        line = item.line if line is None else item.data_line + line
        if change.is_loss:
            yield lint_checks.Finding("change", (item.line, number), line, change.text)


def reply_of(now: Known, item: Item) -> str:
    """How the reply begins that an item will have, where the item shows that by itself, and what is known of bounds."""
    if (refusal := own_refusal(item)) is not None:
        return refusal
    assert item.statement is not None, "what is no statement is refused for its own sake"
    return "refused 21" if item.statement.name == "ltp-create" and now.bounds is not None else "ok"


def is_sound(item: Item) -> bool:
    """Whether an item has data that are read as a block without a fault."""
    block = block_of(item)
    return block is not None and block.fault is None


def block_of(item: Item) -> blocks.Block | None:
    """What the data of an item are read as, or None where it has none that can be read as a block."""
    if not item.has_data or not item.is_whole or item.data is None:
        return None
    return read(item.asked.kind, item.data)


@functools.lru_cache(1)
def read(kind: str, data: bytes) -> blocks.Block:
    """A block, which is asked for several times."""
    return blocks.read(kind, data)
