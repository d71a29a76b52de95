"""An act over the plan of a file."""

import io
import os
import re
import shlex
import sys
import time
from collections.abc import Sequence

from opcplan.acts import loaded, previews, resolver, rest, steps, undoing, verbs
from opcplan.acts.previews import Preview
from opcplan.acts.undoing import Done
from opcplan.acts.verbs import Act, Ambiguous, NotDoable
from opcplan.acts.world import World
from opcplan.cli import words
from opcplan.commands import acting, edit_change, run, send
from opcplan.commands.acting import NotChosen, Settings
from opcplan.errors import Error, Unreadable
from opcplan.plans import begun_acts, job_numbers, journal, own_runs, plan_file, printed_numbers, stream_state
from opcplan.plans.begun_acts import Begun
from opcplan.plans.plan_file import Plan
from opcplan.plans.program import built_program
from opcplan.rules import moments, printable, stream


def done(settings: Settings, path: str) -> int:
    """Does what is wanted, once it was shown and somebody said so; the exit status."""
    run.ask_file(path, False, makes_new=False)
    name, wanted = os.path.realpath(path), settings.wanted.text
    begun = begun_acts.find(name, wanted)
    if begun is not None and not settings.is_dry:
        left = goes_on(settings, path, begun)
        if left is not None:
            return left
    before = plan_file.stamps(name)
    found = previewed(settings, path)
    is_kept = settings.journal is not None or os.path.isfile(journal.beside(path))
    show(found.lines if is_kept else lines_without_journal(found))
    if settings.is_dry:
        return 0
    acting.agree(settings)
    check_unchanged(path, before)
    text = numbered(path, found)
    begun_acts.note(name, wanted, Begun(text))
    status = sent(settings, path, text)
    if status == 0 and not is_kept and found.inverse.steps and len(found.act.steps) == 1:
        number = re.findall(r" --job (\d+)", text)[-1]
        words.print_message(f"`{words.CALLED} undo {shlex.quote(path)} --job {number}` takes it back")
    return status


def lines_without_journal(found: Preview) -> Sequence[str]:
    """What is to be said of an act over a plan that has no journal beside it: there `undo` needs the job number of a
    statement, which is printed once it is done."""
    *lines, last = found.lines
    if last != previews.TAKES_BACK:
        return found.lines
    if len(found.act.steps) == 1:
        return [*lines, "`undo --job N` takes it back; N is printed once it is done."]
    return [*lines, "`undo` takes it back only with a journal beside the plan, as a desk keeps it."]


def previewed(settings: Settings, path: str) -> Preview:
    """What would be done, of the occurrence that is chosen if several fit. Raises Error."""
    with plan_file.opened(path) as plan:
        world = loaded.world_of(plan)
        while True:
            try:
                act = act_of(settings, path, plan, world)
                return previews.of_act(world, act)
            except Ambiguous as several:
                found = several.found
                serials = [row.serial for row in found.several]
                chosen = acting.chosen(settings, resolver.lines_of(found), serials, settings.wanted.of)
                settings = chosen
            except NotDoable as why:
                raise NotChosen(f"{why}. Nothing was done") from None


def act_of(settings: Settings, path: str, plan: Plan, world: World) -> Act:
    """The act that is wanted. Raises Ambiguous, NotDoable and Unreadable."""
    wanted = settings.wanted
    if wanted.verb != "undo":
        return verbs.act_of(world, wanted, moments.now())
    if settings.job is not None:
        kept = loaded.kept_job(plan, settings.job)
        if kept is None:
            raise NotDoable(f"{path} keeps no job {settings.job}")
        if not kept.reply.startswith("ok"):
            raise NotDoable(f"job {settings.job} was answered `{kept.reply}`, so it changed nothing")
        return undoing.act_of(world, wanted, [kept], [])
    entries = entries_of(settings, path)
    chosen = undoing.last_of(entries, None) if wanted.entry is None else undoing.of_entry(entries, wanted.entry)
    return undoing.act_of(world, wanted, chosen, entries)


def entries_of(settings: Settings, path: str) -> list[Done]:
    """The entries of the journal. Raises NotDoable and Unreadable."""
    named = settings.journal or journal.beside(path)
    if settings.journal is None and not os.path.isfile(named):
        raise NotDoable(f"{path} has no journal beside it, and a plan doesn't keep which change was the last, nor what "
                        "was before it; `--job N` takes the statement back that the plan keeps under job N, if that "
                        "can be known")
    return loaded.entries_of(named)


def numbered(path: str, found: Preview) -> str:
    """The stream with job numbers that nothing else has. Raises Unwritable and ChangeRefused."""
    text = found.stream
    with plan_file.opened(path) as plan:
        numbers = printed_numbers.numbered(
            path, f"{time.time_ns()} {text}", job_numbers.after_greatest(plan.db),
            lambda first: edit_change.numbers_of(plan, len(found.act.steps), first))
    return steps.numbered(found.act.steps, numbers)


def goes_on(settings: Settings, path: str, begun: Begun) -> int | None:
    """Goes on with an act that was begun: the exit status; None if nothing of it was done, so that it begins anew.
    Raises Error if what is left can't be done any more."""
    name, wanted = os.path.realpath(path), settings.wanted.text
    items = list(stream.items(stream.Source(io.BytesIO(begun.stream.encode()), "the act")))
    before = plan_file.stamps(name)
    with plan_file.opened(path) as plan:
        done = done_of(plan, items)
        if not done:
            begun_acts.drop(name, wanted)
            return None
        counted = f"{len(done)} of its {len(items)} statements {'is' if len(done) == 1 else 'are'} done"
        print(f"`{wanted}` was stopped: {counted}.")
        sys.stdout.flush()
        if len(done) < len(items):
            try:
                left = rest.preview(loaded.world_of(plan), items[len(done):], done, stream_state.of_plan(plan))
            except NotDoable as why:
                begun_acts.drop(name, wanted)
                raise Error(f"{why}. So nothing more was done: {counted}, which `undo` takes back if it can be taken "
                            "back") from None
            show(left.lines)
            acting.agree(settings, "Go on?")
    check_unchanged(path, before)
    return sent(settings, path, begun.stream)


def done_of(plan: Plan, items: Sequence[stream.Item]) -> list[Done]:
    """The statements, from the first one on, that a plan keeps under their job numbers."""
    found = []
    for item in items:
        kept = loaded.kept_job(plan, item.asked.job or 0)
        if kept is None or kept.line != item.text.decode("ascii", "replace"):
            break
        found.append(kept)
    return found


def statements_of(text: bytes) -> list[bytes]:
    """The statements of a stream, each with its data."""
    begins = [item.line - 1 for item in stream.items(stream.Source(io.BytesIO(text), "the act"))]
    lines = text.splitlines(keepends=True)
    return [b"".join(lines[begin:end]) for begin, end in zip(begins, [*begins[1:], len(lines)])]


def show(lines: Sequence[str]) -> None:
    """Prints what would be done."""
    for line in lines:
        print(printable.fit(line))
    sys.stdout.flush()


def check_unchanged(path: str, before: list[plan_file.Stamp]) -> None:
    """Asks that nobody has written to a plan since. Raises Error."""
    if plan_file.stamps(os.path.realpath(path)) != before:
        raise Error(f"{path}: nothing was done, because another program wrote to it meanwhile; type it again")


def sent(settings: Settings, path: str, text: str) -> int:
    """Has opcplan do a stream over the plan up to its first refusal, and prints its answers; the exit status."""
    program = os.path.abspath(settings.program or built_program())
    data = text.encode("ascii")
    statements = statements_of(data)
    try:
        ran = own_runs.ran_in_turn(program, path, statements)
    except OSError as error:
        raise Unreadable(f"{program}: it can't be run: {error.strerror}") from None
    status = send.shown(data, ran, path=path)
    if status in (0, 4):
        begun_acts.drop(os.path.realpath(path), settings.wanted.text)
        left = len(statements) - len(own_runs.REPLY.findall(ran.stdout))
        if left:
            were = "was" if left == 1 else "were"
            words.print_message(f"{left} of its {len(statements)} statements {were} left out, because the one before "
                                "was refused")
    else:
        words.print_message(acting.AGAIN)
    return status
