"""What a stream was answered: the lines of an output beside the items of a stream, and each refusal in words."""

import re
import textwrap
from collections.abc import Callable, Iterable, Iterator

from opcplan.errors import Error
from opcplan.rules import printable, refusals, statements, stream
from opcplan.rules.known import Known
from opcplan.rules.stream import Item, Source

WIDTH = 100
REPLY = re.compile(r"(ok|refused|fault)( |$)")
FAULTS = {
    "40": "memory was refused",
    "41": "the plan's disk, standard input or standard output failed",
    "50": "the file can't be opened or made, isn't a plan, or another program has it open",
    "51": "the file's tables aren't those of a plan",
    "52": "the rows in the file are no sound plan",
}
# a stream's output may be longer than the stream; no line that opcplan prints is as long as this
OF_OUTPUT, MOST_OF_ANSWER = stream.Bounds(1 << 30, 10_000_000), 200


class OutputMismatch(Error):
    """Why an output can't be that of a stream."""


def answers(source: Source, see: Callable[[str], None]) -> Iterator[str]:
    """The reply lines of an output, as they are read; a row of a listing is handed to `see`. Raises OutputMismatch."""
    while True:
        line, length, size = source.line(MOST_OF_ANSWER)
        if not size:
            return
        if length > MOST_OF_ANSWER:
            raise OutputMismatch(f"its line {source.number} is longer than any answer")
        text = line[:length].decode("latin-1")
        if REPLY.match(text):
            yield text
        else:
            see(text)


def answered(
    items: Iterable[Item], output: Source, see: Callable[[str], None]
) -> Iterator[tuple[Item | None, str | None]]:
    """Each item with its reply, in turn, as they are read; rows of listings are handed to `see`. Where the output ends
    before all are answered, the last item is the one that isn't, with a fault or None; a fault behind all answers comes
    with None for an item. Raises OutputMismatch."""
    replies = answers(output, see)
    for item in items:
        reply = next(replies, None)
        if reply is None or reply.startswith("fault"):
            yield item, ending(reply, replies)
            return
        check_fits(item, reply)
        yield item, reply
    reply = next(replies, None)
    if reply is not None:
        if not reply.startswith("fault"):
            raise OutputMismatch("it has more answers than the stream has statements")
        yield None, ending(reply, replies)


def ending(reply: str | None, replies: Iterator[str]) -> str | None:
    """A fault, or None, behind which there is no reply. Raises OutputMismatch."""
    if next(replies, None) is not None:
        raise OutputMismatch(f"there are more answers after its `{(reply or str())[:60]}`")
    return reply


def is_end(reply: str | None) -> bool:
    """Whether what stands for a reply is the end of an output."""
    return reply is None or reply.startswith("fault")


def explained(items: Iterable[Item], output: Source, now: Known) -> tuple[list[str], int, int]:
    """The lines that explain, fit for a terminal, how many were refused, and how many statements were answered; `now`
    is what is known before the first. Raises OutputMismatch."""
    lines: list[str] = []
    refused = count = 0
    for item, reply in answered(items, output, now.see):
        if item is None or reply is None or reply.startswith("fault"):
            lines += [*end_lines(item, reply), ""]
            break
        count += 1
        if reply.startswith("refused"):
            refused += 1
            lines.append(printable.text(refusal_lines(item, reply, now)))
        now.take(item, reply)
    return lines, refused, count


def end_lines(item: Item | None, reply: str | None) -> list[str]:
    """The lines on an output that ends with a fault, or without one before an item is answered."""
    if reply is None:
        assert item is not None, "an output that lacks an answer lacks that of an item"
        return [f"The output ends before line {item.line} is answered: {item.shown()}"]
    where = f"before line {item.line} was answered" if item else "after the last answer"
    return [printable.fit(f"{reply}: {fault_text(reply)}."), f"    The run ended {where}."]


def fault_text(reply: str) -> str:
    """What a fault means."""
    return FAULTS.get(reply.split()[-1], "a fault")


def check_fits(item: Item, reply: str) -> None:
    """Asks that a reply may be that of an item."""
    name = item.statement.name if item.statement else ""
    fits = reply == "refused 10"
    if item.statement and item.has_data and not item.is_whole:
        fits = reply == "refused 11 0"
    elif item.statement and reply.startswith("refused"):
        fits = refusals.fits(item, reply)
    elif item.statement:
        fits = re.fullmatch(statements.KINDS[name].reply, reply) is not None
    if not fits:
        raise OutputMismatch(f"`{reply[:60]}` can't be the answer to line {item.line}, `{item.shown(60)}`")


def refusal_lines(item: Item, reply: str, now: Known) -> list[str]:
    """The lines on one refusal."""
    lines = [f"line {item.line}: {item.shown()}", f"    {reply}"]
    for sentence in refusal_sentences(item, reply, now):
        wrapped = textwrap.wrap(printable.fit(sentence), WIDTH - 6, break_on_hyphens=False)
        lines += [" " * (4 if at == 0 else 6) + line for at, line in enumerate(wrapped)]
    return [*lines, ""]


def refusal_sentences(item: Item, reply: str, now: Known) -> list[str]:
    """What one refusal says. A job that a plan keeps was refused then, and what the plan tells is how it is now."""
    _, number, *detail = reply.split()
    is_kept = now.is_repeated(item) and number not in ("10", "11", "12")
    if is_kept and item.asked.job in now.jobs:
        return [f"job {item.asked.job} was in line {now.jobs[item.asked.job or 0]} already, and gets the same answer "
                "again"]
    sentences = refusals.sentences(item, int(number), detail[0] if detail else "", now)
    if is_kept:
        sentences.append(f"(the plan keeps this answer for job {item.asked.job}, so give another try a new number; the "
                         "reason is by the plan as it is now)")
    return sentences
