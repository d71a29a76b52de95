"""The table of statements: the options of each, who may send it, what it may be answered, and what it does to a status.

Whatever has to know statements reads it here: the grammar of a line, what a refusal may be of, the short words of
`./plan send`, the roles at a desk, the buttons of its page, and what an agent looks for. The tables of
docs/rules/STATEMENTS.md and docs/rules/REFUSALS.md are compared with it."""

import dataclasses
import enum


class Role(enum.IntEnum):
    """What a caller of a desk may send: each role may what the lesser ones may."""

    READ = 1
    OPERATE = 2
    PLAN = 3


@dataclasses.dataclass(frozen=True)
class Act:
    """A change of a status: the short word for it, the statuses that it may be done from, the one that it gives, and
    what a page says of a row once it is done."""

    word: str
    before: str
    after: str
    done: str

    @property
    def may_change_pairs(self) -> bool:
        """Whether rows may have other predecessors after it: what waits again has its own found anew, and what is
        deleted is no predecessor of others any more."""
        return self.after in "WD"

    @property
    def is_final(self) -> bool:
        """Whether no change of a status gives the row back its status of before."""
        return self.after in "CD"


@dataclasses.dataclass(frozen=True)
class Kind:
    """A kind of statement. `refusals` lacks 10, which any line may get, and 12, which any job may get."""

    name: str
    options: tuple[str, ...]  # those that have to be there
    reply: str  # the form of what it is answered where it is accepted
    role: Role
    refusals: frozenset[int] = frozenset()
    words: tuple[str, ...] = ()  # the words without an option, of which one has to be there
    by_word: tuple[tuple[str, tuple[str, ...]], ...] = ()  # of a trial: by such a word, the options
    act: Act | None = None
    makes_row: bool = False  # whether it adds an occurrence by hand

    @property
    def changes(self) -> bool:
        """Whether it may change something, so that it has a job."""
        return self.role != Role.READ

    @property
    def is_on_key(self) -> bool:
        """Whether it is about the occurrence of one application and input arrival."""
        return "ia" in self.options


MADE = "ok made [0-9]+ withdrawn [0-9]+"
MOVED = "ok moved [0-9]+ carried [0-9]+ completed [0-9]+ deleted [0-9]+"
ROWS = "ok rows [0-9]+"
NUMBERED = "ok serial [0-9]+"
# the reply to a change of a status, with its serial and the new status
CHANGED = "ok serial ([0-9]{1,9}) status ([WSECD])"
DEFINITIONS = ("calendars", "periods", "applications", "run-cycles", "predecessors")
LISTS = ("ltp", "cp", "history", "deletions", "dependencies", "links")
KEY = ("app", "ia", "job")
BY_DAYS = ("days", "count")  # what an extension of the current plan may have in place of `to`
PLANNING = frozenset({22, 23, 25, 31})
ADDING = frozenset({20, 24, 26, 27, 31})


def on_status(act: Act, *more: int) -> Kind:
    """The statement that changes a status."""
    return Kind(f"cp-{act.word}", KEY, CHANGED, Role.OPERATE, frozenset({20, 28, 29, *more}), act=act)


KINDS = {
    kind.name: kind
    for kind in (
        Kind("define", ("job",), "ok defined [0-9]+", Role.PLAN, frozenset({11}), (*DEFINITIONS, "options")),
        Kind("undefine", ("name", "job"), "ok undefined", Role.PLAN, frozenset({13}), DEFINITIONS),
        Kind("days", ("app", "from", "to"), ROWS, Role.READ, frozenset({22, 23, 24, 26})),
        Kind("ltp-create", ("from", "to", "job"), MADE, Role.PLAN, PLANNING | {21, 24}),
        Kind("ltp-extend", ("to", "job"), MADE, Role.PLAN, PLANNING | {20, 24}),
        Kind("ltp-modify-all", ("job",), MADE, Role.PLAN, PLANNING | {20}),
        Kind("ltp-modify-one", ("app", "job"), MADE, Role.PLAN, PLANNING | {20, 26}),
        Kind(
            "ltp-trial", (), MADE, Role.READ, frozenset(), ("create", "extend", "modify-all", "modify-one"),
            (("create", ("from", "to")), ("extend", ("to",)), ("modify-all", ()), ("modify-one", ("app",))),
        ),
        Kind("ltp-add", KEY, NUMBERED, Role.PLAN, ADDING, makes_row=True),
        Kind("ltp-delete", KEY, NUMBERED, Role.PLAN, frozenset({20, 28})),
        Kind("dp-extend", ("to", "job"), MOVED, Role.PLAN, frozenset({20, 32})),
        Kind("dp-replan", ("job",), MOVED, Role.PLAN, frozenset({20})),
        Kind(
            "dp-trial", (), MOVED, Role.READ, frozenset(), ("extend", "replan"), (("extend", ("to",)), ("replan", ())),
        ),
        Kind("cp-add", KEY, NUMBERED, Role.OPERATE, ADDING, makes_row=True),
        on_status(Act("start", "W", "S", "It is started"), 30),
        on_status(Act("complete", "SE", "C", "It is complete")),
        on_status(Act("fail", "S", "E", "It is in error")),
        on_status(Act("reset", "E", "W", "It waits again")),
        on_status(Act("delete", "WE", "D", "It is deleted")),
        Kind("list", (), ROWS, Role.READ, frozenset(), LISTS),
    )
}
ACTS = {kind.act.word: kind.act for kind in KINDS.values() if kind.act}
# the statements that change one status and nothing else
ON_A_STATUS = tuple(name for name, kind in KINDS.items() if kind.act and not kind.act.may_change_pairs)
# the long-term statements that put lists of predecessors into force
REMAKING = tuple(name for name, kind in KINDS.items() if kind.reply == MADE and kind.changes)
DAILY = tuple(name for name, kind in KINDS.items() if kind.reply == MOVED and kind.changes)


def asked_by(number: int) -> frozenset[str]:
    """The statements that may be refused with a number from 11 on, 12 aside."""
    return frozenset(name for name, kind in KINDS.items() if number in kind.refusals)
