"""A plan's file as acts ask for it, and the entries of its journal. This alone of the package reads files."""

from opcplan.acts.undoing import Done
from opcplan.acts.world import Lists, World
from opcplan.plans import journal, plan_definitions, waits
from opcplan.plans.entry import Entry
from opcplan.plans.plan_file import Plan
from opcplan.plans.waits import Row
from opcplan.rules.known import PlanBounds, Sizes

# the last entries of a journal that are looked at
MOST_ENTRIES = 200_000


class PlanSource:
    """A plan file, asked for the rows of one application, and for pairs."""

    def __init__(self, plan: Plan) -> None:
        self.plan = plan
        self.defined = plan_definitions.of_plan(plan)
        self.in_force: Lists = plan_definitions.lists_of(plan, "link_in_force")
        meta = plan.meta
        self.bounds = PlanBounds(meta["first_day"], meta["last_day"], meta["plan_end"]) if plan.is_created else None
        asked = "SELECT (SELECT count(*) FROM ltp_row) + (SELECT count(*) FROM cp_row)"
        (rows,) = plan.db.execute(asked).fetchone()
        self.sizes = Sizes(rows, meta["issued"] or 0)

    def rows(self, app: str) -> list[Row]:
        """All rows of an application."""
        return waits.rows_where(self.plan, "app = :v0", app)

    def row(self, serial: int) -> Row | None:
        """The row of a serial."""
        return next(iter(waits.rows_where(self.plan, "serial = :v0", serial)), None)

    def before(self, serial: int) -> list[int]:
        """The serials of the predecessors that a row has."""
        return [one for (one,) in self.plan.db.execute(
            "SELECT predecessor FROM dependency WHERE successor = ?", (serial,))]

    def behind(self, serial: int) -> list[int]:
        """The serials of the successors that a row has."""
        return [one for (one,) in self.plan.db.execute(
            "SELECT successor FROM dependency WHERE predecessor = ?", (serial,))]

    def statuses(self, serial: int) -> list[str]:
        """The letters of the statuses that statements gave a row, in any order."""
        return [reply[-1] for (reply,) in self.plan.db.execute(
            "SELECT reply FROM job WHERE reply GLOB ?", (f"ok serial {serial} status [A-Z]",))]


def world_of(plan: Plan) -> World:
    """The world of a plan."""
    return World(PlanSource(plan))


def entries_of(path: str, upto: int = journal.NO_END) -> list[Done]:
    """The last answered entries of a journal, up to one, in their order. Raises Unreadable."""
    with journal.opened(path) as held:
        last = min(held.position(), upto)
        return [done_of(one) for one in held.entries(max(0, last - MOST_ENTRIES), -1, last)]


def done_of(one: Entry) -> Done:
    """An entry as acts look at it."""
    data = one.text.partition(b"\n")[2].removesuffix(b"/*\n").decode("utf-8", "replace")
    return Done(one.line, data, one.reply or "", one.seq, one.who, one.key)


def kept_job(plan: Plan, number: int) -> Done | None:
    """The statement that a plan keeps under a job number, with its reply, or None."""
    found = plan.db.execute("SELECT body, reply FROM job WHERE number = ?", (number,)).fetchone()
    if found is None:
        return None
    line, _, data = bytes(found[0]).partition(b"\n")
    return Done(line.decode("ascii", "replace"), data.decode("utf-8", "replace"), found[1])
