"""The rules of a plan that speak of several rows: keys, the lists in force, and which pairs there have to be
(docs/rules/PLANS.md, rules 4, 5, 7 and 8). They are asked behind those of sound_rows, which they rest on."""

import collections
import sqlite3
from collections.abc import Iterable, Iterator

from opcplan.plans.sound_rows import Unsound
from opcplan.rules import loops

LIVE = ("CREATE TEMP TABLE cp_live (app TEXT, ia INTEGER, serial INTEGER, PRIMARY KEY (app, ia)) WITHOUT ROWID",
        "INSERT INTO cp_live SELECT app, ia, serial FROM cp_row WHERE status <> 'D' ORDER BY app, ia")
LATEST = ("SELECT serial, ia FROM {0} WHERE app = link.pred AND ia < open.ia + (link.pred <> open.app) "
          "ORDER BY ia DESC LIMIT 1")
# of the latest that arrives in time whether there is that pair, 2 where the limit leaves it out
IS_THERE = ("SELECT CASE WHEN open.ia > near.ia + {within} * 60 THEN 2 ELSE EXISTS (SELECT 1 FROM dependency AS pair "
            "WHERE pair.successor = open.serial AND pair.predecessor = near.serial) END")
OF_PAST = f"SELECT * FROM ({LATEST.format('cp_live')}) UNION ALL SELECT * FROM ({LATEST.format('history_row')})"
PAST = f"({IS_THERE} FROM ({OF_PAST}) AS near ORDER BY near.ia DESC LIMIT 1)"
COUNTED = ("SELECT coalesce(sum(is_there = 0), 0), coalesce(sum(is_there = 1), 0) FROM (SELECT {0} AS is_there "
           "FROM {1} AS open CROSS JOIN link_in_force AS link ON link.app = open.app LIMIT -1)")
# rows of the long-term plan arrive after all others
EXPECTED = (
    COUNTED.format(f"coalesce(({IS_THERE} FROM ({LATEST.format('ltp_row')}) AS near), {PAST})", "ltp_row"),
    COUNTED.format(PAST, "(SELECT serial, app, ia FROM cp_row WHERE status = 'W')"),
)
# of what is no longer open: history by its pairs, in their order, since most rows are history; of the current plan by
# rows
CLOSED = ("dependency AS pair CROSS JOIN history_row AS row ON row.serial = pair.successor",
          "(SELECT serial, app, ia FROM cp_row WHERE status IN ('S', 'E', 'C')) AS row "
          "CROSS JOIN dependency AS pair ON pair.successor = row.serial")
OF_CLOSED = (
    "FROM {0} LEFT JOIN history_row AS past ON past.serial = pair.predecessor "
    "LEFT JOIN cp_row AS done ON past.serial IS NULL AND done.serial = pair.predecessor AND done.status = 'C'"
)
APP, ARRIVES = "coalesce(past.app, done.app)", "coalesce(past.ia, done.ia)"
# whether both arrive together, but aren't one of the lists in force
IS_OTHER = (f"CASE WHEN {ARRIVES} = row.ia THEN NOT EXISTS (SELECT 1 FROM link_in_force AS link WHERE "
            f"link.app = row.app AND link.pred = {APP}) ELSE 0 END")
# how many pairs each has, of how many applications, and how many are complete and arrive in time
FITTING = (
    "SELECT coalesce(sum(pairs), 0), coalesce(sum(pairs <> apps OR pairs <> fit), 0), coalesce(sum(others), 0) FROM "
    f"(SELECT count(*) AS pairs, count(DISTINCT {APP}) AS apps, "
    f"coalesce(sum({ARRIVES} <= row.ia - ({APP} = row.app)), 0) AS fit, coalesce(sum({IS_OTHER}), 0) AS others "
    f"{OF_CLOSED} GROUP BY pair.successor)"
)
TOGETHER = f"{OF_CLOSED} WHERE {ARRIVES} = row.ia"


def asked(db: sqlite3.Connection, version: int) -> Iterator[float]:
    """Asks the rules of a database whose rows keep those of sound_rows, step by step; each time the share that is done.
    Raises Unsound."""
    steps = 2 + len(EXPECTED) + len(CLOSED)
    try:
        ask_keys(db)
        yield 1 / steps
        for done in asked_pairs(db, version):
            yield (1 + done) / steps
    finally:
        db.execute("DROP TABLE IF EXISTS temp.cp_live")


def asked_pairs(db: sqlite3.Connection, version: int) -> Iterator[int]:
    """Asks that the lists in force have no loop, that there are the pairs that there have to be, and that they have no
    ring, step by step; each time how many steps are done. Raises Unsound."""
    if loops.all_of(grouped(db.execute("SELECT app, pred FROM link_in_force"))):
        raise Unsound("its rows are no sound plan: the lists of predecessors in force have a loop")
    found = done = others = 0
    for question in EXPECTED:
        lacking, pairs = db.execute(question.format(within="link.within" if version > 1 else "NULL")).fetchone()
        if lacking:
            raise Unsound("its rows are no sound plan: an open row lacks the pair with its nearest predecessor")
        found += pairs
        yield (done := done + 1)
    for table in CLOSED:
        pairs, wrong, apart = db.execute(FITTING.format(table)).fetchone()
        if wrong:
            raise Unsound("its rows are no sound plan: a row that is no longer open has an impossible pair")
        found += pairs
        others += apart
        yield (done := done + 1)
    if db.execute("SELECT count(*) FROM dependency").fetchone()[0] != found:
        raise Unsound("its rows are no sound plan: dependency has a pair that isn't one of a row and its nearest "
                      "predecessor")
    if others:  # the lists in force have no loop, so neither have pairs of these lists
        ask_rings(db)


def ask_keys(db: sqlite3.Connection) -> None:
    """Asks that no key is live twice, and none of a generated row was deleted by an operator. Raises Unsound."""
    try:
        for text in LIVE:
            db.execute(text)
        twice = db.execute("SELECT 1 FROM cp_live JOIN history_row USING (app, ia) LIMIT 1").fetchone()
    except sqlite3.IntegrityError:
        twice = (1,)
    if twice:
        raise Unsound("its rows are no sound plan: two live rows have one application and one arrival")
    asked = ("SELECT 1 FROM deletion_row AS gone JOIN ltp_row AS row USING (app, ia) "
             "WHERE gone.reason = 'O' AND row.run_cycle IS NOT NULL LIMIT 1")
    if db.execute(asked).fetchone():
        raise Unsound("its rows are no sound plan: a generated row of ltp_row has a key that an operator deleted")


def ask_rings(db: sqlite3.Connection) -> None:
    """Asks that what is no longer open has no ring of pairs. A ring is of rows that arrive together, so there is none
    where their applications have none. Raises Unsound."""
    apps = [edge for table in CLOSED for edge in db.execute(f"SELECT DISTINCT row.app, {APP} {TOGETHER.format(table)}")]
    if not loops.all_of(grouped(apps)):
        return
    asked = f"SELECT CAST(row.serial AS TEXT), CAST(pair.predecessor AS TEXT) {TOGETHER}"
    if loops.all_of(grouped(pair for table in CLOSED for pair in db.execute(asked.format(table)))):
        raise Unsound("its rows are no sound plan: rows that are no longer open wait for each other in a ring")


def grouped(edges: Iterable[sqlite3.Row]) -> dict[str, list[str]]:
    """By each first of some pairs its seconds."""
    found: dict[str, list[str]] = collections.defaultdict(list)
    for first, second in edges:
        found[first].append(second)
    return dict(found)
