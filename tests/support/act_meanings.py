"""What a verb means, by the rows and the pairs of the plain planner before and after: so a test says what is right, and
not only that a preview tells what comes."""

from support import act_worlds

from opcplan.rules import moments

OPEN, LIVE, GONE = "LW", "LWSECH", "Dowp"
STATUS = {"start": "S", "complete": "C", "fail": "E", "reset": "W", "delete": "D"}


class Change:
    """The rows of a planner before some statements and after them, by serial, and the pairs by successor."""

    def __init__(self, before, after):
        self.before, self.after = before, after
        self.was, self.now = act_worlds.rows_of(before), act_worlds.rows_of(after)
        self.pairs, self.then = act_worlds.pairs_of(before), act_worlds.pairs_of(after)
        self.places = {serial: row.place for serial, row in self.now.items()
                       if serial in self.was and self.was[serial] != row}
        self.made = [row for serial, row in self.now.items() if serial not in self.was]


def wrong(wanted, act, change):
    """What an act does that its verb doesn't mean; empty if nothing."""
    if change.before.in_force != change.after.in_force:
        return "another list of predecessors is in force"
    if wanted.verb == "rerun":
        return wrong_rerun(wanted, act.row, change)
    if wanted.verb in ("move", "add"):
        return wrong_run(wanted, act, change)
    places = {act.row.serial: STATUS.get(wanted.verb, "o" if act.row.place == "L" else "D")}
    if wanted.chain:
        places = dict.fromkeys(chain(act.row.serial, change), "C")
    return "" if (change.places, change.made) == (places, []) else f"it changes {change.places} {change.made}"


def chain(serial, change):
    """The serials of all that a row waits for, also through others, up to what is complete, and of the row."""
    found, left = set(), [serial]
    while left:
        one = left.pop()
        if one not in found and change.was[one].place not in "CH":
            found.add(one)
            left += change.pairs.get(one, ())
    return found


def followers(serial, change):
    """The serials of the rows that had a row as a predecessor, also through others, apart from the long-term plan's,
    and from those that only follow what is started."""
    found, left = set(), [serial]
    while left:
        one = left.pop()
        for successor, before in change.pairs.items():
            if one in before and successor not in found and change.was[successor].place not in "L" + GONE:
                found.add(successor)
                left += [successor] if change.was[successor].place != "S" else []
    return found


def first_free(row, change):
    """The first minute after a row at which no live row of its application arrives."""
    taken = {one.ia for one in change.was.values() if one.app == row.app and one.place in LIVE}
    return next(ia for ia in range(row.ia + 1, row.ia + 9999) if ia not in taken)


def wrong_rerun(wanted, row, change):
    """What a rerun does that isn't meant."""
    if row.place == "E":
        return "" if (change.places, change.made) == ({row.serial: "W"}, []) else "it does more than a reset"
    made = [one for one in change.made if one.app == row.app and one.ia == first_free(row, change)]
    if [(one.place, one.cycle) for one in made] != [("W", None)]:
        return f"no run of {row.app} is made at the first free minute"
    again = {row.serial: made[0]}  # by serial of a row that runs again: the row that does
    rest = [one for one in change.made if one is not made[0]]
    for serial in followers(row.serial, change) if wanted.followers else ():
        one = change.was[serial]
        new = [other for other in rest if other.app == one.app and other.ia > one.ia]
        place = change.places.get(serial, one.place)
        if one.place == "S":
            continue
        if one.place in "WE" and place == "W":
            again[serial] = change.now[serial]
        elif not new or place != ("D" if one.place in "WE" else one.place):
            return f"{one.key} ({one.place}) doesn't run again"
        else:
            again[serial] = min(new, key=lambda other: other.ia)
            rest.remove(again[serial])
    if rest:
        return f"too much is made: {rest}"
    if odd := set(change.places) - set(again):
        return f"rows change that aren't meant: {odd}"
    return ""


def due_of(text, ia):
    """The deadline that `--due` names."""
    if "/" in text:
        return moments.moment_of(text)
    return next(at for at in range(ia, ia + moments.DAY) if at % moments.DAY == moments.minute_of(text))


def to_of(wanted, row):
    """Where a run is moved to."""
    day, _, minute = wanted.to.rpartition("/") if "." in wanted.to else (wanted.to, "", "")
    day = moments.day_of(day) if day else row.ia // moments.DAY
    return day * moments.DAY + (moments.minute_of(minute) if minute else row.ia % moments.DAY)


def wrong_run(wanted, act, change):
    """What a move or an addition does that isn't meant."""
    row = act.row
    if row is None:
        app, ia = wanted.of.split(" ")[0], moments.moment_of(wanted.of.split(" ")[1])
        due = due_of(wanted.due, ia) if wanted.due else ia + moments.DAY
    else:
        app, ia = row.app, to_of(wanted, row)
        due = due_of(wanted.due, ia) if wanted.due else \
            row.deadline % moments.DAY + (row.deadline // moments.DAY + ia // moments.DAY
                                          - row.ia // moments.DAY) * moments.DAY
    new = [one for one in change.made if (one.app, one.ia) == (app, ia)]
    if len(new) != 1 or change.made != new or new[0].place not in OPEN:
        return f"{change.made} is made, and not {app} at {moments.moment_text(ia)} alone"
    gone = {} if row is None else {row.serial: change.places.get(row.serial)}
    if change.places != gone or any(place not in GONE for place in gone.values()):
        return f"it changes {change.places}"
    is_told = any("can't be kept" in note for note in act.notes)
    if is_told == (new[0].deadline == due) or is_told and new[0].deadline != ia + moments.DAY:
        return f"it is due {moments.moment_text(new[0].deadline)}, and not {moments.moment_text(due)}: {act.notes}"
    return f"the deadline could be kept: {act.notes}" if is_told and may_keep(app, ia, due, change) else ""


def may_keep(app, ia, due, change):
    """Whether run cycles of one day surely give a run of the long-term plan a deadline: if `ltp-modify-one` changes
    nothing else, no operator deleted the run, and no other run cycle comes first by name or excludes."""
    _, _, end = change.before.bounds
    days = due // moments.DAY - ia // moments.DAY
    cycles = change.before.defined["run-cycles"].get(app, {})
    is_excluded = any(cycle["kind"] == "X" and cycle["end"] is None for cycle in cycles.values())
    if ia < end or not 0 <= days <= 99 or "A" in cycles or is_excluded:
        return False
    if any((row.app, row.ia, row.place) == (app, ia, "o") for row in change.was.values()):
        return False
    other, replies = act_worlds.after(change.before, f"ltp-modify-one --app {app}\n", 800_009_000)
    return replies[0].startswith("ok") and act_worlds.rows_of(other) == change.was and \
        other.in_force == change.before.in_force
