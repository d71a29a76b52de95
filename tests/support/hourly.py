"""The stream of a small site whose jobs run many times a day: an hourly check that waits for the one before it, mail
every two hours, and three jobs a day; an evening with one in error and three that are not started, as of 22.30."""

import functools

NOW = "2027-01-04/22.30"
TIMES = {"HEALTH": [f"{hour:02}.00" for hour in range(24)], "MAILRUN": [f"{hour:02}.15" for hour in range(0, 24, 2)],
         "STOCK": ["06.00"], "KPI": ["06.30"], "WAGES": ["22.00"]}
DUE = {"STOCK": "07.00", "KPI": "09.00", "WAGES": "23.30"}
PREDECESSORS = ["HEALTH,HEALTH", "KPI,STOCK", "WAGES,KPI", "WAGES,HEALTH"]
# what was never started, and from when on nothing was
LEFT = [("KPI", "2027-01-04"), ("WAGES", "2027-01-04")]
STOPPED = "2027-01-04/20.00"


def due_of(app, time):
    """When a run that arrives at a time is due: half an hour later, but for those that DUE names."""
    hour, minute = map(int, time.split("."))
    return DUE.get(app) or f"{hour:02}.{minute + 30:02}"


def definitions():
    """The definitions, and a plan of January of which two days are handed to the current plan."""
    cycles = [f"{app},R{time.replace('.', '')},N,DAY,3,1,2027-01-01,,{time},0,{due_of(app, time)}"
              for app, times in TIMES.items() for time in times]
    blocks = {"periods": ["DAY,A,2027-01-01,1"], "applications": [f"{app},A," for app in TIMES], "run-cycles": cycles,
              "predecessors": PREDECESSORS}
    lines = []
    for job, (kind, records) in enumerate(blocks.items(), 1):
        lines += [f"define {kind} --job {job}", *records, "/*"]
    return [*lines, "ltp-create --from 2027-01-01 --to 2027-01-31 --job 5", "dp-extend --to 2027-01-06/00.00 --job 6"]


def runs():
    """All runs that are complete, by arrival: application and input arrival."""
    found = [(f"2027-01-{day:02}/{time}", app) for app, times in TIMES.items() for time in times for day in range(1, 5)]
    return [(app, ia) for ia, app in sorted(found)
            if ia < STOPPED and (app, ia[:10]) not in LEFT and (app, ia) != ("STOCK", "2027-01-04/06.00")]


@functools.cache
def whole():
    """The stream."""
    statements = [f"cp-{act} --app {app} --ia {ia}" for app, ia in runs() for act in ("start", "complete")]
    statements += [f"cp-{act} --app STOCK --ia 2027-01-04/06.00" for act in ("start", "fail")]
    lines = [*definitions(), *(f"{text} --job {job}" for job, text in enumerate(statements, 7))]
    return "\n".join(lines).encode() + b"\n"
