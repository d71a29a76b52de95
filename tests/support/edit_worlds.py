"""Definitions and edits at random, and the days that the plain planner names by them."""

import random

from support import act_worlds, plans

from opcplan.rules import moments

import plain_planner as plain

APPS = ("AA", "BB", "CC", "DD")
CALENDARS, PERIODS = ("DEFAULT", "BANK", "SHOP"), ("DAY", "WEEK", "WORK", "MONTH", "TEN")
FIRST, LAST = (moments.day_of(text) for text in ("2027-01-01", "2027-12-31"))
RULES, STATUSES, WEEKDAYS = "E1234", ("free", "work", "unlist"), "MON TUE WED THU FRI SAT SUN".split()


class Definitions:
    """A stream of definitions at random, perhaps with plans, and edits of them."""

    def __init__(self, seed):
        self.rnd = random.Random(seed)
        self.job = 0

    def put(self, line, records=None):
        self.job += 1
        data = "" if records is None else "".join(f"{one}\n" for one in records) + "/*\n"
        return f"{line} --job {self.job}\n{data}"

    def day(self, first=FIRST, last=LAST):
        return moments.day_text(self.rnd.randint(first, last))

    def calendar(self, name):
        days = self.rnd.sample(WEEKDAYS, self.rnd.randrange(3))
        dates = {self.day() for _ in range(self.rnd.randrange(4))}
        found = [f"{name},{one},{self.rnd.choice(('FREE', 'FREE', 'WORK'))}" for one in [*days, *sorted(dates)]]
        return found or [f"{name},SUN,FREE"]

    def periods(self):
        months = [f"2027-{month:02}-01" for month in range(1, 13)]
        ends = ["", "", "2027-02-20"] if self.rnd.random() < 0.4 else [""]
        return [f"DAY,A,2026-12-28,{self.rnd.choice((1, 1, 2))}", "WEEK,A,2026-12-28,7",
                f"WORK,W,2027-01-04,{self.rnd.randint(2, 6)}", f"TEN,A,2027-01-03,{self.rnd.randint(9, 40)}",
                *(f"MONTH,N,{one},{self.rnd.choice(ends) if one == '2027-02-01' else ''}" for one in months)]

    def fields(self):
        """The fields of a run cycle, from its period on."""
        rnd = self.rnd
        offsets = rnd.sample([1, 1, 2, 3, 5, -1, -2, 15], rnd.randint(1, 3))
        begin, end = self.day(FIRST - 9, FIRST + 60), self.day(FIRST + 40) if rnd.random() < 0.3 else ""
        return {"period": rnd.choice(PERIODS), "rule": rnd.choice(RULES), "offsets": " ".join(map(str, offsets)),
                "in-effect": begin, "out-of-effect": end, "ia": rnd.choice(("06.00", "06.00", "18.30")),
                "deadline": rnd.choice(("0/20.00", "1/05.00", "0/05.00"))}

    def cycles(self, app):
        found = []
        for name in "PQR"[:self.rnd.randint(1, 3)]:
            one = self.fields()
            is_out = name == "R" and self.rnd.random() < 0.6
            due = ",," if is_out else "," + one["deadline"].replace("/", ",")
            found.append(f"{app},{name},{'X' if is_out else 'N'},{one['period']},{one['rule']},{one['offsets']},"
                         f"{one['in-effect']},{one['out-of-effect']},{one['ia']}{due}")
        return found

    def stream(self):
        """All definitions, and two times of three a long-term plan with a daily plan."""
        rnd = self.rnd
        text = self.put("define calendars", [line for name in CALENDARS for line in self.calendar(name)])
        text += self.put("define periods", self.periods())
        text += self.put("define applications", [f"{app},{'P' if rnd.random() < 0.1 else 'A'},"
                                                 f"{rnd.choice(('', '', 'BANK', 'SHOP'))}" for app in APPS])
        text += self.put("define run-cycles", [line for app in APPS[:3] for line in self.cycles(app)])
        text += self.put("define predecessors", ["BB,AA,", "CC,BB,12"])
        if rnd.random() < 0.67:
            text += self.put("ltp-create --from 2027-01-01 --to 2027-03-31")
            text += self.put(f"dp-extend --to 2027-01-{rnd.randint(2, 9):02}/{rnd.choice(('00.00', '12.00'))}")
        return text

    def edit(self):
        """The words of an edit; perhaps of one that changes nothing or isn't allowed."""
        rnd, app = self.rnd, self.rnd.choice(APPS)
        kind = rnd.choice(("calendar", "calendar", "run-cycle", "run-cycle", "application", "period", "whole", "other"))
        if kind == "calendar":
            words = ["calendar", rnd.choice(CALENDARS)]
            for _ in range(rnd.choice((1, 1, 2))):
                first = rnd.randint(FIRST, LAST)
                span = f"{moments.day_text(first)}..{moments.day_text(first + rnd.randint(1, 9))}"
                words += [rnd.choice((rnd.choice(WEEKDAYS), moments.day_text(first), span)), rnd.choice(STATUSES)]
            return words
        if kind == "run-cycle":
            fields = self.fields()
            name = rnd.choice("PQRS")
            if name == "S":
                return [kind, app, name, "new", *(f"{field}={value}" for field, value in fields.items())]
            chosen = rnd.sample([*fields.items()], rnd.randint(1, 3))
            return [kind, app, name, *(f"{field}={value}" for field, value in chosen)]
        if kind == "application":
            return [kind, app, *rnd.choice((["active"], ["pending"], ["calendar="], ["calendar=BANK"],
                                            ["calendar=SHOP", "active"]))]
        if kind == "period":
            name = rnd.choice(PERIODS)
            if name == "MONTH":
                return [kind, name, rnd.choice(("add", "remove")),
                        rnd.choice((f"2027-{rnd.randint(1, 12):02}-01", self.day()))]
            return [kind, name, f"interval={rnd.randint(1, 12)}"]
        if kind == "whole":
            return rnd.choice((["application", app, "remove"], ["application", app, "rename", "EE"],
                               ["application", "EE", "like", app], ["run-cycle", app, rnd.choice("PQ"), "remove"],
                               ["run-cycle", app, "P", "rename", rnd.choice("OZ")],
                               ["calendar", "BANK", "rename", "BANC"], ["calendar", "BANK", "remove"],
                               ["period", "DAY", "rename", "TAG"]))
        return rnd.choice((["options", f"default_calendar={rnd.choice(CALENDARS)}"],
                           ["options", "max_extension_hours=48"], ["predecessor", "CC", "remove", "BB"],
                           ["predecessor", "DD", "add", app, "7"], ["predecessor", "AA", "add", "CC"]))


def source_of(text):
    """What a plain planner knows after a stream, as edits ask for it."""
    return act_worlds.Source(text)


def named_by(planner, first, last, begin=0):
    """By application the runs that the plain planner names from a day to another, from a moment on: their input
    arrivals, run cycles and deadlines. Inactive ones name none."""
    found = {}
    for app in planner.active():
        lines = plain.run(f"days --app {app} --from {moments.day_text(first)} --to {moments.day_text(last)}\n".encode(),
                          planner.copy())
        if not lines[-1].startswith("ok"):
            continue
        runs = []
        for line in lines[:-1]:
            ia, cycle, due = line[:16], line[17:25].strip(), line[26:42]
            at, deadline = (moments.moment_of(f"{one[:10]}/{one[11:]}") for one in (ia, due))
            if at >= begin:
                runs.append((at, deadline, cycle))
        found[app] = runs
    return found


def planner_of(text):
    """A plain planner after a stream."""
    return plans.planner_from(text)
