"""Random yearly events in time zones, their times written in UTC, and their days by rrule and rruleset of dateutil.

Run by an interpreter that has python3-icalendar: prints a line for each event that `import_ics` reads otherwise, and
last how many were compared."""

import datetime
import random
import sys
import zoneinfo

from dateutil import rrule

from opcplan.commands import import_ics
from opcplan.rules.moments import EPOCH

ZONES = ("Europe/Berlin", "America/New_York", "Pacific/Auckland", "Asia/Tokyo", "America/Sao_Paulo", "Africa/Cairo",
         "Asia/Beirut", "America/Havana", "Pacific/Kiritimati", "UTC")
RULES = ("", ";INTERVAL=2", ";BYMONTH=5;BYDAY=2MO", ";BYMONTH=3,10;BYMONTHDAY=-1",
         ";BYYEARDAY=60", ";BYWEEKNO=20;BYDAY=WE", ";BYMONTH=10;BYDAY=SU;BYSETPOS=3")
FIRST, LAST = datetime.date(2015, 1, 1), datetime.date(2030, 12, 31)


def utc_text(at):
    """A moment in UTC, as iCalendar writes it."""
    return at.astimezone(datetime.timezone.utc).strftime("%Y%m%dT%H%M%SZ")


def event(draw):
    """The lines of a random event, and the days that dateutil gives it."""
    name = draw.choice(ZONES)
    zone, rule, length = zoneinfo.ZoneInfo(name), draw.choice(RULES), draw.choice((1, 1, 2, 3))
    begin = datetime.date(draw.randint(2010, 2020), draw.randint(1, 12), draw.randint(1, 28))

    def midnight(date, hours=0):
        return datetime.datetime.combine(date, datetime.time(hours), zone)

    bare = rrule.rrulestr("FREQ=YEARLY" + rule, dtstart=datetime.datetime.combine(begin, datetime.time()))
    dates = [at.date() for at in bare.between(datetime.datetime(2010, 1, 1), datetime.datetime(2031, 1, 1), inc=True)]
    picked = draw.sample(dates, min(len(dates), 3))
    until, gone, more = midnight(draw.choice(dates)), [], []
    is_ended = draw.random() < 0.6
    text = f"RRULE:FREQ=YEARLY{rule}" + (f";UNTIL={utc_text(until)}" if is_ended else "")
    if draw.random() < 0.6:
        # one hour beside a beginning it takes nothing out
        gone = [midnight(date, draw.choice((0, 0, 0, 2))) for date in picked]
    if draw.random() < 0.4:
        more = [midnight(datetime.date(draw.randint(2015, 2030), draw.randint(1, 12), draw.randint(1, 28)))]
        if any(at.astimezone(datetime.timezone.utc).astimezone(zone) != at for at in more):
            more = []
    stamp = begin.strftime("%Y%m%d")
    lines = ["BEGIN:VCALENDAR", "BEGIN:VEVENT", "UID:one", f"DTSTART;TZID={name}:{stamp}T000000",
             f"DURATION:P{length}D", text, *(f"EXDATE:{utc_text(at)}" for at in gone),
             *(f"RDATE:{utc_text(at)}" for at in more), "END:VEVENT"]
    moved = [midnight(date) for date in draw.sample(dates, 1)] if draw.random() < 0.3 else []
    for at in moved:
        lines += ["BEGIN:VEVENT", "UID:one", "STATUS:CANCELLED", f"DTSTART;VALUE=DATE:{at:%Y%m%d}",
                  f"RECURRENCE-ID:{utc_text(at)}", "END:VEVENT"]
    peer = rrule.rruleset()
    peer.rrule(rrule.rrulestr("FREQ=YEARLY" + rule, dtstart=midnight(begin)).replace(
        **({"until": until} if is_ended else {})))
    peer.rdate(midnight(begin))
    for at in more:
        peer.rdate(at)
    for at in [*gone, *moved]:
        peer.exdate(at)
    found = set()
    for at in peer.between(midnight(datetime.date(2009, 1, 1)), midnight(datetime.date(2031, 1, 1)), inc=True):
        found |= {at.date() + datetime.timedelta(number) for number in range(length)}
    return [*lines, "END:VCALENDAR", ""], {date for date in found if FIRST <= date <= LAST}


def main(seed, count):
    """Compares as many events as are asked for."""
    draw = random.Random(seed)
    first, last = ((date - EPOCH.date()).days for date in (FIRST, LAST))
    with_days = 0
    for _ in range(count):
        lines, wanted = event(draw)
        found, _, left = import_ics.days("\r\n".join(lines).encode(), "events", first, last)
        dates = {EPOCH.date() + datetime.timedelta(days=at) for at in found}
        with_days += bool(wanted)
        if left or dates != wanted:
            shown = sorted(date.isoformat() for date in dates ^ wanted)
            print(f"seed {seed}: {' | '.join(lines)}: {left} {shown}")
    print(f"{count} events, {with_days} with days")


if __name__ == "__main__":
    main(int(sys.argv[1]), int(sys.argv[2]))
