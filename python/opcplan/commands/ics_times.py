"""Times of iCalendar events: each as a moment that can be compared, whatever zone it is written in."""

import datetime
from typing import Any, Optional

from opcplan.errors import Error

MIDNIGHT = datetime.time()
LAST_SECOND = datetime.time(23, 59, 59)
UTC = datetime.timezone.utc


class UnsupportedEvent(Error):
    """Why an event's days aren't taken."""


def date_of(at: datetime.date) -> datetime.date:
    """The date of a date or a moment."""
    return at.date() if isinstance(at, datetime.datetime) else at


class Clock:
    """The clock of one event: the zone in which it begins, or none."""

    def __init__(self, begin: datetime.date, is_unknown: bool, calendar_zone: Optional[datetime.tzinfo]) -> None:
        """`is_unknown`: the beginning names a zone that nobody knows; `calendar_zone`: that of the whole calendar."""
        self.is_date = not isinstance(begin, datetime.datetime)
        self.zone = begin.tzinfo if isinstance(begin, datetime.datetime) else None
        self.is_unknown, self.calendar_zone = is_unknown, calendar_zone

    def local(self, at: datetime.date, name: str) -> datetime.datetime:
        """What the clock of the event shows at a date (its midnight) or a moment. Raises UnsupportedEvent, which has
        the name of the property, where no zone says it."""
        if not isinstance(at, datetime.datetime):
            return datetime.datetime.combine(at, MIDNIGHT)
        shown = at if at.tzinfo is None else self._local_of_aware(at, name)
        return datetime.datetime.combine(shown.date(), MIDNIGHT) if self.is_date else shown

    def _local_of_aware(self, at: datetime.datetime, name: str) -> datetime.datetime:
        """What the clock shows at a moment whose zone is known."""
        if self.zone is not None:
            return at.astimezone(self.zone).replace(tzinfo=None)
        utc = at.astimezone(UTC).replace(tzinfo=None)
        # of an event without a zone many programs write a day as its first or its last second in UTC
        if not self.is_unknown and utc.time() in (MIDNIGHT, LAST_SECOND):
            return utc
        if self.is_unknown or self.calendar_zone is None:
            why = "in a zone that ./plan doesn't know" if self.is_unknown else "in no time zone"
            raise UnsupportedEvent(f"its {name} is a moment in UTC, and it begins {why}, so the day isn't known")
        return at.astimezone(self.calendar_zone).replace(tzinfo=None)

    def moment(self, at: datetime.date, name: str) -> datetime.datetime:
        """A date or a moment as one that compares with those of the same clock: in UTC, where the zone is known."""
        if isinstance(at, datetime.datetime) and at.tzinfo is not None and self.zone is not None:
            return at.astimezone(UTC).replace(tzinfo=None)
        shown = self.local(at, name)
        return shown if self.zone is None else in_utc(shown, self.zone)


def in_utc(shown: datetime.datetime, zone: Any) -> datetime.datetime:
    """The moment in UTC at which a clock of a zone shows a time: the first where it does so twice, and where it never
    does, the one by the difference that held before."""
    if not hasattr(zone, "localize"):
        return shown.replace(tzinfo=zone, fold=0).astimezone(UTC).replace(tzinfo=None)
    # those of python3-tz
    found = [zone.localize(shown, is_dst=is_dst) for is_dst in (True, False)]
    moments: list[datetime.datetime] = sorted(at.astimezone(UTC).replace(tzinfo=None) for at in found)
    does_show = zone.normalize(found[0]).replace(tzinfo=None) == shown
    return moments[0] if does_show else moments[-1]
