"""Dates and times: those of record headers (`Time`), and those of the main header's lines (`Moment`, or `datetime`)."""
from __future__ import annotations

import functools
import re
from datetime import date, datetime, timedelta, timezone
from typing import TYPE_CHECKING, Any, NamedTuple, Union

from .library import answer, ask
from .refusal import Refused

if TYPE_CHECKING:
    import numpy

ISO = re.compile(r'(\d{4})-?(\d\d)-?(\d\d)(?:[T ]?(\d\d):?(\d\d)(?::?(\d\d)(?:[.,]?(\d+))?)?)?(Z|[+-]\d\d(?::?\d\d)?)?')
DAY = 86_400_000  # milliseconds of a day without a leap second
LAST_DAY = 65535
ONE = timedelta(milliseconds=1)


class Time(NamedTuple):
    """A time of a record header: a day, counted from 1 January 2000, and a millisecond of that day.

    Times are in order as tuples are. A `timedelta` is added and taken off, and the difference of two is one; leap
    seconds count, as they do for the library's gaps.
    """

    day: int
    milli: int

    @staticmethod
    def of(when: TimeLike) -> Time:
        """The time of a `Time`, a `Moment`, a `datetime` or a text in ISO 8601 (UTC where it has no zone), a `date`
        (its first millisecond) or a numpy.datetime64.

        Raises Refused: 21 for a time outside of 2000-01-01 to 2179-06-06.
        """
        if isinstance(when, Time):
            return when
        number, place, _, day, milli, _ = answer('text_time', _long_text(when).encode(), 0)
        if number:
            raise Refused(number, place, f'expected a time of 2000-01-01 to 2179-06-06, found {when}')
        return Time(day, milli)

    def isoformat(self) -> str:
        """As 2016-06-05T00:00:08.000Z; 23:59:60 in a leap second."""
        text = time_text(self)
        return f'{text[:4]}-{text[4:6]}-{text[6:8]}T{text[8:10]}:{text[10:12]}:{text[12:14]}.{text[14:17]}Z'

    def datetime(self) -> datetime:
        """As Python's, in UTC; a ValueError in a leap second, which Python's has no place for."""
        return datetime.fromisoformat(self.isoformat()[:-1]).replace(tzinfo=timezone.utc)

    def __add__(self, other: Any) -> Any:
        return _moved(self, _millis(other)) if isinstance(other, timedelta) else NotImplemented

    def __radd__(self, other: Any) -> Any:
        return self.__add__(other)

    def __sub__(self, other: Any) -> Any:
        if isinstance(other, Time):
            return timedelta(milliseconds=between(other, self))
        return _moved(self, -_millis(other)) if isinstance(other, timedelta) else NotImplemented

    def __mul__(self, other: Any) -> Any:
        return NotImplemented

    def __rmul__(self, other: Any) -> Any:
        return NotImplemented


class Moment(NamedTuple):
    """A time of the main header that Python's `datetime` has no place for: a leap second, or the year 0."""

    year: int
    month: int
    day: int
    hour: int
    minute: int
    second: int
    milli: int = 0

    def isoformat(self) -> str:
        """As 2016-12-31T23:59:60.000Z."""
        return '%04d-%02d-%02dT%02d:%02d:%02d.%03dZ' % self


TimeLike = Union[Time, Moment, datetime, date, str, 'numpy.datetime64']


# ---- from Python's own times


def _long_text(when: Any) -> str:
    """The 18 characters in which the library takes a time."""
    if isinstance(when, str):
        numbers = _iso_numbers(when)
    elif isinstance(when, (Moment, datetime)):
        numbers = moment_numbers(when)[1:]
    elif isinstance(when, date):
        numbers = (when.year, when.month, when.day, 0, 0, 0, 0)
    elif type(when).__module__ == 'numpy' and type(when).__name__ == 'datetime64':
        if str(when) == 'NaT':
            raise ValueError('NaT is no time')
        numbers = _iso_numbers(str(when))
    else:
        raise TypeError(
            f'{when!r} is no time: give a text in ISO 8601, a datetime, a date, a numpy.datetime64 or a Time'
        )
    return '%04d%02d%02d%02d%02d%02d%03dZ' % numbers


def _iso_numbers(when: str) -> tuple[int, ...]:
    """Year to millisecond, in UTC, of a text."""
    parts = ISO.fullmatch(when)
    if parts is None:
        raise ValueError(
            f'{when!r} is no time as 2016-06-05T00:00:08Z, 2016-06-05T02:00:08.25+02:00 or 2016-06-05 is one'
        )
    *numbers, fraction, zone = parts.groups()
    if (fraction or '')[3:].strip('0'):
        raise ValueError(f'{when} is between two milliseconds')
    milli = int((fraction or '').ljust(3, '0')[:3])
    return (*_in_utc([int(part or 0) for part in numbers], zone, when), milli)


def _in_utc(numbers: list[int], zone: str | None, when: str) -> tuple[int, ...]:
    """Year to second with the zone's offset taken off; seconds stay, since offsets are whole minutes and one may be a
    leap second."""
    if zone is None or zone == 'Z' or zone[1:].strip('0:') == '':
        return tuple(numbers)
    hours, minutes = int(zone[1:3]), int(zone[3:].lstrip(':') or 0)
    offset = timedelta(hours=hours, minutes=minutes) * (-1 if zone[0] == '-' else 1)
    try:
        there = datetime(numbers[0], numbers[1], numbers[2], numbers[3], numbers[4]) - offset
    except (ValueError, OverflowError):
        raise ValueError(f'{when!r} is no time') from None
    return (*there.timetuple()[:5], numbers[5])


def moment_of(numbers: tuple[int, ...]) -> datetime | Moment:
    """Of an answer's seven numbers."""
    moment = Moment(*numbers)
    if moment.year == 0 or moment.second == 60:
        return moment
    year, month, day, hour, minute, second, milli = moment
    return datetime(year, month, day, hour, minute, second, 1000 * milli, timezone.utc)


def moment_numbers(moment: datetime | Moment | None) -> tuple[int, ...]:
    """As the library takes it: a 1 and seven numbers, or zeros where it is undefined."""
    if moment is None:
        return (0,) * 8
    if isinstance(moment, Moment):
        return (1, *moment)
    utc = moment.astimezone(timezone.utc) if moment.tzinfo is not None else moment
    if utc.microsecond % 1000:
        raise ValueError(f'{moment.isoformat()} is between two milliseconds')
    return (1, *utc.timetuple()[:6], utc.microsecond // 1000)


# ---- the line of milliseconds


@functools.lru_cache(maxsize=None)
def day_length(day: int) -> int:
    """The milliseconds of a day; the library knows which have a leap second."""
    return DAY + 1000 if answer('write_time', bytearray(6), 1, day, DAY)[0] == 0 else DAY


def between(first: Time, second: Time) -> int:
    """The milliseconds from the first to the second, leap seconds counted; negative where the second is before the
    first."""
    if second.day < first.day:
        return -between(second, first)
    return sum(map(day_length, range(first.day, second.day))) + second.milli - first.milli


def _millis(length: timedelta) -> int:
    if length % ONE:
        raise ValueError(f'{length} is between two milliseconds')
    return length // ONE


def _moved(time: Time, millis: int) -> Time:
    """The time so many milliseconds later, or earlier."""
    day, milli = _back(time.day, time.milli + millis)
    while day < LAST_DAY and milli >= day_length(day):
        milli -= day_length(day)
        day += 1
    if not 0 <= milli < day_length(day):
        raise OverflowError('a time is of 2000-01-01 to 2179-06-06')
    return Time(day, milli)


def _back(day: int, milli: int) -> tuple[int, int]:
    """The same time with a millisecond of 0 or more, as far as there are days before."""
    while milli < 0 and day > 0:
        day -= 1
        milli += day_length(day)
    return day, milli


# ---- as the library has them


def time_arguments(time: Time | None) -> tuple[int, int, int]:
    """As the library takes it: a 1 and its two numbers, or zeros where it is undefined."""
    return (0, 0, 0) if time is None else (1, time.day, time.milli)


def time_of(defined: int, day: int, milli: int) -> Time | None:
    """Of an answer's three numbers."""
    return Time(day, milli) if defined else None


def is_date(year: int, month: int, day: int) -> bool:
    """Whether it is a date of the years 0 to 9999."""
    return ask('is_date', year, month, day)[0] == 1


def date_of(day: int) -> date:
    """The date of a day, 0 to 65535, counted from 1 January 2000."""
    return date(*ask('date_of', day)[:3])


def day_number(year: int, month: int, day: int) -> int:
    """The day of a date.

    Raises Refused: 21 for no date and for one outside of days 0 to 65535.
    """
    return ask('day_number', year, month, day)[0]


def read_time(data: bytes, at: int = 0) -> Time | None:
    """The time in the 6 bytes from `at` on; `None` where it is undefined.

    Raises Refused: 20 past the bytes, 21 for a bad time.
    """
    return time_of(*ask('read_time', data, at)[:3])


def write_time(time: Time | None) -> bytes:
    """A time as 6 bytes.

    Raises Refused: 21 for a bad time.
    """
    room = bytearray(6)
    ask('write_time', room, *time_arguments(time))
    return bytes(room)


def time_order(time: Time | None, other: Time | None) -> int:
    """-1, 0 or 1 as the first is before, the same as or after the other.

    Raises Refused: 21 where either is bad or undefined.
    """
    return ask('time_order', *time_arguments(time), *time_arguments(other))[0] - 1


def time_text(time: Time | None) -> str:
    """A time as the main header writes long times, YYYYMMDDHHMMSSmmmZ; x's and a Z where it is undefined.

    Raises Refused: 21 for a bad time.
    """
    room = bytearray(18)
    ask('time_text', room, *time_arguments(time))
    return room.decode('ascii')


def text_time(text: bytes | str, at: int = 0) -> Time | None:
    """The time of the 18 characters of such a text from `at` on.

    Raises Refused: 20 past the text, 21 for a bad one.
    """
    data = text.encode('latin-1', 'replace') if isinstance(text, str) else text
    return time_of(*ask('text_time', data, at)[:3])
