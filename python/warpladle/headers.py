"""Record headers, and the lines of the main header: which they are, and how they are written."""
from __future__ import annotations

import functools
from datetime import datetime
from enum import IntEnum
from typing import NamedTuple

from .library import answer, ask
from .refusal import Refused
from .times import Moment, Time, moment_numbers, time_arguments, time_of


class RecordClass(IntEnum):
    """The class of a record."""

    MPHR = 1
    SPHR = 2
    IPR = 3
    GEADR = 4
    GIADR = 5
    VEADR = 6
    VIADR = 7
    MDR = 8


class Group(IntEnum):
    """The instrument group of a record."""

    GENERIC = 0
    AMSU_A = 1
    ASCAT = 2
    ATOVS = 3
    AVHRR_3 = 4
    GOME = 5
    GRAS = 6
    HIRS_4 = 7
    IASI = 8
    MHS = 9
    SEM = 10
    ADCS = 11
    SBUV = 12
    DUMMY = 13
    IASI_L2 = 15
    ARCHIVE = 99


CLASSES = ('', *RecordClass.__members__)
GROUPS = {int(group): name for name, group in Group.__members__.items()}
TEXT, UNSIGNED, COUNT, SIGNED, TIME, LONG_TIME = range(6)
HEADER = 20  # bytes of a record header
HEAD = 3307  # bytes of the main header


def class_name(number: int) -> str:
    """MPHR to MDR, or the number of a class that is none of them."""
    return CLASSES[number] if 1 <= number <= 8 else f'class {number}'


def group_name(number: int) -> str:
    """GENERIC to ARCHIVE, or the number of a group that is none of them."""
    return GROUPS.get(number, f'group {number}')


class Record(NamedTuple):
    """A record: where it starts, and its header. A time that is None is undefined."""

    start: int
    class_: int
    group: int
    subclass: int
    version: int
    size: int
    start_time: Time | None
    stop_time: Time | None

    def as_dict(self) -> dict[str, int | str | None]:
        """By name, with its times in ISO 8601."""
        start, stop = (None if time is None else time.isoformat() for time in (self.start_time, self.stop_time))
        return {
            'start': self.start,
            'class': self.class_,
            'group': self.group,
            'subclass': self.subclass,
            'version': self.version,
            'size': self.size,
            'start_time': start,
            'stop_time': stop,
        }


def record_of(values: tuple[int, ...]) -> Record:
    """Of the values of an answer."""
    start, class_, group, subclass, version, size = values[:6]
    return Record(start, class_, group, subclass, version, size, time_of(*values[6:9]), time_of(*values[9:12]))


def read_header(data: bytes, at: int = 0) -> Record:
    """The record header in the 20 bytes from `at` on.

    Raises Refused: 20 past the bytes, 21 for a malformed header.
    """
    return record_of(ask('read_header', data, at))


def write_header(record: Record) -> bytes:
    """The 20 bytes of a record header. Where the record starts does not matter.

    Raises Refused: 21 for a header that cannot be.
    """
    room = bytearray(HEADER)
    ask('write_header', room, *record[1:6], *time_arguments(record.start_time), *time_arguments(record.stop_time))
    return bytes(room)


class Field(NamedTuple):
    """A field of the main header: its number, name, where its line starts, its value's width and kind (`TEXT` to
    `LONG_TIME`)."""

    number: int
    name: str
    start: int
    width: int
    kind: int

    @property
    def value_start(self) -> int:
        """Where its value starts: after a name of 30 bytes and `= `."""
        return self.start + 32

    @property
    def unit(self) -> str:
        """The unit in which its number stands, as 0.001 degree; an empty text where it has none."""
        return UNITS.get(self.name, '')


def _units() -> dict[str, str]:
    """002's units of the numbers of the main header."""
    degrees = 'INCLINATION PERIGEE_ARGUMENT RIGHT_ASCENSION MEAN_ANOMALY YAW_ERROR ROLL_ERROR PITCH_ERROR'.split()
    degrees += [f'SUBSAT_{part}_{end}' for part in ('LATITUDE', 'LONGITUDE') for end in ('START', 'END')]
    of = {
        '0.001 degree': degrees,
        'mm': ['SEMI_MAJOR_AXIS', 'X_POSITION', 'Y_POSITION', 'Z_POSITION'],
        'mm/s': ['X_VELOCITY', 'Y_VELOCITY', 'Z_VELOCITY'],
        'm': [f'LOCATION_TOLERANCE_{way}' for way in ('RADIAL', 'CROSSTRACK', 'ALONGTRACK')],
        '0.000001': ['ECCENTRICITY', 'EARTH_SUN_DISTANCE_RATIO'],
        'ms': ['DURATION_OF_PRODUCT', 'MILLISECONDS_OF_DATA_PRESENT', 'MILLISECONDS_OF_DATA_MISSING'],
        's': ['LEAP_SECOND'],
        'bytes': ['ACTUAL_PRODUCT_SIZE'],
        'records': ['TOTAL_RECORDS', *(f'TOTAL_{name}' for name in CLASSES[1:])],
        'MDRs': ['COUNT_DEGRADED_INST_MDR', 'COUNT_DEGRADED_PROC_MDR'],
        'blocks': ['COUNT_DEGRADED_INST_MDR_BLOCKS', 'COUNT_DEGRADED_PROC_MDR_BLOCKS'],
    }
    return {name: unit for unit, names in of.items() for name in names}


UNITS = _units()


@functools.lru_cache(maxsize=128)
def field(number: int) -> Field:
    """The field of a number, 0 to 71.

    Raises Refused: 22 for another number.
    """
    room = bytearray(30)
    start, width, kind, length = ask('field', number, room)
    return Field(number, room[:length].decode('ascii'), start, width, kind)


@functools.lru_cache(maxsize=128)
def field_number(name: str) -> int:
    """The number of the field of a name, unpadded.

    Raises Refused: 22 for another name.
    """
    number, place, found, _ = answer('field_named', name.encode('utf-8', 'surrogateescape'))
    if number:
        raise Refused(number, place, f'expected the name of one of the 72 fields, found {name!r}{_meant(name)}')
    return found


def _meant(name: str) -> str:
    """The field that was meant, where one is near."""
    import difflib

    near = difflib.get_close_matches(name.upper(), [line.name for line in all_fields()], 1)
    return f'; did you mean {near[0]}?' if near else ''


def all_fields() -> list[Field]:
    """The 72 fields, in their order."""
    return [field(k) for k in range(72)]


def _written(name: str, *given: object) -> bytes:
    room = bytearray(128)
    return bytes(room[: ask(name, room, *given)[0]])


def write_text_line(k: int, text: bytes | str) -> bytes:
    """The whole line of field k with a text of just its width.

    Raises Refused: 22 where it does not fit.
    """
    return _written('write_text_line', k, text.encode('latin-1', 'replace') if isinstance(text, str) else text)


def write_number_line(k: int, value: int | None) -> bytes:
    """The whole line of field k with a number, or with x's where it is None.

    Raises Refused: 22 where it does not fit.
    """
    return _written('write_number_line', k, value is not None, value or 0)


def write_time_line(k: int, moment: datetime | Moment | None) -> bytes:
    """The whole line of field k with a time, or with x's where it is None.

    Raises Refused: 22 where it does not fit.
    """
    return _written('write_time_line', k, *moment_numbers(moment))
