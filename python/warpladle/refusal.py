"""Refusals of the library: their numbers by name, what each means, and the exception that carries one."""
from __future__ import annotations

from enum import Enum, IntEnum
from typing import Any


class Refusal(IntEnum):
    """The number of a refusal, by the name that include/warpladle.h has for it."""

    # tables: names (written by tools/tables)
    FIRST_HEADER = 1
    LINE = 2
    VALUE = 3
    DECLARED_SIZE = 4
    TOTALS = 5
    BYTES_LEFT = 6
    UNKNOWN_KIND = 7
    ORDER = 8
    RECORD_SIZE = 9
    RECORD_TIMES = 10
    TOO_MANY = 11
    TARGET = 12
    POINTS_INSIDE = 13
    POINTS_AT_OTHER = 14
    TOO_FEW = 15
    BEYOND = 16
    UNFINISHED = 17
    ROOM = 18
    NO_RECORD = 19
    OUTSIDE = 20
    MALFORMED = 21
    NO_FIELD = 22
    LISTING_LIMIT = 23
    TOO_MANY_POINTERS = 24
    WINDOW = 25
    UNLIKE = 26
    OUT_OF_TIME = 27
    RESULT_LIMIT = 28
    PROFILE = 29
    UTH_SHORT = 30
    UTH_SEGMENTS = 31
    UTH_GRID = 32
    UTH_BLOCKS = 33
    UTH_CUT = 34
    UTH_LEFT = 35
    REPORT_FULL = 36
    RECORD_LENGTH = 37
    RECORD_COUNTS = 38
    PART_LENGTHS = 39
    # tables: end


class State(str, Enum):
    """What a file is: whole, incomplete (more may come) or refused (for good)."""

    WHOLE = 'whole'
    INCOMPLETE = 'incomplete'
    REFUSED = 'refused'


# what each number means whatever was lent; `words` says more where the bytes are at hand
MEANING = {
    # tables: meanings (written by tools/tables)
    1: 'the first header is not class 1, group 0, subclass 0, size 3307',
    2: 'a line of the main header has another name, no "= " or no line feed',
    3: 'a value of the main header is not of its kind',
    4: 'the declared size is under 3,307 or over 2,147,483,647',
    5: 'the totals do not agree: one MPHR, at most one SPHR, and TOTAL_RECORDS the sum of the others',
    6: '1 to 19 bytes are left where a record should start',
    7: 'a record has an unknown class or group',
    8: "a record's class is out of the sections' order",
    9: "a record's size is under 20, past the declared size, or other than 27 for a pointer record",
    10: 'a record has a bad time, or starts after it stops',
    11: 'there are more records of a class than its total',
    12: "a pointer's target is not of class 4 to 8, or leaves no room for a record after the pointer",
    13: 'a pointer points into the middle of a record',
    14: 'a pointer points at a record of another class, group or subclass',
    15: 'there are fewer records of a class than its total',
    16: 'there are bytes beyond the declared size',
    17: 'the product is finished short of its main header or of its declared size',
    18: 'the lent room is too small',
    19: 'there is no such record yet',
    20: 'the part to read is outside the lent bytes',
    21: 'a number, time, date or header is malformed or outside the limits',
    22: 'there is no such field, it is of another kind, or the value does not fit its line',
    23: 'a listing was asked of more than 65,536 bytes',
    24: 'a watch was fed a 65th pointer record',
    25: 'the window of time is undefined or invalid, or ends before it starts',
    26: 'the two products are unlike in instrument, type, level, spacecraft, SPHR or global records',
    27: 'the second product starts before the first stops',
    28: 'the result would have over 2,147,483,647 bytes or over 999,999 records, or a sum does not fit its line',
    29: 'a record is against the Level 0 profile',
    30: 'the humidity file is short of 642 bytes',
    31: "the humidity file's number of segments is negative",
    32: "a segment's line or column is not 1 to 80",
    33: "a segment's number of blocks is below 1",
    34: 'a segment header or a block is cut',
    35: 'bytes are left over after the last block',
    36: 'the report is full: 4,096 products, or a total of 64 bits',
    37: 'the record of the arrival is short or long',
    38: 'the record of the arrival has another number of answers than of parts',
    39: "the lengths of the parts do not sum to the product's, or are more than a record can count",
    # tables: end
}

OF_A_PRODUCT = range(1, 18)
OF_A_FILE = (
    *OF_A_PRODUCT,
    *range(29, 36),
)  # what a file's own bytes are refused with; the others are faults of what was asked


class Refused(Exception):
    """The library refused what it was lent.

    `number` and `place` are the library's own (README.md, "What the answers mean"); `words` say what was expected and
    what was found; `inputs` names the files at fault where more than one was lent.
    """

    def __init__(self, number: int, place: int, words: str = '', inputs: tuple[str, ...] = ()) -> None:
        super().__init__(int(number), place, words, inputs)
        self.number = int(number)
        self.place = place
        self.words = words or MEANING.get(number, 'the library has no such number')
        self.inputs = inputs

    def __str__(self) -> str:
        return f'refused {self.number} {self.place}: {self.words}'

    @property
    def refusal(self) -> Refusal:
        """The number by its name."""
        return Refusal(self.number)

    @property
    def state(self) -> State | None:
        """What it says of the file: incomplete for 17, refused for 1 to 16 and 29 to 35; None for a fault of what was
        asked."""
        if self.number == Refusal.UNFINISHED:
            return State.INCOMPLETE
        return State.REFUSED if self.number in OF_A_FILE else None

    def as_dict(self) -> dict[str, Any]:
        """Number, place and words, for a program to read."""
        return {'number': self.number, 'place': self.place, 'words': self.words}
