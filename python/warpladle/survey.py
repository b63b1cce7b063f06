"""Every fault of a product that a look can find, beyond the first: an aid for those who mend products, which is not
proved.

The lines of the main header are held up to the library one at a time, each in a header that is sound but for it.
Records are looked at as far as their sizes lead. Of an accepted product it finds nothing, and of a refused one the
library's own refusal is among what it finds (the tests hold it against the vectors); beyond that nothing is promised.
"""
from __future__ import annotations

import functools
from collections.abc import Iterator
from typing import Any, NamedTuple

from . import words
from .headers import (
    CLASSES,
    COUNT,
    GROUPS,
    HEAD,
    HEADER,
    SIGNED,
    TEXT,
    UNSIGNED,
    Field,
    all_fields,
    write_number_line,
    write_text_line,
    write_time_line,
)
from .library import answer
from .refusal import MEANING, Refusal

LARGEST = 2**31 - 1
POINTER = 27
MAY_FOLLOW = {
    1: range(2, 9),
    2: range(3, 9),
    3: range(3, 9),
    4: range(4, 9),
    5: range(4, 9),
    6: range(6, 9),
    7: range(6, 9),
    8: range(8, 9),
}
MOST = 1000  # faults that are listed


class Fault(NamedTuple):
    """What would be refused: the number, the place and the words of its refusal."""

    number: int
    place: int
    words: str

    def as_dict(self) -> dict[str, Any]:
        """For a program to read."""
        return self._asdict()


def find_faults(data: Any) -> list[Fault]:
    """The faults of a finished product, in the order of their places."""
    view = memoryview(data)
    found = sorted(set(_faults(view)), key=lambda fault: (fault[1], fault[0]))[:MOST]
    return [Fault(int(number), place, _words(view, number, place)) for number, place in found]


def _words(data: memoryview, number: int, place: int) -> str:
    try:
        return words.of_product(data)(number, place)
    except (ValueError, IndexError, KeyError):  # the sentence quotes a number that is none itself
        return MEANING[number]


def _faults(data: memoryview) -> Iterator[tuple[int, int]]:
    if len(data) < HEAD:
        yield Refusal.UNFINISHED, len(data)
    if len(data) >= HEADER:
        yield from _first_header(data)
    yield from _lines(data)
    size = _number(data, 'ACTUAL_PRODUCT_SIZE')
    if len(data) < HEAD or size is None:
        return
    if not HEAD <= size <= LARGEST:
        yield Refusal.DECLARED_SIZE, _field('ACTUAL_PRODUCT_SIZE').value_start
        return
    yield from _totals(data)
    yield from _records(data, size)
    if len(data) > size:
        yield Refusal.BEYOND, size
    elif len(data) < size:
        yield Refusal.UNFINISHED, len(data)


# ---- the main header


def _first_header(data: memoryview) -> Iterator[tuple[int, int]]:
    class_, group, subclass, _, size = words.header_at(data, 0)
    if (class_, group, subclass, size) != (1, 0, 0, HEAD):
        yield Refusal.FIRST_HEADER, 0
    if not _times_stand(data, 0):
        yield Refusal.RECORD_TIMES, 0


@functools.lru_cache(maxsize=1)
def _sound_header() -> bytes:
    """A main header without fault, of a product that has nothing else."""
    values = {'ACTUAL_PRODUCT_SIZE': HEAD, 'TOTAL_RECORDS': 1, 'TOTAL_MPHR': 1}
    lines = []
    for line in all_fields():
        if line.kind == TEXT:
            lines.append(write_text_line(line.number, ' ' * line.width))
        elif line.kind in (UNSIGNED, COUNT, SIGNED):
            lines.append(write_number_line(line.number, values.get(line.name, 0)))
        else:
            lines.append(write_time_line(line.number, None))
    return bytes([1, 0, 0, 2]) + HEAD.to_bytes(4, 'big') + b'\xff' * 12 + b''.join(lines)


@functools.lru_cache(maxsize=128)
def _field(name: str) -> Field:
    return next(line for line in all_fields() if line.name == name)


def _lines(data: memoryview) -> Iterator[tuple[int, int]]:
    """Each line that has come, in a header that is sound but for it."""
    for line in all_fields():
        end = line.start + line.width + 33
        if end > len(data):
            return
        header = _sound_header()[: line.start] + bytes(data[line.start : end]) + _sound_header()[end:]
        number, place, *_ = answer('arrival', header)
        if number in (Refusal.LINE, Refusal.VALUE):
            yield number, place


def _number(data: memoryview, name: str) -> int | None:
    """The number in a line, where it can be read."""
    text = words.value_text(data, name)
    return int(text) if text.isascii() and text.isdigit() else None


def _totals(data: memoryview) -> Iterator[tuple[int, int]]:
    totals = [_number(data, f'TOTAL_{name}') for name in CLASSES[1:]]
    known = [total for total in totals if total is not None]
    if len(known) == len(totals) and (known[0] != 1 or known[1] > 1 or sum(known) != _number(data, 'TOTAL_RECORDS')):
        yield Refusal.TOTALS, _field('TOTAL_RECORDS').value_start


# ---- the records


def _is_time(data: memoryview, at: int) -> bool:
    return answer('read_time', bytes(data[at : at + 6]), 0)[0] == 0


def _times_stand(data: memoryview, start: int) -> bool:
    """Whether both times of a header are times, the start not after the stop."""
    first, last = bytes(data[start + 8 : start + 14]), bytes(data[start + 14 : start + 20])
    if not (_is_time(data, start + 8) and _is_time(data, start + 14)):
        return False
    return b'\xff' * 6 in (first, last) or first <= last


class _Walk:
    """What is known of the records that were passed."""

    def __init__(self, data: memoryview, size: int) -> None:
        self.data, self.size = data, size
        self.totals = {class_: _number(data, f'TOTAL_{CLASSES[class_]}') for class_ in range(1, 9)}
        self.tally = {1: 1}
        self.before = 1
        self.starts = {0: HEAD}  # start and end of each record
        self.pointers: list[int] = []

    def header_faults(self, at: int) -> Iterator[tuple[int, int]]:
        """Those of the record header that stands there."""
        class_, group, _, _, size = words.header_at(self.data, at)
        if not 1 <= class_ <= 8 or group not in GROUPS:
            yield Refusal.UNKNOWN_KIND, at
        if size < HEADER or at + size > self.size or (class_ == 3 and size != POINTER):
            yield Refusal.RECORD_SIZE, at
        if not _times_stand(self.data, at):
            yield Refusal.RECORD_TIMES, at
        if 1 <= class_ <= 8:
            yield from self._order_faults(at, class_)

    def _order_faults(self, at: int, class_: int) -> Iterator[tuple[int, int]]:
        if self.before in MAY_FOLLOW and class_ not in MAY_FOLLOW[self.before]:
            yield Refusal.ORDER, at
        self.tally[class_] = self.tally.get(class_, 0) + 1
        total = self.totals[class_]
        if total is not None and self.tally[class_] == total + 1:
            yield Refusal.TOO_MANY, at

    def pass_by(self, at: int) -> None:
        """The record that stands there is passed."""
        class_, _, _, _, size = words.header_at(self.data, at)
        self.before = class_
        self.starts[at] = at + size
        if class_ == 3 and size == POINTER:
            self.pointers.append(at)

    def pointer_faults(self) -> Iterator[tuple[int, int]]:
        """Those of the targets of all pointers that have come."""
        ends = sorted(self.starts.items())
        for at in self.pointers:
            if at + POINTER > len(self.data):
                continue
            class_, group, subclass, offset = words.target_at(self.data, at)
            if not 4 <= class_ <= 8 or not at + POINTER <= offset <= self.size - HEADER:
                yield Refusal.TARGET, at
            elif offset in self.starts:
                if bytes(self.data[offset : offset + 3]) != bytes((class_, group, subclass)):
                    yield Refusal.POINTS_AT_OTHER, at
            elif any(start < offset < end for start, end in ends):
                yield Refusal.POINTS_INSIDE, at


def _records(data: memoryview, size: int) -> Iterator[tuple[int, int]]:
    """Each record as far as the sizes lead, the pointers, and what the totals ask for."""
    found, at = _Walk(data, size), HEAD
    while at < size:
        if size - at < HEADER:
            yield Refusal.BYTES_LEFT, at
            break
        if at + HEADER > len(data):
            break
        yield from found.header_faults(at)
        step = words.header_at(data, at)[4]
        if step < HEADER or at + step > size:
            break
        found.pass_by(at)
        at += step
    yield from found.pointer_faults()
    if at == size <= len(data) and any(
        total is not None and found.tally.get(class_, 0) < total for class_, total in found.totals.items()
    ):
        yield Refusal.TOO_FEW, size
