"""What was expected and what was found, in words, of a refusal of a product.

Nothing is judged here: the library has given the number and the place, and these sentences quote the bytes that stand
there.
"""
from __future__ import annotations

import struct
from collections.abc import Callable, Iterator
from typing import Any

from .headers import (
    CLASSES,
    COUNT,
    HEAD,
    HEADER,
    LONG_TIME,
    SIGNED,
    TEXT,
    TIME,
    UNSIGNED,
    Field,
    all_fields,
    class_name,
    field,
    field_number,
    group_name,
)
from .library import answer
from .refusal import MEANING, Refusal
from .times import Time

KINDS = {
    TEXT: 'text of bytes 32 to 126',
    UNSIGNED: 'an unsigned number or x',
    COUNT: 'an unsigned number',
    SIGNED: 'a number or x',
    TIME: 'a time YYYYMMDDHHMMSSZ or x',
    LONG_TIME: 'a time YYYYMMDDHHMMSSmmmZ or x',
}
MAY_FOLLOW = {
    0: 'MPHR',
    1: 'SPHR to MDR',
    2: 'IPR to MDR',
    3: 'IPR to MDR',
    4: 'GEADR to MDR',
    5: 'GEADR to MDR',
    6: 'VEADR to MDR',
    7: 'VEADR to MDR',
    8: 'MDR',
}
UNDEFINED = (0xFFFF, 0xFFFFFFFF)
# what a file begins with that is no product, and what it then is
BEGINNINGS = (
    (b'<!doctype', 'HTML, as a portal or a server sends in place of a file'),
    (b'<html', 'HTML, as a portal or a server sends in place of a file'),
    (b'<?xml', 'XML'),
    (b'\x1f\x8b', 'gzip: unpack it with gunzip'),
    (b'bzh', 'bzip2: unpack it with bunzip2'),
    (b'pk\x03\x04', 'a zip archive: unpack it first'),
    (b'\xfd7zxz', 'xz: unpack it with unxz'),
    (b'(\xb5/\xfd', 'zstd: unpack it first'),
    (b'\x89hdf', 'HDF5 or netCDF-4, not the native format'),
    (b'cdf', 'netCDF, not the native format'),
    (b'%pdf', 'a PDF'),
    (b'product_name', 'the lines of a main header without the 20 bytes of record header before them'),
)

Words = Callable[[int, int], str]


def _text(data: Any, start: int, length: int) -> str:
    return repr(bytes(data[start : start + length]))[1:]


def value_text(data: Any, name: str) -> str:
    """The value of a field as it stands, whatever the product."""
    line = field(field_number(name))
    return bytes(data[line.value_start : line.value_start + line.width]).decode('latin-1').strip()


def declared(data: Any) -> int:
    """The declared size, of a main header that the library has not refused."""
    return int(value_text(data, 'ACTUAL_PRODUCT_SIZE'))


def line_at(place: int) -> Field:
    """The field in whose line a place of the main header is."""
    return next(line for line in reversed(all_fields()) if line.start <= place)


def header_at(data: Any, start: int) -> tuple[int, ...]:
    """Class, group, subclass, version and size of the header that stands there."""
    return struct.unpack_from('>BBBBI', data, start)


def kind_at(data: Any, start: int) -> str:
    """The same in words."""
    class_, group, subclass, version, size = header_at(data, start)
    return f'class {class_}, group {group}, subclass {subclass}, version {version}, size {size}'


def times_at(data: Any, start: int) -> tuple[str, str]:
    """The two times of the header that stands there, in ISO 8601."""
    parts = struct.unpack_from('>HIHI', data, start + 8)
    return time_words(*parts[:2]), time_words(*parts[2:])


def time_words(day: int, milli: int) -> str:
    """A time of a header in ISO 8601, or what it is where it is none."""
    if (day, milli) == UNDEFINED:
        return 'undefined'
    if answer('write_time', bytearray(6), 1, day, milli)[0]:
        return f'day {day} millisecond {milli}, which is no time'
    return Time(day, milli).isoformat()


def target_at(data: Any, start: int) -> tuple[int, ...]:
    """Class, group, subclass and offset that a pointer record names."""
    return struct.unpack_from('>BBBI', data, start + HEADER)


def walk(data: Any, end: int) -> Iterator[tuple[int, int, int]]:
    """Start, class and size of each record that starts before `end`, as far as the sizes lead."""
    at, last = 0, min(end, len(data) - HEADER + 1)
    while at < last:
        class_, _, _, _, size = header_at(data, at)
        yield at, class_, size
        if size < HEADER:
            return
        at += size


def _tally(data: Any, end: int) -> list[int]:
    """Records of each class up to `end`, by the sizes in their headers."""
    tally = [0] * 256
    for _, class_, _ in walk(data, end):
        tally[class_] += 1
    return tally


def which_at(data: Any, start: int) -> str:
    """The record that starts there, by name and by which of its class it is, as `MDR 3`; classes count from 1."""
    class_ = header_at(data, start)[0]
    return (
        f'{class_name(class_)} {_tally(data, start)[class_] + 1}' if 1 <= class_ <= 8 else f'a record of class {class_}'
    )


def record_words(data: Any, start: int) -> str:
    """The record that starts there in words, with its place and times."""
    class_, group, subclass, version, size = header_at(data, start)
    begin, end = times_at(data, start)
    return (
        f'{which_at(data, start)} at {start} ({size} bytes, group {group_name(group)}, subclass {subclass}, version'
        f' {version}, {begin} to {end})'
    )


def what_it_is(data: Any) -> str | None:
    """What a file is that is no product, by its first bytes; None where that is not known."""
    first = bytes(data[:512])
    for beginning, name in BEGINNINGS:
        if first.lstrip().lower().startswith(beginning):
            return name
    if first[:15].rstrip() == b'Product' and b'UTH' in first[:25]:
        return 'a humidity file: read it with `uth`'
    if first[257:262] == b'ustar':
        return 'a tar archive: unpack it first'
    return 'zeros, as in a file whose bytes have not come' if first and not any(first) else None


# ---- a sentence for each number


def _first_header(data: Any, _: int) -> str:
    known = what_it_is(data)
    begins = f'; it begins with {_text(data, 0, 16)}, which is {known}' if known else ''
    return f'expected a first header of class 1, group 0, subclass 0, size {HEAD}, found {kind_at(data, 0)}{begins}'


def _line(data: Any, place: int) -> str:
    line = line_at(place)
    whole = f'the line of {line.name}, {line.width + 33} bytes with "= " and a line feed'
    return f'expected {whole}, found {_text(data, place, line.width + 33)}'


def _value(data: Any, place: int) -> str:
    line = line_at(place)
    found = bytes(data[place : place + line.width])
    is_left = (
        line.kind in (UNSIGNED, COUNT, SIGNED) and found != found.rstrip() and found.strip().lstrip(b'+-').isdigit()
    )
    hint = '; digits stand at the right, with spaces before them' if is_left else ''
    return f'expected {KINDS[line.kind]} for {line.name}, found {_text(data, place, line.width)}{hint}'


def _size(data: Any, _: int) -> str:
    return f'expected a declared size of {HEAD} to 2147483647, found {value_text(data, "ACTUAL_PRODUCT_SIZE")}'


def _totals(data: Any, _: int) -> str:
    totals = [value_text(data, 'TOTAL_' + name) for name in CLASSES[1:]]
    return (
        f'expected TOTAL_MPHR 1, TOTAL_SPHR 0 or 1 and their sum in TOTAL_RECORDS, found totals {", ".join(totals)} '
        f'and TOTAL_RECORDS {value_text(data, "TOTAL_RECORDS")}'
    )


def _left(data: Any, place: int) -> str:
    size = declared(data)
    return f'expected a record, of 20 bytes or more, found {size - place} bytes left of the {size} declared'


def _unknown(data: Any, place: int) -> str:
    class_, group, *_ = header_at(data, place)
    return f'expected a class of 1 to 8 and a group of 0 to 13, 15 or 99, found class {class_}, group {group}'


def _order(data: Any, place: int) -> str:
    *_, (_, before, _) = walk(data, place)
    here = data[place]
    return (
        f'expected {MAY_FOLLOW[before]} after a record of class {before} ({class_name(before)}), '
        f'found class {here} ({class_name(here)})'
    )


def _record_size(data: Any, place: int) -> str:
    class_, _, _, _, size = header_at(data, place)
    expected = 'a size of 27 for a pointer record' if class_ == 3 else f'a size of 20 to {declared(data) - place}'
    return f'expected {expected}, found {size}, in the header of {which_at(data, place)}'


def _record_times(data: Any, place: int) -> str:
    start, stop = times_at(data, place)
    return (
        f'expected two times, the start not after the stop, found start {start}, stop {stop}, in the header of'
        f' {which_at(data, place)}'
    )


def _too_many(data: Any, place: int) -> str:
    name = class_name(data[place])
    return f'expected {value_text(data, "TOTAL_" + name)} records of class {data[place]} (TOTAL_{name}), found one more'


def _bad_target(data: Any, place: int) -> str:
    class_, _, _, offset = target_at(data, place)
    return (
        f'expected a target of class 4 to 8 at {place + 27} to {declared(data) - HEADER}, found class {class_} at'
        f' {offset}'
    )


def _inside(data: Any, place: int) -> str:
    offset = target_at(data, place)[3]
    *_, (start, class_, size) = walk(data, offset)
    inside = f'the {class_name(class_)} that starts at {start} ({size} bytes), {offset - start} after its start'
    return (
        f'expected a record that starts at {offset}, where the pointer points, found the middle of {inside}; '
        f'the next record starts at {start + size}'
    )


def _other(data: Any, place: int) -> str:
    class_, group, subclass, offset = target_at(data, place)
    expected = f'class {class_} ({class_name(class_)}), group {group}, subclass {subclass} at {offset}'
    return f'expected {expected}, where the pointer points, found {kind_at(data, offset)} ({class_name(data[offset])})'


def _too_few(data: Any, place: int) -> str:
    tally = _tally(data, place)
    short = [
        f'{value_text(data, "TOTAL_" + CLASSES[c])} records of class {c} (TOTAL_{CLASSES[c]}), found {tally[c]}'
        for c in range(1, 9)
        if tally[c] < int(value_text(data, 'TOTAL_' + CLASSES[c]))
    ]
    return 'expected ' + '; '.join(short)


def _beyond(data: Any, place: int) -> str:
    return f'expected {place} bytes, as declared, found {len(data)}'


def _unfinished(data: Any, place: int) -> str:
    what = f'{declared(data)} bytes, as declared' if place >= HEAD else f'{HEAD} bytes of main header'
    return f'expected {what}, found {place}'


def _profile(data: Any, place: int) -> str:
    viadr, mdr = (
        'a VIADR of group 0, subclass 0, version 1 or 2',
        'an MDR of group 0, subclass 0 to 4, version 1, or a dummy',
    )
    return f'expected {viadr if data[place] == 7 else mdr}, found {kind_at(data, place)}'


SENTENCES: dict[int, Callable[[Any, int], str]] = {
    1: _first_header,
    2: _line,
    3: _value,
    4: _size,
    5: _totals,
    6: _left,
    7: _unknown,
    8: _order,
    9: _record_size,
    10: _record_times,
    11: _too_many,
    12: _bad_target,
    13: _inside,
    14: _other,
    15: _too_few,
    16: _beyond,
    17: _unfinished,
    29: _profile,
}


def of_product(data: Any) -> Words:
    """The words of a refusal of these bytes."""
    view = memoryview(data)

    def words(number: int, place: int) -> str:
        return SENTENCES[number](view, place) if number in SENTENCES else MEANING[number]

    return words


def humidity(data: Any) -> Words:
    """The words of a refusal of a humidity file."""
    view = memoryview(data)

    def number_at(place: int) -> int:
        return int(struct.unpack_from('>i', view, place)[0])

    sentences: dict[int, Callable[[int], str]] = {
        30: lambda place: f'expected 642 bytes or more, found {place}',
        31: lambda place: f'expected 0 segments or more, found {number_at(place)}',
        32: lambda place: f'expected a line and a column of 1 to 80, found {number_at(place)}',
        33: lambda place: f'expected 1 block or more in a segment, found {number_at(place)}',
        34: lambda place: (
            f'expected the rest of a segment header or a block, found the end of the file after {place} bytes'
        ),
        35: lambda place: f'expected the end of the file after {place} bytes, as its segments say, found {len(view)}',
    }

    def words(number: int, place: int) -> str:
        return sentences[number](place) if number in sentences else MEANING[number]

    return words


def arrival_record(record: Any, length: int) -> Words:
    """The words of a refusal of a record of an arrival, of a product of so many bytes."""
    view = memoryview(record)

    def counts() -> tuple[int, int]:
        parts = struct.unpack_from('>I', view, 0)[0]
        return parts, struct.unpack_from('>I', view, 4 + 4 * parts)[0]

    def words(number: int, place: int) -> str:
        if number == Refusal.RECORD_LENGTH:
            return f'expected 8 bytes, 4 for each part and 12 for each answer that it counts, found {len(view)}'
        if number == Refusal.RECORD_COUNTS:
            return 'expected as many answers as parts, found %d parts and %d answers' % counts()[:2]
        if number == Refusal.PART_LENGTHS:
            lengths = struct.unpack_from(f'>{counts()[0]}I', view, 4)
            return f'expected parts of {length} bytes in all, as the product has, found {sum(lengths)}'
        return MEANING[number]

    return words
