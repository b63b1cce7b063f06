"""Why one product is no cut of another, in words: the library has given the place, and this looks at what stands
there."""
from __future__ import annotations

from .headers import RecordClass
from .join import FOUR, first_difference, part_name
from .product import Product, Row
from .words import record_words, times_at, which_at

# the records of which a cut has all: the SPHR and the auxiliary ones
CARRIED = (RecordClass.SPHR, RecordClass.GEADR, RecordClass.GIADR, RecordClass.VEADR, RecordClass.VIADR)


def explain_mismatch(cut: Product, original: Product, place: int) -> str:
    """Why the cut is none of the original, of which `mismatch_with` has given the place."""
    if place == 0:
        return 'a line of the main header differs: ' + ', '.join(
            f'{name} is {original.field(name)!r} in the original and {cut.field(name)!r} in the cut'
            for name in FOUR
            if original.field(name) != cut.field(name)
        )
    if place == cut.size:
        return f'a record of the original is missing: {_missing(cut, original)}'
    row = next(row for row in map(_row, cut.row_tuples()) if row.start == place)
    why = _changed_mdr(cut, original, row) if row.class_ == RecordClass.MDR else _changed_other(cut, original, row)
    return f'{record_words(cut.data, place)} cannot be matched: {why}'


def _row(numbers: tuple[int, ...]) -> Row:
    return Row(*numbers)


def _carried(product: Product, end: int) -> list[Row]:
    """The SPHR and the auxiliary records that start before a place."""
    return [row for row in map(_row, product.row_tuples()) if row.class_ in CARRIED and row.start < end]


def _bytes_of(product: Product, row: Row) -> bytes:
    return bytes(product.data[row.start : row.start + row.size])


def _missing(cut: Product, original: Product) -> str:
    row = _carried(original, original.size)[len(_carried(cut, cut.size))]
    return record_words(original.data, row.start)


def _changed_other(cut: Product, original: Product, row: Row) -> str:
    """Of an SPHR or an auxiliary record: the original's next such has other bytes, or there is none."""
    theirs, k = _carried(original, original.size), len(_carried(cut, row.start))
    if k >= len(theirs):
        return 'the original has no SPHR or auxiliary record more'
    at = first_difference(_bytes_of(original, theirs[k]), _bytes_of(cut, row), False)
    named = f'{which_at(original.data, theirs[k].start)} at {theirs[k].start}'
    return (
        f'the next such record of the original, {named}, differs from byte {at} of the record on ({part_name(at or 0)})'
    )


def _changed_mdr(cut: Product, original: Product, row: Row) -> str:
    """Of an MDR: it is in the original and was passed already, or it is there with other bytes, or not at all."""
    wanted = _bytes_of(cut, row)
    theirs = [theirs for theirs in map(_row, original.row_tuples()) if theirs.class_ == RecordClass.MDR]
    same = next((other for other in theirs if _is(original, other, wanted)), None)
    if same is not None:
        named = f'{which_at(original.data, same.start)} of the original, at {same.start}'
        ours = (mdr for mdr in map(_row, cut.row_tuples()) if mdr.class_ == RecordClass.MDR and mdr.start < row.start)
        earlier = next((mdr for mdr in ours if _is(cut, mdr, wanted)), None)
        if earlier is not None:
            return f'it is repeated: it is {named}, and stands at {earlier.start} of the cut already'
        return f'it is out of order: it is {named}, before what stands before it here'
    times = times_at(cut.data, row.start)
    alike = next((other for other in theirs if times_at(original.data, other.start) == times), None)
    if alike is None:
        return f'the original has no MDR from {times[0]} to {times[1]}'
    at = first_difference(_bytes_of(original, alike), wanted, False)
    named = f'{which_at(original.data, alike.start)} of the original, at {alike.start}'
    return (
        f'it is changed: {named}, has the same times and differs from byte {at} of the record on ({part_name(at or 0)})'
    )


def _is(product: Product, row: Row, wanted: bytes) -> bool:
    return (
        row.size == len(wanted)
        and bytes(product.data[row.start : row.start + 20]) == wanted[:20]
        and _bytes_of(product, row) == wanted
    )
