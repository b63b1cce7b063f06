"""The report over products, which is a sum: reports of parts of a month merge into one."""
from __future__ import annotations

import ctypes
from collections.abc import Iterable
from typing import Any

from .files import Buffer, PathLike
from .headers import CLASSES
from .library import ask
from .product import Product
from .refusal import MEANING, Refused

NUMBERS = 38
FULL = 4096  # products of a report


def named_numbers(numbers: list[int]) -> dict[str, Any]:
    """The 38 numbers of a report by name, for a program to read."""
    return {
        'products': numbers[0],
        'accepted': numbers[20],
        'refused': {number: numbers[20 + number] for number in range(1, 18) if numbers[20 + number]},
        'records': {name: numbers[c] for c, name in enumerate(CLASSES) if c},
        'bytes': {name: numbers[8 + c] for c, name in enumerate(CLASSES) if c},
        'gap_ms': numbers[17],
        'overlap_ms': numbers[18],
        'undefined_pairs': numbers[19],
    }


def report_lines(of: dict[str, Any]) -> list[str]:
    """The same for people."""
    lines = [f'products {of["products"]}, accepted {of["accepted"]}, refused {of["products"] - of["accepted"]}']
    lines += [f'refused with {number}: {count} ({MEANING[int(number)]})' for number, count in of['refused'].items()]
    lines += [f'{name:<6}{of["records"][name]:>12} records {of["bytes"][name]:>16} bytes' for name in CLASSES[1:]]
    lines += [
        f'gaps {of["gap_ms"]} ms, overlaps {of["overlap_ms"]} ms, pairs with an undefined time {of["undefined_pairs"]}'
    ]
    return lines


class Report:
    """Records and bytes of each class, milliseconds of gap and overlap between MDRs, and how many products were
    accepted and refused; of at most 4,096 products."""

    def __init__(self, numbers: Iterable[int] = ()) -> None:
        given = list(numbers) or [0] * NUMBERS
        if len(given) != NUMBERS or not all(0 <= n < 1 << 64 for n in given):
            raise ValueError(f'a report has {NUMBERS} numbers of 0 to 2^64 - 1')
        self._state = (ctypes.c_uint64 * NUMBERS)(*given)

    @property
    def numbers(self) -> list[int]:
        """The library's 38 numbers; `Report(numbers)` is the same report."""
        return list(self._state)

    def add(self, product: Product | PathLike | Buffer) -> Refused | None:
        """One product more. Where it is refused that is counted, and its refusal given, not raised.

        Raises Refused: 36 where the report is full; it then stays as it is.
        """
        lent = product if isinstance(product, Product) else Product(product)
        number, place = ask('report_add', self._state, lent.data)
        return Refused(number, place, lent._words(number, place)) if number else None

    def __add__(self, other: Report) -> Report:
        if not isinstance(other, Report):
            return NotImplemented
        both = Report(self.numbers)
        ask('report_merge', both._state, other._state)
        return both

    def __radd__(self, other: Any) -> Report:
        if other != 0:  # with which sum() starts
            return NotImplemented
        return self

    def __eq__(self, other: object) -> bool:
        return isinstance(other, Report) and self.numbers == other.numbers

    __hash__ = None  # type: ignore[assignment]

    def __reduce__(self) -> tuple[Any, ...]:
        return Report, (self.numbers,)

    def __repr__(self) -> str:
        of = self.as_dict()
        return (
            f'<Report of {of["products"]} products, {of["accepted"]} accepted, {sum(of["records"].values())} records, '
            f'{of["gap_ms"]} ms of gaps>'
        )

    def _repr_html_(self) -> str:
        from .summary import html_table

        of = self.as_dict()
        lines = [('products', f'{of["products"]:,}'), ('accepted', f'{of["accepted"]:,}')]
        lines += [
            (f'refused with {number}', f'{count:,}: {MEANING[number]}') for number, count in of['refused'].items()
        ]
        lines += [(name, f'{of["records"][name]:,} records, {of["bytes"][name]:,} bytes') for name in CLASSES[1:]]
        lines += [('gaps', f'{of["gap_ms"]:,} ms'), ('overlaps', f'{of["overlap_ms"]:,} ms')]
        lines += [('pairs with an undefined time', f'{of["undefined_pairs"]:,}')]
        return html_table(lines, repr(self))

    def as_dict(self) -> dict[str, Any]:
        """By name, for a program to read."""
        return named_numbers(self.numbers)
