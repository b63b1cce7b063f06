"""Many products at once: what each is, their sum, what is missing between them, and which are there twice.

A report of the library holds 4,096 products; an overview is a sum of reports, each of at most so many. What it says of
single files is a dictionary for each, as JSON has it, so that overviews are written, read and added.
"""
from __future__ import annotations

import ctypes
import zlib
from collections.abc import Callable, Iterable, Iterator
from typing import Any

from .files import CutShort
from .headers import HEAD
from .library import ask
from .product import Product
from .refusal import State
from .report import FULL, NUMBERS, Report, named_numbers, report_lines
from .summary import identity_of
from .times import Time, between

Entry = dict[str, Any]
SERIES = ('spacecraft', 'instrument', 'type', 'level')
ROUNDED = (
    1000  # milliseconds: SENSING times are whole seconds, so that less than this between two products says nothing
)
UNKNOWN = 'unknown'


def count_product(name: str, product: Product) -> Entry:
    """What a product adds: its state, its refusal, the library's 38 numbers, and what its main header says."""
    report = Report()
    refused = report.add(product)
    entry: Entry = {
        'file': name,
        'state': (refused.state if refused and refused.state else State.WHOLE).value,
        'bytes': product.size,
    }
    if refused is not None:
        entry['refusal'] = refused.as_dict()
    entry['numbers'] = report.numbers
    entry.update(header_of(product))
    return entry


def header_of(product: Product) -> Entry:
    """What the main header says that an overview asks for, where it can be read."""
    from .refusal import Refused

    try:
        return {**identity_of(product), 'header': f'{zlib.crc32(product.data[:HEAD]):08x}'}
    except Refused:
        return {}


def count_file(name: str, open_file: Callable[[str], Product] = Product) -> Entry:
    """What a file adds; of one that cannot be read, why."""
    try:
        product = open_file(name)
        try:
            return count_product(name, product)
        finally:
            product.close()
    except OSError as error:
        return unreadable(name, error)


def unreadable(name: str, error: OSError) -> Entry:
    """A file that cannot be read."""
    return {'file': name, 'state': 'error', 'error': {'words': error.strerror or str(error)}}


def count_files(names: list[str], *, sparse: bool = False) -> list[Entry]:
    """What files add, on a worker of a cluster."""
    from .cli.inputs import open_input

    return [count_file(name, lambda name: open_input(name, sparse=sparse)) for name in names]


def cut_short(name: str) -> Entry:
    """A file that was cut short while it was read."""
    return unreadable(name, CutShort(name))


class Overview:
    """Many products: each by its entry, in the order in which they were named."""

    def __init__(self, entries: Iterable[Entry] = ()) -> None:
        self.entries = list(entries)

    def of_state(self, state: str) -> list[Entry]:
        """The entries of a state: whole, incomplete, refused, or error for those that cannot be read."""
        return [entry for entry in self.entries if entry['state'] == state]

    @property
    def state(self) -> State:
        """Refused where one is, else incomplete where one is, else whole."""
        found = {entry['state'] for entry in self.entries}
        return next((state for state in (State.REFUSED, State.INCOMPLETE) if state.value in found), State.WHOLE)

    def reports(self) -> Iterator[Report]:
        """The library's reports of the products, each of at most 4,096."""
        lists = [entry['numbers'] for entry in self.entries if 'numbers' in entry]
        return (_merged(lists[at : at + FULL]) for at in range(0, len(lists), FULL))

    @property
    def numbers(self) -> list[int]:
        """The sum of the reports, which may pass 4,096 products and 64 bits."""
        return [sum(column) for column in zip(*(report.numbers for report in self.reports()))] or [0] * NUMBERS

    def by_day(self) -> dict[str, Overview]:
        """An overview for each day on which products start, by SENSING_START; those without one are of an unknown
        day."""
        days: dict[str, list[Entry]] = {}
        for entry in self.entries:
            days.setdefault((entry.get('sensing_start') or UNKNOWN)[:10], []).append(entry)
        return {day: Overview(days[day]) for day in sorted(days)}

    def series(self) -> dict[tuple[str, ...], list[Entry]]:
        """The whole products with both SENSING times, by spacecraft, instrument, type and level, in the order of
        time."""
        found: dict[tuple[str, ...], list[Entry]] = {}
        for entry in self.of_state('whole'):
            if entry.get('sensing_start') and entry.get('sensing_end'):
                found.setdefault(tuple(entry[name] for name in SERIES), []).append(entry)
        return {
            key: sorted(found[key], key=lambda entry: (entry['sensing_start'], entry['sensing_end']))
            for key in sorted(found)
        }

    def between_products(self) -> list[dict[str, Any]]:
        """Gaps and overlaps between products of one series that follow each other, by their SENSING times; those that
        are there twice count once."""
        return [found for key, entries in self.series().items() for found in _between(key, _each_once(entries))]

    def twice(self) -> list[dict[str, Any]]:
        """Products that are there more than once, by PRODUCT_NAME, and whether their main headers are the same."""
        named: dict[str, list[Entry]] = {}
        for entry in self.of_state('whole'):
            named.setdefault(entry['product_name'], []).append(entry)
        return [
            {
                'product_name': name,
                'files': [entry['file'] for entry in entries],
                'same_header': len({entry['header'] for entry in entries}) == 1,
            }
            for name, entries in named.items()
            if len(entries) > 1
        ]

    def as_dict(self) -> dict[str, Any]:
        """For a program to read, and to be added to another."""
        numbers = self.numbers
        return {
            **named_numbers(numbers),
            'state': self.state.value,
            'incomplete': len(self.of_state('incomplete')),
            'numbers': numbers,
            'between': self.between_products(),
            'twice': self.twice(),
            'unreadable': self.of_state('error'),
            'entries': self.entries,
        }

    def lines(self) -> list[str]:
        """For people."""
        lines = report_lines(named_numbers(self.numbers))
        lines += [
            f'{found["kind"]} of {found["ms"]} ms between {found["after"]} and'
            f' {found["before"]} ({" ".join(found["series"])}, {found["from"]} to {found["to"]})'
            for found in self.between_products()
        ]
        lines += [
            f'there {len(found["files"])} times:'
            f' {found["product_name"]}{"" if found["same_header"] else ", with other main headers"}:'
            f' {", ".join(found["files"])}'
            for found in self.twice()
        ]
        for state in ('incomplete', 'refused'):
            lines += [
                f'{state}: {entry["file"]}: {entry["refusal"]["number"]} {entry["refusal"]["place"]}:'
                f' {entry["refusal"]["words"]}'
                for entry in self.of_state(state)
            ]
        return lines


def _merged(lists: list[list[int]]) -> Report:
    """The report of some products, of the report of each."""
    report = Report()
    for numbers in lists:
        ask('report_merge', report._state, (ctypes.c_uint64 * NUMBERS)(*numbers))
    return report


def _each_once(entries: list[Entry]) -> list[Entry]:
    """The first entry of each product, by its name."""
    first: dict[str, Entry] = {}
    for entry in entries:
        first.setdefault(entry['product_name'], entry)
    return list(first.values())


def _between(key: tuple[str, ...], entries: list[Entry]) -> Iterator[dict[str, Any]]:
    """Of one series: from the latest end so far to the next start."""
    last: Entry | None = None
    for entry in entries:
        if last is not None:
            length = between(Time.of(last['sensing_end']), Time.of(entry['sensing_start']))
            if abs(length) > ROUNDED:
                times = sorted((last['sensing_end'], entry['sensing_start']))
                yield {
                    'kind': 'gap' if length > 0 else 'overlap',
                    'ms': abs(length),
                    'series': list(key),
                    'after': last['file'],
                    'before': entry['file'],
                    'from': times[0],
                    'to': times[1],
                }
        last = entry if last is None or entry['sensing_end'] > last['sensing_end'] else last
