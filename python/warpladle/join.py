"""Products that follow each other joined into one, and what stands in the way where they cannot be."""
from __future__ import annotations

import functools
import os
from collections.abc import Callable, Iterable
from typing import Any, NamedTuple

from .files import PathLike
from .headers import HEADER, RecordClass, class_name, read_header
from .product import Product, Row, named_inputs, write_product, written
from .refusal import Refusal, Refused
from .times import Time, between

# the lines that two products must have alike (request Seven)
FOUR = ('INSTRUMENT_ID', 'PRODUCT_TYPE', 'PROCESSING_LEVEL', 'SPACECRAFT_ID')
# the lines of the end that a join takes from the first product
KEPT = ('ORBIT_END', 'SUBSAT_LATITUDE_END', 'SUBSAT_LONGITUDE_END', 'SENSING_END_THEORETICAL')
# the SPHR and the global records, which two products must have alike
FIXED = (RecordClass.SPHR, RecordClass.GEADR, RecordClass.GIADR)
TIMES = range(8, HEADER)  # the bytes of a header with its two times, which are those of its own product (002, Table 15)
GAP = 1000  # milliseconds between two granules beyond which a user is told
ONLY_TIMES = (
    'only the times of headers differ, which are those of their own product; --identical was asked for (identical=True)'
)
ALLOWED = 1  # milliseconds by which granules of a pass may overlap, since times are rounded (002, 4.2.1.2.3)
PARTS = (
    (1, 'the class'),
    (2, 'the group'),
    (3, 'the subclass'),
    (4, 'the version'),
    (8, 'the size'),
    (14, 'the start time'),
    (HEADER, 'the stop time'),
)


class Source(NamedTuple):
    """A product to be joined: its name in messages, how it is opened, and whether it is closed when it is done with."""

    name: str
    open: Callable[[], Product]
    is_ours: bool = True


class _Span:
    """Neighbours that are one product already: which they are, and the product."""

    def __init__(self, sources: tuple[Source, ...], product: Product) -> None:
        self.sources = sources
        self.product = product

    def close(self) -> None:
        """Lets go of the product, unless it is the caller's."""
        if len(self.sources) > 1 or self.sources[0].is_ours:
            self.product.close()


def join_two(
    first: Product, second: Product, out: PathLike | None = None, *, identical: bool = False, force: bool = False
) -> Product:
    """Two products as one; `Product.join` says more."""
    sources = [
        Source(name, lambda product=product: product, False)  # type: ignore[misc]
        for name, product in (('the first', first), ('the second', second))
    ]
    return join_sources(sources, out, identical=identical, force=force)


def join_all(
    products: Iterable[Product | PathLike], out: PathLike | None = None, *, identical: bool = False, force: bool = False
) -> Product:
    """The products, or the files of these names, which follow each other, as one; in memory, or in a new file where
    `out` names one. Files are opened as they are needed, so that there may be any number.

    Neighbours are joined first, pairs and then pairs of pairs, which copies less than joining them one after the other
    and gives the same bytes, by the law of trees of joins (`trees-same`); where one way is refused the other may not
    be.

    Raises Refused: as `Product.join`; `inputs` has the names of the files at fault.
    """
    return join_sources(
        [_source_of(k, product) for k, product in enumerate(products)], out, identical=identical, force=force
    )


def _source_of(k: int, product: Product | PathLike) -> Source:
    if isinstance(product, Product):
        given = product
        return Source(given.path or f'product {k}', lambda: given, False)
    path = os.fspath(product)
    return Source(path, lambda: Product(path))


def join_sources(
    sources: list[Source], out: PathLike | None = None, *, identical: bool = False, force: bool = False
) -> Product:
    """As `join_all`, with names of their own."""
    if len(sources) < 2:
        raise ValueError('a join has two products at least')
    tree = _Tree(len(sources), identical, out, force)
    for source in sources:
        tree.add(source)
    return tree.finish()


class _Tree:
    """Products that are joined as they come, neighbours of one length first. Each span has more sources than those
    after it, so that few are open at a time."""

    def __init__(self, count: int, identical: bool, out: PathLike | None, force: bool) -> None:
        self.count, self.identical = count, identical
        self.last: dict[str, Any] = {'out': out, 'force': force}
        self.others = {'folder': None if out is None else os.path.dirname(os.path.realpath(out))}
        self.spans: list[_Span] = []

    def add(self, source: Source) -> None:
        """The next product, joined with what stands before it while that is as long."""
        self.spans.append(_Span((source,), source.open()))
        while len(self.spans) > 1 and len(self.spans[-2].sources) == len(self.spans[-1].sources):
            self._merge()

    def finish(self) -> Product:
        """All of them as one."""
        while len(self.spans) > 1:
            self._merge()
        return self.spans[0].product

    def _merge(self) -> None:
        """The last two as one: where they are all there are, in the place that was asked for."""
        second, first = self.spans.pop(), self.spans.pop()
        both = first.sources + second.sources
        place = self.last if len(both) == self.count else self.others
        self.spans.append(_Span(both, _join_spans(first, second, self.identical, place)))
        first.close()
        second.close()


def _join_spans(first: _Span, second: _Span, identical: bool, place: dict[str, Any]) -> Product:
    write = functools.partial(
        written, 'join' if identical else 'join_pass', None, first.product.data, second.product.data
    )
    try:
        with named_inputs((first.sources[0].name, first.product), (second.sources[0].name, second.product)):
            return write_product(write, **place)
    except Refused as refused:
        if refused.number == Refusal.UNLIKE:
            raise _unlike(first.sources[0], second.sources[0], identical) from None
        if refused.number == Refusal.OUT_OF_TIME:
            raise _out_of_time(first.sources, second.sources, identical) from None
        if refused.number == Refusal.RESULT_LIMIT:
            raise _too_large(first, second, refused) from None
        raise


# ---- 26


def _unlike(first: Source, second: Source, identical: bool) -> Refused:
    """What two products differ in: their lines and global records are those of the first of their spans."""
    names = first.name, second.name
    one, other = first.open(), second.open()
    found = unlike_lines(one, other, names) or unlike_records(one, other, names, identical)
    return Refused(Refusal.UNLIKE, 0, f'expected two products of one kind, found {found}', names)


def unlike_lines(first: Product, second: Product, names: tuple[str, str]) -> str:
    """The lines of the four that differ, with both values."""
    return ', '.join(
        f'{name} {first.field(name)!r} of {names[0]} and {second.field(name)!r} of {names[1]}'
        for name in FOUR
        if first.field(name) != second.field(name)
    )


class _Fixed(NamedTuple):
    """An SPHR or a global record: its row, which of its class it is, and its bytes."""

    row: Row
    which: int
    data: bytes

    def words(self, name: str) -> str:
        """Its class, which of its class and of its kind it is, and its place in the product of this name."""
        kind = f'number {self.row.ordinal + 1} of group {self.row.group}, subclass {self.row.subclass}'
        return f'{class_name(self.row.class_)} {self.which} of {name} ({kind}), at {self.row.start}'


def _fixed(product: Product) -> list[_Fixed]:
    """The SPHR and the global records of a product."""
    count: dict[int, int] = {}
    found = []
    for row in (Row(*numbers) for numbers in product.row_tuples()):
        count[row.class_] = count.get(row.class_, 0) + 1
        if row.class_ in FIXED:
            found.append(_Fixed(row, count[row.class_], bytes(product.data[row.start : row.start + row.size])))
    return found


def unlike_records(first: Product, second: Product, names: tuple[str, str], identical: bool) -> str:
    """The first of the SPHR and the global records that differs: its name, its place in each, the first byte."""
    ours, theirs = _fixed(first), _fixed(second)
    differing = [(one, other) for one, other in zip(ours, theirs) if one.data != other.data]
    for one, other in differing:
        if first_difference(one.data, other.data, True) is not None:
            return _pair_words(one, other, names, first_difference(one.data, other.data, not identical))
    if len(ours) != len(theirs):
        longer, name, other_name = (ours, *names) if len(ours) > len(theirs) else (theirs, *names[::-1])
        return f'{longer[min(len(ours), len(theirs))].words(name)}, with none beside it in {other_name}'
    one, other = differing[0]
    return f'{_pair_words(one, other, names, first_difference(one.data, other.data, False))}; {ONLY_TIMES}'


def _pair_words(one: _Fixed, other: _Fixed, names: tuple[str, str], at: int | None) -> str:
    both = f'{one.words(names[0])}, and {other.words(names[1])}'
    return f'{both}, which differ from byte {at} of the record on ({part_name(at or 0)})'


def part_name(at: int) -> str:
    """What stands at a byte of a record."""
    return next((name for end, name in PARTS if at < end), f'byte {at - HEADER} of the payload')


def first_difference(one: bytes, other: bytes, ignore_times: bool) -> int | None:
    """The first byte in which two records differ, with or without the times of their headers; None where they are the
    same."""
    if ignore_times:
        one, other = (record[: TIMES.start] + bytes(len(TIMES)) + record[TIMES.stop :] for record in (one, other))
    if one == other:
        return None
    return next((k for k, (a, b) in enumerate(zip(one, other)) if a != b), min(len(one), len(other)))


# ---- 27 and 28


def last_stop(product: Product) -> Time | None:
    """The last defined stop of an MDR, in record order."""
    for k in range(len(product) - 1, -1, -1):
        record = read_header(product.data, product.row(k).start)
        if record.class_ != RecordClass.MDR:
            return None
        if record.stop_time is not None:
            return record.stop_time
    return None


def first_start(product: Product) -> Time | None:
    """The first defined start of an MDR, in record order."""
    return next((record.start_time for record in product.mdrs() if record.start_time is not None), None)


def _found_in(sources: Iterable[Source], find: Callable[[Product], Time | None]) -> tuple[str, Time]:
    """The first of the products in which a time is found, by name, and the time."""
    for source in sources:
        product = source.open()
        time = find(product)
        if source.is_ours:
            product.close()
        if time is not None:
            return source.name, time
    raise RuntimeError('a product has changed while it was read')


def _out_of_time(first: tuple[Source, ...], second: tuple[Source, ...], identical: bool) -> Refused:
    """By how much the second starts before the first stops, and which files these are."""
    (stops, stop), (starts, start) = _found_in(reversed(first), last_stop), _found_in(second, first_start)
    allowed = '' if identical else f', or {ALLOWED} ms before'
    said = (
        f'expected {starts} to start at {stop.isoformat()} or later{allowed}, where {stops} stops, '
        f'found {start.isoformat()}, {between(start, stop)} ms before'
    )
    return Refused(Refusal.OUT_OF_TIME, 0, said, (stops, starts))


def _too_large(first: _Span, second: _Span, refused: Refused) -> Refused:
    spans = [
        span.sources[0].name if len(span.sources) == 1 else f'{span.sources[0].name} to {span.sources[-1].name}'
        for span in (first, second)
    ]
    inputs = (first.sources[-1].name, second.sources[0].name)
    return Refused(refused.number, refused.place, f'{spans[0]} with {spans[1]}: {refused.words}', inputs)


# ---- what a join carries over without a word


def notes_of_join(sources: list[Source]) -> list[str]:
    """What someone should know of these joined in their order: gaps between them, and the ends that are the first's."""
    notes, stop, stopped, kept = [], None, '', None
    for source in sources:
        product = source.open()
        start = first_start(product)
        if stop is not None and start is not None and between(stop, start) > GAP:
            notes.append(
                f'{between(stop, start)} ms are missing between {stopped}, which stops at {stop.isoformat()}, '
                f'and {source.name}, which starts at {start.isoformat()}'
            )
        found = last_stop(product)
        stop, stopped = (stop, stopped) if found is None else (found, source.name)
        ends = {name: product.field(name) for name in KEPT}
        kept = kept or ends
        if source.is_ours:
            product.close()
    differing = [name for name in KEPT if kept is not None and ends[name] != kept[name]]
    if differing:
        notes.append(
            f'{", ".join(differing)} of the result are those of {sources[0].name}, not of {sources[-1].name}, as'
            ' request Seven has it'
        )
    return notes
