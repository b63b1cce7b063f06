"""A product: its verdict, its records and fields, and the new products that are made of it."""
from __future__ import annotations

import array
import ctypes
import functools
import mmap
import os
import struct
from collections.abc import Callable, Iterator
from datetime import datetime
from typing import TYPE_CHECKING, Any, NamedTuple, Protocol, overload

from . import words
from .files import Buffer, PathLike, beside, map_file, read_stream, room_of
from .headers import (
    COUNT,
    HEADER,
    SIGNED,
    TEXT,
    UNSIGNED,
    Field,
    Record,
    RecordClass,
    all_fields,
    field,
    field_number,
    read_header,
    record_of,
)
from .library import ask, signed
from .refusal import Refusal, Refused, State
from .times import Moment, Time, TimeLike, moment_of, time_arguments

if TYPE_CHECKING:
    import numpy
    import numpy.typing

    from .drawing import Picture

COLUMNS = ('start', 'size', 'class', 'group', 'subclass', 'version', 'ordinal')
ROW = [(name, 'u4') for name in COLUMNS]
TIMES = [('start', 'M8[ms]'), ('stop', 'M8[ms]')]
DAY_ZERO = 946_684_800_000  # 1 January 2000, in milliseconds from 1 January 1970

Value = int | str | datetime | Moment | None


class NoNumpy(ImportError):
    """What was asked for needs numpy, which is not installed."""


class Readable(Protocol):
    """A file object, or whatever else gives bytes."""

    def read(self, size: int, /) -> bytes:
        """The next bytes, at most so many; none at the end."""


class GroundPoint(NamedTuple):
    """The point below the satellite, in degrees."""

    latitude: float
    longitude: float


class Row(NamedTuple):
    """A record as the library lists it; `ordinal` counts the records before it of its class, group and subclass."""

    start: int
    size: int
    class_: int
    group: int
    subclass: int
    version: int
    ordinal: int


def import_numpy() -> Any:
    """numpy, or a line that says how to get it."""
    try:
        import numpy
    except ImportError as error:
        raise NoNumpy(f'this needs numpy, which is not installed here (Debian: python3-numpy): {error}') from None
    return numpy


class Product:
    """A product in a file, which is mapped and not read, or in lent bytes, which are not copied.

    A text or a path is a file's name; what has a buffer is the product's bytes (a `bytes` too: it is no name); what has
    `read` is read to its end. Every answer is the library's; a refusal is `Refused`. The bytes must not change, and the
    file must not be cut short, while the product is in use; use `Watch` for one that still arrives. `close`, or a
    `with`, lets go of the file. A product is pickled by its path where it has one.
    """

    def __init__(self, source: PathLike | Buffer | Readable) -> None:
        self.path: str | None = os.fspath(source) if isinstance(source, (str, os.PathLike)) else None
        self._data: Any = map_file(self.path) if self.path is not None else _bytes(source)
        self.size: int = len(self._data)
        self.hole: int | None = None  # from where on the file's bytes have not surely come; the command sets it

    # ---- a thing of Python

    @property
    def data(self) -> Any:
        """The product's bytes, as they were lent or mapped."""
        if self._data is None:
            raise ValueError('the product is closed')
        return self._data

    def close(self) -> None:
        """Lets go of the file or the bytes. Views of its payload keep them."""
        for name in ('rows', 'times', '_row_room'):
            self.__dict__.pop(name, None)
        if isinstance(self._data, mmap.mmap) and self.path is not None:
            try:
                self._data.close()
            except BufferError:  # a view of it is still in use; the mapping goes with the last
                pass
        self._data = None

    def __enter__(self) -> Product:
        return self

    def __exit__(self, *_: object) -> None:
        self.close()

    def __repr__(self) -> str:
        return f'Product({self.path!r})' if self.path is not None else f'Product(<{self.size} bytes>)'

    def __reduce__(self) -> tuple[Any, ...]:
        return Product, (os.path.abspath(self.path) if self.path is not None else bytes(self.data),)

    def __bytes__(self) -> bytes:
        return bytes(self.data)

    def __bool__(self) -> bool:
        return True

    def __len__(self) -> int:
        return len(self._row_room) // len(COLUMNS)

    def __iter__(self) -> Iterator[Record]:
        return self.records()

    @overload
    def __getitem__(self, k: int) -> Record:
        ...

    @overload
    def __getitem__(self, k: slice) -> list[Record]:
        ...

    def __getitem__(self, k: int | slice) -> Record | list[Record]:
        if isinstance(k, slice):
            return [read_header(self.data, self.row(j).start) for j in range(*k.indices(len(self)))]
        return read_header(self.data, self.row(k).start)

    def _repr_html_(self) -> str:
        from .summary import html_of_product

        return html_of_product(self)

    def picture(self, suffix: str = 'svg') -> Picture:
        """The records along the bytes, and the MDRs along time: of a refused or incomplete product up to its place."""
        from .drawing import Picture
        from .picture import picture_of_product

        return Picture(picture_of_product(self, suffix), suffix)

    # ---- judged

    def _words(self, number: int, place: int) -> str:
        said = words.of_product(self.data)(number, place)
        if number == Refusal.UNFINISHED and self.hole is not None:
            return f'{said}; the file has a hole, and its bytes from {self.hole} on have not surely come'
        return said

    def _ask(self, name: str, *given: Any) -> tuple[int, ...]:
        return ask(name, self.data, *given, words=self._words)

    @property
    def verdict(self) -> int:
        """How many records the finished product has.

        Raises Refused: 1 to 17.
        """
        return self._ask('verdict')[0]

    @property
    def state(self) -> State:
        """Whole, incomplete or refused."""
        try:
            self.verdict
        except Refused as refused:
            return refused.state or State.REFUSED
        return State.WHOLE

    @property
    def extent(self) -> int | None:
        """How many records it has where all of it has come, and None where a sound part has.

        Raises Refused: 1 to 16.
        """
        come, count = self._ask('extent')
        return count if come else None

    @functools.cached_property
    def _row_room(self) -> array.array[int]:
        """The rows as the library writes them, seven numbers each; numpy is not needed for it."""
        return self._filled('rows')

    def _filled(self, name: str) -> array.array[int]:
        room = array.array('I', bytes(4 * len(COLUMNS) * self.verdict))
        self._ask(name, room)
        return room

    def row(self, k: int) -> Row:
        """The row of record k, counted from 0, or from the end where it is negative.

        Raises Refused: 1 to 17. Raises IndexError where there is no such record.
        """
        at = range(len(self))[k] * len(COLUMNS)
        return Row(*self._row_room[at : at + len(COLUMNS)])

    def row_tuples(self) -> Iterator[tuple[int, ...]]:
        """The rows as tuples, in the order of `COLUMNS`; numpy is not needed for it.

        Raises Refused: 1 to 17.
        """
        return struct.iter_unpack(f'={len(COLUMNS)}I', self._row_room)

    @functools.cached_property
    def rows(self) -> numpy.typing.NDArray[numpy.void]:
        """A row for each record, filled in place by the library: start, size, class, group, subclass, version, and the
        ordinal among the records of its class, group and subclass.

        Raises Refused: 1 to 17.
        """
        return as_rows(self._row_room)

    def level0(self) -> numpy.typing.NDArray[numpy.void]:
        """The same rows of a product that keeps to the Level 0 profile.

        Raises Refused: 1 to 17; 29 for a record against the profile.
        """
        return as_rows(self._filled('level0'))

    def check_level0(self) -> int:
        """How many records a product has that keeps to the Level 0 profile; numpy is not needed for it.

        Raises Refused: 1 to 17; 29 for a record against the profile.
        """
        return len(self._filled('level0')) // len(COLUMNS)

    def listing(self) -> str:
        """The records as text: their count, and a line for each with start, class, group, subclass, version and size.

        It is made from the rows, since the library's own listing (`library_listing`) takes up to 65,536 bytes; the
        tests hold each against the other.

        Raises Refused: 1 to 17.
        """
        lines = [
            '%d %d %d %d %d %d\n' % (start, class_, group, subclass, version, size)
            for start, size, class_, group, subclass, version, _ in self.row_tuples()
        ]
        return f'records {len(lines)}\n' + ''.join(lines)

    def library_listing(self) -> str:
        """The same from the library itself.

        Raises Refused: 23 for more than 65,536 bytes; 1 to 17.
        """
        room = bytearray(131072)
        return room[: self._ask('listing', room)[0]].decode('ascii')

    # ---- asked

    def record(self, k: int) -> Record:
        """Record k, counted from 0, of a product that may still arrive. The library walks to it: for many take
        `records`.

        Raises Refused: 1 to 16; 19 where there is no such record yet.
        """

        def said(number: int, place: int) -> str:
            return (
                f'expected record {k}, found {place} records'
                if number == Refusal.NO_RECORD
                else self._words(number, place)
            )

        return record_of(ask('record', self.data, k, words=said))

    def records(self) -> Iterator[Record]:
        """Each record with its times, in order.

        Raises Refused: 1 to 17.
        """
        return (read_header(self.data, row[0]) for row in self.row_tuples())

    def mdrs(self) -> Iterator[Record]:
        """Each MDR with its times, in order.

        Raises Refused: 1 to 17.
        """
        return (read_header(self.data, row[0]) for row in self.row_tuples() if row[2] == RecordClass.MDR)

    def payload(self, k: int) -> memoryview:
        """The bytes of record k after its header, which are not copied.

        Raises Refused: 1 to 17. Raises IndexError where there is no such record.
        """
        row = self.row(k)
        return memoryview(self.data)[row.start + HEADER : row.start + row.size]

    def mdr_bytes(self, group: int | None = None, subclass: int | None = None) -> numpy.typing.NDArray[numpy.uint8]:
        """The MDRs, or those of a group and subclass, as a table of bytes: a line for each, its header with it. It is a
        view of the product's own bytes; nothing is copied.

        Raises Refused: 1 to 17. Raises ValueError where they are not of one size and at one distance.
        """
        np = import_numpy()
        rows = self.rows[self.rows['class'] == RecordClass.MDR]
        for name, wanted in (('group', group), ('subclass', subclass)):
            rows = rows if wanted is None else rows[rows[name] == wanted]
        starts, sizes = rows['start'].astype('i8'), rows['size'].astype('i8')
        steps = np.diff(starts)
        if len(rows) and (sizes != sizes[0]).any():
            raise ValueError(f'the MDRs are of {len(set(sizes.tolist()))} sizes; name a group and a subclass')
        if len(steps) and (steps != steps[0]).any():
            raise ValueError('the MDRs are not at one distance from each other; name a group and a subclass')
        first, size = (int(starts[0]), int(sizes[0])) if len(rows) else (0, 0)
        strides = (int(steps[0]) if len(steps) else size, 1)
        found: numpy.typing.NDArray[numpy.uint8] = np.ndarray((len(rows), size), 'u1', self.data, first, strides)
        return found

    def _day_times(self) -> Any:
        """Day and millisecond of both times of every record, as they stand in bytes 8 to 19 of its header."""
        numpy = import_numpy()
        raw = numpy.ndarray((self.size - HEADER + 1,), 'V12', self.data, 8, (1,))[self.rows['start']]
        return raw.view([('start_day', '>u2'), ('start', '>u4'), ('stop_day', '>u2'), ('stop', '>u4')])

    @functools.cached_property
    def times(self) -> numpy.typing.NDArray[numpy.void]:
        """The times of each record, in columns `start` and `stop` of datetime64[ms], NaT where one is undefined. A leap
        second, which numpy has no place for, is the first second of the next day.

        Raises Refused: 1 to 17.
        """
        np = import_numpy()
        parts = self._day_times()
        found: numpy.typing.NDArray[numpy.void] = np.empty(len(parts), TIMES)
        for name in ('start', 'stop'):
            day, milli = parts[name + '_day'].astype('i8'), parts[name].astype('i8')
            found[name] = (DAY_ZERO + 86_400_000 * day + milli).view('M8[ms]')
            found[name][(day == 0xFFFF) & (milli == 0xFFFFFFFF)] = np.datetime64('NaT')
        found.flags.writeable = False
        return found

    def rows_with_times(self) -> numpy.typing.NDArray[numpy.void]:
        """The rows with two columns more, `start_time` and `stop_time`, as `times` has them.

        Raises Refused: 1 to 17.
        """
        columns = [*ROW, ('start_time', 'M8[ms]'), ('stop_time', 'M8[ms]')]
        found: numpy.typing.NDArray[numpy.void] = import_numpy().empty(len(self), columns)
        for name in COLUMNS:
            found[name] = self.rows[name]
        found['start_time'], found['stop_time'] = self.times['start'], self.times['stop']
        return found

    def field(self, name: str) -> Value:
        """A field of the main header: a number, a text with its padding, a time as a `datetime` in UTC, or None where
        it is undefined. A leap second and the year 0, which a `datetime` cannot hold, come as a `Moment`.

        Raises Refused: 1 to 6, 10, 15, 17 of the main header; 22 where there is no such field.
        """
        return self._value(field(field_number(name)))

    def number(self, name: str) -> int | None:
        """A field that is a number. Raises TypeError where it is none; else as `field`."""
        value = self.field(name)
        if value is not None and not isinstance(value, int):
            raise TypeError(f'{name} is no number')
        return value

    def text(self, name: str) -> str:
        """A field that is a text, without its padding. Raises TypeError where it is none; else as `field`."""
        value = self.field(name)
        if not isinstance(value, str):
            raise TypeError(f'{name} is no text')
        return value.strip()

    def time(self, name: str) -> datetime | Moment | None:
        """A field that is a time. Raises TypeError where it is none; else as `field`."""
        value = self.field(name)
        if value is not None and not isinstance(value, (datetime, Moment)):
            raise TypeError(f'{name} is no time')
        return value

    @property
    def fields(self) -> dict[str, Value]:
        """All 72 fields, in their order."""
        return {line.name: self._value(line) for line in all_fields()}

    def _value(self, line: Field) -> Value:
        if line.kind == TEXT:
            start, width = self._ask('text_field', line.number)
            return bytes(self.data[start : start + width]).decode('ascii')
        if line.kind in (UNSIGNED, COUNT, SIGNED):
            defined, number = self._ask('number_field', line.number)
            return signed(number) if defined else None
        defined, *numbers = self._ask('time_field', line.number)
        return moment_of(tuple(numbers[:7])) if defined else None

    def ground_point(self, which: str = 'start') -> GroundPoint | None:
        """The point below the satellite at the product's 'start' or 'end', as its main header has it; None where it is
        undefined. A cut keeps both points of the whole product. A join keeps both of its first product, so that its
        'end' is the point where the first one ends.

        Raises Refused: 1 to 6, 10, 15, 17 of the main header.
        """
        if which not in ('start', 'end'):
            raise ValueError(f"{which!r} is neither 'start' nor 'end'")
        point = (ctypes.c_double * 2)()
        there = self._ask('ground_point', which == 'end', point)[0]
        return GroundPoint(*point) if there else None

    # ---- made anew

    def cut(
        self, first: TimeLike | None, last: TimeLike | None, out: PathLike | None = None, *, force: bool = False
    ) -> Product:
        """The cut to the MDRs that start in the window, both ends in: in memory, or in a new file where `out` names
        one. It keeps the orbits and ground points of the whole product.

        Raises Refused: 25 for a window that ends before it starts; 1 to 17; 28 where the result is too large.
        """
        ends = [None if end is None else Time.of(end) for end in (first, last)]

        def said(number: int, place: int) -> str:
            if number != Refusal.WINDOW:
                return self._words(number, place)
            shown = ' to '.join('undefined' if end is None else words.time_words(end.day, end.milli) for end in ends)
            return f'expected a window of two times, the first not after the last, found {shown}'

        write = functools.partial(written, 'cut', said, self.data, *time_arguments(ends[0]), *time_arguments(ends[1]))
        return write_product(write, out, force=force)

    def join(
        self, other: Product, out: PathLike | None = None, *, identical: bool = False, force: bool = False
    ) -> Product:
        """This product and the other, which follows it, as one: two granules of a pass. With `identical` their SPHR and
        global records must be the same in every byte, the times in their headers too, as request Seven has it. The
        result keeps this one's ORBIT_END, SUBSAT_LATITUDE_END, SUBSAT_LONGITUDE_END and SENSING_END_THEORETICAL.

        Raises Refused: 1 to 17 of this one and then of the other; 26 where they are unlike; 27 where the other starts
        before this one stops (by more than a millisecond; with `identical` by anything); 28 where the result is too
        large.
        """
        from .join import join_two

        return join_two(self, other, out, identical=identical, force=force)

    def is_cut_of(self, original: Product) -> bool:
        """Whether this is a cut of the original.

        Raises Refused: 1 to 17 of the original and then of this.
        """
        return self.mismatch_with(original) is None

    def mismatch_with(self, original: Product) -> int | None:
        """None where this is a cut of the original, else the place that shows that it is not: 0 for a line of the main
        header, the start of a record that cannot be matched, or this one's length where one of the original's is
        missing.

        Raises Refused: 1 to 17 of the original and then of this.
        """
        with named_inputs(('the original', original), ('the cut', self)):
            yes, place = ask('check_cut', original.data, self.data)
        return None if yes else place


# ---- how products are lent, made and told apart


def _bytes(source: Any) -> Any:
    """A buffer whose items are bytes, lent or read."""
    if isinstance(source, (bytes, bytearray, mmap.mmap)):
        return source
    if hasattr(source, 'read') and not isinstance(source, memoryview):
        return read_stream(source)
    return memoryview(source).cast('B')


def as_rows(room: array.array[int]) -> numpy.typing.NDArray[numpy.void]:
    """Rows as the library wrote them, as an array of numpy that cannot be written."""
    rows: numpy.typing.NDArray[numpy.void] = import_numpy().frombuffer(room, ROW)
    rows.flags.writeable = False
    return rows


class named_inputs:
    """Within it a refusal 1 to 17 of several products is told as that of the first that is refused, by its name."""

    def __init__(self, *inputs: tuple[str, Product]) -> None:
        self.inputs = inputs

    def __enter__(self) -> None:
        return None

    def __exit__(self, kind: Any, refused: BaseException | None, trace: Any) -> None:
        if not isinstance(refused, Refused) or refused.number > Refusal.UNFINISHED:
            return
        for name, product in self.inputs:
            number, place, *_ = _verdict(product)
            if number:
                raise Refused(number, place, f'{name}: {product._words(number, place)}', (name,)) from None


def _verdict(product: Product) -> tuple[int, ...]:
    from .library import answer

    return answer('verdict', product.data)


def written(name: str, said: words.Words | None, *given: Any) -> int:
    """The bytes that a function of the library wrote into the room, which comes last."""
    return ask(name, *given, words=said)[0]


def room_needed(write: Callable[[Any], int]) -> int:
    """How many bytes a writer needs: lent none, it refuses with 18 and says so."""
    try:
        return write(bytearray())
    except Refused as refused:
        if refused.number != Refusal.ROOM:
            raise
        return refused.place


def write_into(room: mmap.mmap, write: Callable[[Any], int]) -> None:
    """Writes the whole room."""
    count = write(room)
    if count != len(room):
        raise RuntimeError(
            f'{count} bytes were written where {len(room)} were needed: what was lent has changed meanwhile'
        )


def write_product(
    write: Callable[[Any], int], out: PathLike | None = None, *, force: bool = False, folder: PathLike | None = None
) -> Product:
    """What a writer writes, as a product: in memory, in the file `out`, or in a nameless file of the folder."""
    size = room_needed(write)
    if out is None:
        room = room_of(size, folder)
        write_into(room, write)
        return Product(room)
    with beside(out, size, force=force) as room:
        write_into(room, write)
    return Product(out)
