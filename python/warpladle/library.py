"""The functions of include/warpladle.h, called in the shared library that `tools/archive` makes.

Each takes Python's numbers and buffers and gives the library's answer without its first two places, or raises
`Refused`. Nothing is copied: a buffer (bytes, a mapped file, a numpy array) is lent by its address for the time of the
call, during which other threads run.
"""
from __future__ import annotations

import ctypes
import operator
import os
from collections.abc import Callable
from pathlib import Path
from typing import Any

from .about import __version__
from .refusal import Refused

NAME = 'libwarpladle.so'
HERE = Path(__file__).resolve().parent


class LibraryMissing(ImportError):
    """The shared library is not there, or is not this machine's, or lacks a function."""


class _View(ctypes.Structure):
    """Python's own Py_buffer: with it a read-only mapping can be lent too, which `from_buffer` of ctypes does not
    take."""

    _fields_ = [
        ('address', ctypes.c_void_p),
        ('owner', ctypes.c_void_p),
        ('length', ctypes.c_ssize_t),
        ('item', ctypes.c_ssize_t),
        ('read_only', ctypes.c_int),
        ('dimensions', ctypes.c_int),
        ('format', ctypes.c_char_p),
        ('shape', ctypes.c_void_p),
        ('strides', ctypes.c_void_p),
        ('suboffsets', ctypes.c_void_p),
        ('internal', ctypes.c_void_p),
    ]


_take = ctypes.pythonapi.PyObject_GetBuffer
_take.argtypes = [ctypes.py_object, ctypes.POINTER(_View), ctypes.c_int]
_take.restype = ctypes.c_int
_give_back = ctypes.pythonapi.PyBuffer_Release
_give_back.argtypes = [ctypes.POINTER(_View)]
_give_back.restype = None

TO_READ, TO_WRITE = 0, 1
# a length of 0 may come with any address but NULL, aligned as its items are
_NOTHING = ctypes.c_uint64()


class _Lent:
    """A buffer, lent until `give_back`: its address, and how many items of `unit` bytes it has."""

    def __init__(self, buffer: Any, access: int, unit: int) -> None:
        self.view = _View()
        _take(buffer, self.view, access)
        self.count, rest = divmod(self.view.length, unit)
        if rest:
            self.give_back()
            raise ValueError(f'a buffer of {self.count * unit + rest} bytes has no whole number of items of {unit}')
        self.address = self.view.address if self.view.length else ctypes.addressof(_NOTHING)

    def give_back(self) -> None:
        _give_back(self.view)


def _whole(bits: int, signed: bool, kind: type) -> Callable[[Any], Any]:
    """A number as C takes it. ctypes alone would cut 65,536 to 0 without a word."""
    low, high = (-(1 << (bits - 1)), (1 << (bits - 1)) - 1) if signed else (0, (1 << bits) - 1)

    def convert(value: Any) -> Any:
        number = operator.index(value)
        if not low <= number <= high:
            raise OverflowError(f'{number} is not {low} to {high}')
        return kind(number)

    return convert


U8 = _whole(8, False, ctypes.c_uint8)
U16 = _whole(16, False, ctypes.c_uint16)
U32 = _whole(32, False, ctypes.c_uint32)
SIZE = _whole(64, False, ctypes.c_size_t)
I8 = _whole(8, True, ctypes.c_int8)
I64 = _whole(64, True, ctypes.c_int64)
# buffers: access, bytes to an item, and whether the count of items is handed over after the address
BYTES, ROOM = (TO_READ, 1, True), (TO_WRITE, 1, True)
ROWS, BLOCKS, VALUES = (TO_WRITE, 28, True), (TO_WRITE, 16, True), (TO_WRITE, 8, True)
LENGTHS = (TO_READ, 4, True)
STATE, SAME_STATE = (TO_WRITE, 1, False), (TO_READ, 1, False)
POINT = (TO_WRITE, 1, False)
TIME = (U8, U16, U32)
MOMENT = (U8, U16, U8, U8, U8, U8, U8, U16)

# what each function takes, and how many places its answer has
FUNCTIONS: dict[str, tuple[tuple[Any, ...], int]] = {
    'arrival': ((BYTES,), 4),
    'extent': ((BYTES,), 4),
    'verdict': ((BYTES,), 4),
    'rows': ((BYTES, ROWS), 4),
    'level0': ((BYTES, ROWS), 4),
    'watch_feed': ((STATE, BYTES), 4),
    'record': ((BYTES, SIZE), 16),
    'number_field': ((BYTES, SIZE), 4),
    'time_field': ((BYTES, SIZE), 12),
    'text_field': ((BYTES, SIZE), 4),
    'field': ((SIZE, ROOM), 6),
    'field_named': ((BYTES,), 4),
    'ground_point': ((BYTES, U8, POINT), 4),
    'listing': ((BYTES, ROOM), 4),
    'cut': ((BYTES, *TIME, *TIME, ROOM), 4),
    'join': ((BYTES, BYTES, ROOM), 4),
    'join_pass': ((BYTES, BYTES, ROOM), 4),
    'check_cut': ((BYTES, BYTES), 4),
    'uth': ((BYTES, BLOCKS, VALUES), 4),
    'report_add': ((STATE, BYTES), 4),
    'report_merge': ((STATE, SAME_STATE), 4),
    'replay': ((BYTES, BYTES), 4),
    'record_arrival': ((LENGTHS, BYTES, ROOM), 4),
    'read_header': ((BYTES, SIZE), 16),
    'write_header': ((ROOM, U8, U8, U8, U8, U32, *TIME, *TIME), 4),
    'write_text_line': ((ROOM, SIZE, BYTES), 4),
    'write_number_line': ((ROOM, SIZE, U8, I64), 4),
    'write_time_line': ((ROOM, SIZE, *MOMENT), 4),
    'is_date': ((U16, U8, U8), 4),
    'date_of': ((U16,), 6),
    'day_number': ((U16, U8, U8), 4),
    'read_time': ((BYTES, SIZE), 6),
    'write_time': ((ROOM, *TIME), 4),
    'time_order': ((*TIME, *TIME), 4),
    'time_text': ((ROOM, *TIME), 4),
    'text_time': ((BYTES, SIZE), 6),
    'read_scaled': ((BYTES, SIZE, SIZE, U8), 6),
    'write_scaled': ((ROOM, SIZE, U8, U8, I64, I8), 4),
    'round': ((U8, I64, I8, I8), 4),
    'reading': ((U8, I64, I8, POINT), 4),
}


class Watched(ctypes.Structure):
    """`wl_watch` of the header: the state of a watch, whose fields are the library's own."""

    _fields_ = (
        [(name, ctypes.c_uint64) for name in ('got', 'have', 'at', 'count', 'declared', 'due', 'place', 'next', 'line')]
        + [('previous', ctypes.c_uint8), ('number', ctypes.c_uint8)]
        + [(name, ctypes.c_uint64 * 9) for name in ('totals', 'tally')]
        + [(name, ctypes.c_uint32 * 64) for name in ('starts', 'targets', 'kinds')]
        + [('head', ctypes.c_uint8 * 3307), ('under', ctypes.c_uint8 * 27)]
    )


def places() -> list[Path]:
    """Where the shared library is looked for."""
    named = os.environ.get('WARPLADLE_LIBRARY')
    return [Path(named)] if named else [HERE / NAME, HERE.parent.parent / 'target' / NAME]


_loaded: dict[str, Any] = {}


def _hold(found: ctypes.CDLL, path: Path) -> None:
    """Refuses a library that lacks a function, before anything is asked of it."""
    missing = [f'wl_{name}' for name in [*FUNCTIONS, 'watch_new'] if not hasattr(found, f'wl_{name}')]
    if missing:
        more = f' and {len(missing) - 1} more' if missing[1:] else ''
        raise LibraryMissing(
            f'{path} is not the library of warpladle {__version__}, it has no {missing[0]}{more}: make it anew with'
            ' tools/archive'
        )


def _open() -> ctypes.CDLL:
    looked = places()
    for path in looked:
        if path.exists():
            try:
                found = ctypes.CDLL(str(path))
            except OSError as error:
                raise LibraryMissing(
                    f'{path} cannot be loaded ({error}); tools/archive makes one for this machine'
                ) from None
            _hold(found, path)
            return found
    raise LibraryMissing(
        f'there is no {" and no ".join(map(str, looked))}: make it with tools/archive, or name one in WARPLADLE_LIBRARY'
    )


def function(name: str) -> Any:
    """`wl_NAME` of the shared library, which is opened at the first call."""
    if name not in _loaded:
        if '' not in _loaded:
            _loaded[''] = _open()
        try:
            called = getattr(_loaded[''], 'wl_' + name)
        except AttributeError:
            raise LibraryMissing(f'{_loaded[""]._name} has no wl_{name}: make it anew with tools/archive') from None
        called.restype = None
        _loaded[name] = called
    return _loaded[name]


def answer(name: str, *given: Any) -> tuple[int, ...]:
    """The whole answer of `wl_NAME`: 0 or a refusal's number, then what the header says."""
    kinds, size = FUNCTIONS[name]
    called = function(name)
    lent: list[_Lent] = []
    values: list[Any] = []
    said = (ctypes.c_uint64 * size)()
    try:
        for kind, value in zip(kinds, given, strict=True):
            if isinstance(kind, tuple):
                access, unit, counted = kind
                lent.append(_Lent(value, access, unit))
                values.append(ctypes.c_void_p(lent[-1].address))
                if counted:
                    values.append(ctypes.c_size_t(lent[-1].count))
            else:
                values.append(kind(value))
        called(*values, said)
    finally:
        for one in lent:
            one.give_back()
    return tuple(said)


def ask(name: str, *given: Any, words: Callable[[int, int], str] | None = None) -> tuple[int, ...]:
    """The values of the answer of `wl_NAME`, or `Refused`; `words` says what a refusal means here."""
    number, place, *values = answer(name, *given)
    if number:
        raise Refused(number, place, words(number, place) if words else '')
    return tuple(values)


def signed(number: int) -> int:
    """A number of an answer that stands in two's complement."""
    return number - (1 << 64) if number >> 63 else number


def new_watch() -> Watched:
    """`wl_watch_new`."""
    state = Watched()
    function('watch_new')(ctypes.byref(state))
    return state
