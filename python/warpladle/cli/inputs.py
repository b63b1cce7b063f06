"""The files that commands read: how they are named, opened and judged while they come."""
from __future__ import annotations

import argparse
import math
import mmap
import os
import stat
import sys
from collections.abc import Callable, Iterator
from typing import Any

from ..files import read_file, read_stream, refuse_to_overwrite, surely_come, told_of
from ..library import answer
from ..product import Product
from ..refusal import Refusal, Refused
from ..times import Time
from ..watch import Watch
from .output import BadUsage

READ_WHOLE = 64 << 20  # files below are read into memory, where no one can cut them short; larger ones are mapped
READ_SOON = 1 << 20  # of many files those below are read; others are mapped, in a process of its own
INPUTS = ('file', 'original', 'cut', 'record', 'what')  # arguments of commands that name one file to read
UTH_HEADER = 642  # bytes of a humidity file before its segments
STANDARD = '-'

_kept: dict[str, Any] = {}  # standard input, which can be read once


class TooLarge(Exception):
    """A file is to be mapped, and this process is not to do it."""


# ---- arguments that commands share


def add_json(parser: argparse.ArgumentParser) -> None:
    """--json."""
    parser.add_argument('--json', action='store_true', help='for a program to read')


def add_sparse(parser: argparse.ArgumentParser) -> None:
    """--sparse."""
    parser.add_argument(
        '--sparse',
        action='store_true',
        help='holes of a file are zeros that have come, not bytes that are still to come',
    )


def add_file(
    parser: argparse.ArgumentParser, name: str = 'file', text: str = 'a product, or - for standard input'
) -> None:
    """One file to read."""
    parser.add_argument(name, metavar=name.upper(), help=text)


def add_force(parser: argparse.ArgumentParser) -> None:
    """--force."""
    parser.add_argument('--force', action='store_true', help='replace an existing file')


def add_out(parser: argparse.ArgumentParser) -> None:
    """-o OUT, --force and -q of commands that write a product."""
    parser.add_argument('-o', '--out', metavar='OUT', required=True, help='the file to write, or - for standard output')
    add_force(parser)
    parser.add_argument('-q', '--quiet', action='store_true', help='no notes on standard error')


def add_files(parser: argparse.ArgumentParser, text: str) -> None:
    """Many files to read."""
    parser.add_argument('files', nargs='*', metavar='FILE', help=text)
    parser.add_argument(
        '-r',
        '--recursive',
        action='store_true',
        help='of a folder take all files in it and in its folders, but for hidden ones',
    )
    parser.add_argument(
        '--files-from', metavar='LIST', help='a file with more names, a line each, or - for standard input'
    )
    parser.add_argument('-0', '--null', action='store_true', help='the names in LIST end in a zero byte, not in a line')


def a_time(text: str) -> Time:
    """A time of the command line."""
    try:
        return Time.of(text)
    except Refused as refused:
        raise argparse.ArgumentTypeError(refused.words) from None
    except ValueError as error:
        raise argparse.ArgumentTypeError(str(error)) from None


def a_count(text: str) -> int:
    """A number of jobs."""
    if not text.isdecimal() or int(text) < 1:
        raise argparse.ArgumentTypeError(f'{text!r} is no number of 1 or more')
    return int(text)


def some_seconds(text: str) -> float:
    """A length of time."""
    try:
        seconds = float(text)
    except ValueError:
        seconds = math.nan
    if not seconds >= 0:
        raise argparse.ArgumentTypeError(f'{text!r} is no number of seconds of 0 or more')
    return seconds


# ---- which files


def named_files(args: argparse.Namespace) -> list[str]:
    """All files that were named: on the command line, in a list, in folders. A list is read once."""
    if 'named' not in args:
        args.named = _find_files(args)
    found: list[str] = args.named
    return found


def _find_files(args: argparse.Namespace) -> list[str]:
    names = [*args.files, *(_listed(args) if args.files_from is not None else ())]
    if not names:
        raise BadUsage('no file is named')
    if names.count(STANDARD) + (args.files_from == STANDARD) > 1:
        raise BadUsage('standard input can be read once')
    return [file for name in names for file in (_in_folder(name) if args.recursive and os.path.isdir(name) else [name])]


def _listed(args: argparse.Namespace) -> list[str]:
    if args.files_from == STANDARD:
        data = sys.stdin.buffer.read()
    else:
        with open(args.files_from, 'rb') as file:
            data = file.read()
    return [os.fsdecode(name) for name in data.split(b'\0' if args.null else b'\n') if name]


def _in_folder(folder: str) -> Iterator[str]:
    for path, folders, names in os.walk(folder):
        folders[:] = sorted(name for name in folders if not name.startswith('.'))
        yield from (
            os.path.join(path, name)
            for name in sorted(names)
            if not name.startswith('.') and os.path.isfile(os.path.join(path, name))
        )


def needs_child(args: argparse.Namespace) -> dict[str, int]:
    """The files of a command that are large enough to be mapped, with their sizes: while they are mapped a process of
    its own reads them. Commands that judge file after file have their own."""
    names = [value for name in INPUTS for value in [args.__dict__.get(name)] if isinstance(value, str)]
    if args.__dict__.get('is_guarded'):
        names += named_files(args)
    found = {}
    for name in names:
        if name != STANDARD and os.path.isfile(name) and os.stat(name).st_size >= READ_WHOLE:
            found[name] = os.stat(name).st_size
    return found


# ---- opened


class _Judge:
    """Whether what has come of a product is refused for good: by a watch, and beyond 64 pointers by the arrival judge,
    which is asked as often as what has come has doubled."""

    def __init__(self) -> None:
        self.watch: Watch | None = Watch()
        self.look = 0

    def is_refused(self, data: bytearray, part: bytes) -> bool:
        """With the next part, which is the end of the data already."""
        if self.watch is not None:
            try:
                self.watch.feed(part)
            except Refused as refused:
                if refused.number != Refusal.TOO_MANY_POINTERS:
                    return True
                self.watch = None
        if self.watch is None and len(data) >= self.look:
            self.look = 2 * len(data)
            return answer('arrival', data)[0] != 0
        return False


def is_no_humidity_file(data: bytearray, part: bytes) -> bool:
    """Whether every longer file that begins so is refused too."""
    if not len(data) - len(part) < UTH_HEADER <= len(data):  # asked once, when the header has come
        return False
    return answer('uth', data, bytearray(), bytearray())[0] not in (0, Refusal.ROOM, Refusal.UTH_CUT)


def open_input(name: str, *, sparse: bool = False, read_below: int = READ_WHOLE, may_map: bool = True) -> Product:
    """A product to be read: a file, read or from a size on mapped, up to where it has surely come; or standard input, a
    pipe or a device, as much as comes up to a refusal. Raises TooLarge for a file that is to be mapped and may not."""
    if name == STANDARD:
        if name not in _kept:
            with told_of('standard input'):
                _kept[name] = read_stream(sys.stdin.buffer.raw, _Judge().is_refused)  # type: ignore[attr-defined]
        return _named(Product(_kept[name]), name)
    handle = os.open(name, os.O_RDONLY | os.O_CLOEXEC)
    try:
        about = os.fstat(handle)
        if stat.S_ISREG(about.st_mode):
            return _open_file(name, handle, about, sparse, about.st_size >= read_below, may_map)
        with told_of(name), open(handle, 'rb', buffering=0, closefd=False) as file:
            return _named(Product(read_stream(file, _Judge().is_refused)), name)
    finally:
        os.close(handle)


def _open_file(name: str, handle: int, about: os.stat_result, sparse: bool, is_large: bool, may_map: bool) -> Product:
    if is_large and not may_map:
        raise TooLarge(name)
    # before the bytes are read: a hole that is filled later is then still known
    come = about.st_size if sparse else surely_come(handle, about)
    data = mmap.mmap(handle, 0, access=mmap.ACCESS_READ) if is_large else read_file(name, handle, about.st_size)
    product = _named(Product(data), name)
    return product if come == about.st_size else _before_hole(product, come)


def _named(product: Product, name: str) -> Product:
    product.path = name
    return product


def _before_hole(product: Product, come: int) -> Product:
    """The part of a product that has come, where its file has a hole. One that is accepted so far has bytes beyond its
    end."""
    part = _named(Product(memoryview(product.data)[:come]), product.path or '')
    part.hole = come
    return product if answer('verdict', part.data)[0] == 0 else part


def read_input(name: str, is_over: Callable[[bytearray, bytes], bool] = lambda data, part: False) -> Any:
    """The bytes of what is no product: a humidity file, or the record of an arrival."""
    if name == STANDARD:
        with told_of('standard input'):
            return read_stream(sys.stdin.buffer.raw, is_over)  # type: ignore[attr-defined]
    with told_of(name), open(name, 'rb', buffering=0) as file:
        about = os.fstat(file.fileno())
        return (
            read_file(name, file.fileno(), about.st_size) if stat.S_ISREG(about.st_mode) else read_stream(file, is_over)
        )


def is_stream(name: str) -> bool:
    """Whether it is standard input, or there and no regular file."""
    return name == STANDARD or os.path.exists(name) and not os.path.isfile(name)


def output_path(args: argparse.Namespace) -> str | None:
    """Where a new product is to be written, which is known to be free before work begins; None for standard output."""
    if args.out == STANDARD:
        return None
    refuse_to_overwrite(args.out, force=args.force)
    return str(args.out)
