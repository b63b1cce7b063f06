"""Files: mapped or read, what of them has come, and written beside their place."""
from __future__ import annotations

import errno
import mmap
import os
import stat
import tempfile
from collections.abc import Callable, Iterator
from contextlib import contextmanager
from typing import Any

PathLike = str | os.PathLike[str]
Buffer = bytes | bytearray | memoryview | mmap.mmap

MOST = 1 << 31  # a product has fewer bytes
PART = 1 << 16  # bytes of a stream that are read at a time
AT_ONCE = 1 << 26  # bytes of a file that are read at a time
BLOCK = 4096  # the least that a file system writes at once, where it does not say


class CutShort(OSError):
    """A file became shorter while it was read."""

    def __init__(self, path: str) -> None:
        super().__init__(errno.EIO, 'it was cut short while it was read', path)

    def __reduce__(self) -> tuple[Any, ...]:
        return CutShort, (self.filename,)


# ---- read


def map_file(path: PathLike) -> Buffer:
    """The bytes of a file, mapped and not read; of a pipe or a device, which cannot be mapped, read."""
    with open(path, 'rb') as file:
        about = os.fstat(file.fileno())
        if not stat.S_ISREG(about.st_mode):
            return read_stream(file)
        return mmap.mmap(file.fileno(), 0, access=mmap.ACCESS_READ) if about.st_size else b''


def read_file(name: str, handle: int, size: int) -> bytes | bytearray:
    """The first so many bytes of a file, in memory: what is read so can be cut short without harm.

    Raises CutShort where there are fewer.
    """
    first = os.pread(handle, min(size, AT_ONCE), 0)
    if len(first) == size:
        return first
    room = bytearray(first)
    while len(room) < size:
        part = os.pread(handle, min(size - len(room), AT_ONCE), len(room))
        if not part:
            raise CutShort(name)
        room += part
    return room


def read_stream(file: Any, is_over: Callable[[bytearray, bytes], bool] = lambda data, part: False) -> bytearray:
    """All that comes of a stream, up to 2^31 bytes, or up to the part with which it is over: asked of all that has
    come, and of the part that came last."""
    data = bytearray()
    while len(data) < MOST:
        part = file.read(min(PART, MOST - len(data)))
        if not part:
            break
        data += part
        if is_over(data, part):
            break
    return data


def first_hole(handle: int, size: int) -> int:
    """Where the first hole of a regular file of so many bytes is; its size where it has none, or its file system knows
    of none."""
    try:
        return min(size, os.lseek(handle, 0, os.SEEK_HOLE)) if size else 0
    except OSError:
        return size


def surely_come(handle: int, about: os.stat_result) -> int:
    """How many bytes of a regular file have surely come: all of them, or those before the last block before its first
    hole, which may be half written. It moves the place at which the file is read next."""
    hole = first_hole(handle, about.st_size)
    return hole if hole == about.st_size else before_last_block(about, hole)


def before_last_block(about: os.stat_result, end: int | None = None) -> int:
    """Where the block begins that has the last byte before `end`, or the last of the file."""
    block = about.st_blksize or BLOCK
    return max(0, (about.st_size if end is None else end) - 1) // block * block


# ---- written


def room_of(size: int, folder: PathLike | None = None) -> mmap.mmap:
    """A room to write into: of memory, or of a file in the folder that has no name and goes with the room."""
    if folder is None:
        return mmap.mmap(-1, size)
    with tempfile.TemporaryFile(dir=folder) as file:
        return _open_room(file.fileno(), size)


def _open_room(handle: int, size: int) -> mmap.mmap:
    # a full disk is found here, as an error, and not while the mapping is written, as a signal
    os.posix_fallocate(handle, 0, size)
    return mmap.mmap(handle, size)


def refuse_to_overwrite(path: PathLike, *, force: bool) -> None:
    """FileExistsError where a file stands there and is to be kept; OSError where it is no regular file, forced or
    not."""
    if os.path.lexists(path) and not os.path.isfile(path) and os.path.exists(path):
        kind = 'a folder' if os.path.isdir(path) else 'a device, a pipe or a socket'
        raise OSError(errno.EINVAL, f'it is {kind} and no regular file, and is not written to', str(path))
    if not force and os.path.lexists(path):
        raise FileExistsError(errno.EEXIST, 'it is there already and is kept', str(path))


def part_prefix(path: PathLike, process: int) -> str:
    """How the name of a file begins that a process makes beside this place."""
    return f'.{os.path.basename(os.path.realpath(path))[:200]}.{process}.'


def sweep_parts(path: PathLike, process: int) -> None:
    """Takes away what a process that was ended left beside this place."""
    folder, prefix = os.path.dirname(os.path.realpath(path)), part_prefix(path, process)
    for name in os.listdir(folder):
        if name.startswith(prefix) and name.endswith('.part'):
            os.unlink(os.path.join(folder, name))


@contextmanager
def beside(path: PathLike, size: int, *, force: bool = False) -> Iterator[mmap.mmap]:
    """A mapped file of so many bytes, made beside its place and moved there when the block ends; of an error nothing is
    left.

    A symbolic link is followed: its target is made or replaced. What goes wrong is told of `path`.
    """
    refuse_to_overwrite(path, force=force)
    place = os.path.realpath(path)
    part = None
    try:
        with told_of(path):
            handle, part = tempfile.mkstemp(
                prefix=part_prefix(path, os.getpid()), suffix='.part', dir=os.path.dirname(place)
            )
            try:
                os.fchmod(handle, 0o666 & ~_mask())
                room = _open_room(handle, size)
            finally:
                os.close(handle)
        yield room
        with told_of(path):
            room.flush()
            _move(part, place, path, force)
    except BaseException:
        if part is not None and os.path.exists(part):
            os.unlink(part)
        raise


@contextmanager
def told_of(path: PathLike) -> Iterator[None]:
    """An error of a file that has no name, or another, is told of this one."""
    try:
        yield
    except (FileExistsError, CutShort):
        raise
    except OSError as error:
        raise OSError(error.errno, error.strerror or str(error), str(path)) from None


def _move(part: str, place: str, path: PathLike, force: bool) -> None:
    if force:
        os.replace(part, place)
        return
    try:
        os.link(part, place)  # which fails where a file came there meanwhile
    except OSError:
        refuse_to_overwrite(path, force=force)
        os.replace(part, place)  # of a file system without links
    else:
        os.unlink(part)


def _mask() -> int:
    mask = os.umask(0)
    os.umask(mask)
    return mask


def write_beside(path: PathLike, data: bytes, *, force: bool = False) -> None:
    """A file of these bytes, made beside its place."""
    with beside(path, len(data), force=force) as room:
        room[:] = data
