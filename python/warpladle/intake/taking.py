"""Files taken into a private folder, judged there from the bytes that were moved, and put into their place.

A private folder stands beside the folder that it serves, on the same file system, so that a rename puts a file whole into its
place or not at all. What a crash leaves there is judged when the intake begins again.
"""
from __future__ import annotations

import errno
import hashlib
import os
import shutil
from typing import NamedTuple

from ..files import PART, CutShort, read_file
from ..headers import HEAD
from ..product import Product
from ..refusal import Refused
from ..summary import identity_of
from ..watch import Watch
from .arriving import Stamp, judge_whole

READ_WHOLE = 64 << 20  # larger products are judged by a watch as they are read, which by its law answers the same
COPYING = '.copying'


class Judged(NamedTuple):
    """What the moved bytes are."""

    size: int
    sha256: str
    records: int
    refused: Refused | None
    sensing: tuple[str | None, str | None]


def sync_folder(folder: str) -> None:
    """What was renamed in a folder is on the disk."""
    handle = os.open(folder, os.O_RDONLY | os.O_DIRECTORY | os.O_CLOEXEC)
    try:
        os.fsync(handle)
    finally:
        os.close(handle)


def sync_file(path: str) -> None:
    """The bytes of a file are on the disk."""
    handle = os.open(path, os.O_RDONLY | os.O_CLOEXEC)
    try:
        os.fsync(handle)
    finally:
        os.close(handle)


def private_folder(folder: str) -> str:
    """The private folder of a folder that is there: beside it, or in it where that is another file system.

    Raises OSError where the folder is away: it is not made anew, for it may be a disk that comes back.
    """
    folder = os.path.abspath(folder)
    beside = os.path.join(os.path.dirname(folder), f'.{os.path.basename(folder)}.intake')
    if os.stat(os.path.dirname(folder)).st_dev != os.stat(folder).st_dev:
        beside = os.path.join(folder, '.intake')
    os.makedirs(beside, mode=0o700, exist_ok=True)
    return beside


def take(path: str, private: str) -> str:
    """Moves a file into the private folder: by one rename, or by a copy that is whole before the file goes."""
    place = os.path.join(private, os.path.basename(path))
    try:
        os.rename(path, place)
    except OSError as error:
        if error.errno != errno.EXDEV:
            raise
        _copy(path, place)
        sync_folder(private)
        os.unlink(path)
    return place


def _copy(path: str, place: str) -> None:
    """A copy that stands in its place when it is whole.

    Raises OSError where the file changed meanwhile.
    """
    before = Stamp.of(os.stat(path))
    shutil.copyfile(path, place + COPYING)
    if Stamp.of(os.stat(path)) != before:
        os.unlink(place + COPYING)
        raise OSError(errno.EBUSY, 'it changed while it was copied', path)
    sync_file(place + COPYING)
    os.rename(place + COPYING, place)


def judge_taken(path: str) -> Judged:
    """The verdict, the sum and the sensing times, by reading the file once.

    Raises CutShort where it became shorter meanwhile.
    """
    handle = os.open(path, os.O_RDONLY | os.O_CLOEXEC)
    try:
        size = os.fstat(handle).st_size
        if size >= READ_WHOLE:
            return _judge_in_parts(path, handle, size)
        data = read_file(path, handle, size)
        records, refused = judge_whole(data)
        return Judged(size, hashlib.sha256(data).hexdigest(), records, refused, _sensing(data))
    finally:
        os.close(handle)


def _judge_in_parts(path: str, handle: int, size: int) -> Judged:
    """By the watch; of one that it refuses, which may be for its many pointers alone, by the finished judge."""
    total, watch, head = hashlib.sha256(), Watch(), b''
    refused = False
    at = 0
    while at < size:
        part = os.pread(handle, min(PART, size - at), at)
        if not part:
            raise CutShort(path)
        total.update(part)
        head = head or part
        refused = refused or not _is_fed(watch, part)
        at += len(part)
    if not refused and watch.whole and watch.declared == size:
        return Judged(size, total.hexdigest(), watch.waiting.records, None, _sensing(head))
    records, why = judge_whole(read_file(path, handle, size))
    return Judged(size, total.hexdigest(), records, why, _sensing(head))


def _is_fed(watch: Watch, part: bytes) -> bool:
    try:
        watch.feed(part)
    except Refused:
        return False
    return True


def _sensing(data: bytes | bytearray) -> tuple[str | None, str | None]:
    """SENSING_START and SENSING_END, where the main header reads."""
    try:
        known = identity_of(Product(bytes(data[:HEAD])))
    except Refused:
        return None, None
    return known['sensing_start'], known['sensing_end']


def is_same_file(path: str, judged: Judged) -> bool:
    """Whether a file that stands there has the bytes that were judged."""
    if os.stat(path).st_size != judged.size:
        return False
    total = hashlib.sha256()
    with open(path, 'rb', buffering=0) as file:
        for part in iter(lambda: file.read(1 << 20), b''):
            total.update(part)
    return total.hexdigest() == judged.sha256


def put(taken: str, folder: str, name: str | None = None) -> str:
    """Renames a file of the private folder into its place, which is free, and has it on the disk."""
    place = os.path.join(folder, name or os.path.basename(taken))
    sync_file(taken)
    os.rename(taken, place)
    sync_folder(folder)
    return place


def put_text(private: str, folder: str, name: str, data: bytes) -> None:
    """A file of these bytes, made in the private folder and renamed into its place."""
    part = os.path.join(private, f'.{name}')
    with open(part, 'wb') as file:
        file.write(data)
    put(part, folder, name)


def free_name(folder: str, name: str) -> str:
    """The name, or the name with the first number after it under which nothing stands."""
    number, free = 1, name
    while os.path.lexists(os.path.join(folder, free)):
        number += 1
        free = f'{name}.{number}'
    return free
