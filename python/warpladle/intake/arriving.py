"""One file that arrives: what has come of it, judged as it comes, and when it has settled."""
from __future__ import annotations

import os
from enum import Enum
from typing import NamedTuple

from .. import words
from ..files import PART, surely_come
from ..headers import HEAD
from ..library import answer
from ..refusal import Refusal, Refused
from ..watch import Watch

AT_ONCE = 16 << 20  # bytes of one file that are read in a round, so that many files come on together
TICK = 0.1  # seconds within which a second write may leave the time of the first


class Stamp(NamedTuple):
    """What shows that a file has changed."""

    device: int
    inode: int
    size: int
    written: int

    @classmethod
    def of(cls, about: os.stat_result) -> Stamp:
        """Of a file as it is."""
        return cls(about.st_dev, about.st_ino, about.st_size, about.st_mtime_ns)

    def is_same_file(self, other: Stamp) -> bool:
        """Whether both are of one file, whatever was written meanwhile."""
        return (self.device, self.inode) == (other.device, other.inode)


class Ready(Enum):
    """What is to be done with a file."""

    WAITS = 'waits'
    WHOLE = 'whole'
    REFUSED = 'refused'
    GIVEN_UP = 'given up'


class Arriving:
    """A file in the incoming folder. It is opened only while it is read, so that thousands need no descriptors.

    `now` is always a time of a clock that does not jump.
    """

    def __init__(self, path: str, about: os.stat_result, now: float, seen: str) -> None:
        self.path = path
        self.first_seen = seen
        self._begin(Stamp.of(about), now)

    def _begin(self, stamp: Stamp, now: float) -> None:
        self.stamp, self.changed, self.read = stamp, now, now
        self.watch = Watch()
        self.lengths: list[int] = []
        self.fed = self.come = 0
        self.had_hole = self.is_behind = False
        self.refused: Refused | None = None
        self.size_beyond: int | None = None  # that a product declares which the watch cannot follow further

    def look(self, now: float) -> None:
        """What has come since the last look is judged. A file that shrank or was replaced begins anew.

        Raises OSError where it cannot be read.
        """
        stamp = Stamp.of(os.stat(self.path))
        if not stamp.is_same_file(self.stamp) or stamp.size < self.fed:
            self._begin(stamp, now)
        if stamp != self.stamp:
            self.stamp, self.changed = stamp, now
        if self.is_behind or self.read <= self.changed + TICK:
            self.read = now
            self._read()

    def _read(self) -> None:
        handle = os.open(self.path, os.O_RDONLY | os.O_CLOEXEC | os.O_NONBLOCK)
        try:
            about = os.fstat(handle)
            self.come = surely_come(handle, about)
            self.had_hole = self.had_hole or self.come < about.st_size
            self._feed(handle, min(self.come, self.fed + AT_ONCE))
            self.is_behind = self.fed < self.come and self.refused is None
        finally:
            os.close(handle)

    def _feed(self, handle: int, end: int) -> None:
        while self.fed < end and self.refused is None:
            part = os.pread(handle, min(PART, end - self.fed), self.fed)
            if not part:
                return
            self.lengths.append(len(part))
            self.fed += len(part)
            self._judge(handle, part)

    def _judge(self, handle: int, part: bytes) -> None:
        try:
            self.watch.feed(part)
        except Refused as refused:
            if refused.number == Refusal.TOO_MANY_POINTERS:
                # a limit of the watch is no fault of the product: it is judged when all of it has come
                self.size_beyond = words.declared(os.pread(handle, HEAD, 0))
            else:
                self.refused = refused

    @property
    def declared(self) -> int | None:
        """The size that the product declares, once that is known."""
        return self.watch.declared if self.size_beyond is None else self.size_beyond

    def has_settled(self, now: float, seconds: float) -> bool:
        """Whether it has not changed for so long."""
        return now - self.changed >= seconds

    def ready(self, now: float, settle: float, give_up: float) -> Ready:
        """What is to be done with it, by what has come and how long ago."""
        size, declared = self.stamp.size, self.declared
        if self.refused is not None:
            # demand 3: a refusal is final; but zeros that a downloader set first are no bytes of the product
            only_grew = not self.had_hole and (declared is None or size < declared)
            return Ready.REFUSED if only_grew or self.has_settled(now, settle) else Ready.WAITS
        if self.is_behind or not self.has_settled(now, settle):
            return Ready.WAITS
        if declared is not None and size >= declared and self.come == size:
            return Ready.WHOLE
        return Ready.GIVEN_UP if self.has_settled(now, give_up) else Ready.WAITS


def judge_whole(data: bytes | bytearray) -> tuple[int, Refused | None]:
    """How many records the finished product has, or what it is refused with."""
    number, place, count, _ = answer('verdict', data)
    if number:
        return 0, Refused(number, place, words.of_product(data)(number, place))
    return count, None
