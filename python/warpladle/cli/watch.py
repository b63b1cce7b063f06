"""`watch`: a product that arrives."""
from __future__ import annotations

import argparse
import errno
import functools
import os
import sys
import time
from collections.abc import Callable, Iterator
from typing import Any, BinaryIO

from .. import words
from ..files import PART, before_last_block, read_file, refuse_to_overwrite, surely_come, told_of, write_beside
from ..library import answer
from ..refusal import Refusal, Refused, State
from ..watch import Waiting, Watch, record_arrival
from .inputs import STANDARD, add_force, add_json, add_sparse, is_stream, some_seconds
from .output import BadUsage, Output, Status

MORE = (
    'A refusal is said at once. A file may come later than its watch, grow, be renamed and be replaced by another of'
    ' its name; its bytes from its first hole on have not come.'
)
POLL = 0.05  # seconds between two looks at a file that does not grow
SETTLED = 2.0  # seconds after which a file that had holes is taken as written


def add_arguments(parser: argparse.ArgumentParser) -> None:
    """What it takes."""
    parser.add_argument(
        'file',
        nargs='?',
        default=STANDARD,
        metavar='FILE',
        help='a file that grows; standard input where none is named',
    )
    parser.add_argument(
        '--wait',
        type=some_seconds,
        default=60.0,
        metavar='SECONDS',
        help='give up when the file has not come or grown for so long (60)',
    )
    parser.add_argument('--record', dest='record_to', metavar='OUT', help='write the record of the arrival, for replay')
    add_force(parser)
    add_json(parser)
    add_sparse(parser)


def run(args: argparse.Namespace, output: Output) -> Status:
    """How far it came."""
    output.subject = args.file
    if args.record_to is not None:
        if is_stream(args.file):
            raise BadUsage('a record is made of the file that was watched: name one')
        refuse_to_overwrite(args.record_to, force=args.force)
    return watch_stream(args, output) if is_stream(args.file) else watch_file(args, output)


class Arrival:
    """What has come of a product, judged as it comes: by a watch, and of a file with more than 64 pointers by the
    arrival judge, from all its bytes. `reread` gives the first so many bytes of a file."""

    def __init__(self, reread: Callable[[int], bytes | bytearray] | None = None) -> None:
        self.watch = Watch()
        self.reread = reread
        self.data: bytearray | None = None
        self.judged = 0
        self.lengths: list[int] = []
        self.fed = 0
        self.later = Waiting(0, 0)

    def feed(self, part: bytes) -> None:
        """The next part.

        Raises Refused: 1 to 16; 24 of a stream.
        """
        self.lengths.append(len(part))
        self.fed += len(part)
        if self.data is None:
            self._feed_watch(part)
            return
        self.data += part
        if self.fed >= self.judged * 9 // 8:  # a look costs what has come: few looks
            self.look()

    def _feed_watch(self, part: bytes) -> None:
        try:
            self.watch.feed(part)
        except Refused as refused:
            if self.reread is None:
                raise
            data = self.reread(self.fed)
            if refused.number != Refusal.TOO_MANY_POINTERS:
                said = words.of_product(data)(refused.number, refused.place)
                raise Refused(refused.number, refused.place, said) from None
            self.data = bytearray(data)
            self.look()

    def look(self) -> None:
        """Judges all that has come, where a watch cannot.

        Raises Refused: 1 to 16.
        """
        if self.data is None or self.judged == self.fed:
            return
        number, place, count, _ = answer('arrival', self.data)
        if number:
            raise Refused(number, place, words.of_product(self.data)(number, place))
        self.judged, self.later = self.fed, Waiting(count, place)

    @property
    def waiting(self) -> Waiting:
        """What is known."""
        return self.watch.waiting if self.data is None else self.later

    @property
    def declared(self) -> int | None:
        """The size that the product declares, once its main header has come."""
        return self.watch.declared if self.data is None else words.declared(self.data)

    @property
    def whole(self) -> bool:
        """Whether all that the product declares has come."""
        return self.declared is not None and self.waiting.end == self.declared


# ---- a stream


def parts_of(name: str) -> Iterator[bytes]:
    """The parts of standard input, a pipe or a device as they come."""
    if name == STANDARD:
        yield from iter(lambda: os.read(sys.stdin.fileno(), PART), b'')
        return
    with open(name, 'rb', buffering=0) as file:
        yield from iter(lambda: file.read(PART), b'')


def watch_stream(args: argparse.Namespace, output: Output) -> Status:
    """Until it ends or is refused."""
    arrival = Arrival()
    with told_of('standard input' if args.file == STANDARD else args.file):
        for part in parts_of(args.file):
            arrival.feed(part)
    return tell_arrived(args.file, output, arrival)


# ---- a file


class Patience:
    """How long to wait for something to come."""

    def __init__(self, seconds: float) -> None:
        self.seconds = seconds
        self.renew()

    def renew(self) -> None:
        """Something came."""
        self.since = time.monotonic()

    def is_over(self) -> bool:
        """Whether nothing came for so long; a short sleep where it is not."""
        if time.monotonic() - self.since >= self.seconds:
            return True
        time.sleep(min(POLL, self.seconds))
        return False


def open_when_there(name: str, patience: Patience) -> BinaryIO:
    """The file of a name, which may come later."""
    while True:
        try:
            file: Any = open(name, 'rb', buffering=0)
            return file  # type: ignore[no-any-return]
        except FileNotFoundError:
            if patience.is_over():
                raise


def is_replaced(name: str, handle: int) -> bool:
    """Whether another file stands under the name."""
    try:
        there = os.stat(name)
    except OSError:
        return False
    ours = os.fstat(handle)
    return (there.st_dev, there.st_ino) != (ours.st_dev, ours.st_ino)


class Coming:
    """How much of a file has surely come. Of one that had a hole the last block, too, has come only when the file has
    not been written for a while: no hole is seen there once a byte of it has come."""

    def __init__(self, handle: int, patience: Patience, sparse: bool) -> None:
        self.handle, self.patience, self.sparse = handle, patience, sparse
        self.had_hole = False
        self.written, self.since = -1, 0.0

    def look(self) -> tuple[int, int]:
        """The size of the file, and how much of it has come."""
        about = os.fstat(self.handle)
        if about.st_mtime_ns != self.written:  # something was written, be it behind a hole
            self.written, self.since = about.st_mtime_ns, time.monotonic()
            self.patience.renew()
        if self.sparse:
            return about.st_size, about.st_size
        come = surely_come(self.handle, about)
        self.had_hole = self.had_hole or come < about.st_size
        if self.had_hole and come == about.st_size and time.monotonic() - self.since < SETTLED:
            come = before_last_block(about)
        return about.st_size, come


def follow(name: str, handle: int, arrival: Arrival, patience: Patience, sparse: bool) -> bool:
    """Feeds what comes until all has, or nothing does for too long; whether another file has then taken the name.

    Raises Refused: 1 to 16. Raises OSError where the file was cut short.
    """
    coming = Coming(handle, patience, sparse)
    while True:
        size, come = coming.look()
        if size < arrival.fed:
            raise OSError(errno.EIO, 'it was cut short while it was watched', name)
        part = os.pread(handle, min(PART, come - arrival.fed), arrival.fed) if come > arrival.fed else b''
        if part:
            arrival.feed(part)
            continue
        arrival.look()
        if arrival.whole and size == arrival.fed:
            return False
        if is_replaced(name, handle):
            return True
        if patience.is_over():
            if arrival.whole:  # the file is longer than its product, whatever comes there
                arrival.feed(os.pread(handle, 1, arrival.fed))
                arrival.look()
            return False


def watch_file(args: argparse.Namespace, output: Output) -> Status:
    """Until all of it has come, it is refused, or nothing comes for too long."""
    patience = Patience(args.wait)
    while True:
        with open_when_there(args.file, patience) as file:
            handle = file.fileno()
            arrival = Arrival(functools.partial(read_file, args.file, handle))
            try:
                with told_of(args.file):
                    is_another = follow(args.file, handle, arrival, patience, args.sparse)
                if is_another:
                    patience.renew()
                    continue
                status = tell_arrived(args.file, output, arrival, whereabouts(args.file, handle))
            except Refused as refused:
                status = output.tell_refusal(refused, args.file, {'bytes': arrival.fed})
            if args.record_to is not None:
                record = record_arrival(arrival.lengths, read_file(args.file, handle, arrival.fed))
                write_beside(args.record_to, record, force=args.force)
            return status


def whereabouts(name: str, handle: int) -> str | None:
    """The name that the file has now, where it was renamed; None where it has kept its own, or has none."""
    if os.path.exists(name) and not is_replaced(name, handle):
        return None
    try:
        return os.readlink(f'/proc/self/fd/{handle}')
    except OSError:
        return None


def tell_arrived(name: str, output: Output, arrival: Arrival, now: str | None = None) -> Status:
    """How far an arrival came that was not refused."""
    (count, end), size = arrival.waiting, arrival.declared
    state = State.WHOLE if arrival.whole else State.INCOMPLETE
    values = {
        'file': name,
        'state': state.value,
        'accepted': arrival.whole,
        'records': count,
        'end': end,
        'bytes': arrival.fed,
        'declared': size,
    }
    if now is not None:
        values['now'] = now
    renamed = '' if now is None else f' (it is {now} now)'
    if arrival.whole:
        output.say(f'{name}: whole, {count} records, {end} bytes{renamed}', values)
        return Status.FINE
    of = 'an unknown number' if size is None else size
    output.say(f'{name}: incomplete, {count} whole records, {arrival.fed} bytes of {of}{renamed}', values)
    return Status.INCOMPLETE
