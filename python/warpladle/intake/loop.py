"""The round of the intake: look at what is in the folder, judge what has come, take what is ready."""
from __future__ import annotations

import fcntl
import fnmatch
import hashlib
import json
import os
import shlex
import stat
import subprocess
import time
from dataclasses import dataclass, field
from typing import Any

from ..about import __version__
from ..files import read_file
from ..refusal import MEANING, Refusal
from ..watch import record_arrival
from .arriving import Arriving, Ready
from .taking import COPYING, Judged, free_name, is_same_file, judge_taken, private_folder, put, put_text, take
from .telling import Teller, clock, write_status

POLL = 0.5  # seconds between two rounds
LOCK = '.intake.lock'
IGNORED = ('*.part', '*.tmp', '*.filepart')
SUMS = {'.md5': 'md5', '.sha256': 'sha256'}  # what stands beside a product, and the sum that it has


class OtherIntake(Exception):
    """Another intake has the folder."""


@dataclass
class Options:
    """What the intake is asked to do."""

    incoming: str
    accepted: str
    refused: str
    settle: float = 2.0
    give_up: float = 6 * 3600.0
    ignore: tuple[str, ...] = IGNORED
    once: bool = False
    log: str | None = None
    status: str | None = None
    command: str | None = None
    record: bool = False
    is_json: bool = False
    poll: float = POLL


@dataclass
class Counts:
    """What was done since the start."""

    accepted: int = 0
    refused: int = 0
    incomplete: int = 0
    conflict: int = 0
    duplicate: int = 0
    checksum: int = 0
    last_accepted: str | None = None
    children: list[subprocess.Popen[bytes]] = field(default_factory=list)


class Intake:
    """A folder of arriving products, and the two folders that they go to."""

    def __init__(self, options: Options) -> None:
        self.options = options
        self.teller = Teller(options.log, options.is_json)
        self.arriving: dict[str, Arriving] = {}
        self.counts = Counts()
        self.lock = -1

    # ---- from the start to the end

    def run(self) -> None:
        """Until a signal ends it, or with `once` until what is there is done.

        Raises OtherIntake where another has the folder.
        """
        self._take_lock()
        try:
            for folder in (self.options.accepted, self.options.refused):
                os.makedirs(folder, exist_ok=True)
            self.teller.tell('started', self.options.incoming, version=__version__)
            while True:
                self._round_told()
                if self.options.once and self._is_done():
                    return
                time.sleep(min(self.options.poll, self.options.settle / 4) if self.options.once else self.options.poll)
        finally:
            self._write_status()
            os.close(self.lock)

    def _take_lock(self) -> None:
        path = os.path.join(self.options.incoming, LOCK)
        self.lock = os.open(path, os.O_RDWR | os.O_CREAT | os.O_CLOEXEC, 0o644)
        try:
            fcntl.flock(self.lock, fcntl.LOCK_EX | fcntl.LOCK_NB)
        except OSError:
            who = os.pread(self.lock, 200, 0).decode(errors='replace').strip() or 'another process'
            os.close(self.lock)
            raise OtherIntake(f'{self.options.incoming}: {who} takes it in already') from None
        os.ftruncate(self.lock, 0)
        os.pwrite(self.lock, f'process {os.getpid()} on {os.uname().nodename}, since {clock()}\n'.encode(), 0)

    def _is_done(self) -> bool:
        """Whether nothing that is there can still become ready by settling."""
        now, settle = time.monotonic(), self.options.settle
        return all(one.has_settled(now, settle) and not one.is_behind for one in self.arriving.values())

    # ---- a round

    def _round_told(self) -> None:
        """A round; what goes wrong with a folder or the disk is told once, and tried again in the next."""
        try:
            self._round()
            self.teller.over(self.options.incoming)
        except OSError as error:
            self.teller.trouble(self.options.incoming, error)
        self._reap()
        self._write_status()

    def _round(self) -> None:
        for folder in (self.options.accepted, self.options.refused):
            self._finish_taken(private_folder(folder))
        names = self._names()
        for name in set(self.arriving) - names:
            del self.arriving[name]
        for name in sorted(names):
            self._look_told(name)

    def _names(self) -> set[str]:
        """The names of what may be a product: no hidden file, no sum, nothing that is to be ignored."""
        found = set()
        with os.scandir(self.options.incoming) as entries:
            for entry in entries:
                if not self._is_ignored(entry.name) and entry.is_file(follow_symlinks=False):
                    found.add(entry.name)
        return found

    def _is_ignored(self, name: str) -> bool:
        return (
            name.startswith('.')
            or os.path.splitext(name)[1] in SUMS
            or any(fnmatch.fnmatchcase(name, pattern) for pattern in self.options.ignore)
        )

    def _look_told(self, name: str) -> None:
        """A look at one file; what goes wrong with it is told once."""
        path = os.path.join(self.options.incoming, name)
        try:
            self._look(path, name)
            self.teller.over(name)
        except FileNotFoundError:
            self.arriving.pop(name, None)  # renamed or taken away meanwhile
        except OSError as error:
            self.teller.trouble(name, error)

    def _look(self, path: str, name: str) -> None:
        now = time.monotonic()
        if name not in self.arriving:
            about = os.stat(path)
            if not stat.S_ISREG(about.st_mode):
                return
            self.arriving[name] = Arriving(path, about, self._first_change(about, now), clock())
        one = self.arriving[name]
        one.look(now)
        ready = one.ready(now, self.options.settle, self.options.give_up)
        if ready is Ready.WAITS:
            return
        self._take_in(path, one, ready)
        self.arriving.pop(name, None)

    def _first_change(self, about: os.stat_result, now: float) -> float:
        """When a file that is new to this intake was last written: now, but for --once, which has no time to find out."""
        age = time.time() - about.st_mtime
        return now - age if self.options.once and age > 0 else now

    # ---- what is ready

    def _take_in(self, path: str, one: Arriving, ready: Ready) -> None:
        """Takes a file, and puts it where its own bytes say that it belongs."""
        private = private_folder(self.options.accepted if ready is Ready.WHOLE else self.options.refused)
        taken = take(path, private)
        self._finish(taken, one, ready)

    def _finish_taken(self, private: str) -> None:
        """What a crash left in a private folder: half a copy goes, for its file is still there; the rest is judged."""
        for name in sorted(os.listdir(private)):
            path = os.path.join(private, name)
            if name.endswith(COPYING):
                os.unlink(path)
            elif not name.startswith('.'):
                self._finish(path, None, Ready.WHOLE)

    def _finish(self, taken: str, one: Arriving | None, ready: Ready) -> None:
        judged = judge_taken(taken)
        refused = judged.refused
        wrong_sum = self._wrong_sum(taken) if refused is None else None
        if wrong_sum is not None:
            self._put_aside(taken, one, judged, 'checksum', {'words': wrong_sum})
        elif refused is None:
            self._accept(taken, one, judged)
        elif refused.number == Refusal.UNFINISHED and ready is not Ready.GIVEN_UP and not self._is_in_the_way(taken):
            take(taken, self.options.incoming)  # it changed just when it was taken, or a crash left it: it arrives anew
        else:
            state = 'incomplete' if refused.number == Refusal.UNFINISHED else 'refused'
            self._put_aside(taken, one, judged, state, {**refused.as_dict(), 'meaning': MEANING[refused.number]})

    def _is_in_the_way(self, taken: str) -> bool:
        """Whether another file of the name arrives by now."""
        return os.path.lexists(os.path.join(self.options.incoming, os.path.basename(taken)))

    def _accept(self, taken: str, one: Arriving | None, judged: Judged) -> None:
        name = os.path.basename(taken)
        place = os.path.join(self.options.accepted, name)
        if os.path.lexists(place):
            self._meet(taken, one, judged, place)
            return
        in_place = private_folder(self.options.accepted)
        if os.path.dirname(taken) != in_place:
            taken = take(taken, in_place)
        put(taken, self.options.accepted)
        self._drop_sums(name)
        self.counts.accepted += 1
        self.counts.last_accepted = clock()
        start, end = judged.sensing
        self.teller.tell(
            'accepted',
            name,
            records=judged.records,
            bytes=judged.size,
            sha256=judged.sha256,
            sensing_start=start,
            sensing_end=end,
        )
        self._run(place)

    def _meet(self, taken: str, one: Arriving | None, judged: Judged, place: str) -> None:
        """A product of a name that is there already: the same bytes are one product, others are aside."""
        name = os.path.basename(taken)
        if is_same_file(place, judged):
            os.unlink(taken)
            self._drop_sums(name)
            self.counts.duplicate += 1
            self.teller.tell('duplicate', name, sha256=judged.sha256)
            return
        said = {'words': f'another product of this name was accepted, with other bytes: {place}'}
        self._put_aside(taken, one, judged, 'conflict', said)

    def _put_aside(self, taken: str, one: Arriving | None, judged: Judged, state: str, said: dict[str, Any]) -> None:
        """To the refused folder, with the reason beside it: the reason first, so that nothing stands there without one."""
        name = os.path.basename(taken)
        private = private_folder(self.options.refused)
        if os.path.dirname(taken) != private:
            taken = take(taken, private)
        free = free_name(self.options.refused, name)
        about = {
            'name': name,
            'state': state,
            **said,
            'size': judged.size,
            'sha256': judged.sha256,
            'first_seen': one.first_seen if one is not None else clock(),
            'last_seen': clock(),
            'version': __version__,
        }
        folder = self.options.refused
        if self.options.record and one is not None:
            self._keep_record(taken, one, f'{free}.arrival')
        put_text(private, folder, f'{free}.json', (json.dumps(about, indent=1) + '\n').encode())
        put(taken, folder, free)
        self._move_sums(name, folder, free)
        setattr(self.counts, state, getattr(self.counts, state) + 1)
        self.teller.tell(state, name, kept=free, **said)

    def _keep_record(self, taken: str, one: Arriving, name: str) -> None:
        """The record of the arrival (request Thirteen), the rest of the file as its last part."""
        handle = os.open(taken, os.O_RDONLY | os.O_CLOEXEC)
        try:
            size = os.fstat(handle).st_size
            lengths = [*one.lengths, size - one.fed] if size > one.fed else one.lengths
            if sum(lengths) == size:
                record = record_arrival(lengths, read_file(taken, handle, size))
                put_text(os.path.dirname(taken), self.options.refused, name, record)
        finally:
            os.close(handle)

    # ---- sums beside products

    def _sums(self, name: str) -> list[str]:
        return [
            path for end in SUMS for path in [os.path.join(self.options.incoming, name + end)] if os.path.isfile(path)
        ]

    def _wrong_sum(self, taken: str) -> str | None:
        """What a sum beside the product says against its bytes, if anything."""
        for path in self._sums(os.path.basename(taken)):
            kind = SUMS[os.path.splitext(path)[1]]
            with open(path, 'rb') as file:
                told = file.read(4096).split(maxsplit=1)
            total = hashlib.new(kind)
            with open(taken, 'rb', buffering=0) as product:
                for part in iter(lambda: product.read(1 << 20), b''):
                    total.update(part)
            found = total.hexdigest()
            if not told or told[0].decode(errors='replace').lower() != found:
                expected = told[0].decode(errors='replace') if told else 'nothing'
                return f'{os.path.basename(path)} has {expected}, and the bytes have {found}'
        return None

    def _drop_sums(self, name: str) -> None:
        for path in self._sums(name):
            os.unlink(path)

    def _move_sums(self, name: str, folder: str, free: str) -> None:
        for path in self._sums(name):
            put(take(path, private_folder(folder)), folder, free + os.path.splitext(path)[1])

    # ---- told and run

    def _run(self, path: str) -> None:
        if self.options.command is None:
            return
        words = [*shlex.split(self.options.command), path]
        try:
            self.counts.children.append(subprocess.Popen(words, stdin=subprocess.DEVNULL))
        except OSError as error:
            self.teller.trouble(words[0], error)

    def _reap(self) -> None:
        """Commands that have ended are let go of; one that failed is told."""
        still = []
        for child in self.counts.children:
            status = child.poll()
            if status is None:
                still.append(child)
            elif status:
                self.teller.tell('command failed', os.path.basename(str(child.args[-1])), status=status)  # type: ignore[index]
        self.counts.children = still

    def _write_status(self) -> None:
        if self.options.status is None:
            return
        now = time.monotonic()
        oldest = max((now - one.changed for one in self.arriving.values()), default=0.0)
        named = min(self.arriving.values(), key=lambda one: one.changed, default=None)
        done = self.counts
        values = {
            'time': time.time(),
            'accepted': done.accepted,
            'refused': done.refused,
            'incomplete': done.incomplete,
            'conflict': done.conflict,
            'duplicate': done.duplicate,
            'checksum': done.checksum,
            'waiting': len(self.arriving),
            'oldest_seconds': round(oldest, 1),
            'oldest': os.path.basename(named.path) if named is not None else None,
            'last_accepted': done.last_accepted,
            'troubles': self.teller.troubles,
            'version': __version__,
        }
        try:
            write_status(self.options.status, values)
        except OSError as error:
            self.teller.trouble(self.options.status, error)
