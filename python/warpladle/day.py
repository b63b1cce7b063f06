"""A day of an intake: its accepted products, what is missing between them, what was put aside and what still waits.

It is computed from the folders of the intake and, where there is one, its log; nothing else is known. A product is of
the day on which its SENSING_START is. What has none that can be read is of the day on which it was last seen.
"""
from __future__ import annotations

import gzip
import json
import os
import re
import statistics
from collections.abc import Callable, Iterable, Iterator, Sequence
from dataclasses import dataclass
from datetime import datetime, timedelta, timezone
from enum import Enum
from typing import Any, NamedTuple

from .files import surely_come
from .headers import HEAD
from .overview import ROUNDED, SERIES, Entry, Overview, count_files, header_of
from .product import Product
from .refusal import Refused
from .report import named_numbers
from .summary import iso_text
from .times import Time, between, day_length

NOTE = '.json'  # after the name of a file that was put aside: what is noted of it
SUMS = ('.md5', '.sha256')  # after the name of a product: its checksum
STATES = {  # of what is put aside, as the headline counts them
    'refused': 'refused',
    'incomplete': 'given up',
    'conflict': 'in conflict',
    'checksum': 'with another checksum',
    'unknown': 'put aside without a note',
}
FINER = re.compile(r'([.,]\d{3})\d+')  # a fraction of a second beyond milliseconds

Count = Callable[[list[str]], Iterable[Entry]]


class DayState(str, Enum):
    """What a day is; an error is a file that cannot be read."""

    WHOLE = 'whole'
    NOT_WHOLE = 'not whole'
    WAITING = 'waiting'
    ERROR = 'error'


class Aside(NamedTuple):
    """A file that was put aside, the name under which it came, and why. `is_accepted` says that a whole product of that
    name is accepted."""

    file: str
    name: str
    state: str
    number: int | None
    place: int | None
    words: str
    seen: str | None
    is_accepted: bool

    @property
    def is_fault(self) -> bool:
        """Whether the day lacks something for it: a conflict stays one until someone has chosen."""
        return self.state == 'conflict' or not self.is_accepted


class Twice(NamedTuple):
    """A product that came again, or that stands in --accepted under several names."""

    name: str
    words: str
    seen: str | None
    is_fault: bool


class Awaited(NamedTuple):
    """A file that still waits: how many bytes have come, of how many where it says, and when the last came."""

    name: str
    come: int
    declared: int | None
    since: str


class Row(NamedTuple):
    """A series: its products that start on the day, and the gaps and overlaps between products, cut to the day."""

    series: tuple[str, ...]
    products: list[Entry]
    between: list[dict[str, Any]]

    def sum_of(self, kind: str) -> int:
        """The milliseconds of gaps or of overlaps."""
        return sum(found['ms'] for found in self.between if found['kind'] == kind)


@dataclass(frozen=True)
class Day:
    """What a day comes to."""

    day: str
    made: str
    is_over: bool
    overview: Overview
    rows: list[Row]
    aside: list[Aside]
    twice: list[Twice]
    waiting: list[Awaited] | None
    latencies: dict[str, int] | None
    bad_lines: int = 0

    @property
    def gaps(self) -> list[dict[str, Any]]:
        """What is missing in each series."""
        return [found for row in self.rows for found in row.between if found['kind'] == 'gap']

    @property
    def faults(self) -> list[str]:
        """What is missing, refused or in conflict, in words for each."""
        is_empty = self.is_over and not self.overview.of_state('whole')
        found = ['no product is accepted'] if is_empty else []
        if self.gaps:
            missing = length_text(sum(gap['ms'] for gap in self.gaps))
            found.append(f'{counted(len(self.gaps), "gap")}, {missing} missing')
        states = [one.state for one in self.aside if one.is_fault]
        found += [f'{states.count(state)} {words}' for state, words in STATES.items() if state in states]
        unlike = sum(one.is_fault for one in self.twice)
        return found + ([f'{unlike} twice with other main headers'] if unlike else [])

    @property
    def awaited(self) -> list[str]:
        """What is still to come, in words for each."""
        found = [f'{counted(len(self.waiting), "file")} still to come'] if self.waiting else []
        return found + ([] if self.is_over else ['the day is not over'])

    @property
    def state(self) -> DayState:
        """An error where a file cannot be read, else not whole, else waiting, else whole."""
        if self.overview.of_state('error'):
            return DayState.ERROR
        return DayState.NOT_WHOLE if self.faults else DayState.WAITING if self.awaited else DayState.WHOLE

    @property
    def headline(self) -> str:
        """Whether the day is whole, in one line."""
        unreadable = len(self.overview.of_state('error'))
        words = [*([f'{counted(unreadable, "file")} cannot be read'] if unreadable else []), *self.faults]
        if words:
            return f'The day is not whole: {"; ".join([*words, *self.awaited])}.'
        whole = counted(len(self.overview.of_state('whole')), 'product')
        if self.awaited:
            return f'Whole so far, {whole}: {"; ".join(self.awaited)}.'
        aside = f'a whole one is accepted of {len(self.aside)} put aside' if self.aside else 'nothing refused'
        return f'The day is whole: {whole}, nothing missing, {aside}.'

    def latency_of(self, products: Iterable[Entry]) -> dict[str, Any] | None:
        """Of some products the latency that the log says: how many it says it of, the median and the most, in
        milliseconds, and which took the most."""
        known = self.latencies or {}
        found = {entry['file']: known[entry['file']] for entry in products if entry['file'] in known}
        if not found:
            return None
        slowest = max(found, key=lambda name: found[name])
        median = round(statistics.median(found.values()))
        return {'products': len(found), 'median_ms': median, 'most_ms': found[slowest], 'most': slowest}

    def as_dict(self) -> dict[str, Any]:
        """For a program to read; `report --add` takes it too."""
        whole = self.overview.of_state('whole')
        return {
            'day': self.day,
            'state': self.state.value,
            'words': self.headline,
            'is_over': self.is_over,
            'made': self.made,
            **named_numbers(self.overview.numbers),
            'series': [self._series(row) for row in self.rows],
            'between': [found for row in self.rows for found in row.between],
            'aside': [one._asdict() for one in self.aside],
            'twice': [one._asdict() for one in self.twice],
            'waiting': None if self.waiting is None else [one._asdict() for one in self.waiting],
            'latency': self.latency_of(whole),
            'unreadable': self.overview.of_state('error'),
            'entries': self.overview.entries,
        }

    def _series(self, row: Row) -> dict[str, Any]:
        return {
            **dict(zip(SERIES, row.series)),
            'products': len(row.products),
            'gap_ms': row.sum_of('gap'),
            'overlap_ms': row.sum_of('overlap'),
            'latency': self.latency_of(row.products),
        }

    def lines(self) -> list[str]:
        """For a terminal."""
        lines = [f'{self.day}: {self.headline}']
        for row in self.rows:
            lines.append(f'{" ".join(row.series)}: {row_text(row)}')
            lines += [f'  {between_text(self.day, found)}' for found in row.between]
        lines += [aside_text(one) for one in self.aside]
        lines += [f'twice: {shown(one.name)}: {one.words}' for one in self.twice]
        lines += [f'waits: {shown(one.name)}: {awaited_text(one)}' for one in self.waiting or ()]
        return [*lines, f'latency: {latency_text(self.latency_of(self.overview.of_state("whole")))}']


# ---- in words


def counted(count: int, noun: str) -> str:
    """A number of things."""
    return f'{count:,} {noun}{"" if count == 1 else "s"}'


def length_text(millis: int) -> str:
    """A length of time in minutes and seconds, and hours where there are."""
    minutes, seconds = divmod(round(abs(millis) / 1000), 60)
    hours = f'{minutes // 60} h ' if minutes >= 60 else ''
    sign = '-' if millis < 0 else ''
    return f'{sign}{hours}{minutes % 60:0{2 if hours else 1}} min {seconds:02} s'


def clock_text(day: str, when: str) -> str:
    """A time of the day without its date, 24:00:00 at its end; another with its date."""
    if when == _text_at(day, day_length(Time.of(day).day)):
        return '24:00:00'
    return when[11:].rstrip('Z') if when.startswith(day) else when


def shown(name: str) -> str:
    """A name as it can be printed, whatever bytes it has."""
    return ''.join(c if c.isprintable() else c.encode('unicode_escape').decode() for c in name)


def row_text(row: Row) -> str:
    """How many products a series has, and what is missing."""
    found = [counted(len(row.products), 'product')]
    for kind in ('gap', 'overlap'):
        count = sum(one['kind'] == kind for one in row.between)
        found.append(f'{counted(count, kind)}{f" of {length_text(row.sum_of(kind))}" if count else ""}')
    return ', '.join(found)


def between_text(day: str, found: dict[str, Any]) -> str:
    """A gap or an overlap, and the products at its ends."""
    ends = [shown(found[end]) if found[end] else 'nothing' for end in ('after', 'before')]
    times = f'{clock_text(day, found["from"])} to {clock_text(day, found["to"])}'
    return f'{found["kind"]} of {length_text(found["ms"])}, {times}, between {ends[0]} and {ends[1]}'


def aside_text(one: Aside) -> str:
    """A file that was put aside, and why."""
    number = '' if one.number is None else f'{one.number} {one.place}: '
    return f'{one.state}: {shown(one.file)}: {number}{aside_words(one)}'


def aside_words(one: Aside) -> str:
    """Why a file was put aside, and whether the day lacks it."""
    return one.words if one.is_fault else f'{one.words}; a whole one of this name is accepted'


def awaited_text(one: Awaited) -> str:
    """How much has come of a file."""
    of = '' if one.declared is None else f' of {one.declared:,}'
    return f'{one.come:,}{of} bytes have come, the last at {one.since}'


def latency_text(latency: dict[str, Any] | None) -> str:
    """The median and the most."""
    if latency is None:
        return 'no log says it'
    return (
        f'median {length_text(latency["median_ms"])}, most {length_text(latency["most_ms"])}'
        f' ({shown(latency["most"])}), of {counted(latency["products"], "product")}'
    )


# ---- from the folders and the log


def day_of(
    day: str,
    accepted: str,
    refused: str,
    *,
    incoming: str | None = None,
    logs: Sequence[str] = (),
    count: Count = count_files,
    now: datetime | None = None,
) -> Day:
    """The day, as 2016-06-05, of the folders of an intake and its logs; `count` gives the entries of files.

    Raises OSError where a folder or a log cannot be read.
    """
    time = now or datetime.now(timezone.utc)
    names = list(_files_under(accepted))
    heads = {name: head for name in names for head in [_header_near(accepted, name, day)] if head}
    entries = _counted(accepted, [name for name in heads if heads[name]['day'] == day], count)
    whole = [entry for entry in entries if entry['state'] == 'whole']
    around = [{'file': name, 'state': 'whole', **head} for name, head in heads.items() if head['day'] != day]
    is_over = time >= datetime.fromisoformat(day).replace(tzinfo=timezone.utc) + timedelta(days=1)
    overview = Overview(entries)
    accepted_names = {os.path.basename(name) for name in names}
    events, bad_lines = _events_of(logs)
    return Day(
        day,
        iso_text(time.replace(microsecond=0)),
        is_over,
        overview,
        _rows(day, [*around, *whole], is_over),
        [*_not_whole(overview), *_asides(refused, day, accepted_names)],
        [*_several(overview), *_again(events, day, whole, accepted_names)],
        None if incoming is None else _awaited(incoming, day),
        _latencies(events, whole) if logs else None,
        bad_lines,
    )


def _files_in(folder: str) -> list[str]:
    """The regular files of a folder, but for hidden ones."""
    with os.scandir(folder) as found:
        return sorted(entry.name for entry in found if not entry.name.startswith('.') and entry.is_file())


def _files_under(folder: str) -> Iterator[str]:
    """The same of a folder and its folders, by their names in it: whoever keeps products may sort them."""
    os.scandir(folder).close()  # os.walk is silent about a folder that is not there
    for path, folders, _ in os.walk(folder):
        folders[:] = sorted(name for name in folders if not name.startswith('.'))
        yield from (os.path.relpath(os.path.join(path, name), folder) for name in _files_in(path))


class _Head(NamedTuple):
    """What has surely come of a file's main header, how much of the file has come, and when the last did."""

    header: Product
    come: int
    changed: float

    @staticmethod
    def of(path: str) -> _Head:
        """Of a file that cannot be read, nothing of its header."""
        about = os.stat(path)
        try:
            with open(path, 'rb', buffering=0) as file:
                come = surely_come(file.fileno(), os.fstat(file.fileno()))
                return _Head(Product(os.pread(file.fileno(), min(come, HEAD), 0)), come, about.st_mtime)
        except PermissionError:
            return _Head(Product(b''), about.st_size, about.st_mtime)

    @property
    def sensing_day(self) -> str | None:
        """The date of SENSING_START, where it can be read."""
        try:
            return (iso_text(self.header.field('SENSING_START')) or '')[:10] or None
        except Refused:
            return None

    @property
    def last_day(self) -> str:
        """The date on which the file was last written."""
        return datetime.fromtimestamp(self.changed, timezone.utc).isoformat()[:10]

    @property
    def declared(self) -> int | None:
        """The size that the product declares, where it can be read."""
        try:
            return self.header.number('ACTUAL_PRODUCT_SIZE')
        except Refused:
            return None


def _header_near(folder: str, name: str, day: str) -> Entry | None:
    """What the main header of an accepted product says, if it is of the day, the one before or the one after."""
    head = _Head.of(os.path.join(folder, name))
    own = head.sensing_day or head.last_day
    near = [(datetime.fromisoformat(day) + timedelta(days=k)).isoformat()[:10] for k in (-1, 0, 1)]
    return {'day': own, **header_of(head.header)} if own in near else None


def _counted(folder: str, names: list[str], count: Count) -> list[Entry]:
    """The entries of files of a folder, by their names in it."""
    entries = count([os.path.join(folder, name) for name in names])
    return [{**entry, 'file': name} for name, entry in zip(names, entries, strict=True)]


# ---- what is missing


def _rows(day: str, entries: list[Entry], is_over: bool) -> list[Row]:
    """The series that have a product on the day, or on the day before if the day is over."""
    overview = Overview(entry for entry in entries if _has_times(entry))
    found = overview.between_products()
    rows = []
    for key, products in overview.series().items():
        own = [entry for entry in products if entry['sensing_start'][:10] == day]
        if own or is_over and products[0]['sensing_start'][:10] < day:
            of_series = [one for one in found if tuple(one['series']) == key]
            pieces = [*_edges(day, key, products, is_over), *of_series]
            cut = [piece for one in pieces for piece in [_cut_to(day, one)] if piece]
            rows.append(Row(key, own, sorted(cut, key=lambda one: str(one['from']))))
    return rows


def _has_times(entry: Entry) -> bool:
    """Whether both SENSING times are times that the library counts with."""
    try:
        return all(Time.of(entry[name]) for name in ('sensing_start', 'sensing_end'))
    except (Refused, KeyError, TypeError):
        return False


def _edges(day: str, key: tuple[str, ...], products: list[Entry], is_over: bool) -> Iterator[dict[str, Any]]:
    """What is missing before the first product of a series that is known, and after the last if the day is over."""
    gap = {'kind': 'gap', 'ms': 0, 'series': list(key), 'after': None, 'before': None}
    first, last = products[0], max(products, key=lambda entry: str(entry['sensing_end']))
    if line_ms(day, first['sensing_start']) > ROUNDED:
        yield {**gap, 'before': first['file'], 'from': _text_at(day, 0), 'to': first['sensing_start']}
    length = day_length(Time.of(day).day)
    if is_over and length - line_ms(day, last['sensing_end']) > ROUNDED:
        yield {**gap, 'after': last['file'], 'from': last['sensing_end'], 'to': _text_at(day, length)}


def line_ms(day: str, when: str) -> int:
    """The milliseconds from the day's first to a time."""
    return between(Time.of(day), Time.of(when))


def _text_at(day: str, millis: int) -> str:
    """The time so many milliseconds after the day's first."""
    text: str = (Time.of(day) + timedelta(milliseconds=millis)).isoformat()
    return text.replace('.000Z', 'Z')


def _cut_to(day: str, found: dict[str, Any]) -> dict[str, Any] | None:
    """The part of a gap or an overlap that is of the day."""
    start = max(0, line_ms(day, found['from']))
    stop = min(day_length(Time.of(day).day), line_ms(day, found['to']))
    if start >= stop:
        return None
    return {**found, 'ms': stop - start, 'from': _text_at(day, start), 'to': _text_at(day, stop)}


# ---- what was put aside


def _not_whole(overview: Overview) -> list[Aside]:
    """What stands in --accepted and is not accepted: someone else put it there."""
    return [
        Aside(entry['file'], entry['file'], state, **_in_accepted(entry['refusal']), seen=None, is_accepted=False)
        for state in ('refused', 'incomplete')
        for entry in overview.of_state(state)
    ]


def _in_accepted(refusal: dict[str, Any]) -> dict[str, Any]:
    return {**refusal, 'words': f'it stands in --accepted: {refusal["words"]}'}


def _asides(folder: str, day: str, accepted: set[str]) -> list[Aside]:
    """The files of --refused that are of the day, as their notes say; also a note whose file is gone."""
    names = set(_files_in(folder))
    notes = {name.removesuffix(NOTE): note for name in names for note in [_note(folder, name)] if note}
    named = {name for name in names if not _is_beside(name, notes)} | set(notes)
    return [
        _aside(name, notes.get(name, {}), accepted)
        for name in sorted(named)
        if _aside_day(folder, name, notes.get(name, {})) == day
    ]


def _note(folder: str, name: str) -> dict[str, Any] | None:
    """What is noted of a file, if this is such a note."""
    if not name.endswith(NOTE):
        return None
    try:
        with open(os.path.join(folder, name), encoding='utf-8') as file:
            note = json.load(file)
    except ValueError:
        return None
    return note if isinstance(note, dict) and 'state' in note else None


def _is_beside(name: str, notes: dict[str, Any]) -> bool:
    """Whether a file is the note of another, its checksum or the record of its arrival."""
    return any(name[: dot.start()] in notes for dot in re.finditer(r'\.', name))


def _aside_day(folder: str, name: str, note: dict[str, Any]) -> str | None:
    try:
        head = _Head.of(os.path.join(folder, name))
    except FileNotFoundError:
        return _last_day(note)
    return head.sensing_day or _last_day(note) or head.last_day


def _last_day(note: dict[str, Any]) -> str | None:
    return str(note.get('last_seen') or '')[:10] or None


def _aside(name: str, note: dict[str, Any], accepted: set[str]) -> Aside:
    """A file that was put aside, by its note."""
    if not note:
        return Aside(name, name, 'unknown', None, None, 'there is no note of it', None, name in accepted)
    told = str(note.get('name') or name)
    state = note['state'] if note['state'] in STATES else 'unknown'
    words = str(note.get('words') or note.get('meaning') or note['state'])
    return Aside(
        name, told, state, note.get('number'), note.get('place'), words, note.get('last_seen'), told in accepted
    )


def _several(overview: Overview) -> list[Twice]:
    """Products that stand in --accepted under several names."""
    return [
        Twice(
            found['product_name'],
            (
                f'accepted as {", ".join(map(shown, found["files"]))}'
                f'{"" if found["same_header"] else ", with other main headers"}'
            ),
            None,
            not found['same_header'],
        )
        for found in overview.twice()
    ]


# ---- what the log says


def _events_of(logs: Sequence[str]) -> tuple[list[dict[str, Any]], int]:
    """The events of logs that a day asks for, and how many lines are none. A last line without an end is still being
    written."""
    found, bad = [], 0
    for line in (line for path in logs for line in _log_lines(path) if line.endswith(b'\n')):
        try:
            event = json.loads(line)
            is_event = isinstance(event['event'], str) and isinstance(event['name'], str) and bool(event['time'])
        except (ValueError, KeyError, TypeError):
            is_event = False
        bad += not is_event
        if is_event and event['event'] in ('accepted', 'duplicate'):
            found.append(event)
    return found, bad


def _log_lines(path: str) -> Iterator[bytes]:
    """The lines of a log, also of one that logrotate has packed."""
    with gzip.open(path, 'rb') if path.endswith('.gz') else open(path, 'rb') as file:
        yield from file


def _time_of(text: Any) -> Time | None:
    """A time of the log, to its millisecond."""
    try:
        return Time.of(FINER.sub(r'\1', text))
    except (ValueError, TypeError, Refused):
        return None


def _latencies(events: list[dict[str, Any]], whole: list[Entry]) -> dict[str, int]:
    """The milliseconds from the sensing end of each product to its acceptance, by its file."""
    files = {os.path.basename(entry['file']): entry for entry in whole if _has_times(entry)}
    found: dict[str, int] = {}
    for event in events:
        entry, time = files.get(event['name']), _time_of(event['time'])
        if event['event'] == 'accepted' and entry is not None and time is not None:
            found.setdefault(entry['file'], between(Time.of(entry['sensing_end']), time))
    return found


def _again(events: list[dict[str, Any]], day: str, whole: list[Entry], accepted: set[str]) -> list[Twice]:
    """What came again with the same bytes: of the day of its product, or where that is gone of the day it came."""
    own = {os.path.basename(entry['file']) for entry in whole}
    came: dict[str, list[str]] = {}
    for event in events:
        is_own = event['name'] in own or event['name'] not in accepted and str(event['time'])[:10] == day
        if event['event'] == 'duplicate' and is_own:
            came.setdefault(event['name'], []).append(str(event['time']))
    return [
        Twice(name, f'came again {counted(len(times), "time")} with the same bytes', max(times), False)
        for name, times in sorted(came.items())
    ]


# ---- what still waits


def _awaited(folder: str, day: str) -> list[Awaited]:
    """The files of --incoming that are of the day, those that wait longest first."""
    names = [name for name in _files_in(folder) if not name.endswith(SUMS)]
    found = [one for name in names for one in [_awaited_file(folder, name, day)] if one]
    return sorted(found, key=lambda one: (one.since, one.name))


def _awaited_file(folder: str, name: str, day: str) -> Awaited | None:
    """A file that still waits, if it is of the day; one that an intake has just taken does not."""
    try:
        head = _Head.of(os.path.join(folder, name))
    except FileNotFoundError:
        return None
    if (head.sensing_day or head.last_day) != day:
        return None
    since = datetime.fromtimestamp(int(head.changed), timezone.utc)
    return Awaited(name, head.come, head.declared, iso_text(since))
