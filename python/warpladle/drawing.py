"""What all pictures share: figures without pyplot, their bytes, bars that can be seen, and clock times along an axis.

Figures are made without pyplot, and settings are put back, so that the caller's figures, backend and settings stay as
they are.
"""
from __future__ import annotations

import io
from datetime import timedelta
from typing import Any

from .files import PathLike, write_beside
from .product import import_numpy
from .times import Time, between

SUFFIXES = ('svg', 'png', 'pdf', 'jpg')
COLOURS = ('', '#4e4e4e', '#9c9c9c', '#d4a017', '#2e7d32', '#81c784', '#6a1b9a', '#ba68c8', '#1565c0')
GAP, OVERLAP, DUMMY, MARK = '#c62828', '#ef6c00', '#b0bec5', '#c62828'
FINEST = 2000  # of a picture's width so many parts can be told apart: bars that are nearer are drawn as one
LEAST = 300  # a gap or an overlap is drawn at least a 300th of the width, which is more than two pixels
SECONDS = (1, 2, 5, 10, 15, 30, 60, 120, 300, 600, 900, 1800, 3600, 7200, 10800, 21600, 43200)
STEPS = (1, 2, 5, 10, 20, 50, 100, 200, 500, *(1000 * step for step in SECONDS))  # milliseconds between ticks
TICKS = 9


class NoMatplotlib(ImportError):
    """Pictures were asked for where matplotlib is not installed."""


class Picture:
    """A picture: its bytes, and its kind as the suffix of its file. A notebook shows it."""

    def __init__(self, data: bytes, suffix: str) -> None:
        self.data = data
        self.suffix = suffix

    def save(self, path: PathLike, *, force: bool = False) -> None:
        """Writes it, beside its place; an existing file is kept unless forced."""
        write_beside(path, self.data, force=force)

    def __repr__(self) -> str:
        return f'<Picture, {self.suffix}, {len(self.data)} bytes>'

    def _repr_svg_(self) -> str | None:
        return self.data.decode() if self.suffix == 'svg' else None

    def _repr_png_(self) -> bytes | None:
        return self.data if self.suffix == 'png' else None

    def _repr_jpeg_(self) -> bytes | None:
        return self.data if self.suffix == 'jpg' else None


def new_figure(width: float, height: float) -> Any:
    try:
        from matplotlib.figure import Figure
    except ImportError as error:
        raise NoMatplotlib(
            f'a picture needs matplotlib, which is not installed here (Debian: python3-matplotlib): {error}'
        ) from None
    return Figure(figsize=(width, height), layout='constrained')


def bytes_of(figure: Any, suffix: str, title: str) -> bytes:
    """The bytes of a figure: the same figure has the same bytes, and its text is text."""
    import matplotlib

    metadata = {
        'svg': {'Date': None, 'Title': title},
        'png': {'Title': title},
        'pdf': {'CreationDate': None, 'Title': title},
    }
    room = io.BytesIO()
    if suffix not in SUFFIXES:
        raise ValueError(f'{suffix!r} is no kind of picture: {", ".join(SUFFIXES)}')
    with matplotlib.rc_context({'svg.hashsalt': 'warpladle', 'svg.fonttype': 'none'}):
        figure.savefig(room, format=suffix, **({'metadata': metadata[suffix]} if suffix in metadata else {}))
    return room.getvalue()


def merged(bars: Any, nearest: float) -> list[tuple[float, float]]:
    """Bars, each a start and a stop, as starts and widths; those that are nearer to each other as one."""
    numpy = import_numpy()
    if not len(bars):
        return []
    bars = bars[numpy.argsort(bars[:, 0], kind='stable')]
    ends = numpy.maximum.accumulate(bars[:, 1])
    begins = numpy.concatenate(([0], numpy.flatnonzero(bars[1:, 0] - ends[:-1] >= nearest) + 1))
    lasts = numpy.concatenate((begins[1:], [len(bars)])) - 1
    return list(zip(bars[begins, 0].tolist(), (ends[lasts] - bars[begins, 0]).tolist()))


def widened(bars: list[tuple[float, float]], least: float) -> list[tuple[float, float]]:
    """Bars of at least a width, about their middle."""
    return [(start, width) if width >= least else (start + width / 2 - least / 2, least) for start, width in bars]


# ---- time


def draw_clock(axes: Any, day: int | None, low: float, high: float) -> None:
    """Ticks at round clock times, and the day beneath; from many days on at midnights. Times are milliseconds from the
    first midnight of a day."""
    if day is None:
        axes.set(xticks=[])
        axes.set_xlabel('no MDR with a defined time', fontsize=8)
        return
    ticks = clock_ticks(day, low, high)
    times = [_time_at(day, tick) for tick in ticks]
    is_one_day = all(time.day == day for time in times)
    axes.set(xticks=ticks, xticklabels=_tick_texts(times, is_one_day))
    date = Time(day, 0).isoformat()[:10]
    axes.set_xlabel(f'UTC, {date}' if is_one_day else f'UTC, from {date} on', fontsize=8)


def _time_at(day: int, millis: float) -> Time:
    time: Time = Time(day, 0) + timedelta(milliseconds=int(millis))
    return time


def clock_ticks(day: int, low: float, high: float) -> list[int]:
    """Where a tick stands, some nine at most, on round clock times."""
    step = next((step for step in STEPS if high - low <= step * TICKS), None)
    if step is not None:
        return list(range(-(-int(low) // step) * step, int(high) + 1, step))
    first, last = _time_at(day, low).day, _time_at(day, high).day
    every = -(-(last - first + 1) // TICKS)
    midnights = [between(Time(day, 0), Time(k, 0)) for k in range(first, last + 1, every)]
    return [at for at in midnights if low <= at <= high]


def _tick_texts(times: list[Time], is_one_day: bool) -> list[str]:
    """Clock times, with the date if there is more than one, or dates alone if all are midnights."""
    texts = [time.isoformat() for time in times]
    if not is_one_day and all(time.milli == 0 for time in times):
        return [text[:10] for text in texts]
    end = 23 if any(time.milli % 1000 for time in times) else 19
    return [text[11:end] if is_one_day else f'{text[5:10]}\n{text[11:end]}' for text in texts]
