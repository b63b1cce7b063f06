"""The picture of a product, by matplotlib where it is installed."""
from __future__ import annotations

import textwrap
from typing import Any, NamedTuple

from .drawing import (
    COLOURS,
    DUMMY,
    FINEST,
    GAP,
    LEAST,
    MARK,
    OVERLAP,
    bytes_of,
    draw_clock,
    merged,
    new_figure,
    widened,
)
from .headers import HEAD, HEADER, RecordClass, class_name
from .product import Product, import_numpy
from .refusal import Refusal, Refused
from .times import day_length
from .words import UNDEFINED, declared, walk, what_it_is

SHOWN_ONE_BY_ONE = 400  # beyond so many records the lines between them would hide what they part
SEEN = 1000  # an MDR is drawn at least a 1,000th of the width, which is a pixel
WIDEST = 120  # characters of a line in a picture
POINTERS = (Refusal.TARGET, Refusal.POINTS_INSIDE, Refusal.POINTS_AT_OTHER)


# ---- what is drawn


class Seen(NamedTuple):
    """What of a product can be drawn: start, size, class and group of each record, and its times; its refusal, if it
    has one; and how many bytes the picture is wide."""

    rows: Any
    times: Any
    refused: Refused | None
    width: int


ROW = [('start', 'i8'), ('size', 'i8'), ('class', 'i8'), ('group', 'i8')]
TIMES = [('start_day', 'i8'), ('start', 'i8'), ('stop_day', 'i8'), ('stop', 'i8')]


def see(product: Product) -> Seen:
    """A whole product by its rows; one that is refused or incomplete up to the place, by the sizes of its records."""
    try:
        rows = product.rows
    except Refused as refused:
        return _see_part(product, refused)
    return Seen(_columns(rows, ROW), _columns(product._day_times(), TIMES), None, product.size)


def _columns(table: Any, columns: list[tuple[str, str]]) -> Any:
    """These columns of a table, as numbers that can be added."""
    found = import_numpy().empty(len(table), columns)
    for name, _ in columns:
        found[name] = table[name]
    return found


def _see_part(product: Product, refused: Refused) -> Seen:
    numpy = import_numpy()
    data = memoryview(product.data)
    # a pointer that is refused stands before what it points at: there the sizes lead on
    end = product.size if refused.number in POINTERS else max(1, refused.place)
    rows, times = [], []
    for start, class_, size in walk(data, end) if what_it_is(data) is None else ():
        if (
            not 1 <= class_ <= 8
            or size < HEADER
            or start == refused.place
            and refused.number < Refusal.TARGET
            and start
        ):
            break
        rows.append((start, min(size, product.size - start), class_, data[start + 1]))
        times.append(
            tuple(
                int.from_bytes(data[start + at : start + to], 'big')
                for at, to in ((8, 10), (10, 14), (14, 16), (16, 20))
            )
        )
    is_part = refused.number == Refusal.UNFINISHED and product.size >= HEAD
    width = declared(data) if is_part else max(product.size, refused.place, 1)
    return Seen(numpy.array(rows, ROW), numpy.array(times, TIMES), refused, width)


def runs(rows: Any) -> list[tuple[int, int, int, int]]:
    """Records of one class that follow each other: class, where they start, their bytes, how many they are."""
    numpy = import_numpy()
    if not len(rows):
        return []
    begins = numpy.concatenate(([0], numpy.flatnonzero(numpy.diff(rows['class'])) + 1))
    counts = numpy.diff(numpy.concatenate((begins, [len(rows)])))
    sizes = numpy.add.reduceat(rows['size'].astype('i8'), begins)
    return list(zip(rows['class'][begins].tolist(), rows['start'][begins].tolist(), sizes.tolist(), counts.tolist()))


class Spans(NamedTuple):
    """MDRs along time, in milliseconds from the first midnight, leap seconds counted: the day of that midnight, start
    and stop of each MDR that has both, whether it is a dummy; the stop of each and the start of the next, where both
    are defined; and how many have an undefined time."""

    day: int | None
    bars: Any
    is_dummy: Any
    between: Any
    undefined: int


def spans(seen: Seen) -> Spans:
    """The MDRs of what is seen."""
    numpy = import_numpy()
    chosen = seen.rows['class'] == RecordClass.MDR
    times, groups = seen.times[chosen], seen.rows['group'][chosen]
    defined = {
        name: (times[name + '_day'] != UNDEFINED[0]) | (times[name] != UNDEFINED[1]) for name in ('start', 'stop')
    }
    days = numpy.concatenate([times[name + '_day'][defined[name]] for name in ('start', 'stop')])
    if not len(days):
        return Spans(None, numpy.empty((0, 2)), numpy.empty(0, bool), numpy.empty((0, 2)), len(times))
    first = int(days.min())
    before = numpy.cumsum([0, *map(day_length, range(first, int(days.max())))])
    start, stop = (
        numpy.where(defined[name], before[numpy.where(defined[name], times[name + '_day'] - first, 0)] + times[name], 0)
        for name in ('start', 'stop')
    )
    both, pair = defined['start'] & defined['stop'], defined['stop'][:-1] & defined['start'][1:]
    return Spans(
        first,
        numpy.stack((start[both], stop[both]), 1),
        groups[both] == 13,
        numpy.stack((stop[:-1][pair], start[1:][pair]), 1),
        int(len(times) - both.sum()),
    )


# ---- a product


def picture_of_product(product: Product, suffix: str = 'svg') -> bytes:
    """The records along the product's bytes, coloured by class, and its MDRs along time with gaps and overlaps. A
    product that is refused or incomplete is drawn up to the place, which is marked."""
    figure = new_figure(11, 6)
    seen = see(product)
    title = _title(product)
    heights = {'height_ratios': (2, 1.1, 2.4)}
    above, middle, below = figure.subplots(3, 1, gridspec_kw=heights)
    _along_bytes(above, seen)
    _sections(middle, seen)
    _along_time(below, seen)
    figure.suptitle(
        title if seen.refused is None else f'{title}\n{_refusal_title(seen.refused)}',
        fontsize=9,
        color='black' if seen.refused is None else MARK,
        parse_math=False,
    )
    return bytes_of(figure, suffix, title)


def _title(product: Product) -> str:
    try:
        return str(product.field('PRODUCT_NAME')).strip()
    except Refused:
        return product.path or 'a product'


def _refusal_title(refused: Refused) -> str:
    text = f'{refused.state.value if refused.state else "refused"} {refused.number} at {refused.place}: {refused.words}'
    return '\n'.join(textwrap.wrap(text, WIDEST, max_lines=3, placeholder=' ..'))


def _along_bytes(axes: Any, seen: Seen) -> None:
    from matplotlib.ticker import MaxNLocator, StrMethodFormatter

    for class_, start, size, _ in runs(seen.rows):
        axes.broken_barh([(start, size)], (0, 1), facecolors=COLOURS[class_])
    if 0 < len(seen.rows) <= SHOWN_ONE_BY_ONE:
        axes.vlines(seen.rows['start'].tolist(), 0, 1, colors='white', linewidths=0.6)
    if seen.refused is not None:
        axes.axvline(seen.refused.place, color=MARK, linewidth=2.5, ymax=1)
        axes.plot([seen.refused.place], [1.12], marker='v', color=MARK, clip_on=False, markersize=9)
    what = f'{len(seen.rows):,} records, {seen.width:,} bytes'
    if seen.refused is not None:
        what = (
            f'{len(seen.rows):,} records'
            f' {"as far as their sizes lead" if seen.refused.number in POINTERS else "up to the mark"}, of'
            f' {seen.width:,} bytes'
        )
    axes.set(xlim=(0, seen.width), ylim=(0, 1), yticks=[])
    axes.set_title(what, fontsize=9, pad=14 if seen.refused is not None else 6)
    axes.xaxis.set_major_locator(MaxNLocator(8, integer=True))
    axes.xaxis.set_major_formatter(StrMethodFormatter('{x:,.0f}'))
    axes.tick_params(labelsize=8)
    axes.set_xlabel('byte', fontsize=8)


def _sections(axes: Any, seen: Seen) -> None:
    """The classes that are there, as boxes of one width: beside the MDRs the others could not be seen."""
    found = classes_of(seen.rows)
    style = {'ha': 'center', 'va': 'center', 'fontsize': 7, 'color': 'white', 'fontweight': 'bold', 'clip_on': True}
    for k, (class_, (first, size, count)) in enumerate(found):
        axes.broken_barh([(k, 0.97)], (0, 1), facecolors=COLOURS[class_])
        axes.text(k + 0.485, 0.5, f'{class_name(class_)} {count:,}\nfrom {first:,}\n{size:,} bytes', **style)
    axes.set(xlim=(0, max(1, len(found))), ylim=(0, 1))
    axes.axis('off')
    axes.set_title('records of each class, not to scale' if found else 'no record', fontsize=8, pad=3)


def classes_of(rows: Any) -> list[tuple[int, tuple[int, int, int]]]:
    """Of each class that is there where its first record starts, its bytes, and how many records it has."""
    found: dict[int, tuple[int, int, int]] = {}
    for class_, start, size, count in runs(rows):
        first, bytes_, records = found.get(class_, (start, 0, 0))
        found[class_] = first, bytes_ + size, records + count
    return sorted(found.items())


def _along_time(axes: Any, seen: Seen) -> None:
    found = spans(seen)
    lengths = found.between[:, 1] - found.between[:, 0]
    gaps, overlaps = found.between[lengths > 0], found.between[lengths < 0][:, ::-1]
    everything = import_numpy().concatenate((found.bars, gaps, overlaps))
    low, high = (float(everything.min()), float(everything.max())) if len(everything) else (0.0, 1000.0)
    width = max(high - low, 1.0)
    _draw_mdrs(axes, found.bars[~found.is_dummy], width, COLOURS[8], 'MDR')
    _draw_mdrs(axes, found.bars[found.is_dummy], width, DUMMY, 'dummy')
    # last, and where they are narrow over the MDRs too, so that nothing hides them
    _draw_between(axes, gaps, width, 1, GAP, 'gap')
    _draw_between(axes, overlaps, width, 0, OVERLAP, 'overlap')
    axes.set(xlim=(low - width / 100, high + width / 100), ylim=(0, 3))
    axes.set(yticks=[0.45, 1.45, 2.45], yticklabels=['overlaps', 'gaps', 'MDRs'])
    axes.tick_params(labelsize=8)
    draw_clock(axes, found.day, low, high)
    if found.undefined:
        axes.set_title(f'{found.undefined} MDRs with an undefined time are not drawn', fontsize=8)
    axes.legend(loc='upper center', bbox_to_anchor=(0.5, -0.3), ncols=4, fontsize=8, frameon=False)


def _draw_mdrs(axes: Any, bars: Any, width: float, colour: str, name: str) -> None:
    drawn = widened(merged(bars, width / FINEST), width / SEEN)
    axes.broken_barh(drawn, (2, 0.9), facecolors=colour, label=f'{name} {len(bars):,}')


def _draw_between(axes: Any, bars: Any, width: float, level: int, colour: str, name: str) -> None:
    """Gaps or overlaps in their row, and what would be too narrow to be seen over the MDRs too."""
    least, drawn = width / LEAST, merged(bars, width / FINEST)
    label = f'{name} {len(bars):,}, {int((bars[:, 1] - bars[:, 0]).sum()):,} ms'
    axes.broken_barh(widened(drawn, least), (level, 0.9), facecolors=colour, label=label, zorder=4)
    narrow = [(start, length) for start, length in drawn if length < least]
    axes.broken_barh(widened(narrow, least), (2, 0.9), facecolors=colour, zorder=4)
