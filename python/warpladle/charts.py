"""The pictures of reports, by matplotlib where it is installed."""
from __future__ import annotations

from typing import TYPE_CHECKING, Any

from .drawing import COLOURS, GAP, LEAST, OVERLAP, bytes_of, draw_clock, new_figure, widened
from .headers import CLASSES
from .refusal import MEANING
from .report import Report, named_numbers
from .times import Time, day_length

if TYPE_CHECKING:
    from .overview import Overview

STATES = {'whole': '#2e7d32', 'incomplete': '#f9a825', 'refused': '#c62828', 'error': '#6d4c41'}
REASONS = 14  # names of refused products that a picture has room for
LONGEST = 185  # characters of a reason
WITH_COUNTS = 16  # days beyond which the numbers over their bars would run into each other


def _bars_by_class(axes: Any, name: str, numbers: dict[str, int]) -> None:
    """A bar for each class, with its number."""
    axes.barh(CLASSES[1:], [numbers[c] for c in CLASSES[1:]], color=COLOURS[1:])
    most = max([*numbers.values(), 1])
    for k, class_ in enumerate(CLASSES[1:]):
        axes.text(numbers[class_] + most / 60, k, f'{numbers[class_]:,}', va='center', fontsize=7)
    axes.set(xlim=(0, 1.55 * most), xticks=[])
    axes.set_title(name, fontsize=9)
    axes.tick_params(labelsize=8)
    axes.invert_yaxis()


def _title_of(of: dict[str, Any]) -> str:
    return (
        f'{of["products"]:,} products, {of["accepted"]:,} accepted; gaps {of["gap_ms"]:,} ms, overlaps'
        f' {of["overlap_ms"]:,} ms, {of["undefined_pairs"]:,} pairs with an undefined time'
    )


def picture_of_report(report: Report, suffix: str = 'svg') -> bytes:
    """Records and bytes of each class, and what was accepted and refused, and why."""
    of = report.as_dict()
    figure = new_figure(11, 4)
    axes = figure.subplots(1, 3, gridspec_kw={'width_ratios': (1, 1, 1.9)})
    _bars_by_class(axes[0], 'records', of['records'])
    _bars_by_class(axes[1], 'bytes', of['bytes'])
    verdicts = {'accepted': of['accepted'], **{f'refused {number}': count for number, count in of['refused'].items()}}
    axes[2].barh(list(verdicts), list(verdicts.values()), color=[STATES['whole']] + [GAP] * (len(verdicts) - 1))
    most = max(1, *verdicts.values())
    for k, (name, count) in enumerate(verdicts.items()):
        meaning = '' if name == 'accepted' else f'  {MEANING[int(name.split()[1])]}'
        text = f'{count:,}{meaning}'
        axes[2].text(
            count + most / 30, k, text if len(text) <= 64 else text[:62] + '..', va='center', fontsize=7, clip_on=True
        )
    axes[2].set(xlim=(0, 3.4 * most), xticks=[])
    axes[2].set_title('products', fontsize=9)
    axes[2].tick_params(labelsize=8)
    axes[2].invert_yaxis()
    figure.suptitle(_title_of(of), fontsize=9)
    return bytes_of(figure, suffix, _title_of(of))


def picture_of_overview(overview: Overview, suffix: str = 'svg') -> bytes:
    """Products along time in rows of one spacecraft, instrument, type and level, with what is missing between them;
    products of each day; records and bytes of each class; and the names and reasons of what is refused or
    incomplete."""
    of = named_numbers(overview.numbers)
    faults = [entry for state in ('refused', 'incomplete', 'error') for entry in overview.of_state(state)]
    series = overview.series()
    rows = min(REASONS, len(faults)) + (len(faults) > REASONS)
    figure = new_figure(11, 5 + 0.35 * max(1, len(series)) + 0.2 * rows)
    grid = figure.add_gridspec(3, 3, height_ratios=(1 + 0.5 * max(1, len(series)), 3.2, 0.5 + 0.28 * max(1, rows)))
    _products_along_time(figure.add_subplot(grid[0, :]), overview)
    _days(figure.add_subplot(grid[1, 0]), overview)
    _bars_by_class(figure.add_subplot(grid[1, 1]), 'records', of['records'])
    _bars_by_class(figure.add_subplot(grid[1, 2]), 'bytes', of['bytes'])
    _reasons(figure.add_subplot(grid[2, :]), faults)
    figure.suptitle(_title_of(of), fontsize=10)
    return bytes_of(figure, suffix, _title_of(of))


def _line_ms(text: str, first: int) -> int:
    """A SENSING time as milliseconds from the first midnight."""
    time = Time.of(text)
    return sum(map(day_length, range(first, time.day))) + time.milli


def _products_along_time(axes: Any, overview: Overview) -> None:
    series = overview.series()
    entries = [entry for found in series.values() for entry in found]
    if not entries:
        axes.set(xticks=[], yticks=[])
        axes.set_xlabel('no whole product with SENSING times', fontsize=8)
        return
    first = min(Time.of(entry['sensing_start']).day for entry in entries)
    bars = {
        key: [(_line_ms(entry['sensing_start'], first), _line_ms(entry['sensing_end'], first)) for entry in found]
        for key, found in series.items()
    }
    low, high = (float(pick(end for found in bars.values() for bar in found for end in bar)) for pick in (min, max))
    width = max(high - low, 1000.0)
    _draw_series(axes, bars, width)
    _draw_missing(axes, overview, list(bars), first, width)
    axes.set(xlim=(low - width / 100, high + width / 100), ylim=(0, len(bars)))
    axes.set(yticks=[k + 0.5 for k in range(len(bars))], yticklabels=[' '.join(name) for name in bars])
    axes.tick_params(labelsize=8)
    axes.set_title('products by SENSING times; gaps between them red, overlaps orange', fontsize=9)
    draw_clock(axes, first, low, high)


def _draw_series(axes: Any, bars: dict[tuple[str, ...], list[tuple[int, int]]], width: float) -> None:
    """A row of bars for each series."""
    for k, lengths in enumerate(bars.values()):
        drawn = widened([(start, stop - start) for start, stop in lengths], width / LEAST)
        axes.broken_barh(drawn, (k + 0.05, 0.9), facecolors=COLOURS[8])


def _draw_missing(axes: Any, overview: Overview, names: list[tuple[str, ...]], first: int, width: float) -> None:
    """What is missing between products of a series, and what overlaps."""
    for found in overview.between_products():
        start, stop = (_line_ms(found[name], first) for name in ('from', 'to'))
        drawn = widened([(start, stop - start)], width / LEAST)
        colour = GAP if found['kind'] == 'gap' else OVERLAP
        axes.broken_barh(drawn, (names.index(tuple(found['series'])) + 0.05, 0.9), facecolors=colour, zorder=4)


def _days(axes: Any, overview: Overview) -> None:
    """How many products of each state a day has."""
    days = overview.by_day()
    below = [0] * len(days)
    for state, colour in STATES.items():
        counts = [len(found.of_state(state)) for found in days.values()]
        if any(counts):
            axes.bar(range(len(days)), counts, bottom=below, color=colour, label=f'{state} {sum(counts):,}')
        below = [one + other for one, other in zip(below, counts)]
    shown = range(0, len(days), max(1, len(days) // 8))
    names = list(days)
    axes.set(xticks=list(shown), ylim=(0, 1.45 * max([*below, 1])))
    axes.set_xticklabels([names[k] for k in shown], rotation=30, ha='right', fontsize=7)
    _write_counts(axes, below if len(days) <= WITH_COUNTS else [])
    axes.set_title('products of each day', fontsize=9)
    axes.yaxis.get_major_locator().set_params(integer=True)
    axes.tick_params(axis='y', labelsize=8)
    axes.legend(fontsize=7, frameon=False, loc='upper right')


def _write_counts(axes: Any, counts: list[int]) -> None:
    """The number of each bar over it."""
    for k, count in enumerate(counts):
        axes.text(k, count, f'{count:,}', ha='center', va='bottom', fontsize=7)


def _reasons(axes: Any, faults: list[dict[str, Any]]) -> None:
    """The names of what is refused, incomplete or cannot be read, and why."""
    axes.axis('off')
    lines = [_reason(entry) for entry in faults[:REASONS]]
    if len(faults) > REASONS:
        lines.append(f'and {len(faults) - REASONS:,} more')
    style = {'fontsize': 7, 'va': 'center', 'transform': axes.transAxes, 'clip_on': True, 'parse_math': False}
    for k, line in enumerate(lines or ['nothing is refused, and nothing is incomplete']):
        axes.text(0, 1 - (k + 0.5) / max(1, len(lines)), line, **style)


def _reason(entry: dict[str, Any]) -> str:
    name = entry['file'] if len(entry['file']) <= 60 else '..' + entry['file'][-58:]
    why = (
        entry['error']['words']
        if entry['state'] == 'error'
        else f'{entry["refusal"]["number"]} at {entry["refusal"]["place"]}: {entry["refusal"]["words"]}'
    )
    text = f'{entry["state"]}: {name}: {why}'
    return text if len(text) <= LONGEST else text[: LONGEST - 2] + '..'
