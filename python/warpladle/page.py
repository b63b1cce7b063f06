"""The page of a day: HTML that stands alone, with no script and nothing from outside, for a screen, a phone and paper.

Places along a timeline are in parts of a hundred of the day, so that a bar is as wide on a phone as it has room. Bars
of products lie in the middle of their line, gaps are as high as the line and overlaps lie beneath, so that they are
told apart without colours too.
"""
from __future__ import annotations

import html
from collections.abc import Iterable, Sequence
from typing import Any

from .about import __version__
from .day import Day, DayState, Row, aside_words, clock_text, counted, length_text, line_ms, row_text, shown
from .headers import CLASSES
from .overview import Entry
from .report import named_numbers
from .times import Time, day_length

MARKS = {DayState.WHOLE: '✓', DayState.NOT_WHOLE: '✗', DayState.WAITING: '…', DayState.ERROR: '!'}
CLASS_OF = {
    DayState.WHOLE: 'whole',
    DayState.NOT_WHOLE: 'faulty',
    DayState.WAITING: 'waiting',
    DayState.ERROR: 'faulty',
}
HOUR = 3_600_000  # milliseconds
LABELLED = 6  # hours between two that are written under a timeline
POLICY = "default-src 'none'; style-src 'unsafe-inline'; img-src data:"
STYLE = '''
:root {
  color-scheme: light dark;
  --paper: #ffffff; --ink: #1b1f24; --faint: #57606a; --line: #d0d7de; --band: #eef1f4; --on: #ffffff;
  --one: #0f4f9e; --two: #478ad4; --gap: #c62828; --overlap: #b45309;
  --whole: #1a6b2a; --faulty: #b3261e; --waiting: #8a5300;
}
@media screen and (prefers-color-scheme: dark) {
  :root {
    --paper: #14181d; --ink: #e6e9ed; --faint: #a3acb6; --line: #3a424c; --band: #20262d; --on: #14181d;
    --one: #6cb2ff; --two: #3a78b8; --gap: #ff6b63; --overlap: #ffb04d;
    --whole: #7ddc8f; --faulty: #ff9a93; --waiting: #ffc46b;
  }
}
* { box-sizing: border-box; }
body {
  margin: 0 auto; max-width: 76rem; padding: 1rem; background: var(--paper); color: var(--ink);
  font: 1rem/1.45 system-ui, sans-serif; overflow-wrap: anywhere;
}
h1 { font-size: 1.25rem; margin: 0 0 .5rem; }
h2 { font-size: 1.1rem; margin: 2rem 0 .5rem; }
h3 { font-size: 1rem; margin: 1.25rem 0 .25rem; }
p { margin: .25rem 0; }
.state {
  display: flex; gap: .75rem; align-items: center; padding: .75rem 1rem; border-radius: .5rem;
  font-size: 1.35rem; font-weight: 600; line-height: 1.3; color: var(--on);
}
.state span { font-size: 2rem; line-height: 1; }
.state.whole { background: var(--whole); }
.state.faulty { background: var(--faulty); }
.state.waiting { background: var(--waiting); }
dl { display: grid; grid-template-columns: repeat(auto-fit, minmax(8.5rem, 1fr)); gap: .5rem; margin: .75rem 0; }
dl div { padding: .5rem .75rem; background: var(--band); border-radius: .5rem; }
dt { color: var(--faint); font-size: .875rem; }
dd { margin: 0; font-size: 1.15rem; font-weight: 600; }
dd.bad { color: var(--faulty); }
dd.late { color: var(--waiting); }
figure { margin: 0; }
svg { display: block; width: 100%; overflow: visible; }
svg text { fill: var(--faint); font-size: 12px; }
svg line { stroke: var(--line); }
.ground { fill: var(--band); }
.one { fill: var(--one); }
.two { fill: var(--two); }
.gap { fill: var(--gap); stroke: var(--gap); stroke-width: 2; }
.overlap { fill: var(--overlap); stroke: var(--overlap); stroke-width: 2; }
.key { display: flex; flex-wrap: wrap; gap: .25rem 1.25rem; padding: 0; margin: .25rem 0; font-size: .875rem; }
.key li { list-style: none; }
.key svg { display: inline-block; width: 1.5rem; vertical-align: -3px; margin-right: .4rem; }
table { width: 100%; border-collapse: collapse; font-size: .925rem; margin: .5rem 0; }
caption { text-align: left; color: var(--faint); padding: .25rem 0; }
th, td { text-align: left; vertical-align: top; padding: .35rem .6rem .35rem 0; border-bottom: 1px solid var(--line); }
thead th { color: var(--faint); }
.long { min-width: 12rem; }
.words { min-width: 9rem; overflow-wrap: break-word; }
.short, .number { white-space: nowrap; overflow-wrap: normal; }
.number { text-align: right; font-variant-numeric: tabular-nums; }
.number + * { padding-left: 1rem; }
summary { cursor: pointer; padding: .35rem 0; }
footer { margin-top: 2rem; }
.faint, footer { color: var(--faint); font-size: .875rem; }
@media screen and (max-width: 40rem) {
  .state { font-size: 1.15rem; }
  thead { position: absolute; width: 1px; height: 1px; overflow: hidden; clip-path: inset(50%); }
  tr { display: block; padding: .5rem 0; border-bottom: 1px solid var(--line); }
  tbody tr > * { display: flex; gap: .75rem; min-width: 0; padding: .1rem 0; border: 0; }
  tbody tr > *::before { content: attr(data-name); flex: 0 0 6.5rem; color: var(--faint); font-weight: 400; }
  tbody tr > :has(span:empty) { display: none; }
  tr > .short, tr > .number { text-align: left; white-space: normal; }
  tr > .number + * { padding-left: 0; }
}
@media print {
  :root { color-scheme: light; }
  * { print-color-adjust: exact; -webkit-print-color-adjust: exact; }
  html { font-size: 9pt; }
  body { max-width: none; padding: 0; }
  figure, tr, .state { break-inside: avoid; }
  h2, h3, caption, thead { break-after: avoid; }
  tbody tr:first-child { break-before: avoid; }
  details { display: none; }
}
'''

# kinds of columns: names break anywhere, words between words, what is short and numbers never
LONG, WORDS, SHORT, NUMBER = 'long', 'words', 'short', 'number'


def page_of_day(day: Day) -> bytes:
    """The page, in UTF-8."""
    title = f'{day.day}: {day.state.value}'
    parts = [
        '<!DOCTYPE html>\n<html lang="en">\n<head>\n<meta charset="utf-8">',
        '<meta name="viewport" content="width=device-width, initial-scale=1">',
        f'<meta http-equiv="Content-Security-Policy" content="{POLICY}">',
        '<link rel="icon" href="data:,">',
        f'<title>{escaped(title)}</title>\n<style>{STYLE}</style>\n</head>\n<body>',
        *_top(day),
        '<main>',
        *_timelines(day),
        *_not_accepted(day),
        *_latency(day),
        *_classes(day),
        *_waiting(day),
        '</main>',
        f'<footer>Made {escaped(day.made)} by warpladle {escaped(__version__)}. All times are UTC.</footer>',
        '</body>\n</html>\n',
    ]
    return '\n'.join(parts).encode()


def escaped(text: str) -> str:
    """A text as HTML has it, whatever bytes a name in it has."""
    return html.escape(shown(text))


def table(caption: str, columns: Sequence[tuple[str, str]], rows: Iterable[Sequence[str]]) -> str:
    """A table of columns, each a name and its kind, whose rows begin with their header. Each cell has the name of its
    column, which a phone shows beside it."""
    head = ''.join(f'<th scope="col" class="{kind}">{escaped(name)}</th>' for name, kind in columns)
    body = '\n'.join(f'<tr>{_cells(columns, row)}</tr>' for row in rows)
    return (
        f'<table>\n<caption>{escaped(caption)}</caption>\n<thead><tr>{head}</tr></thead>\n'
        f'<tbody>\n{body}\n</tbody>\n</table>'
    )


def _cells(columns: Sequence[tuple[str, str]], row: Sequence[str]) -> str:
    found: list[str] = []
    for (name, kind), text in zip(columns, row, strict=True):
        tag, scope = ('td', '') if found else ('th', ' scope="row"')
        found.append(f'<{tag}{scope} class="{kind}" data-name="{escaped(name)}"><span>{escaped(text)}</span></{tag}>')
    return ''.join(found)


# ---- the top


def _top(day: Day) -> list[str]:
    """Whether the day is whole, and its numbers."""
    tiles = '\n'.join(
        f'<div><dt>{escaped(name)}</dt><dd class="{kind}">{escaped(text)}</dd></div>'
        for name, text, kind in _tiles(day)
    )
    return [
        f'<header>\n<h1>The day {escaped(day.day)}</h1>',
        (
            f'<p class="state {CLASS_OF[day.state]}" role="status"><span aria-hidden="true">{MARKS[day.state]}</span>'
            f' {escaped(day.headline)}</p>'
        ),
        f'<dl>\n{tiles}\n</dl>\n</header>',
    ]


def _tiles(day: Day) -> list[tuple[str, str, str]]:
    """A name, a text and whether it is bad or late, for each."""
    whole = day.overview.of_state('whole')
    missing = sum(gap['ms'] for gap in day.gaps)
    faults = sum(one.is_fault for one in day.aside)
    latency = day.latency_of(whole)
    waiting = 'not asked' if day.waiting is None else f'{len(day.waiting):,}'
    return [
        ('accepted', f'{len(whole):,}', '' if whole else 'bad'),
        ('missing', length_text(missing) if missing else 'nothing', 'bad' if missing else ''),
        ('put aside', f'{faults:,}', 'bad' if faults else ''),
        ('still to come', waiting, 'late' if day.waiting else ''),
        ('latency, median', 'not known' if latency is None else length_text(latency['median_ms']), ''),
    ]


# ---- timelines


def _timelines(day: Day) -> list[str]:
    parts = ['<section>\n<h2>Products along the day</h2>', _KEY if day.rows else '<p>There is none.</p>']
    for row in day.rows:
        parts += _timeline(day, row)
    return [*parts, '</section>']


_KEY = (
    '<ul class="key">'
    '<li><svg height="16" aria-hidden="true"><rect class="one" y="4" width="50%" height="9"/>'
    '<rect class="two" x="50%" y="4" width="50%" height="9"/></svg>products, one beside the other</li>'
    '<li><svg height="16" aria-hidden="true"><rect class="gap" x="30%" y="1" width="40%" height="14"/></svg>gap</li>'
    '<li><svg height="16" aria-hidden="true"><rect class="one" y="2" width="100%" height="8"/>'
    '<rect class="overlap" x="30%" y="13" width="40%" height="2"/></svg>overlap</li></ul>'
)


def _timeline(day: Day, row: Row) -> list[str]:
    """A series: its line, what is missing in it, and the names of its products."""
    name = ' '.join(row.series)
    parts = [
        f'<h3>{escaped(name)}</h3>\n<figure>\n<figcaption>{escaped(row_text(row))}</figcaption>',
        f'<svg height="52" role="img" aria-label="{escaped(f"{name}: {row_text(row)}")}">',
        '<rect class="ground" y="4" width="100%" height="26"/>',
        *_clock(day.day),
        *(_bar(day.day, entry, k) for k, entry in enumerate(row.products)),
        *(_mark(day.day, found) for found in row.between),
        '</svg>\n</figure>',
    ]
    if row.between:
        parts.append(_between_table(day, row))
    return [*parts, _products_table(day, row)] if row.products else parts


def _place(day: str, start: int, stop: int) -> str:
    """Where something lies along the day, in parts of a hundred."""
    length = day_length(Time.of(day).day)
    first, last = max(0, min(start, length)), max(0, min(stop, length))
    return f'x="{100 * first / length:.3f}%" width="{100 * max(0, last - first) / length:.3f}%"'


def _clock(day: str) -> list[str]:
    """A line at each third hour, and some hours in words."""
    length = day_length(Time.of(day).day)
    parts = []
    for hour in range(0, 25, 3):
        x = f'{100 * min(hour * HOUR, length) / length:.3f}%'
        parts.append(f'<line x1="{x}" x2="{x}" y1="4" y2="34"/>')
        if hour % LABELLED == 0:
            anchor = {0: 'start', 24: 'end'}.get(hour, 'middle')
            parts.append(f'<text x="{x}" y="48" text-anchor="{anchor}">{hour:02}:00</text>')
    return parts


def _bar(day: str, entry: Entry, k: int) -> str:
    """A product; neighbours have two shades."""
    start, end = entry['sensing_start'], entry['sensing_end']
    place = _place(day, line_ms(day, start), line_ms(day, end))
    title = f'{entry["file"]}, {clock_text(day, start)} to {clock_text(day, end)}'
    return f'<rect class="{"two" if k % 2 else "one"}" {place} y="7" height="15"><title>{escaped(title)}</title></rect>'


def _mark(day: str, found: dict[str, Any]) -> str:
    """A gap or an overlap, never narrower than its edge of two pixels."""
    place = _place(day, line_ms(day, found['from']), line_ms(day, found['to']))
    height = 'y="4" height="26"' if found['kind'] == 'gap' else 'y="25" height="5"'
    title = f'{found["kind"]} of {length_text(found["ms"])}'
    return f'<rect class="{found["kind"]}" {place} {height}><title>{escaped(title)}</title></rect>'


def _between_table(day: Day, row: Row) -> str:
    return table(
        'Gaps and overlaps between products',
        (('what', SHORT), ('length', SHORT), ('from', SHORT), ('to', SHORT), ('after', LONG), ('before', LONG)),
        (
            (
                found['kind'],
                length_text(found['ms']),
                clock_text(day.day, found['from']),
                clock_text(day.day, found['to']),
                found['after'] or 'nothing known',
                found['before'] or 'nothing known',
            )
            for found in row.between
        ),
    )


def _products_table(day: Day, row: Row) -> str:
    """The names of all products, for those who cannot point at a bar."""
    rows = table(
        f'Products of {" ".join(row.series)}',
        (('product', LONG), ('from', SHORT), ('to', SHORT), ('bytes', NUMBER)),
        (
            (
                entry['file'],
                clock_text(day.day, entry['sensing_start']),
                clock_text(day.day, entry['sensing_end']),
                f'{entry["bytes"]:,}',
            )
            for entry in row.products
        ),
    )
    return f'<details>\n<summary>{counted(len(row.products), "product")} by name</summary>\n{rows}\n</details>'


# ---- tables


def _not_accepted(day: Day) -> list[str]:
    """What was refused, given up, in conflict or twice, and what cannot be read."""
    rows: list[tuple[str, ...]] = [
        (one.file, one.state, _or_none(one.number), _or_none(one.place), aside_words(one), one.seen or '')
        for one in day.aside
    ]
    rows += [(one.name, 'twice', '', '', one.words, one.seen or '') for one in day.twice]
    rows += [
        (entry['file'], 'cannot be read', '', '', entry['error']['words'], '')
        for entry in day.overview.of_state('error')
    ]
    shown_rows = table(
        'Place is the byte at which it shows; `warpladle explain NUMBER` says more',
        (
            ('file', LONG),
            ('what', SHORT),
            ('number', NUMBER),
            ('place', NUMBER),
            ('words', WORDS),
            ('last seen', SHORT),
        ),
        rows,
    )
    return [
        '<section>\n<h2>Refused, given up, in conflict or twice</h2>',
        shown_rows if rows else '<p>There is none.</p>',
        '</section>',
    ]


def _or_none(number: int | None) -> str:
    return '' if number is None else f'{number}'


def _latency(day: Day) -> list[str]:
    """From sensing end to acceptance, for each series of which the log says it."""
    known = [(row, found) for row in day.rows for found in [day.latency_of(row.products)] if found]
    rows = [
        (
            ' '.join(row.series),
            f'{found["products"]:,}',
            length_text(found['median_ms']),
            length_text(found['most_ms']),
            found['most'],
        )
        for row, found in known
    ]
    shown_rows = table(
        'From the end of sensing to acceptance, as the log says',
        (('series', SHORT), ('products', NUMBER), ('median', SHORT), ('most', SHORT), ('which took the most', LONG)),
        rows,
    )
    why = 'No log was named.' if day.latencies is None else 'The log says nothing of these products.'
    return ['<section>\n<h2>Latency</h2>', shown_rows if rows else f'<p>{why}</p>', '</section>']


def _classes(day: Day) -> list[str]:
    """Records and bytes of each class, as a report counts them."""
    of = named_numbers(day.overview.numbers)
    rows = [(name, f'{of["records"][name]:,}', f'{of["bytes"][name]:,}') for name in CLASSES[1:]]
    records, size = sum(of['records'].values()), sum(of['bytes'].values())
    rows.append(('all', f'{records:,}', f'{size:,}'))
    return [
        '<section>\n<h2>Records and bytes</h2>',
        table(
            'Of the products that are accepted, by class',
            (('class', SHORT), ('records', NUMBER), ('bytes', NUMBER)),
            rows,
        ),
        (
            f'<p class="faint">Between MDRs of one product: gaps {length_text(of["gap_ms"])}, overlaps'
            f' {length_text(of["overlap_ms"])}, {counted(of["undefined_pairs"], "pair")} with an undefined time.</p>'
        ),
        '</section>',
    ]


def _waiting(day: Day) -> list[str]:
    """What is in --incoming."""
    rows = [
        (one.name, f'{one.come:,}', 'not known' if one.declared is None else f'{one.declared:,}', one.since)
        for one in day.waiting or ()
    ]
    columns = (('file', LONG), ('bytes come', NUMBER), ('bytes declared', NUMBER), ('last came', SHORT))
    shown_rows = table('Those that wait longest first', columns, rows)
    nothing = 'No folder of arriving files was named.' if day.waiting is None else 'Nothing waits.'
    return ['<section>\n<h2>Still to come</h2>', shown_rows if rows else f'<p>{nothing}</p>', '</section>']
