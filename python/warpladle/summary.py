"""A product in the ten lines that one wants, and as a table for notebooks."""
from __future__ import annotations

import html
from datetime import datetime
from typing import Any

from .headers import CLASSES
from .product import Product
from .refusal import Refused
from .times import Moment


def iso_text(value: Any) -> Any:
    """A value with its times in ISO 8601."""
    if isinstance(value, datetime):
        return value.isoformat(timespec='milliseconds' if value.microsecond else 'seconds').replace('+00:00', 'Z')
    return value.isoformat() if isinstance(value, Moment) else value


def info_of(product: Product) -> dict[str, Any]:
    """What one wants to know of a product first, by name. A product that is refused or incomplete has its refusal, and
    what its main header says where that can be read."""
    found: dict[str, Any] = {'state': product.state.value, 'bytes': product.size}
    try:
        found['records'] = product.verdict
    except Refused as refused:
        found['refusal'] = refused.as_dict()
    try:
        found.update(_header_info(product))
    except Refused:
        pass
    return found


def identity_of(product: Product) -> dict[str, Any]:
    """What a product is of, and when it was sensed.

    Raises Refused: of a main header that cannot be read.
    """
    return {
        'product_name': product.text('PRODUCT_NAME'),
        'spacecraft': product.text('SPACECRAFT_ID'),
        'instrument': product.text('INSTRUMENT_ID'),
        'type': product.text('PRODUCT_TYPE'),
        'level': product.text('PROCESSING_LEVEL'),
        'sensing_start': iso_text(product.field('SENSING_START')),
        'sensing_end': iso_text(product.field('SENSING_END')),
    }


def _header_info(product: Product) -> dict[str, Any]:
    start, end = product.ground_point('start'), product.ground_point('end')
    return {
        **identity_of(product),
        'orbit_start': product.number('ORBIT_START'),
        'orbit_end': product.number('ORBIT_END'),
        'ground_start': None if start is None else list(start),
        'ground_end': None if end is None else list(end),
        'totals': {name: product.number('TOTAL_' + name) for name in CLASSES[1:]},
        'declared': product.number('ACTUAL_PRODUCT_SIZE'),
        'subsetted': product.text('SUBSETTED_PRODUCT'),
    }


def info_lines(found: dict[str, Any]) -> list[tuple[str, str]]:
    """The same as lines, a name and a text each."""
    lines = [('state', found['state'] + (f', {found["refusal"]["words"]}' if 'refusal' in found else ''))]
    if 'product_name' not in found:
        return [*lines, ('size', f'{found["bytes"]} bytes')]
    totals = ', '.join(f'{count} {name}' for name, count in found['totals'].items() if count)
    lines += [
        ('name', found['product_name']),
        ('spacecraft', found['spacecraft']),
        ('instrument', f'{found["instrument"]}, type {found["type"]}, level {found["level"]}'),
        ('sensing', f'{_or_undefined(found["sensing_start"])} to {_or_undefined(found["sensing_end"])}'),
        ('orbits', f'{_or_undefined(found["orbit_start"])} to {_or_undefined(found["orbit_end"])}'),
        ('ground', f'{_point(found["ground_start"])} to {_point(found["ground_end"])}'),
        ('size', f'{found["bytes"]} bytes of {found["declared"]} declared'),
        ('records', totals),
        ('subsetted', found['subsetted'] or 'not said'),
    ]
    return lines


def _or_undefined(value: Any) -> str:
    return 'undefined' if value is None else str(value)


def _point(point: list[float] | None) -> str:
    return 'undefined' if point is None else f'{point[0]:.3f} {point[1]:.3f}'


def html_table(lines: list[tuple[str, str]], title: str) -> str:
    """Lines of a name and a text as a table."""
    rows = ''.join(
        f'<tr><th style="text-align:left">{html.escape(name)}</th><td'
        f' style="text-align:left">{html.escape(text)}</td></tr>'
        for name, text in lines
    )
    return f'<table><caption>{html.escape(title)}</caption>{rows}</table>'


def html_of_product(product: Product) -> str:
    """A product for a notebook."""
    return html_table(info_lines(info_of(product)), repr(product))
