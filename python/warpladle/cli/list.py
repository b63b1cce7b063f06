"""`list`: the records of a product."""
from __future__ import annotations

import argparse
import sys
from collections.abc import Iterator
from typing import Any

from ..headers import class_name, group_name, read_header
from ..product import COLUMNS, Product
from ..refusal import State
from .inputs import add_file, add_json, add_sparse, open_input
from .output import Output, Status

MORE = (
    'The first line has their number; each other line a record: where it starts, its class, group, subclass, version'
    ' and size.'
)


def add_arguments(parser: argparse.ArgumentParser) -> None:
    """What it takes."""
    add_file(parser)
    parser.add_argument(
        '--times', action='store_true', help='the start and stop time of each record too; - where one is undefined'
    )
    parser.add_argument('--names', action='store_true', help='classes and groups by name')
    add_json(parser)
    add_sparse(parser)


def run(args: argparse.Namespace, output: Output) -> Status:
    """A line for each record."""
    output.subject = args.file
    product = open_input(args.file, sparse=args.sparse)
    if args.json:
        output.say('', {'file': args.file, 'state': State.WHOLE.value, 'records': list(records(product, args))})
    elif args.times or args.names:
        sys.stdout.write(f'records {len(product)}\n')
        sys.stdout.writelines(' '.join(map(str, record.values())) + '\n' for record in records(product, args))
    else:
        sys.stdout.write(product.listing())
    return Status.FINE


def records(product: Product, args: argparse.Namespace) -> Iterator[dict[str, Any]]:
    """Each record by name, in the order of the listing."""
    for row in product.row_tuples():
        of = dict(zip(COLUMNS, row))
        record: dict[str, Any] = {name: of[name] for name in ('start', 'class', 'group', 'subclass', 'version', 'size')}
        if args.names:
            record.update({'class': class_name(of['class']), 'group': group_name(of['group'])})
        if args.times:
            times = read_header(product.data, of['start'])[-2:]
            texts = [(None if args.json else '-') if time is None else time.isoformat() for time in times]
            record.update(zip(('start_time', 'stop_time'), texts))
        yield record
