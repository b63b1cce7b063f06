"""`fields`: the lines of the main header."""
from __future__ import annotations

import argparse

from ..headers import field, field_number
from ..summary import iso_text
from .inputs import add_file, add_json, add_sparse, open_input
from .output import Output, Status

MORE = 'A product of which the main header has come is enough.'


def add_arguments(parser: argparse.ArgumentParser) -> None:
    """What it takes."""
    add_file(parser)
    parser.add_argument('names', nargs='*', metavar='NAME', help='all 72 where none is named')
    add_json(parser)
    add_sparse(parser)


def run(args: argparse.Namespace, output: Output) -> Status:
    """A line for each field, with its unit."""
    output.subject = args.file
    numbers = [field_number(name) for name in args.names] or range(72)
    product = open_input(args.file, sparse=args.sparse)
    lines = [field(number) for number in numbers]
    found = {line.name: iso_text(product.field(line.name)) for line in lines}
    if args.json:
        units = {line.name: line.unit for line in lines if line.unit}
        output.say('', {'file': args.file, 'state': product.state.value, 'fields': found, 'units': units})
        return Status.FINE
    for line in lines:
        value = found[line.name]
        unit = f' ({line.unit})' if line.unit and value is not None else ''
        print(f'{line.name:<30}= {"undefined" if value is None else value}{unit}')
    return Status.FINE
