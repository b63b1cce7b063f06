"""`picture`: a product, drawn."""
from __future__ import annotations

import argparse
import os
import sys

from ..drawing import SUFFIXES
from ..files import refuse_to_overwrite, write_beside
from ..picture import picture_of_product
from .inputs import add_file, add_force, add_json, add_sparse, open_input
from .output import STATUS_OF, BadUsage, Output, Status

MORE = (
    'Its records along the bytes, and its MDRs along time with gaps and overlaps. A product that is refused or'
    ' incomplete is drawn up to the place, which is marked.'
)


def add_arguments(parser: argparse.ArgumentParser) -> None:
    """What it takes."""
    add_file(parser)
    parser.add_argument(
        'out',
        metavar='OUT',
        help=(
            f'the picture: its name ends in {", ".join("." + suffix for suffix in SUFFIXES)}; - is an SVG to standard'
            ' output'
        ),
    )
    add_force(parser)
    add_json(parser)
    add_sparse(parser)


def suffix_of(path: str) -> str:
    """The kind of a picture by its name."""
    suffix = os.path.splitext(path)[1].lstrip('.').lower()
    if suffix not in SUFFIXES:
        raise BadUsage(f'{path}: a picture is a file whose name ends in {", ".join("." + known for known in SUFFIXES)}')
    return suffix


def run(args: argparse.Namespace, output: Output) -> Status:
    """The picture; the status says whether the product is whole."""
    output.subject = args.file
    suffix = 'svg' if args.out == '-' else suffix_of(args.out)
    if args.out != '-':
        refuse_to_overwrite(args.out, force=args.force)
    product = open_input(args.file, sparse=args.sparse)
    drawn = picture_of_product(product, suffix)
    if args.out == '-':
        sys.stdout.buffer.write(drawn)
        sys.stdout.buffer.flush()
    else:
        write_beside(args.out, drawn, force=args.force)
        if args.json:
            output.say('', {'file': args.file, 'picture': args.out, 'state': product.state.value, 'bytes': len(drawn)})
    return STATUS_OF[product.state]
