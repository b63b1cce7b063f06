"""`info`: the ten lines that one wants of a product."""
from __future__ import annotations

import argparse

from ..refusal import State
from ..summary import info_lines, info_of
from .inputs import add_file, add_json, add_sparse, open_input
from .output import STATUS_OF, Output, Status

MORE = 'Name, spacecraft, instrument, times, orbits, ground points, size and records.'


def add_arguments(parser: argparse.ArgumentParser) -> None:
    """What it takes."""
    add_file(parser)
    add_json(parser)
    add_sparse(parser)


def run(args: argparse.Namespace, output: Output) -> Status:
    """The lines; the status says whether the product is whole."""
    output.subject = args.file
    product = open_input(args.file, sparse=args.sparse)
    found = info_of(product)
    if args.json:
        output.say('', {'file': args.file, **found})
    else:
        print('\n'.join(f'{name:<12}{text}' for name, text in info_lines(found)))
    return STATUS_OF[State(found['state'])]
