"""`replay`: an arrival that was recorded, once more."""
from __future__ import annotations

import argparse

from ..watch import replay
from .inputs import add_file, add_json, add_sparse, open_input, read_input
from .output import Output, Status

MORE = 'It says the first part whose answer is not as recorded.'


def add_arguments(parser: argparse.ArgumentParser) -> None:
    """What it takes."""
    add_file(parser, 'record', 'what `watch --record` wrote')
    add_file(parser)
    add_json(parser)
    add_sparse(parser)


def run(args: argparse.Namespace, output: Output) -> Status:
    """None, or the part."""
    output.subject = args.record
    record = read_input(args.record)
    output.subject = args.file
    product = open_input(args.file, sparse=args.sparse)
    output.subject = args.record
    part = replay(record, product)
    text = 'none: every answer is as recorded' if part is None else f'part {part}: its answer is not as recorded'
    output.say(text, {'file': args.file, 'record': args.record, 'state': product.state.value, 'part': part})
    return Status.FINE if part is None else Status.REFUSED
