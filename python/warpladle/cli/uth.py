"""`uth`: the blocks of a humidity file."""
from __future__ import annotations

import argparse

from ..humidity import read_blocks
from ..refusal import State
from .inputs import add_file, add_json, is_no_humidity_file, read_input
from .output import Output, Status

MORE = 'Line, column, UTH in percent and CSR in Kelvin of each; - where one is missing.'


def add_arguments(parser: argparse.ArgumentParser) -> None:
    """What it takes."""
    add_file(parser, text='a humidity file, or - for standard input')
    add_json(parser)


def run(args: argparse.Namespace, output: Output) -> Status:
    """A line for each block."""
    output.subject = args.file
    blocks = read_blocks(read_input(args.file, is_no_humidity_file))
    if args.json:
        output.say('', {'file': args.file, 'state': State.WHOLE.value, 'blocks': [block._asdict() for block in blocks]})
        return Status.FINE
    for block in blocks:
        print(block.line, block.column, *('-' if value is None else f'{value:.2f}' for value in (block.uth, block.csr)))
    return Status.FINE
