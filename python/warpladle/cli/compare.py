"""`compare`: whether one product is a cut of another."""
from __future__ import annotations

import argparse

from ..compare import explain_mismatch
from ..product import named_inputs
from ..refusal import State
from .inputs import add_file, add_json, add_sparse, open_input
from .output import Output, Status

MORE = 'Where it is not, why.'


def add_arguments(parser: argparse.ArgumentParser) -> None:
    """What it takes."""
    add_file(parser, 'original')
    add_file(parser, 'cut', 'what may be a cut of it, or - for standard input')
    add_json(parser)
    add_sparse(parser)


def run(args: argparse.Namespace, output: Output) -> Status:
    """Yes or no."""
    original, cut = (open_input(name, sparse=args.sparse) for name in (args.original, args.cut))
    with named_inputs((args.original, original), (args.cut, cut)):
        at = cut.mismatch_with(original)
    values = {'file': args.cut, 'original': args.original, 'state': State.WHOLE.value, 'is_cut': at is None}
    if at is None:
        output.say(f'yes: {args.cut} is a cut of {args.original}', values)
        return Status.FINE
    why = explain_mismatch(cut, original, at)
    output.say(f'no: {args.cut} is no cut of {args.original}, at {at}: {why}', {**values, 'place': at, 'words': why})
    return Status.REFUSED
