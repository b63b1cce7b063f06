"""`join`: products that follow each other as one."""
from __future__ import annotations

import argparse
import functools

from ..join import Source, join_sources, notes_of_join
from .cut import tell_made
from .inputs import add_files, add_json, add_out, add_sparse, named_files, open_input, output_path
from .output import BadUsage, Output, Status

MORE = (
    'The files are granules of a pass, in the order of time. Their SPHR and global records must be the same, but for'
    ' the times of their headers, and none may start more than a millisecond before the one before it stops. The result'
    ' keeps ORBIT_END, SUBSAT_LATITUDE_END, SUBSAT_LONGITUDE_END and SENSING_END_THEORETICAL of the first.'
)


def add_arguments(parser: argparse.ArgumentParser) -> None:
    """What it takes."""
    add_files(parser, 'two or more, in the order of time')
    parser.set_defaults(is_guarded=True)  # several large files may be mapped at a time
    add_out(parser)
    parser.add_argument(
        '--identical',
        action='store_true',
        help="request Seven's own join: SPHR and global records the same in every byte, and no overlap at all",
    )
    add_json(parser)
    add_sparse(parser)


def run(args: argparse.Namespace, output: Output) -> Status:
    """The join, and what it has."""
    names = named_files(args)
    if len(names) < 2:
        raise BadUsage('a join takes two files or more')
    output.subject = args.out
    out = output_path(args)
    sources = [Source(name, functools.partial(open_input, name, sparse=args.sparse)) for name in names]
    made = join_sources(sources, out, identical=args.identical, force=args.force)
    if not args.quiet:
        for note in notes_of_join(sources):
            output.warn(note)
    return tell_made(args, output, made, {'mdrs': made.number('TOTAL_MDR')}, '')
