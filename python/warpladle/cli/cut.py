"""`cut`: a product cut to a window of time."""
from __future__ import annotations

import argparse
import sys

from ..product import Product
from ..refusal import State
from ..times import Time
from .inputs import a_time, add_file, add_json, add_out, add_sparse, open_input, output_path
from .output import Output, Status

MORE = (
    'The MDRs that start in the window are kept, both ends in. The result keeps the orbits and the ground points of the'
    ' whole product: ORBIT_START and _END, SUBSAT_.._START and _END, and the two theoretical SENSING times.'
)


def add_arguments(parser: argparse.ArgumentParser) -> None:
    """What it takes."""
    add_file(parser)
    parser.add_argument(
        'first',
        type=a_time,
        metavar='FROM',
        help='the first start of an MDR that is kept, as 2016-06-05T00:00:08Z; UTC where no offset is said',
    )
    parser.add_argument('last', type=a_time, metavar='TO', help='the last')
    add_out(parser)
    parser.add_argument(
        '--fail-if-empty', action='store_true', help='write nothing, and end with 1, where no MDR starts in the window'
    )
    add_json(parser)
    add_sparse(parser)


def run(args: argparse.Namespace, output: Output) -> Status:
    """The cut, and what it has."""
    output.subject = args.file
    out = output_path(args)
    product = open_input(args.file, sparse=args.sparse)
    if args.fail_if_empty and args.first <= args.last and not has_mdr(product, args.first, args.last):
        text = (
            f'no MDR of {args.file} starts from {args.first.isoformat()} to {args.last.isoformat()}; nothing is written'
        )
        output.say_no(text, {'file': args.file, 'state': State.WHOLE.value, 'mdrs': 0, 'words': text})
        return Status.REFUSED
    made = product.cut(args.first, args.last, out, force=args.force)
    kept, of = made.number('TOTAL_MDR'), product.number('TOTAL_MDR')
    if not kept:
        output.warn(
            f'{args.out} has no MDR: none of the {of} of {args.file} starts from {args.first.isoformat()} to'
            f' {args.last.isoformat()}'
        )
    elif kept != of:
        output.warn(f'orbits and ground points of {args.out} are those of all of {args.file}')
    return tell_made(args, output, made, {'mdrs': kept, 'of_mdrs': of}, f'; {kept} of {of} MDRs')


def has_mdr(product: Product, first: Time, last: Time) -> bool:
    """Whether an MDR starts in the window."""
    return any(mdr.start_time is not None and first <= mdr.start_time <= last for mdr in product.mdrs())


def tell_made(
    args: argparse.Namespace, output: Output, product: Product, more: dict[str, int | None], text: str
) -> Status:
    """What was written; on standard output the product itself."""
    if args.out == '-':
        sys.stdout.buffer.write(product.data)
        sys.stdout.buffer.flush()
        return Status.FINE
    count = product.verdict
    values = {'file': args.out, 'state': State.WHOLE.value, 'records': count, 'bytes': product.size, **more}
    output.say(f'{args.out}: {count} records, {product.size} bytes{text}', values)
    return Status.FINE
