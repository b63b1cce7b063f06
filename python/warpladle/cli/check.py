"""`check`: finished products, judged."""
from __future__ import annotations

import argparse
import functools
from collections.abc import Callable, Iterator
from typing import Any

from ..files import CutShort
from ..library import function
from ..product import Product
from ..refusal import Refused, State
from ..workers import Died, Worker
from .inputs import READ_SOON, TooLarge, add_files, add_json, add_sparse, named_files, open_input
from .output import Output, Status, worst

MORE = 'A line for each file, whole, incomplete or refused.'
NAMES = ('PRODUCT_NAME', 'SENSING_START', 'SENSING_END')


def add_arguments(parser: argparse.ArgumentParser) -> None:
    """What it takes."""
    add_judge_arguments(parser)
    parser.add_argument(
        '--all',
        action='store_true',
        help=(
            'go on after a refusal, as far as the sizes lead, and list what else would be refused; an aid, which is not'
            ' proved'
        ),
    )


def add_judge_arguments(parser: argparse.ArgumentParser) -> None:
    """What every judge of many files takes."""
    add_files(parser, 'a product, or - for standard input')
    add_json(parser)
    add_sparse(parser)
    parser.add_argument('-q', '--quiet', action='store_true', help='no line for a whole product')


def run(args: argparse.Namespace, output: Output) -> Status:
    """The worst of all files."""
    return judge_files(args, output, count_records, args.all)


def count_records(product: Product) -> int:
    """The verdict."""
    return product.verdict


def judge_files(
    args: argparse.Namespace, output: Output, judge: Callable[[Product], int], is_all: bool = False
) -> Status:
    """A line for each file; the worst that was seen."""
    names = named_files(args)
    function('verdict')  # a library that is missing is told once, and here
    judge_one = functools.partial(judge_file, judge=judge, sparse=args.sparse, is_json=args.json, is_all=is_all)
    return worst([tell(output, name, result) for name, result in zip(names, in_turn(judge_one, names))])


def in_turn(function: Callable[..., Any], names: list[str]) -> Iterator[Any]:
    """The function's result of each file: small ones here, and those that are mapped in a process of its own."""
    worker = Worker(functools.partial(function, may_map=True))
    try:
        for name in names:
            try:
                yield function(name, may_map=False)
            except TooLarge:
                yield worker.ask(name)
    finally:
        worker.end()


def judge_file(
    name: str, *, judge: Callable[[Product], int], sparse: bool, is_json: bool, is_all: bool, may_map: bool
) -> Any:
    """What is said of a file: its count and size, with more for a program; or its refusal; or why it cannot be read."""
    try:
        product = open_input(name, sparse=sparse, read_below=READ_SOON, may_map=may_map)
    except OSError as error:
        return error
    try:
        return judge(product), product.size, _more(product) if is_json else {}
    except Refused as refused:
        return refused, product.size, _also(product, refused) if is_all else []


def _more(product: Product) -> dict[str, Any]:
    from ..summary import iso_text

    return {name.lower(): str(iso_text(product.field(name)) or '').strip() or None for name in NAMES}


def _also(product: Product, refused: Refused) -> list[dict[str, Any]]:
    from ..survey import find_faults

    return [
        fault.as_dict()
        for fault in find_faults(product.data)
        if (fault.number, fault.place) != (refused.number, refused.place)
    ]


def tell(output: Output, name: str, result: Any) -> Status:
    """The line of a file, and its status."""
    output.subject = name
    if isinstance(result, Died):
        result = CutShort(name)
    if isinstance(result, OSError):
        return output.tell_error(result)
    count, size, more = result
    if isinstance(count, Refused):
        status = output.tell_refusal(count, name, {'bytes': size, **({'also': more} if more else {})})
        if more and not output.is_json:
            lines = [f'    also {fault["number"]} {fault["place"]}: {fault["words"]}' for fault in more]
            print('\n'.join(['    what else would be refused, by a look that is not proved:', *lines]), flush=True)
        return status
    values = {'file': name, 'state': State.WHOLE.value, 'accepted': True, 'records': count, 'bytes': size, **more}
    if not output.is_quiet:
        output.say(f'{name}: {count} records', values)
    return Status.FINE
