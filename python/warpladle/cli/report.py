"""`report`: many products, counted."""
from __future__ import annotations

import argparse
import functools
import json
import os
import shutil
import sys
from collections.abc import Iterable, Iterator
from typing import Any

from ..files import refuse_to_overwrite, write_beside
from ..library import function
from ..overview import Entry, Overview, count_file, count_files, cut_short
from ..workers import Died, map_in_workers
from .check import in_turn
from .inputs import READ_SOON, STANDARD, a_count, add_files, add_force, add_json, add_sparse, named_files, open_input
from .output import STATUS_OF, BadUsage, Output, Status, complain

MORE = (
    'What is refused and what is incomplete is named with its reason; so are gaps and overlaps between products of one'
    ' spacecraft, instrument, type and level, by their SENSING times where they are more than a second, and products'
    ' that are there twice.'
)
AT_ONCE = 32  # files that a worker of a cluster counts before it hands them in


def add_arguments(parser: argparse.ArgumentParser) -> None:
    """What it takes."""
    add_files(parser, 'a product, or - for standard input')
    parser.add_argument('--by', choices=('day',), help='a report for each day too, by SENSING_START')
    parser.add_argument(
        '--strict', action='store_true', help='end with 1 where a product is refused, with 3 where one is incomplete'
    )
    parser.add_argument(
        '--add',
        action='append',
        default=[],
        metavar='REPORT',
        help='add what `report --json` wrote, or - for standard input; may be said more than once',
    )
    parser.add_argument('--jobs', type=a_count, default=1, metavar='N', help='so many files at a time (1)')
    parser.add_argument(
        '--scheduler',
        metavar='ADDRESS',
        help='count on the workers of a Dask cluster, where the files have the same names',
    )
    parser.add_argument('--picture', metavar='OUT', help='draw it too')
    add_force(parser)
    add_json(parser)
    add_sparse(parser)


def run(args: argparse.Namespace, output: Output) -> Status:
    """The report; what is refused is a part of it, and no failure unless --strict."""
    from .picture import suffix_of

    output.subject = args.picture
    suffix = None
    if args.picture is not None:
        suffix = suffix_of(args.picture)
        refuse_to_overwrite(args.picture, force=args.force)
    names = named_files(args) if args.files or args.files_from is not None or not args.add else []
    function('report_add')  # a library that is missing is told once, and here
    overview = Overview([*(entry for path in args.add for entry in read_entries(path)), *count(args, names)])
    for entry in overview.of_state('error'):
        complain(f'{entry["file"]}: {entry["error"]["words"]}')
    tell(args, output, overview)
    if suffix is not None:
        from ..charts import picture_of_overview

        write_beside(args.picture, picture_of_overview(overview, suffix), force=args.force)
    if overview.of_state('error'):
        return Status.TROUBLE
    return STATUS_OF[overview.state] if args.strict else Status.FINE


def read_entries(path: str) -> list[Entry]:
    """The entries of a report that was written as JSON."""
    try:
        with open(0 if path == STANDARD else path, encoding='utf-8', closefd=path != STANDARD) as file:
            entries = json.load(file)['entries']
        if not all(isinstance(entry['file'], str) and isinstance(entry['state'], str) for entry in entries):
            raise ValueError
    except (ValueError, KeyError, TypeError):
        raise BadUsage(f'{path}: it is no report that `report --json` wrote') from None
    return list(entries)


def count(args: argparse.Namespace, names: list[str]) -> Iterator[Entry]:
    """The entry of each file, in their order."""
    if args.scheduler is not None:
        yield from count_on_cluster(args.scheduler, names, args.sparse)
        return
    count_one = functools.partial(count_input, sparse=args.sparse)
    counted = (
        in_turn(count_one, names)
        if args.jobs == 1
        else map_in_workers(functools.partial(count_one, may_map=True), names, args.jobs)
    )
    for name, entry in zip(names, show_progress(counted, len(names))):
        yield cut_short(name) if isinstance(entry, Died) else entry


def count_input(name: str, *, sparse: bool, may_map: bool) -> Entry:
    """The entry of a file."""
    return count_file(name, lambda name: open_input(name, sparse=sparse, read_below=READ_SOON, may_map=may_map))


def count_on_cluster(address: str, names: list[str], sparse: bool) -> list[Entry]:
    """The same by the workers of a Dask cluster, each a share of the files at a time."""
    if '-' in names:
        raise BadUsage('standard input is not on the machines of a cluster')
    try:
        from distributed import Client
    except ImportError as error:
        raise BadUsage(
            f'--scheduler needs Dask, which is not installed here (Debian: python3-distributed): {error}'
        ) from None
    paths = [os.path.abspath(name) for name in names]
    shares = [paths[k : k + AT_ONCE] for k in range(0, len(paths), AT_ONCE)]
    with Client(address) as client:
        futures = client.map(functools.partial(count_files, sparse=sparse), shares, pure=False)
        entries = [entry for share in show_progress(map(client.gather, futures), len(shares)) for entry in share]
    return [{**entry, 'file': name} for name, entry in zip(names, entries, strict=True)]


def show_progress(items: Iterable[Any], total: int) -> Iterator[Any]:
    """The items, with a bar on standard error where that is a terminal."""
    is_shown = sys.stderr.isatty()
    width = max(10, min(40, shutil.get_terminal_size().columns - 20))
    for k, item in enumerate(items, 1):
        if is_shown:
            done = width * k // total
            sys.stderr.write(f'\r[{"#" * done}{"." * (width - done)}] {k}/{total}' + ('\n' if k == total else ''))
            sys.stderr.flush()
        yield item


def tell(args: argparse.Namespace, output: Output, overview: Overview) -> None:
    """The report for people, or for a program."""
    days = overview.by_day() if args.by else {}
    if args.json:
        by_day = {
            'days': {
                day: {key: value for key, value in found.as_dict().items() if key != 'entries'}
                for day, found in days.items()
            }
        }
        output.say('', {**overview.as_dict(), **(by_day if days else {})})
        return
    lines = overview.lines()
    for day, found in days.items():
        numbers = found.as_dict()
        refused, incomplete = len(found.of_state('refused')), len(found.of_state('incomplete'))
        lines.append(
            f'{day}: products {numbers["products"]}, accepted {numbers["accepted"]}, refused {refused}, incomplete'
            f' {incomplete}, MDRs {numbers["records"]["MDR"]}, gaps {numbers["gap_ms"]} ms, overlaps'
            f' {numbers["overlap_ms"]} ms'
        )
    sys.stdout.write('\n'.join(lines) + '\n')
