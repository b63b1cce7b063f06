"""`overview`: a day of an intake, as a page, for a program, or in lines."""
from __future__ import annotations

import argparse
import functools
import sys
from datetime import datetime, timedelta, timezone

from ..day import Day, DayState, day_of
from ..files import refuse_to_overwrite, write_beside
from ..library import function
from .inputs import STANDARD, a_count, a_time, add_force
from .output import Output, Status, complain
from .report import count

MORE = (
    'Of the products whose SENSING_START is that day: what is accepted and what is missing between, what was refused,'
    ' given up, in conflict or twice, how long it took, and what still waits. A day is whole if each spacecraft,'
    ' instrument, type and level covers it from midnight to midnight and nothing is refused. Exit status of this'
    ' command: 0 the day is whole; 1 something is missing, refused or in conflict; 2 trouble; 3 something still waits.'
)
STATUS_OF_DAY = {
    DayState.WHOLE: Status.FINE,
    DayState.NOT_WHOLE: Status.REFUSED,
    DayState.WAITING: Status.INCOMPLETE,
    DayState.ERROR: Status.TROUBLE,
}
AGO = {'today': 0, 'yesterday': 1}


def a_day(text: str) -> str:
    """A day of the command line."""
    if text in AGO:
        return (datetime.now(timezone.utc) - timedelta(days=AGO[text])).date().isoformat()
    day = a_time(text).isoformat()[:10]
    if text != day:
        raise argparse.ArgumentTypeError(f'{text!r} is no day as 2016-06-05, today or yesterday is one')
    return day


def add_arguments(parser: argparse.ArgumentParser) -> None:
    """What it takes."""
    parser.add_argument('day', metavar='DAY', type=a_day, help='a day of UTC as 2016-06-05, or today, or yesterday')
    parser.add_argument('--accepted', metavar='DIR', required=True, help='where the intake puts what is accepted')
    parser.add_argument('--refused', metavar='DIR', required=True, help='where the intake puts what is not')
    parser.add_argument('--incoming', metavar='DIR', help='where files arrive: what is there still waits')
    parser.add_argument(
        '--log',
        metavar='FILE',
        action='append',
        default=[],
        help="the intake's log, also one that is packed (.gz); may be said more than once",
    )
    parser.add_argument('--jobs', type=a_count, default=1, metavar='N', help='so many files at a time (1)')
    form = parser.add_mutually_exclusive_group()
    form.add_argument('-o', '--out', metavar='OUT', help='write a page in HTML, or - to standard output')
    form.add_argument('--json', action='store_true', help='for a program to read')
    add_force(parser)
    parser.set_defaults(scheduler=None, sparse=False)


def run(args: argparse.Namespace, output: Output) -> Status:
    """The overview; the status says whether the day is whole."""
    output.subject = args.out
    if args.out not in (None, STANDARD):
        refuse_to_overwrite(args.out, force=args.force)
    function('report_add')  # a library that is missing is told once, and here
    day = day_of(
        args.day,
        args.accepted,
        args.refused,
        incoming=args.incoming,
        logs=args.log,
        count=functools.partial(count, args),
    )
    for entry in day.overview.of_state('error'):
        complain(f'{entry["file"]}: {entry["error"]["words"]}')
    if day.bad_lines:
        output.warn(f'lines of the log that are no events: {day.bad_lines}')
    tell(args, output, day)
    return STATUS_OF_DAY[day.state]


def tell(args: argparse.Namespace, output: Output, day: Day) -> None:
    """The day as a page, for a program, or in lines."""
    from ..page import page_of_day

    if args.out == STANDARD:
        sys.stdout.buffer.write(page_of_day(day))
        sys.stdout.buffer.flush()
    elif args.out is not None:
        write_beside(args.out, page_of_day(day), force=args.force)
        print(f'{args.out}: {day.headline}', flush=True)
    else:
        output.say('\n'.join(day.lines()), day.as_dict())
