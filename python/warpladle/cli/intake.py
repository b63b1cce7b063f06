"""`intake`: a folder of arriving products."""
from __future__ import annotations

import argparse

from ..intake import Intake, Options, OtherIntake
from ..intake.loop import IGNORED, POLL
from .inputs import add_json, some_seconds
from .output import BadUsage, Output, Status

MORE = (
    'Whole products go to --accepted, bad ones to --refused with the reason beside them, and nothing half is ever in'
    ' --accepted. The folders are the only state: it can be ended and begun again at any time.'
)


def add_arguments(parser: argparse.ArgumentParser) -> None:
    """What it takes."""
    parser.add_argument('incoming', metavar='INCOMING', help='the folder in which files arrive')
    parser.add_argument('--accepted', metavar='DIR', required=True, help='where whole accepted products go')
    parser.add_argument('--refused', metavar='DIR', required=True, help='where all others go, with NAME.json')
    parser.add_argument(
        '--settle',
        type=some_seconds,
        default=2.0,
        metavar='S',
        help='a file that has not changed for so long is finished (2)',
    )
    parser.add_argument(
        '--give-up',
        type=some_seconds,
        default=6 * 3600.0,
        metavar='S',
        help='incomplete for so long: put aside (21600)',
    )
    parser.add_argument(
        '--ignore',
        action='append',
        metavar='PATTERN',
        help=f'names that are not looked at, more than once ({" ".join(IGNORED)}); hidden files never are',
    )
    parser.add_argument('--poll', type=some_seconds, default=POLL, metavar='S', help='seconds between two looks (0.5)')
    parser.add_argument('--once', action='store_true', help='what is there, then end')
    parser.add_argument('--log', metavar='FILE', help='a line of JSON for each event')
    parser.add_argument('--status', metavar='FILE', help="counts and what waits; a .prom name gives Prometheus' form")
    parser.add_argument(
        '--run', dest='command', metavar='COMMAND', help='for each accepted product, its path as the last word'
    )
    parser.add_argument('--record', action='store_true', help='keep the record of each arrival beside what is refused')
    add_json(parser)


def run(args: argparse.Namespace, output: Output) -> Status:
    """Until it is ended."""
    output.subject = args.incoming
    options = Options(
        incoming=args.incoming,
        accepted=args.accepted,
        refused=args.refused,
        settle=args.settle,
        give_up=args.give_up,
        ignore=tuple(args.ignore) if args.ignore else IGNORED,
        once=args.once,
        log=args.log,
        status=args.status,
        command=args.command,
        record=args.record,
        is_json=args.json,
        poll=args.poll,
    )
    try:
        Intake(options).run()
    except OtherIntake as error:
        raise BadUsage(str(error)) from None
    return Status.FINE
