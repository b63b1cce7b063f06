"""`help`: the help of a command."""
from __future__ import annotations

import argparse

from .output import Output, Status

MORE = 'With no command, the list of them.'


def add_arguments(parser: argparse.ArgumentParser) -> None:
    """What it takes."""
    from . import COMMANDS

    parser.add_argument('name', nargs='?', choices=list(COMMANDS), metavar='COMMAND')


def run(args: argparse.Namespace, output: Output) -> Status:
    """The help."""
    from . import help_text, parser_of

    print(parser_of(args.name).format_help() if args.name else help_text(), end='')
    return Status.FINE
