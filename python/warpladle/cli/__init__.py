"""The command `warpladle`: a module for each of its commands, which says what it takes (`add_arguments`) and does it
(`run`)."""
from __future__ import annotations

import argparse
import difflib
import importlib
import io
import os
import shutil
import signal
import sys
import textwrap
from typing import Any

from .. import __version__
from ..files import CutShort, sweep_parts
from ..library import LibraryMissing
from ..product import NoNumpy
from ..refusal import Refused
from ..workers import Died, run_in_child
from .inputs import needs_child
from .output import BadUsage, Output, Status, complain, drop_stdout

COMMANDS = {
    'check': 'Judge finished products.',
    'info': 'Show what one wants to know of a product first.',
    'list': "List a product's records.",
    'fields': 'Show fields of the main header.',
    'explain': 'Explain a refusal by its number, or why a file is refused.',
    'watch': 'Watch a product arrive.',
    'intake': 'Take in a folder of arriving products.',
    'cut': 'Cut a product to a window of time.',
    'join': 'Join products that follow each other.',
    'compare': 'Say whether one product is a cut of another.',
    'report': 'Count products: records, bytes, gaps, overlaps, what is refused and what is missing.',
    'overview': 'Say whether a day of an intake is whole, on one page.',
    'picture': 'Draw a product.',
    'level0': 'Judge finished products by the Level 0 profile.',
    'uth': 'Show the blocks of a humidity file.',
    'replay': 'Replay the record of an arrival.',
    'completion': 'Print the completion of this command for a shell.',
    'help': 'Show the help of a command.',
}
ABOUT = 'EPS native products, judged, listed, cut and joined by a proved library.'
STATUS = (
    'Exit status: 0 all is whole, or yes; 1 something is refused, or no; 2 a file cannot be read or written, bad usage,'
    ' or a question that has no answer; 3 something is incomplete and nothing is refused.'
)
PIPE_CLOSED = 141  # as a shell says of a program that SIGPIPE ended
SIGNALLED = 128


class Ended(BaseException):
    """A signal asked the command to end."""

    def __init__(self, number: int) -> None:
        super().__init__(number)
        self.signal = number


def module_of(name: str) -> Any:
    """The module of a command. (Once they are imported, `list` and `help` are modules of this package.)"""
    return importlib.import_module(f'.{name}', __name__)


def parser_of(name: str) -> argparse.ArgumentParser:
    """What a command takes."""
    module = module_of(name)
    parser = argparse.ArgumentParser(
        f'warpladle {name}', description=f'{COMMANDS[name]} {getattr(module, "MORE", "")}'.strip(), epilog=STATUS
    )
    parser.set_defaults(json=False, quiet=False)
    module.add_arguments(parser)
    return parser


def help_text() -> str:
    """The help of the whole command, as wide as the terminal."""
    width = max(40, shutil.get_terminal_size().columns - 2)
    lines = ['usage: warpladle COMMAND ..', '', *textwrap.wrap(ABOUT, width), '', 'commands:']
    for name, text in COMMANDS.items():
        lines += textwrap.wrap(text, width, initial_indent=f'    {name:<12}', subsequent_indent=' ' * 16)
    lines += [
        '',
        *textwrap.wrap(
            '`warpladle help COMMAND` says what a command takes, `warpladle --version` which this is. ' + STATUS, width
        ),
    ]
    return '\n'.join(lines) + '\n'


def read_words(words: list[str]) -> tuple[str, argparse.Namespace] | int:
    """The command and its arguments, or the status where there is nothing left to do."""
    name = words[0] if words else ''
    if name in ('-h', '--help') or words == ['help']:
        sys.stdout.write(help_text())
        return Status.FINE
    if name == '--version':
        print(f'warpladle {__version__}')
        return Status.FINE
    if name not in COMMANDS:
        near = difflib.get_close_matches(name, COMMANDS, 1)
        what = (
            f"there is no command {name!r}{f'; did you mean {near[0]}?' if near else ''}"
            if name
            else 'a command is missing'
        )
        raise BadUsage(f'{what}; `warpladle help` lists them')
    if name == 'help':
        words = ['help', *words[1:2]]
    return name, parser_of(name).parse_args(words[1:])


def raise_ended(number: int, _: Any) -> None:
    """What SIGTERM and SIGHUP do: as Ctrl-C, everything is let go of on the way out."""
    raise Ended(number)


def main(words: list[str] | None = None) -> int:
    """The command, with its words or those of the command line; the exit status."""
    if sys.stdin is None or sys.stdout is None:
        print('warpladle: standard input and output must be open', file=sys.stderr)
        return Status.TROUBLE
    if isinstance(sys.stdout, io.TextIOWrapper):
        sys.stdout.reconfigure(errors='backslashreplace')  # names of files may have any bytes
    for number in (signal.SIGTERM, signal.SIGHUP):
        signal.signal(number, raise_ended)
    try:
        read = read_words(sys.argv[1:] if words is None else words)
        status = read if isinstance(read, int) else run_safely(*read)
        sys.stdout.flush()
        return status
    except BrokenPipeError:
        drop_stdout()
        return PIPE_CLOSED
    except (BadUsage, LibraryMissing) as error:
        complain(str(error))
    except OSError as error:
        complain(f'standard output: {error.strerror or error}')
    except SystemExit as ended:  # argparse, which has said why
        return int(ended.code or 0)
    except KeyboardInterrupt:
        return SIGNALLED + signal.SIGINT
    except Ended as ended:
        return SIGNALLED + ended.signal
    return Status.TROUBLE


def run_safely(name: str, args: argparse.Namespace) -> int:
    """A command's status: in a process of its own where it maps a large file, which someone may cut short meanwhile."""
    try:
        inputs = needs_child(args)
    except OSError as error:  # of a list of names
        return Output(args).tell_error(error)
    if not inputs:
        return run_told(name, args)
    status = run_in_child(lambda: run_child(name, args))
    if not isinstance(status, Died):
        return status
    if args.__dict__.get('out') not in (None, '-'):
        sweep_parts(args.out, status.process)
    short = [path for path, size in inputs.items() if not os.path.exists(path) or os.stat(path).st_size < size]
    output = Output(args)
    output.subject = short[0] if short else next(iter(inputs))
    if status.signal == signal.SIGBUS:
        return output.tell_error(CutShort(output.subject))
    return output.tell_error(OSError(0, f'its reader was ended by signal {status.signal}', output.subject))


def run_child(name: str, args: argparse.Namespace) -> int:
    """In the child: as `main`, so that what is printed and left is the same."""
    try:
        return run_told(name, args)
    except BrokenPipeError:
        drop_stdout()
        return PIPE_CLOSED
    except KeyboardInterrupt:
        return SIGNALLED + signal.SIGINT
    except Ended as ended:
        return SIGNALLED + ended.signal


def run_told(name: str, args: argparse.Namespace) -> int:
    """A command's status; what went wrong is told in words, or for a program."""
    from ..drawing import NoMatplotlib

    output = Output(args)
    try:
        return int(module_of(name).run(args, output))
    except Refused as refused:
        return output.tell_refusal(refused)
    except (BrokenPipeError, BadUsage):
        raise
    except OSError as error:
        if error.filename is None:  # standard output: errors of files have their names
            raise
        return output.tell_error(error)
    except (LibraryMissing, NoNumpy, NoMatplotlib) as error:
        complain(str(error))
        return Status.TROUBLE


def enter() -> None:
    """The command as a program: ends the process, at once where a signal asked for it."""
    status = main()
    if status > SIGNALLED:
        try:
            sys.stdout.flush()
        except (OSError, ValueError):
            pass
        os._exit(status)
    sys.exit(status)
