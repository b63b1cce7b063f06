"""What commands print, for people or for programs, and the status with which they end."""
from __future__ import annotations

import argparse
import json
import os
import sys
from collections.abc import Iterable
from enum import IntEnum
from typing import Any

from ..refusal import Refused, State


class Status(IntEnum):
    """The exit status."""

    FINE = 0
    REFUSED = 1  # or no
    TROUBLE = 2
    INCOMPLETE = 3


# what is told of many files: the worst of them
SEVERITY = (Status.FINE, Status.INCOMPLETE, Status.REFUSED, Status.TROUBLE)
STATUS_OF = {
    State.WHOLE: Status.FINE,
    State.INCOMPLETE: Status.INCOMPLETE,
    State.REFUSED: Status.REFUSED,
    None: Status.TROUBLE,
}


class BadUsage(Exception):
    """What was typed cannot be done."""


def worst(statuses: Iterable[Status]) -> Status:
    """The worst of some."""
    return max(statuses, key=SEVERITY.index, default=Status.FINE)


def drop_stdout() -> None:
    """Nothing more goes to standard output, which takes nothing more; so that the last flush is quiet too."""
    os.dup2(os.open(os.devnull, os.O_WRONLY), sys.stdout.fileno())


def complain(text: str) -> None:
    """A line on standard error."""
    try:
        sys.stdout.flush()
    except OSError:
        drop_stdout()
    print(f'warpladle: {text}', file=sys.stderr)


def words_of(error: OSError) -> str:
    """What is the matter, without the file's name."""
    return error.strerror or str(error)


class Output:
    """Where a command says things. `subject` is the file that is spoken of where an error does not say which."""

    def __init__(self, args: argparse.Namespace) -> None:
        self.is_json: bool = args.json
        self.is_quiet: bool = args.quiet
        self.is_taken: bool = getattr(args, 'out', None) == '-'  # standard output takes the product itself
        self.subject: str | None = None

    def say(self, text: str, values: dict[str, Any]) -> None:
        """A line on standard output, at once: for people, or with --json for a program."""
        print(json.dumps(values) if self.is_json else text, flush=True)

    def warn(self, text: str) -> None:
        """A line on standard error of what is not refused and may yet surprise."""
        if not self.is_quiet:
            complain(f'note: {text}')

    def say_no(self, text: str, values: dict[str, Any]) -> None:
        """A line that nothing was done, which is no fault: on standard error where standard output takes a product."""
        self._tell(text, values, False)

    def tell_refusal(self, refused: Refused, name: str | None = None, more: dict[str, Any] | None = None) -> Status:
        """That a file is refused or incomplete, or that a question has no answer; `more` is for a program."""
        about = name or (refused.inputs[0] if len(refused.inputs) == 1 else self.subject or '-')
        values: dict[str, Any] = {'file': about, 'state': refused.state.value if refused.state else 'error'}
        if refused.inputs:
            values['input'] = refused.inputs[-1]
        if len(refused.inputs) > 1:
            values['inputs'] = list(refused.inputs)
        if refused.state is None:
            values['error'] = refused.as_dict()
        else:
            values.update(accepted=False, refusal=refused.as_dict(), **(more or {}))
        spoken = f'{about} is not made' if len(refused.inputs) > 1 else about
        self._tell(f'{spoken}: {self.refusal_text(refused, about)}', values, refused.state is None)
        return STATUS_OF[refused.state]

    @staticmethod
    def refusal_text(refused: Refused, about: str = '') -> str:
        """`refused` or `incomplete`, number, place and words, without the name of the file at their start."""
        word = 'incomplete' if refused.state is State.INCOMPLETE else 'refused'
        return f'{word} {refused.number} {refused.place}: {refused.words.removeprefix(f"{about}: ")}'

    def tell_error(self, error: OSError) -> Status:
        """That a file cannot be read or written."""
        name = os.fsdecode(error.filename) if error.filename is not None else self.subject or 'standard output'
        hint = '; --force replaces it' if isinstance(error, FileExistsError) else ''
        hint = '; -r goes into folders' if isinstance(error, IsADirectoryError) else hint
        self._tell(
            f'{name}: {words_of(error)}{hint}',
            {'file': name, 'state': 'error', 'error': {'words': words_of(error) + hint}},
            True,
        )
        return Status.TROUBLE

    def _tell(self, text: str, values: dict[str, Any], is_error: bool) -> None:
        if is_error or self.is_taken:
            complain(text)
        elif not self.is_json:
            print(text, flush=True)
        if self.is_json and not self.is_taken:
            print(json.dumps(values), flush=True)
