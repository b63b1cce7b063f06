"""`explain`: what a refusal means, or why a file is refused."""
from __future__ import annotations

import argparse
import shutil
import textwrap
from typing import Any

from ..explanations import CAUSES, MEND, PLACES
from ..headers import HEAD, HEADER, all_fields
from ..product import Product
from ..refusal import MEANING, Refusal, Refused, State
from ..words import line_at, record_words, target_at, walk
from .inputs import add_json, add_sparse, open_input
from .output import STATUS_OF, BadUsage, Output, Status

MORE = (
    'Of a file: the verdict, the record at the place with its neighbours, the bytes around it, what a pointer says and'
    ' where the nearest records start.'
)
AROUND = 16  # bytes shown before and after the place, in lines of as many


def add_arguments(parser: argparse.ArgumentParser) -> None:
    """What it takes."""
    parser.add_argument(
        'what',
        metavar='NUMBER|FILE',
        help='the number of a refusal, 1 to 39, or a product; a file whose name is a number as ./17',
    )
    add_json(parser)
    add_sparse(parser)


def run(args: argparse.Namespace, output: Output) -> Status:
    """The explanation; of a file the status says whether it is whole."""
    if args.what.isdecimal():
        return explain_number(int(args.what), output)
    output.subject = args.what
    product = open_input(args.what, sparse=args.sparse)
    try:
        count = product.verdict
    except Refused as refused:
        return explain_refusal(args.what, product, refused, output)
    output.say(
        f'{args.what}: whole, {count} records, {product.size} bytes; there is nothing to explain',
        {'file': args.what, 'state': State.WHOLE.value, 'records': count},
    )
    return Status.FINE


def about(number: int) -> dict[str, Any]:
    """What is known of a refusal whatever the file."""
    return {
        'number': number,
        'name': Refusal(number).name,
        'meaning': MEANING[number],
        'place': PLACES[number],
        'causes': CAUSES[number],
        'mend': MEND[number],
    }


def wrapped(name: str, text: str) -> str:
    """A paragraph with its name before it."""
    width = max(40, min(120, shutil.get_terminal_size().columns - 2))
    return textwrap.fill(text, width, initial_indent=f'{name:<8} ', subsequent_indent=' ' * 9)


def about_lines(number: int) -> list[str]:
    """The same for people."""
    of = about(number)
    return [
        f'{number} {of["name"]}',
        *(
            wrapped(name, of[key])
            for name, key in (('means', 'meaning'), ('place', 'place'), ('causes', 'causes'), ('mend', 'mend'))
        ),
    ]


def explain_number(number: int, output: Output) -> Status:
    """A refusal by its number."""
    if number not in MEANING:
        raise BadUsage(f'there is no refusal {number}: they are 1 to {max(MEANING)}')
    output.say('\n'.join(about_lines(number)), about(number))
    return Status.FINE


def explain_refusal(name: str, product: Product, refused: Refused, output: Output) -> Status:
    """Why a file is refused or incomplete."""
    state = refused.state or State.REFUSED
    there = what_is_there(product, refused)
    values = {
        'file': name,
        'state': state.value,
        'accepted': False,
        'refusal': refused.as_dict(),
        'explained': about(refused.number),
        'there': there,
    }
    lines = [f'{name}: {output.refusal_text(refused)}', *about_lines(refused.number), *there]
    output.say('\n'.join(lines), values)
    return STATUS_OF[state]


def what_is_there(product: Product, refused: Refused) -> list[str]:
    """What stands at the place of a refusal and around it."""
    data, place = memoryview(product.data), refused.place
    lines = (
        lines_around(data, place) if place < HEAD and refused.number in (2, 3, 4, 5) else records_around(data, place)
    )
    if refused.number in (Refusal.TARGET, Refusal.POINTS_INSIDE, Refusal.POINTS_AT_OTHER):
        lines += pointer_lines(data, place)
    return lines + dump(data, place)


def lines_around(data: memoryview, place: int) -> list[str]:
    """The line of the main header at the place, with its neighbours."""
    at = line_at(place).number
    shown = all_fields()[max(0, at - 1) : at + 2]
    texts = [bytes(data[line.start : line.value_start + line.width + 1]) for line in shown]
    lines = [f'{">" if line.number == at else " "} {line.start:>6} {text!r}' for line, text in zip(shown, texts)]
    return ['lines of the main header:', *lines]


def records_around(data: memoryview, place: int) -> list[str]:
    """The records before, at and after the place, as far as the sizes lead."""
    starts = [start for start, _, _ in walk(data, min(len(data), place + 1))]
    if not starts:
        return []
    after = [start for start, _, _ in walk(data, len(data)) if start > place][:1] if starts[-1] == place else []
    shown = [*starts[-2:], *after]
    return ['records there:', *(f'{">" if start == place else " "} {record_words(data, start)}' for start in shown)]


def pointer_lines(data: memoryview, place: int) -> list[str]:
    """What a pointer says, and where the nearest records start."""
    from ..headers import class_name

    class_, group, subclass, offset = target_at(data, place)
    lines = [f'the pointer names {class_name(class_)}, group {group}, subclass {subclass}, at {offset}']
    starts = [start for start, _, _ in walk(data, len(data))]
    near = [start for start in starts if start <= offset][-1:] + [start for start in starts if start > offset][:1]
    lines += [f'a record starts {_distance(start, offset)}: {record_words(data, start)}' for start in near]
    alike = [start for start in starts if tuple(data[start : start + 3]) == (class_, group, subclass)][:1]
    return lines + [f'the first record of that kind starts {_distance(start, offset)}, at {start}' for start in alike]


def _distance(start: int, offset: int) -> str:
    if start == offset:
        return 'there'
    return f'{offset - start} before' if start < offset else f'{start - offset} after'


def dump(data: memoryview, place: int) -> list[str]:
    """The bytes around a place."""
    first = max(0, place - AROUND)
    lines = ['bytes there:']
    for at in range(first, min(len(data), place + 2 * HEADER), AROUND):
        part = bytes(data[at : at + AROUND])
        text = ''.join(chr(byte) if 32 <= byte < 127 else '.' for byte in part)
        lines.append(f'{">" if at <= place < at + AROUND else " "} {at:>10} {part.hex(" "):<{3 * AROUND}} {text}')
    return lines if len(lines) > 1 else [f'the file ends at {len(data)}']
