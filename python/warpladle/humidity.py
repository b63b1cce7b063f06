"""Upper Tropospheric Humidity files in OpenMTP form, which are no EPS products."""
from __future__ import annotations

import array
import os
from typing import TYPE_CHECKING, NamedTuple

from . import words
from .files import Buffer, PathLike, map_file
from .library import ask
from .product import import_numpy, room_needed

if TYPE_CHECKING:
    import numpy
    import numpy.typing

BLOCK = [('line', 'u4'), ('column', 'u4'), ('uth', 'f4'), ('csr', 'f4')]


class Block(NamedTuple):
    """A block: line and column, 1 to 80, UTH in percent and CSR in Kelvin, each None where it is missing."""

    line: int
    column: int
    uth: float | None
    csr: float | None


def read_blocks(source: PathLike | Buffer) -> list[Block]:
    """The blocks of a humidity file; numpy is not needed for it.

    Raises Refused: 30 to 35.
    """
    data = map_file(source) if isinstance(source, (str, os.PathLike)) else source
    places, values = _read(data)
    return [
        Block(places[4 * k], places[4 * k + 1], *(values[2 * k + j] if places[4 * k + 2 + j] else None for j in (0, 1)))
        for k in range(len(places) // 4)
    ]


def read_uth(source: PathLike | Buffer) -> numpy.typing.NDArray[numpy.void]:
    """The blocks of a humidity file: line and column, 1 to 80, UTH in percent and CSR in Kelvin, each a NaN where it is
    missing.

    Raises Refused: 30 to 35.
    """
    np = import_numpy()
    places, values = _read(map_file(source) if isinstance(source, (str, os.PathLike)) else source)
    where, what = np.frombuffer(places, 'u4').reshape(-1, 4), np.frombuffer(values, 'f4').reshape(-1, 2)
    blocks: numpy.typing.NDArray[numpy.void] = np.empty(len(where), BLOCK)
    blocks['line'], blocks['column'] = where[:, 0], where[:, 1]
    for k, name in enumerate(('uth', 'csr')):
        blocks[name] = np.where(where[:, 2 + k] != 0, what[:, k], np.float32('nan'))
    return blocks


def _read(data: Buffer) -> tuple[array.array[int], array.array[float]]:
    """The two rooms that the library fills: four numbers and two values for each block."""
    said = words.humidity(data)
    # with rooms of no places the library refuses with 18 and says how many there are
    count = room_needed(lambda room: ask('uth', data, room, bytearray(), words=said)[0])
    places, values = array.array('I', bytes(16 * count)), array.array('f', bytes(8 * count))
    ask('uth', data, places, values, words=said)
    return places, values
