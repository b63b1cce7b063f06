"""Scaled numbers, as products and meters have them: an integer divided by 10 to the scale."""
from __future__ import annotations

import ctypes
from typing import NamedTuple

from .library import ask, signed


class Scaled(NamedTuple):
    """integer / 10^scale, with a scale of -15 to 15: 3 with scale -2 is 300."""

    integer: int
    scale: int


class Reading(NamedTuple):
    """What a meter shows: `kind` is 'missing', 'whole' or 'between', and `value` the number, or None where it is
    missing."""

    kind: str
    value: float | None


def _flat(number: Scaled | None) -> tuple[int, int, int]:
    return (0, 0, 0) if number is None else (1, number.integer, number.scale)


def read_scaled(data: bytes, at: int = 0, width: int = 4, *, is_signed: bool = True) -> Scaled | None:
    """The scaled number in the 1 + width bytes from `at` on, the scale first; `None` where it is undefined.

    Raises Refused: 20 past the bytes, 21 for a width or scale that cannot be.
    """
    defined, integer, scale, _ = ask('read_scaled', data, at, width, is_signed)
    return Scaled(signed(integer), signed(scale)) if defined else None


def write_scaled(number: Scaled | None, width: int = 4, *, is_signed: bool = True) -> bytes:
    """A scaled number as 1 + width bytes.

    Raises Refused: 21 where it does not fit.
    """
    room = bytearray(9)
    written = ask('write_scaled', room, width, is_signed, *_flat(number))[0]
    return bytes(room[:written])


def round_scaled(number: Scaled | None, decimals: int) -> int | None:
    """The number in units of the last of so many decimals, 0 to 15, a tie away from zero; `None` where it is undefined.

    Raises Refused: 21 for decimals, a scale or a number outside of the limits.
    """
    defined, units = ask('round', *_flat(number), decimals)
    return signed(units) if defined else None


def reading(number: Scaled | None) -> Reading:
    """What a meter shows of it.

    Raises Refused: 21 where that is beyond 2^53.
    """
    value = ctypes.c_double()
    shown = ask('reading', *_flat(number), value)[0]
    return Reading(('missing', 'whole', 'between')[shown], value.value if shown else None)
