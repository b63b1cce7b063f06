"""The watch over a product that arrives in parts, and the records of such arrivals and their replay."""
from __future__ import annotations

import array
import io
from collections.abc import Iterable
from typing import Any, NamedTuple

from . import words
from .files import Buffer
from .headers import HEAD
from .library import answer, ask, new_watch
from .product import Product, write_product
from .refusal import Refusal, Refused


class Waiting(NamedTuple):
    """What has come so far is sound: so many whole records, the last of which ends at `end`."""

    records: int
    end: int


class Watch(io.RawIOBase):
    """A watch over an arrival, of some four kilobytes however long the product is. It is fed the parts as they come, or
    is written to as a file: `shutil.copyfileobj(download, Watch())`."""

    def __init__(self) -> None:
        super().__init__()
        self._state = new_watch()
        self._head = bytearray()
        self.fed: int = 0
        self.waiting = Waiting(0, 0)

    def feed(self, part: Buffer) -> Waiting:
        """The next part, of any length, and what is known then. After a refusal every part is refused again.

        Raises Refused: 1 to 16; 24 at a 65th pointer record.
        """
        number, place, count, _ = answer('watch_feed', self._state, part)
        self._note(memoryview(part).cast('B'))
        if number:
            raise Refused(number, place, self._words(number, place))
        self.waiting = Waiting(count, place)
        return self.waiting

    def _words(self, number: int, place: int) -> str:
        """With what was found where that is still known: the main header is kept, the records are not."""
        if number == Refusal.BEYOND:
            return f'expected {place} bytes, as declared, found {self.fed} so far'
        if number == Refusal.TOO_MANY_POINTERS:
            return (
                'a watch of a stream follows 64 pointer records, and this is the 65th; `check` judges the product once'
                ' it has come'
            )
        return words.of_product(self._head)(number, place) if number <= Refusal.BYTES_LEFT else ''

    def _note(self, part: memoryview) -> None:
        self.fed += len(part)
        self._head += part[: HEAD - len(self._head)]

    @property
    def declared(self) -> int | None:
        """The size that the product declares, once its main header has come and is sound."""
        return words.declared(self._head) if self.waiting.records else None

    @property
    def whole(self) -> bool:
        """Whether all that the product declares has come."""
        return self.declared is not None and self.waiting.end == self.declared

    def writable(self) -> bool:
        """It is."""
        return True

    def write(self, part: Any) -> int:
        """As `feed`, with the length of the part."""
        self.feed(part)
        return memoryview(part).nbytes


def record_arrival(lengths: Iterable[int], product: Product | Buffer) -> bytes:
    """The record of an arrival: what a watch answers to each part of the product, in parts of these lengths.

    Raises Refused: 39 where the lengths do not sum to the product's.
    """
    parts = array.array('I', lengths)
    data = product.data if isinstance(product, Product) else product

    def said(number: int, place: int) -> str:
        if number != Refusal.PART_LENGTHS:
            return ''
        return f'expected parts of {memoryview(data).nbytes} bytes in all, as the product has, found {sum(parts)}'

    return bytes(write_product(lambda room: ask('record_arrival', parts, data, room, words=said)[0]))


def replay(record: Buffer, product: Product | Buffer) -> int | None:
    """The first part, counted from 0, whose answer is not as the record has it, or None.

    Raises Refused: 37 to 39 for a record that is none, or not of this product.
    """
    data = product.data if isinstance(product, Product) else product
    differs, part = ask('replay', record, data, words=words.arrival_record(record, memoryview(data).nbytes))
    return part if differs else None
