"""Products made for tests: records of any kind, put together with totals, sizes and pointers that agree."""
import functools
import struct

import vectors
from fields import FIELDS, HEAD, NAMES, line_start

CLASSES = ('MPHR', 'SPHR', 'IPR', 'GEADR', 'GIADR', 'VEADR', 'VIADR', 'MDR')
DAY = 6000  # 5 June 2016
UNDEFINED = (0xFFFF, 0xFFFFFFFF)


def record(kind, payload=b'', start=(DAY, 0), stop=(DAY, 1000), version=1):
    """A record: class, group and subclass of kind, and its times."""
    return bytes([*kind, version]) + struct.pack('>IHIHI', 20 + len(payload), *start, *stop) + payload


def pointer(kind, offset):
    return record((3, 0, 0), bytes(kind) + struct.pack('>I', offset))


def with_values(data, **values):
    """A product, or a main header, with other values in its lines."""
    out = bytearray(data)
    for name, value in values.items():
        k = NAMES.index(name)
        at, width = line_start(k) + 32, FIELDS[k][1]
        text = str(value).rjust(width).encode()
        assert len(text) == width, (name, value)
        out[at : at + width] = text
    return bytes(out)


@functools.lru_cache(maxsize=1)
def main_header():
    """That of the paper's example."""
    return next(vectors.products())[:HEAD]


def product(records, **values):
    """A main header and the records, which are in the order of their classes."""
    head = main_header()
    totals = {f'TOTAL_{name}': sum(one[0] == c for one in records) for c, name in enumerate(CLASSES, 1)}
    totals['TOTAL_MPHR'] = 1
    size = HEAD + sum(map(len, records))
    return with_values(
        head, **{**totals, 'TOTAL_RECORDS': 1 + len(records), 'ACTUAL_PRODUCT_SIZE': size, **values}
    ) + b''.join(records)


def clock(second):
    """A time of day 6000 as the main header writes it."""
    return f'20160605{second // 3600:02}{second // 60 % 60:02}{second % 60:02}Z'


def granule(k, length=180, step=10, mdr=40, gap=0, **values):
    """Granule k of a pass, of `length` seconds with an MDR each `step`: its SPHR and global records have the times of
    its own first and last MDR, as 002's Table 15 has it."""
    begin = 3600 + k * (length + gap)
    first, last = (DAY, 1000 * begin), (DAY, 1000 * (begin + length))
    fixed = [record((2, 9, 0), b'SUBTITLE = X\n', first, last), record((5, 9, 1), b'\x01' * 30, first, last)]
    mdrs = [
        record((8, 9, 2), bytes([k % 256]) * (mdr - 20), (DAY, 1000 * at), (DAY, 1000 * (at + step)))
        for at in range(begin, begin + length, step)
    ]
    name = f'MHSx_xxx_1B_M02_{clock(begin)}_{clock(begin + length)}_N_O_20160605200000Z'
    lines = {
        'PRODUCT_NAME': name,
        'INSTRUMENT_ID': 'MHSx',
        'PROCESSING_LEVEL': '1B',
        'SPACECRAFT_ID': 'M02',
        'SENSING_START': clock(begin),
        'SENSING_END': clock(begin + length),
        'ORBIT_START': 50100,
        'ORBIT_END': 50100,
    }
    return product(fixed + mdrs, **{**lines, **values})
