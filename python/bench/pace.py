#!/usr/bin/env python3
"""pace.py: what the module costs over the library, and how long a check of many files takes. Figures, no test.

    python3 python/bench/pace.py            # all of it
    python3 python/bench/pace.py check      # or one of: call, check, times

`call` has the verdict of a 32 MiB product from Python and from C; `check` the command over 4,096 small files; `times`
the times of 100,000 records. Least of several rounds, since other work may run beside. Needs cc for `call`.
"""
from __future__ import annotations

import os
import struct
import subprocess
import sys
import tempfile
import time
from pathlib import Path

ROOT = Path(__file__).resolve().parents[2]
sys.path[:0] = [str(ROOT / 'python'), str(ROOT / 'tools')]

from fields import FIELDS, HEAD, NAMES, line_start  # noqa: E402

from warpladle import Product  # noqa: E402
from warpladle.library import places  # noqa: E402

TIMES, ROUNDS, FILES = 40, 8, 4096


def large_product(path: Path, count: int = 100_000, size: int = 335) -> None:
    """So many MDRs of a size, and a last one that fills 32 MiB."""
    last = 32 * 2**20 - HEAD - count * size
    head = bytearray((ROOT / 'samples' / 'example.eps').read_bytes()[:HEAD])
    for name, value in {
        'ACTUAL_PRODUCT_SIZE': 32 * 2**20,
        'TOTAL_RECORDS': 2 + count,
        'TOTAL_MDR': 1 + count,
    }.items():
        at, width = line_start(NAMES.index(name)) + 32, dict(FIELDS)[name]
        head[at : at + width] = b'%*d' % (width, value)
    with open(path, 'wb') as file:
        file.write(head)
        for k in range(count + 1):
            length = size if k < count else last
            file.write(
                bytes([8, 9, 2, 1])
                + struct.pack('>IHIHI', length, 6000, 400 * k, 6000, 400 * k + 300)
                + bytes(length - 20)
            )


def least(call, times: int = TIMES) -> float:
    """The least microseconds of many calls."""
    found = []
    for _ in range(times):
        start = time.perf_counter()
        call()
        found.append(1e6 * (time.perf_counter() - start))
    return min(found)


def measure_call(folder: Path) -> None:
    """A check of 32 MiB, with the file mapped and judged before, and opened and mapped anew; C and Python in turn."""
    library = next(path for path in places() if path.exists()).resolve()
    bare, large = folder / 'bare', folder / '32mib.eps'
    subprocess.run(
        ['cc', '-O2', ROOT / 'python' / 'bench' / 'bare.c', library, f'-Wl,-rpath,{library.parent}', '-o', bare],
        check=True,
    )
    large_product(large)
    product, rounds = Product(large), []
    for _ in range(ROUNDS):
        c = subprocess.run([bare, large, str(TIMES)], check=True, capture_output=True, text=True).stdout.split()
        rounds.append([*map(float, c), least(lambda: product.verdict), least(lambda: Product(large).verdict)])
    kept_c, anew_c, kept, anew = map(min, zip(*rounds))
    print(
        f'32 MiB, 100,002 records, least microseconds: C {kept_c:.0f}, Python {kept:.0f}, ratio {kept / kept_c:.2f}; '
        f'opened and mapped anew: C {anew_c:.0f}, Python {anew:.0f}, ratio {anew / anew_c:.2f}'
    )


def measure_check(folder: Path) -> None:
    """The command over many files of 4 KB, and over one."""
    data = (ROOT / 'samples' / 'rich.eps').read_bytes()
    names = [folder / f'{k:04}.eps' for k in range(FILES)]
    for name in names:
        name.write_bytes(data)
    environment = {**os.environ, 'PYTHONPATH': os.environ.get('BENCH_PYTHONPATH', str(ROOT / 'python'))}

    def check(files: list[Path]) -> None:
        subprocess.run(
            [sys.executable, '-m', 'warpladle', 'check', *files], env=environment, stdout=subprocess.DEVNULL, check=True
        )

    many, one = least(lambda: check(names), ROUNDS), least(lambda: check(names[:1]), ROUNDS)
    print(f'check of {FILES} files: {many / 1e6:.3f} s; of one: {one / 1e6:.3f} s')


def measure_times(folder: Path) -> None:
    """The times of 100,002 records, with the rows known and without."""
    large = folder / '32mib.eps'
    large_product(large)
    product = Product(large)
    product.rows

    def again() -> None:
        product.__dict__.pop('times', None)
        product.times

    print(
        f'times of 100,002 records: {least(again) / 1000:.2f} ms; with the rows:'
        f' {least(lambda: Product(large).times) / 1000:.2f} ms'
    )


def main() -> None:
    """What was asked for, or all."""
    all_of = {'call': measure_call, 'check': measure_check, 'times': measure_times}
    for name in sys.argv[1:] or all_of:
        with tempfile.TemporaryDirectory() as folder:
            all_of[name](Path(folder))


if __name__ == '__main__':
    main()
