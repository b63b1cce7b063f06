#!/usr/bin/env python3
"""What the intake costs: figures, no test.

    python3 python/bench/intake.py            # both
    python3 python/bench/intake.py once       # or one of: once, growing

`once` has 1,000 products of some 30 KB that are there already, taken in with --once, beside `cp` and `check` of the same. `growing` has the processor time
of an intake while 50 files grow by 100 KB a second each, for SECONDS (30), and while nothing comes.
"""
import os
import shutil
import subprocess
import sys
import tempfile
import time
from pathlib import Path

ROOT = Path(__file__).resolve().parents[2]
sys.path[:0] = [str(ROOT / 'python'), str(ROOT / 'python' / 'tests'), str(ROOT / 'tools')]
from making import granule  # noqa: E402

SECONDS = float(os.environ.get('SECONDS', '30'))
ENVIRONMENT = {**os.environ, 'PYTHONPATH': str(ROOT / 'python')}
COMMAND = [sys.executable, '-m', 'warpladle']


def took(*words):
    """Seconds of a command."""
    since = time.perf_counter()
    subprocess.run([*map(str, words)], env=ENVIRONMENT, check=True, stdout=subprocess.DEVNULL)
    return time.perf_counter() - since


def measure_once(folder):
    """1,000 products that are there."""
    incoming = folder / 'incoming'
    incoming.mkdir()
    data = granule(0, mdr=1450)
    for k in range(1000):
        (incoming / f'{k:04}.eps').write_bytes(data)
    time.sleep(2.1)
    copied = took('cp', '-r', incoming, folder / 'copy')
    checked = took(*COMMAND, 'check', '-r', incoming)
    taken = took(*COMMAND, 'intake', incoming, '--accepted', folder / 'yes', '--refused', folder / 'no', '--once')
    print(f'1,000 products of {len(data)} bytes: cp {copied:.2f} s, check {checked:.2f} s, intake --once {taken:.2f} s')


def processor_seconds(process):
    """That a process has used."""
    fields = Path(f'/proc/{process.pid}/stat').read_text().rsplit(')', 1)[1].split()
    return (int(fields[11]) + int(fields[12])) / os.sysconf('SC_CLK_TCK')


def grow(files, data, at):
    """Each file by a tenth of a second's bytes."""
    for file in files:
        file.write(data[at : at + 10_000])


def measure_growing(folder):
    """50 files that grow."""
    incoming = folder / 'incoming'
    incoming.mkdir()
    words = [*COMMAND, 'intake', incoming, '--accepted', folder / 'yes', '--refused', folder / 'no']
    process = subprocess.Popen([*map(str, words)], env=ENVIRONMENT, stdout=subprocess.DEVNULL)
    time.sleep(1)
    before = processor_seconds(process)
    time.sleep(SECONDS / 3)
    idle = (processor_seconds(process) - before) / (SECONDS / 3)
    data = granule(0, length=18_000, mdr=int(SECONDS * 70) + 20)
    files = [open(incoming / f'{k}.eps', 'wb', buffering=0) for k in range(50)]
    before, since = processor_seconds(process), time.monotonic()
    for tick in range(int(SECONDS * 10)):
        grow(files, data, 10_000 * tick)
        time.sleep(max(0.0, since + (tick + 1) / 10 - time.monotonic()))
    growing = (processor_seconds(process) - before) / (time.monotonic() - since)
    process.terminate()
    process.wait()
    print(
        f'nothing comes: {100 * idle:.2f} % of a core; 50 files by 100 KB a second each: {100 * growing:.2f} % of a'
        ' core'
    )


def main():
    """The figures that were asked for."""
    for name, measure in (('once', measure_once), ('growing', measure_growing)):
        if len(sys.argv) < 2 or name in sys.argv[1:]:
            folder = Path(tempfile.mkdtemp())
            try:
                measure(folder)
            finally:
                shutil.rmtree(folder)


main()
