"""What the tests share: the vectors, and the sample files as tools/samples makes them."""
import json
import os
import struct
import subprocess
import sys
from pathlib import Path
from typing import NamedTuple

import pytest
import vectors
from fields import FIELDS, NAMES, line_start

from warpladle import Refused

ROOT = Path(__file__).resolve().parents[2]

HEAD = 3307
LARGEST = 2**31 - 1


class Vectors:
    """The vectors by their name; products of a line by its key, or made of its pieces."""

    def __init__(self):
        self.kept = {}

    def products(self, name='requests/products.bin'):
        if name not in self.kept:
            self.kept[name] = list(vectors.products(name))
        return self.kept[name]

    def lines(self, name):
        return [json.loads(line) for line in vectors.lines(name)]

    def text(self, name):
        return vectors.lines(name)

    def product(self, case, key='product'):
        if 'pieces' in case:
            return in_pieces(case['pieces'])
        return self.products()[case[key]]


def in_pieces(pieces):
    return b''.join(bytes.fromhex(data) * times for data, times in pieces)


def said(function, *given, **named):
    """What a call gives, or its refusal as the vectors write it."""
    try:
        return function(*given, **named)
    except Refused as refused:
        return ['refused', refused.number, refused.place]


@pytest.fixture(scope='session')
def given():
    return Vectors()


@pytest.fixture(scope='session')
def samples(tmp_path_factory):
    """example.eps, rich.eps and humidity.uth, made anew."""
    folder = tmp_path_factory.mktemp('made')
    subprocess.run([sys.executable, ROOT / 'tools' / 'samples'], cwd=folder, check=True, stdout=subprocess.DEVNULL)
    return folder / 'samples'


@pytest.fixture(scope='session')
def library():
    """Where the shared library is, for programs that are started."""
    from warpladle.library import places

    return next(path for path in places() if path.exists())


@pytest.fixture(scope='session')
def environment(library):
    """The environment of a user's shell."""
    return {**os.environ, 'WARPLADLE_LIBRARY': str(library), 'PYTHONPATH': str(ROOT / 'python'), 'COLUMNS': '80'}


# ---- large products


def mdr(size, milli):
    return bytes([8, 9, 2, 1]) + struct.pack('>IHIHI', size, 6000, milli, 6000, milli + 300)


def main_header(samples, size, mdrs):
    head = bytearray((samples / 'example.eps').read_bytes()[:HEAD])
    values = {'ACTUAL_PRODUCT_SIZE': size, 'TOTAL_RECORDS': 1 + mdrs, 'TOTAL_MDR': mdrs}
    for name, value in values.items():
        k = NAMES.index(name)
        at, width = line_start(k) + 32, FIELDS[k][1]
        head[at : at + width] = b'%*d' % (width, value)
    return head


@pytest.fixture(scope='session')
def large(samples, tmp_path_factory):
    """32 MiB: 100,000 MDRs of 335 bytes, and a last one with the rest."""
    path = tmp_path_factory.mktemp('large') / '32mib.eps'
    count, size = 100_000, 335
    last = 32 * 2**20 - HEAD - count * size
    with open(path, 'wb') as file:
        file.write(main_header(samples, 32 * 2**20, count + 1))
        for k in range(count):
            file.write(mdr(size, 400 * k) + bytes(size - 20))
        file.write(mdr(last, 400 * count) + bytes(last - 20))
    return path


@pytest.fixture(scope='session')
def sparse(samples, tmp_path_factory):
    """The largest product there is, of 2,147,483,647 bytes, with a small MDR between two of a gigabyte: a file with
    holes, of some kilobytes on the disk."""
    path = tmp_path_factory.mktemp('sparse') / '2gb.eps'
    sizes = [2**30, 120, LARGEST - HEAD - 2**30 - 120]
    with open(path, 'wb') as file:
        file.truncate(LARGEST)
        file.write(main_header(samples, LARGEST, len(sizes)))
        at = HEAD
        for k, size in enumerate(sizes):
            file.seek(at)
            file.write(mdr(size, 1000 * k))
            at += size
    assert os.stat(path).st_blocks * 512 < 2**20
    return path


# ---- the command


class Done(NamedTuple):
    """The status of a command, and what it printed."""

    status: int
    out: str
    err: str

    @property
    def values(self):
        """Each line of JSON."""
        return [json.loads(line) for line in self.out.splitlines()]

    @property
    def value(self):
        """The one line of JSON."""
        (one,) = self.values
        return one


def command(*words):
    """The words that start the command."""
    return [sys.executable, '-B', '-m', 'warpladle', *map(os.fspath, map(str, words))]


@pytest.fixture
def run(environment, tmp_path):
    """Runs the command in a folder of its own."""

    def run(*words, stdin=b'', cwd=tmp_path, **options):
        done = subprocess.run(
            command(*words), input=stdin, capture_output=True, cwd=cwd, env={**environment, **options}
        )
        return Done(done.returncode, done.stdout.decode(), done.stderr.decode())

    return run


@pytest.fixture
def started(environment, tmp_path):
    """Starts the command; what still runs at the end of the test is ended."""
    processes = []

    def start(*words, **options):
        given = {
            'stdin': subprocess.PIPE,
            'stdout': subprocess.PIPE,
            'stderr': subprocess.PIPE,
            'cwd': tmp_path,
            'env': environment,
            **options,
        }
        processes.append(subprocess.Popen(command(*words), **given))
        return processes[-1]

    yield start
    for process in processes:
        if process.poll() is None:
            process.kill()
        process.wait()
        for pipe in (process.stdin, process.stdout, process.stderr):
            if pipe is not None and not pipe.closed:
                pipe.close()


@pytest.fixture
def rich(samples):
    return samples / 'rich.eps'
