"""The table of functions against include/warpladle.h, and how buffers and numbers are lent."""
import ctypes
import os
import re
import subprocess
import sys

import pytest
from conftest import ROOT

import warpladle
from warpladle import library
from warpladle.library import FUNCTIONS, Watched, answer

HEADER = (ROOT / 'include' / 'warpladle.h').read_text()
PLAIN = {
    library.U8: 'uint8_t',
    library.U16: 'uint16_t',
    library.U32: 'uint32_t',
    library.SIZE: 'size_t',
    library.I8: 'int8_t',
    library.I64: 'int64_t',
}
LENT = {
    library.BYTES: ['const uint8_t *'],
    library.ROOM: ['uint8_t *'],
    library.ROWS: ['uint32_t (*)[7]'],
    library.BLOCKS: ['uint32_t (*)[4]'],
    library.VALUES: ['float (*)[2]'],
    library.LENGTHS: ['const uint32_t *'],
    library.SAME_STATE: ['const uint64_t [38]'],
    library.STATE: ['wl_watch *', 'uint64_t [38]', 'double [2]', 'double *'],
}


def declared():
    """The types of each function of the header, its parameters' names taken out."""
    code = re.sub(r'/\*.*?\*/', '', HEADER, flags=re.S)
    lengths = dict(re.findall(r'(WL_LEN_\w+) = (\d+)', code))
    code = re.sub(r'WL_LEN_\w+', lambda one: lengths[one[0]], code)
    found = re.findall(r'^void wl_(\w+)\((.*?)\);', code, re.S | re.M)
    return {
        name: [
            ' '.join(re.sub(r'\b\w+(?=\)?(\[\d+\])?$)', '', one.strip(), count=1).split()) for one in given.split(',')
        ]
        for name, given in found
    }


def expected(kinds, size):
    """What the table says, as lists of the types that may stand in each place."""
    for kind in kinds:
        if isinstance(kind, tuple):
            yield LENT[kind]
            if kind[2]:
                yield ['size_t']
        else:
            yield [PLAIN[kind]]
    yield [f'uint64_t [{size}]']


def test_each_function_is_declared_so():
    header = declared()
    assert set(header) == {*FUNCTIONS, 'watch_new'}
    for name in FUNCTIONS:
        types = [one.replace('( *)', '(*)').replace('(* )', '(*)') for one in header[name]]
        places = list(expected(*FUNCTIONS[name]))
        assert len(types) == len(places), name
        for found, allowed in zip(types, places):
            assert found.replace(' ', '') in [one.replace(' ', '') for one in allowed], (name, found, allowed)
    assert header['watch_new'] == ['wl_watch *']


def test_the_state_of_a_watch_is_as_long_as_in_c(tmp_path):
    source = tmp_path / 'size.c'
    source.write_text(
        '#include <stdio.h>\n#include "warpladle.h"\nint main(void) { printf("%zu %zu\\n", sizeof(wl_watch),'
        ' offsetof(wl_watch, number)); }\n'
    )
    subprocess.run(['cc', f'-I{ROOT}/include', source, '-o', tmp_path / 'size'], check=True)
    found = subprocess.run([tmp_path / 'size'], capture_output=True, text=True, check=True).stdout.split()
    assert found == [str(ctypes.sizeof(Watched)), str(Watched.number.offset)]


def test_every_function_is_in_the_library():
    for name in [*FUNCTIONS, 'watch_new']:
        assert library.function(name)
    with pytest.raises(library.LibraryMissing, match='has no wl_nothing: make it anew with tools/archive'):
        library.function('nothing')


def test_a_library_of_other_functions_is_refused_before_it_is_asked(tmp_path):
    source, shared = tmp_path / 'other.c', tmp_path / 'other.so'
    source.write_text('void wl_verdict(void); void wl_verdict(void) {}\n')
    subprocess.run(['cc', '-shared', '-fPIC', source, '-o', shared], check=True)
    done = subprocess.run(
        [sys.executable, '-m', 'warpladle', 'check', ROOT / 'samples' / 'rich.eps'],
        env={**os.environ, 'WARPLADLE_LIBRARY': str(shared), 'PYTHONPATH': str(ROOT / 'python')},
        capture_output=True,
        text=True,
    )
    words = f'it has no wl_arrival and {len(FUNCTIONS) - 1} more: make it anew with tools/archive'
    assert done.stderr == f'warpladle: {shared} is not the library of warpladle {warpladle.__version__}, {words}\n'
    assert (done.returncode, done.stdout) == (2, '')


def test_a_room_that_cannot_be_written_or_has_part_of_an_item():
    with pytest.raises(BufferError):
        answer('write_time', b'\0' * 6, 1, 0, 0)
    with pytest.raises(ValueError, match='29 bytes has no whole number of items of 28'):
        answer('rows', b'', bytearray(29))
    with pytest.raises(TypeError):
        answer('arrival', 'text')
    with pytest.raises(ValueError):
        answer('arrival', b'', b'')


def test_a_lent_buffer_is_given_back():
    room = bytearray(6)
    answer('write_time', room, 1, 6000, 0)
    room += b'!'  # which a buffer that is still lent does not allow
    assert room == b'\x17\x70\0\0\0\0!'
    with pytest.raises(OverflowError):
        answer('write_time', room, 1, 65536, 0)
    room += b'!'


def test_a_refusal_keeps_the_room():
    room = bytearray(b'\xaa' * 6)
    assert answer('write_time', room, 1, 0, 86_400_000) == (21, 0, 0, 0) and room == b'\xaa' * 6
