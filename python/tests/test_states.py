"""Three states, whole, incomplete and refused: in the exit status, and in JSON for every command."""
import json
import os

import pytest
from conftest import ROOT
from making import DAY, granule, product, record
from test_safe import is_open_in, many_pointers, patiently

from warpladle import Product, Refusal, Refused, State

WINDOW = '2016-06-05', '2016-06-06'


@pytest.fixture
def files(tmp_path, rich):
    """A whole product, one that has not wholly come, a refused one, and a missing one."""
    data = rich.read_bytes()
    (tmp_path / 'whole.eps').write_bytes(data)
    (tmp_path / 'part.eps').write_bytes(data[:4000])
    (tmp_path / 'bad.eps').write_bytes(data + b'!')
    (tmp_path / 'html.eps').write_bytes(b'<!DOCTYPE html><html></html>')
    return tmp_path


def commands(name):
    """Every command that reads a product, of a file of this name."""
    yield 'check', name
    yield 'level0', name
    yield 'list', name
    yield 'info', name
    yield 'explain', name
    yield 'cut', name, *WINDOW, '-o', 'out.eps'
    yield 'join', name, 'whole.eps', '-o', 'out.eps'
    yield 'compare', name, 'whole.eps'
    yield 'compare', 'whole.eps', name
    yield 'picture', name, 'out.svg', '--force'
    yield 'watch', name, '--wait', '0'
    yield 'report', '--strict', name


@pytest.mark.parametrize(
    'name, status, state, number',
    [('part.eps', 3, 'incomplete', 17), ('bad.eps', 1, 'refused', 16), ('html.eps', 1, 'refused', 1)],
)
def test_every_command_tells_the_state(files, run, name, status, state, number):
    for words in commands(name):
        done = run(*words, '--json')
        assert done.status == status, (words, done)
        assert done.value['state'] == state, words
        if words[0] not in ('watch', 'picture', 'report', 'info'):
            assert (
                done.value['accepted'] is False
                and done.value['refusal']['number'] == number
                and done.value['file'] == name
            )
        done = run(*words)
        assert done.status == status and 'Traceback' not in done.err, (words, done)
    assert not (files / 'out.eps').exists()


def test_of_a_whole_product_no_command_says_otherwise(files, run):
    for words in commands('whole.eps'):
        if words[0] not in ('join', 'level0'):
            done = run(*words, '--json')
            assert done.status == 0 and done.value['state'] == 'whole', (words, done)
            if os.path.exists(files / 'out.eps'):
                os.unlink(files / 'out.eps')


def test_faults_of_the_question_are_none_of_the_product(files, run):
    """2, with `error` and no `accepted`."""
    for words, number in (
        (['fields', 'whole.eps', 'SENSING_STRT'], 22),
        (['cut', 'whole.eps', *WINDOW[::-1], '-o', 'out.eps'], 25),
        (['join', 'whole.eps', 'whole.eps', '-o', 'out.eps'], 27),
        (['replay', 'whole.eps', 'whole.eps'], 37),
    ):
        done = run(*words, '--json')
        assert done.status == 2, (words, done)
        assert (
            done.value['state'] == 'error' and done.value['error']['number'] == number and 'accepted' not in done.value
        )
        done = run(*words)
        assert (done.status, done.out) == (2, '') and f'refused {number} 0: ' in done.err
    assert not (files / 'out.eps').exists()
    assert 'did you mean SENSING_START?' in run('fields', 'whole.eps', 'SENSING_STRT').err


def test_the_input_at_fault_is_named(files, run):
    done = run('join', 'whole.eps', 'part.eps', '-o', 'out.eps', '--json')
    assert done.status == 3 and (done.value['file'], done.value['input'], done.value['state']) == (
        'part.eps',
        'part.eps',
        'incomplete',
    )
    done = run('compare', 'whole.eps', 'bad.eps', '--json')
    assert done.status == 1 and done.value['input'] == 'bad.eps'
    done = run('join', 'whole.eps', 'whole.eps', '-o', 'out.eps', '--json')
    assert done.value['inputs'] == ['whole.eps', 'whole.eps'] and done.value['input'] == 'whole.eps'


def test_a_missing_file_is_json_too(files, run):
    error = {'file': 'none.eps', 'state': 'error', 'error': {'words': 'No such file or directory'}}
    for words in [
        *commands('none.eps'),
        ('fields', 'none.eps'),
        ('uth', 'none.eps'),
        ('replay', 'none.eps', 'whole.eps'),
        ('replay', 'whole.eps', 'none.eps'),
    ]:
        done = run(*words, '--json')
        assert done.status == 2 and done.err == 'warpladle: none.eps: No such file or directory\n', (words, done)
        assert done.value == error or done.value['unreadable'] == [error], words


def test_the_worst_of_many_is_told(files, run):
    for names, status in (
        (['whole.eps', 'whole.eps'], 0),
        (['whole.eps', 'part.eps'], 3),
        (['part.eps', 'bad.eps', 'whole.eps'], 1),
        (['bad.eps', 'part.eps'], 1),
        (['none.eps', 'bad.eps', 'part.eps'], 2),
    ):
        assert run('check', *names).status == status


KEYS = {
    'check': {'file', 'state', 'accepted', 'records', 'bytes', 'product_name', 'sensing_start', 'sensing_end'},
    'list': {'file', 'state', 'records'},
    'fields': {'file', 'state', 'fields', 'units'},
    'info': {
        'file',
        'state',
        'bytes',
        'records',
        'product_name',
        'spacecraft',
        'instrument',
        'type',
        'level',
        'sensing_start',
        'sensing_end',
        'orbit_start',
        'orbit_end',
        'ground_start',
        'ground_end',
        'totals',
        'declared',
        'subsetted',
    },
    'explain': {'file', 'state', 'records'},
    'watch': {'file', 'state', 'accepted', 'records', 'end', 'bytes', 'declared'},
    'cut': {'file', 'state', 'records', 'bytes', 'mdrs', 'of_mdrs'},
    'join': {'file', 'state', 'records', 'bytes', 'mdrs'},
    'compare': {'file', 'original', 'state', 'is_cut'},
    'report': {
        'products',
        'accepted',
        'refused',
        'records',
        'bytes',
        'gap_ms',
        'overlap_ms',
        'undefined_pairs',
        'state',
        'incomplete',
        'numbers',
        'between',
        'twice',
        'unreadable',
        'entries',
    },
    'picture': {'file', 'picture', 'state', 'bytes'},
    'level0': {'file', 'state', 'accepted', 'records', 'bytes', 'product_name', 'sensing_start', 'sensing_end'},
    'uth': {'file', 'state', 'blocks'},
    'replay': {'file', 'record', 'state', 'part'},
}


def test_the_keys_of_every_command(files, run, samples):
    for k in (0, 1):
        (files / f'{k}.eps').write_bytes(granule(k))
    (files / 'town.eps').write_bytes(
        bytes(Product(files / 'whole.eps').cut('2016-06-05T00:00:08Z', '2016-06-05T00:00:20Z'))
    )
    assert run('watch', 'whole.eps', '--record', 'arrival').status == 0
    words = {
        'compare': ['whole.eps', 'town.eps'],
        'cut': ['whole.eps', *WINDOW, '-o', 'c.eps'],
        'join': ['0.eps', '1.eps', '-o', 'j.eps'],
        'level0': [samples / 'example.eps'],
        'picture': ['whole.eps', 'p.svg'],
        'replay': ['arrival', 'whole.eps'],
        'uth': [samples / 'humidity.uth'],
    }
    documented = (ROOT / 'python' / 'README.md').read_text()
    for name, keys in KEYS.items():
        done = run(name, *words.get(name, ['whole.eps']), '--json')
        assert done.status == 0 and set(done.value) == keys, (name, done)
        for key in keys:
            assert f'`{key}`' in documented, key


def test_the_keys_of_a_refusal(files, run):
    value = run('check', '--json', '--all', 'bad.eps').value
    assert set(value) == {'file', 'state', 'accepted', 'refusal', 'bytes'} and set(value['refusal']) == {
        'number',
        'place',
        'words',
    }
    value = run('explain', '--json', '13').value
    assert set(value) == {'number', 'name', 'meaning', 'place', 'causes', 'mend'} and value['name'] == 'POINTS_INSIDE'


def test_the_state_of_a_refusal():
    states = {number: Refused(number, 0).state for number in range(1, 40)}
    assert [n for n, s in states.items() if s is State.INCOMPLETE] == [17]
    assert [n for n, s in states.items() if s is State.REFUSED] == [*range(1, 17), *range(29, 36)]
    assert Refused(13, 0).refusal is Refusal.POINTS_INSIDE and Refused(13, 0).refusal == 13


# ---- the watch


def test_a_watched_file_of_many_pointers(run, tmp_path, started):
    """As `check` accepts it: 24 is for streams."""
    many, path = many_pointers(), tmp_path / 'many.eps'
    path.write_bytes(many)
    assert run('watch', path) == (0, f'{path}: whole, 201 records, {len(many)} bytes\n', '')
    path.write_bytes(many + b'!')
    done = run('watch', path)
    assert done.status == 1 and done.out.startswith(f'{path}: refused 16 {len(many)}: expected {len(many)} bytes')
    path.write_bytes(many[:-30])
    assert (
        run('watch', path, '--wait', '0').out
        == f'{path}: incomplete, 199 whole records, {len(many) - 30} bytes of {len(many)}\n'
    )
    watching = started('watch', path)
    with open(path, 'ab', buffering=0) as file:
        for at in range(len(many) - 30, len(many)):
            assert watching.poll() is None
            file.write(many[at : at + 1])
    assert (
        watching.stdout.readline().decode() == f'{path}: whole, 201 records, {len(many)} bytes\n'
        and watching.wait(30) == 0
    )


def test_a_watched_stream_of_many_pointers_says_who_can_do_it(run):
    done = run('watch', stdin=many_pointers())
    assert (
        (done.status, done.out) == (2, '')
        and 'refused 24 5035: a watch of a stream follows 64 pointer records' in done.err
        and '`check`' in done.err
    )
    value = run('watch', '--json', stdin=many_pointers()).value
    assert value['state'] == 'error' and value['error']['number'] == 24


def test_a_watched_file_may_come_later(started, rich, tmp_path, run):
    watching = started('watch', 'late.eps')
    patiently(lambda: open(f'/proc/{watching.pid}/stat').read().split()[2] == 'S')
    assert watching.poll() is None
    (tmp_path / 'late.eps').write_bytes(rich.read_bytes())
    assert watching.stdout.readline() == b'late.eps: whole, 15 records, 4356 bytes\n' and watching.wait(30) == 0
    assert run('watch', 'never.eps', '--wait', '0.1') == (2, '', 'warpladle: never.eps: No such file or directory\n')


def test_a_watched_file_may_be_renamed(started, rich, tmp_path):
    data, path = rich.read_bytes(), tmp_path / 'new.eps.part'
    path.write_bytes(data[:3500])
    watching = started('watch', path)
    patiently(lambda: is_open_in(watching.pid, path))
    path.rename(tmp_path / 'new.eps')
    with open(tmp_path / 'new.eps', 'ab') as file:
        file.write(data[3500:])
    assert (
        watching.stdout.readline().decode() == f'{path}: whole, 15 records, 4356 bytes (it is {tmp_path}/new.eps now)\n'
        and watching.wait(30) == 0
    )


def test_a_watched_file_may_be_replaced(started, rich, tmp_path):
    data, path = rich.read_bytes(), tmp_path / 'new.eps'
    path.write_bytes(data[:3500])
    watching = started('watch', path, '--json')
    patiently(lambda: is_open_in(watching.pid, path))
    (tmp_path / 'other').write_bytes(data)
    os.replace(tmp_path / 'other', path)
    value = json.loads(watching.stdout.readline())
    assert (value['state'], value['bytes'], value['records']) == ('whole', 4356, 15) and watching.wait(30) == 0


def test_a_file_longer_than_its_product(run, tmp_path):
    """What stands beyond the declared size is refused, a hole too."""
    data, path = product([record((8, 9, 2), bytes(20_000), (DAY, 0), (DAY, 0))]), tmp_path / 'long.eps'
    with open(path, 'wb') as file:
        file.write(data)
        file.truncate(len(data) + 100_000)
    for words in (['check', path], ['watch', path, '--wait', '0.1']):
        done = run(*words)
        assert done.status in (1, 3) and ('refused 16' in done.out or 'incomplete' in done.out)


@pytest.mark.parametrize('wait', ['nan', '-1', 'soon', '-inf'])
def test_waits_that_are_none(run, rich, wait):
    done = run('watch', rich, f'--wait={wait}')
    assert (done.status, done.out) == (2, '') and 'is no number of seconds of 0 or more' in done.err
