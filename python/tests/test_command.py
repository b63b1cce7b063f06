"""Every subcommand: what it prints and its exit status."""
import json
import os
import subprocess
import sys
import time

import pytest
from making import granule

from warpladle import Product, Time, record_arrival

TOWN = ('2016-06-05T00:00:08Z', '2016-06-05T00:00:20Z')


@pytest.fixture
def short(rich, tmp_path):
    path = tmp_path / 'short.eps'
    path.write_bytes(rich.read_bytes()[:4000])
    return path


SHORT = 'incomplete 17 4000: expected 4356 bytes, as declared, found 4000'


def test_check(run, rich, short, samples):
    assert run('check', rich, samples / 'example.eps') == (
        0,
        f'{rich}: 15 records\n{samples}/example.eps: 2 records\n',
        '',
    )
    assert run('check', rich, short) == (3, f'{rich}: 15 records\n{short}: {SHORT}\n', '')
    assert run('check', 'none', short, rich) == (
        2,
        f'{short}: {SHORT}\n{rich}: 15 records\n',
        'warpladle: none: No such file or directory\n',
    )
    assert run('check', '-', stdin=rich.read_bytes()) == (0, '-: 15 records\n', '')
    assert run('check', '/dev/stdin', stdin=rich.read_bytes()) == (0, '/dev/stdin: 15 records\n', '')


def test_check_for_a_program(run, rich, short):
    done = run('check', '--json', rich, short, 'none')
    name = 'MHSx_xxx_1B_M02_20160605000000Z_20160605000025Z_N_O_20160605003000Z'
    assert done.status == 2 and done.values == [
        {
            'file': str(rich),
            'state': 'whole',
            'accepted': True,
            'records': 15,
            'bytes': 4356,
            'product_name': name,
            'sensing_start': '2016-06-05T00:00:00Z',
            'sensing_end': '2016-06-05T00:00:25Z',
        },
        {
            'file': str(short),
            'state': 'incomplete',
            'accepted': False,
            'bytes': 4000,
            'refusal': {'number': 17, 'place': 4000, 'words': 'expected 4356 bytes, as declared, found 4000'},
        },
        {'file': 'none', 'state': 'error', 'error': {'words': 'No such file or directory'}},
    ]


def test_list(run, rich, short):
    assert run('list', rich) == (0, Product(rich).listing(), '')
    assert run('list', short) == (3, f'{short}: {SHORT}\n', '')
    status, out, _ = run('list', '--json', rich)
    records = json.loads(out)['records']
    assert status == 0 and len(records) == 15
    assert records[1] == {'start': 3307, 'size': 61, 'class': 2, 'group': 9, 'subclass': 0, 'version': 1}
    assert run('list', 'none') == (2, '', 'warpladle: none: No such file or directory\n')


def test_fields(run, rich):
    assert run(
        'fields', rich, 'ORBIT_START', 'SENSING_END', 'STATE_VECTOR_TIME', 'LEAP_SECOND_UTC', 'INSTRUMENT_MODEL'
    ) == (
        0,
        (
            'ORBIT_START                   = 50123\nSENSING_END                   = 2016-06-05T00:00:25Z\n'
            'STATE_VECTOR_TIME             = 2016-06-04T23:50:12.345Z\nLEAP_SECOND_UTC               = undefined\n'
            'INSTRUMENT_MODEL              =   2\n'
        ),
        '',
    )
    status, out, _ = run('fields', rich)
    assert status == 0 and len(out.splitlines()) == 72
    status, out, _ = run('fields', '--json', rich)
    values = json.loads(out)['fields']
    assert (
        status == 0
        and len(values) == 72
        and values['LEAP_SECOND_UTC'] is None
        and values['SENSING_START'] == '2016-06-05T00:00:00Z'
    )
    done = run('fields', rich, 'HUMIDITY')
    assert done == (
        2,
        '',
        f"warpladle: {rich}: refused 22 0: expected the name of one of the 72 fields, found 'HUMIDITY'\n",
    )


def test_a_leap_second_in_a_field(run, rich, tmp_path):
    at = Product(rich).data.find(b'SENSING_END  ') + 32
    data = rich.read_bytes()
    (tmp_path / 'leap.eps').write_bytes(data[:at] + b'20161231235960Z' + data[at + 15 :])
    assert run('fields', 'leap.eps', 'SENSING_END') == (
        0,
        'SENSING_END                   = 2016-12-31T23:59:60.000Z\n',
        '',
    )


def test_watch_standard_input(run, rich):
    data = rich.read_bytes()
    assert run('watch', stdin=data) == (0, '-: whole, 15 records, 4356 bytes\n', '')
    assert run('watch', stdin=data[:4000]) == (3, '-: incomplete, 12 whole records, 4000 bytes of 4356\n', '')
    assert run('watch', stdin=b'') == (3, '-: incomplete, 0 whole records, 0 bytes of an unknown number\n', '')
    status, out, _ = run('watch', stdin=data + b'!')
    assert status == 1 and out.startswith('-: refused 16 4356: ')
    assert json.loads(run('watch', '--json', stdin=data)[1]) == {
        'file': '-',
        'state': 'whole',
        'accepted': True,
        'records': 15,
        'end': 4356,
        'bytes': 4356,
        'declared': 4356,
    }


def test_a_refusal_is_said_while_the_pipe_is_still_open(started):
    with started('watch') as watching:
        watching.stdin.write(b'x' * 20)
        watching.stdin.flush()
        assert watching.stdout.readline().startswith(
            b'-: refused 1 0: expected a first header of class 1, group 0, subclass 0, size 3307, found class 120, '
        )
        assert watching.wait(10) == 1


def test_a_file_that_grows_while_it_is_watched(started, rich, tmp_path, run):
    data, path, record = rich.read_bytes(), tmp_path / 'grows.eps', tmp_path / 'arrival'
    path.touch()
    with started('watch', path, '--record', record) as watching, open(path, 'ab', buffering=0) as file:
        for start in range(0, len(data), 1000):
            time.sleep(0.1)
            assert watching.poll() is None
            file.write(data[start : start + 1000])
        assert watching.stdout.readline().decode() == f'{path}: whole, 15 records, 4356 bytes\n'
        assert watching.wait(10) == 0
    lengths = record.read_bytes()
    parts = int.from_bytes(lengths[:4], 'big')
    assert 1 <= parts and len(lengths) == 8 + 16 * parts  # how many it reads at once hangs on the machine
    assert run('replay', record, path) == (0, 'none: every answer is as recorded\n', '')


def test_a_growing_file_that_is_refused_is_said_at_once(started, rich, tmp_path):
    path = tmp_path / 'grows.eps'
    path.write_bytes(rich.read_bytes()[:3422])
    with started('watch', path) as watching, open(path, 'ab', buffering=0) as file:
        time.sleep(0.2)
        assert watching.poll() is None
        file.write(bytes(100))
        assert (
            watching.stdout.readline()
            .decode()
            .startswith(
                f'{path}: refused 7 3422: expected a class of 1 to 8 and a group of 0 to 13, 15 or 99, found class 0, '
            )
        )
        assert watching.wait(10) == 1


def test_a_file_that_stops_growing_or_is_cut_short(started, rich, tmp_path, run):
    path = tmp_path / 'grows.eps'
    path.write_bytes(rich.read_bytes()[:3400])
    assert run('watch', path, '--wait', '0.2') == (3, f'{path}: incomplete, 3 whole records, 3400 bytes of 4356\n', '')
    with started('watch', path) as watching:
        time.sleep(0.5)
        os.truncate(path, 10)
        assert watching.wait(10) == 2
        assert watching.stderr.read().decode() == f'warpladle: {path}: it was cut short while it was watched\n'


def test_watch_and_record_need_a_file(run):
    assert run('watch', '--record', 'out') == (
        2,
        '',
        'warpladle: a record is made of the file that was watched: name one\n',
    )
    assert run('watch', 'none', '--wait', '0', '--record', 'out') == (
        2,
        '',
        'warpladle: none: No such file or directory\n',
    )


def test_cut(run, rich, tmp_path):
    done = run('cut', rich, *TOWN, '-o', 'town.eps')
    assert (done.status, done.out) == (0, 'town.eps: 14 records, 3843 bytes; 2 of 4 MDRs\n')
    made = (tmp_path / 'town.eps').read_bytes()
    assert made == bytes(Product(rich).cut(*TOWN)) and os.listdir(tmp_path) == ['town.eps']
    assert os.stat(tmp_path / 'town.eps').st_mode & 0o777 == 0o666 & ~umask()
    assert run('cut', rich, *TOWN, '-o', 'town.eps') == (
        2,
        '',
        'warpladle: town.eps: it is there already and is kept; --force replaces it\n',
    )
    assert run('cut', rich, TOWN[0], TOWN[0], '-o', 'town.eps', '--force', '--json').value == {
        'file': 'town.eps',
        'state': 'whole',
        'records': 12,
        'bytes': 3795,
        'mdrs': 1,
        'of_mdrs': 4,
    }
    assert run('cut', rich, *TOWN[::-1], '-o', 'other.eps') == (
        2,
        '',
        (
            f'warpladle: {rich}: refused 25 0: expected a window of two times, the first not after the last, found '
            '2016-06-05T00:00:20.000Z to 2016-06-05T00:00:08.000Z\n'
        ),
    )
    assert os.listdir(tmp_path) == ['town.eps']


def umask():
    mask = os.umask(0)
    os.umask(mask)
    return mask


def test_pipes_from_end_to_end(run, started, rich, tmp_path, environment):
    whole, town = rich.read_bytes(), bytes(Product(rich).cut(*TOWN))
    done = subprocess.run(
        [sys.executable, '-B', '-m', 'warpladle', 'cut', '-', *TOWN, '-q', '-o', '-'],
        input=whole,
        env=environment,
        capture_output=True,
    )
    assert (done.returncode, done.stdout, done.stderr) == (0, town, b'')
    assert run('compare', rich, '-', stdin=town)[0] == 0
    names = three_cuts(rich, tmp_path)
    done = subprocess.run(
        [sys.executable, '-B', '-m', 'warpladle', 'join', *names, '-o', '-'], env=environment, capture_output=True
    )
    a, b, c = map(Product, names)
    assert (done.returncode, done.stdout) == (0, bytes(a.join(b).join(c)))
    status, out, err = run('cut', '-', *TOWN, '-o', '-', stdin=whole[:-1])
    assert (status, out) == (3, '') and err.startswith('warpladle: -: incomplete 17 4355: ')
    os.mkfifo(tmp_path / 'pipe')
    with started('watch', tmp_path / 'pipe') as watching:
        (tmp_path / 'pipe').write_bytes(b'x' * 20)
        assert watching.stdout.read().decode().startswith(f'{tmp_path}/pipe: refused 1 0: ')
        assert watching.wait(10) == 1
    with started('watch', tmp_path / 'pipe') as watching:
        (tmp_path / 'pipe').write_bytes(whole)
        assert watching.stdout.read().decode() == f'{tmp_path}/pipe: whole, 15 records, 4356 bytes\n'
        assert watching.wait(10) == 0


def test_a_cut_that_cannot_be_written_leaves_nothing(run, rich, short, tmp_path):
    assert run('cut', short, *TOWN, '-o', 'town.eps').status == 3
    status, out, err = run('cut', rich, *TOWN, '-o', 'no/folder/town.eps')
    assert (status, out) == (2, '') and 'No such file or directory' in err
    assert os.listdir(tmp_path) == ['short.eps']


def test_times_of_the_command_line(run, rich):
    for first, words in (
        ('yesterday', "'yesterday' is no time as"),
        ('2015-02-29', 'expected a time of 2000-01-01 to 2179-06-06, found 2015-02-29'),
    ):
        status, out, err = run('cut', rich, first, TOWN[1], '-o', 'town.eps')
        assert (status, out) == (2, '') and words in err


def three_cuts(rich, folder):
    product = Product(rich)
    folder.mkdir(exist_ok=True)
    names = []
    for k, (first, last) in enumerate(((0, 7999), (8000, 15999), (16000, 30000))):
        names.append(folder / f'{k}.eps')
        product.cut(Time(6000, first), Time(6000, last), names[-1])
    return names


def test_join(run, rich, tmp_path):
    names = three_cuts(rich, tmp_path)
    status, out, _ = run('join', *names, '-o', 'pass.eps')
    # 3,307 of main header, 61 of SPHR, 6 pointers, 92 of global and three times 80 of variable records, 681 of MDRs
    assert (status, out) == (0, 'pass.eps: 20 records, 4543 bytes\n')
    a, b, c = map(Product, names)
    assert (tmp_path / 'pass.eps').read_bytes() == bytes(a.join(b).join(c))
    assert sorted(os.listdir(tmp_path)) == ['0.eps', '1.eps', '2.eps', 'pass.eps']
    assert run('join', *names, '-o', 'pass.eps')[0] == 2
    done = run('join', *names[::-1], '-o', 'back.eps')
    assert done == (
        2,
        '',
        (
            f'warpladle: back.eps is not made: refused 27 0: expected {names[1]} to start at 2016-06-05T00:00:25.000Z'
            f' or later, or 1 ms before, where {names[2]} stops, found 2016-06-05T00:00:08.000Z, 17000 ms before\n'
        ),
    )
    assert run('join', names[0], '-o', 'one.eps') == (2, '', 'warpladle: a join takes two files or more\n')
    assert run('join', names[0], 'none', '-o', 'one.eps') == (2, '', 'warpladle: none: No such file or directory\n')


def test_compare(run, rich, short, tmp_path):
    Product(rich).cut(*TOWN, tmp_path / 'town.eps')
    assert run('compare', rich, 'town.eps') == (0, f'yes: town.eps is a cut of {rich}\n', '')
    done = run('compare', 'town.eps', rich)
    assert done.status == 1 and done.out.startswith(
        f'no: {rich} is no cut of town.eps, at 3675: MDR 1 at 3675 (220 bytes, '
    )
    assert run('compare', '--json', rich, 'town.eps').value == {
        'file': 'town.eps',
        'original': str(rich),
        'state': 'whole',
        'is_cut': True,
    }
    value = run('compare', '--json', 'town.eps', rich).value
    assert (value['is_cut'], value['place'], value['state']) == (False, 3675, 'whole')
    done = run('compare', rich, short)
    assert (
        done.status == 3 and done.out == f'{short}: incomplete 17 4000: expected 4356 bytes, as declared, found 4000\n'
    )
    assert run('compare', rich, 'none').status == 2


def test_join_of_request_seven(run, rich, tmp_path):
    for k in (0, 1):
        (tmp_path / f'{k}.eps').write_bytes(granule(k))
    assert run('join', '0.eps', '1.eps', '-o', 'pass.eps') == (0, 'pass.eps: 41 records, 4884 bytes\n', '')
    done = run('join', '0.eps', '1.eps', '-o', 'other.eps', '--identical')
    assert (
        (done.status, done.out) == (2, '') and 'refused 26 0: ' in done.err and '--identical was asked for' in done.err
    )
    names = three_cuts(rich, tmp_path / 'cuts')
    assert (
        run('join', *names, '-o', 'a.eps', '-q').status
        == run('join', *names, '-o', 'b.eps', '-q', '--identical').status
        == 0
    )
    assert (tmp_path / 'a.eps').read_bytes() == (tmp_path / 'b.eps').read_bytes()


def test_level0(run, samples, rich):
    status, out, _ = run('level0', samples / 'example.eps', rich)
    assert status == 1
    assert out.splitlines()[0] == f'{samples}/example.eps: 2 records'
    assert out.splitlines()[1].startswith(
        f'{rich}: refused 29 3622: expected a VIADR of group 0, subclass 0, version 1 or 2, found class 7, group 9'
    )
    assert json.loads(run('level0', '--json', rich)[1])['refusal']['number'] == 29


def test_uth(run, samples, rich):
    path = samples / 'humidity.uth'
    assert run('uth', path) == (0, '40 41 23.50 241.25\n40 42 31.00 -\n41 40 18.25 243.50\n41 40 19.50 243.00\n', '')
    assert json.loads(run('uth', '--json', path)[1])['blocks'][1] == {
        'line': 40,
        'column': 42,
        'uth': 31.0,
        'csr': None,
    }
    status, out, _ = run('uth', rich)
    assert status == 1 and out.startswith(f'{rich}: refused 32 642: expected a line and a column of 1 to 80, found ')


def test_replay(run, rich, tmp_path):
    record = bytearray(record_arrival([4000, 356], rich.read_bytes()))
    (tmp_path / 'record').write_bytes(record)
    assert run('replay', 'record', rich) == (0, 'none: every answer is as recorded\n', '')
    record[-1] ^= 1
    (tmp_path / 'record').write_bytes(record)
    assert run('replay', 'record', rich) == (1, 'part 1: its answer is not as recorded\n', '')
    assert run('replay', '--json', 'record', rich).value == {
        'file': str(rich),
        'record': 'record',
        'state': 'whole',
        'part': 1,
    }
    (tmp_path / 'record').write_bytes(record[:-1])
    assert run('replay', 'record', rich).err.startswith(
        'warpladle: record: refused 37 0: expected 8 bytes, 4 for each part and 12'
    )


def test_a_name_of_any_bytes(environment, rich, tmp_path):
    name = os.fsencode(tmp_path) + b'/\xff\n.eps'
    with open(name, 'wb') as file:
        file.write(rich.read_bytes())
    for words in ([], ['--json']):
        done = subprocess.run(
            [sys.executable, '-B', '-m', 'warpladle', 'check', *words, name], env=environment, capture_output=True
        )
        assert (done.returncode, done.stderr) == (0, b'') and b'15' in done.stdout


def test_help_and_bad_usage(run):
    status, out, _ = run('--help')
    assert status == 0
    for name in (
        'check',
        'list',
        'fields',
        'watch',
        'cut',
        'join',
        'compare',
        'level0',
        'uth',
        'report',
        'replay',
        'picture',
    ):
        assert f'    {name} ' in out
        assert run(name, '--help')[0] == 0
    assert run()[0] == 2 and run('nothing')[0] == 2
