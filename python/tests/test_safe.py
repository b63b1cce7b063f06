"""Safe files: holes, outputs that are no files, endless sources, signals, files that are cut short while they are
read."""
import os
import resource
import signal
import socket
import stat
import subprocess
import time

import pytest
from conftest import ROOT, command
from making import DAY, granule, product, record

from warpladle import Product
from warpladle.files import first_hole, surely_come

BLOCK = 4096


def patiently(look, seconds=30):
    """Waits until something is so."""
    end = time.monotonic() + seconds
    while not look():
        assert time.monotonic() < end, 'it never came to be'
        time.sleep(0.01)


# ---- holes


@pytest.fixture
def holed(tmp_path):
    """A product of 2 MB, of which 4 KB have come: its size was set first, as downloaders do."""
    data = product(
        [record((8, 9, 2), bytes(2_000_000 if k == 4 else 10), (DAY, 1000 * k), (DAY, 1000 * k)) for k in range(5)]
    )
    path = tmp_path / 'hole.eps'
    with open(path, 'wb') as file:
        file.truncate(len(data))
        file.write(data[:BLOCK])
    with open(path, 'rb') as file:
        if first_hole(file.fileno(), len(data)) == len(data):
            pytest.skip('the file system knows of no holes')
    assert Product(path).verdict == 6  # its bytes are those of a whole product: payload is not judged
    return path, data


def test_a_file_with_a_hole_is_incomplete(holed, run, tmp_path):
    path, data = holed
    done = run('check', path)
    assert (
        done.status == 3
        and done.out.startswith(f'{path}: incomplete 17 ')
        and 'the file has a hole, and its bytes from 0 on have not surely come' in done.out
    )
    assert run('check', '--json', path).value['state'] == 'incomplete'
    done = run('report', path, '--json')
    assert (
        done.status == 0
        and done.value['incomplete'] == 1
        and done.value['accepted'] == 0
        and done.value['entries'][0]['state'] == 'incomplete'
    )
    done = run('watch', path, '--wait', '0.2')
    assert (done.status, done.out) == (3, f'{path}: incomplete, 0 whole records, 0 bytes of an unknown number\n')
    assert (
        run('cut', path, '2016-06-05', '2016-06-06', '-o', 'out.eps').status == 3
        and not (tmp_path / 'out.eps').exists()
    )
    assert run('check', '--sparse', path) == (0, f'{path}: 6 records\n', '')
    path.write_bytes(data)
    assert run('check', path) == (0, f'{path}: 6 records\n', '')


def test_what_has_surely_come(tmp_path):
    path = tmp_path / 'holes'
    with open(path, 'wb') as file:
        file.truncate(100 * BLOCK + 5)
        file.seek(0)
        file.write(b'x' * (3 * BLOCK))
        file.seek(50 * BLOCK)
        file.write(b'x')
    if come(path) == 100 * BLOCK + 5:
        pytest.skip('the file system knows of no holes')
    assert come(path) == 2 * BLOCK
    path.write_bytes(b'x' * 5000)
    assert come(path) == 5000
    path.write_bytes(b'')
    assert come(path) == 0


def come(path):
    with open(path, 'rb') as file:
        return surely_come(file.fileno(), os.fstat(file.fileno()))


def test_a_refusal_before_the_hole_is_final(tmp_path, run):
    path = tmp_path / 'html.eps'
    with open(path, 'wb') as file:
        file.truncate(40 * BLOCK)
        file.write(b'<!DOCTYPE html>' + b' ' * (4 * BLOCK))
    done = run('check', path)
    assert done.status == 1 and done.out.startswith(f'{path}: refused 1 0: ')


def test_the_watch_waits_at_a_hole_until_it_is_filled(holed, started):
    path, data = holed
    watching = started('watch', path, '--wait', '60')
    with open(path, 'r+b', buffering=0) as file:
        for at in range(0, len(data) - 300_000, 300_000):
            file.seek(at)
            file.write(data[at : at + 300_000])
            time.sleep(0.05)
            assert watching.poll() is None
        file.seek(0)
        file.write(data)
    assert (
        watching.stdout.readline().decode() == f'{path}: whole, 6 records, {len(data)} bytes\n'
        and watching.wait(30) == 0
    )


def test_the_watch_waits_for_the_last_block_of_a_file_that_had_holes(tmp_path, started):
    """In its last block no hole is seen once a byte of it has come: the last header is there as zeros for a while."""
    data = product(
        [record((8, 9, 2), bytes(20_000 if k < 4 else 10), (DAY, 1000 * k), (DAY, 1000 * k)) for k in range(5)]
    )
    last = (len(data) - 1) // BLOCK * BLOCK
    assert len(data) - 30 > last + 5  # the last record is in the last block, and not at its start
    path = tmp_path / 'hole.eps'
    with open(path, 'wb') as file:
        file.truncate(len(data))
        file.write(data[:BLOCK])
    if come(path) == len(data):
        pytest.skip('the file system knows of no holes')
    watching = started('watch', path)
    with open(path, 'r+b', buffering=0) as file:
        patiently(lambda: is_open_in(watching.pid, path))
        file.write(data[: last + 5])
        for k in range(10):
            time.sleep(0.05)
            os.utime(path)  # as a downloader that is busy
            assert watching.poll() is None
        file.seek(0)
        file.write(data)
    assert (
        watching.stdout.readline().decode() == f'{path}: whole, 6 records, {len(data)} bytes\n'
        and watching.wait(30) == 0
    )


def is_open_in(process, path):
    """Whether a process has the file open; a descriptor may be closed while it is looked at."""
    try:
        handles = os.listdir(f'/proc/{process}/fd')
        return any(os.path.realpath(f'/proc/{process}/fd/{handle}') == str(path) for handle in handles)
    except FileNotFoundError:
        return False


# ---- outputs


def odd_places(folder):
    """Places that are there and no regular files."""
    os.mkfifo(folder / 'pipe')
    socket.socket(socket.AF_UNIX).bind(str(folder / 'socket'))
    (folder / 'folder').mkdir()
    places = ['pipe', 'socket', 'folder']
    try:
        os.mknod(folder / 'null', stat.S_IFCHR | 0o666, os.makedev(1, 3))
        places.append('null')
    except PermissionError:
        pass
    (folder / 'link').symlink_to(places[-1])
    return [*places, 'link']


def writers(rich, place):
    """Every command that writes a file."""
    yield 'cut', rich, '2016-06-05', '2016-06-06', '-o', place
    yield 'join', rich, rich, '-o', place
    yield 'watch', rich, '--record', place
    yield 'picture', rich, place
    yield 'report', rich, '--picture', place


@pytest.mark.parametrize('force', [[], ['--force']])
def test_an_output_that_is_no_regular_file_is_refused(rich, run, tmp_path, force):
    """As /dev/null is: a device of its kind stands in its place, since a command that fails here would take the real
    one."""
    pictures = tmp_path / 'pictures'
    pictures.mkdir()
    for name in odd_places(tmp_path):
        before = os.lstat(tmp_path / name)
        for words in writers(rich, tmp_path / name):
            if words[0] == 'picture' or '--picture' in words:  # their kind is known by the name
                (pictures / f'{name}.svg').symlink_to(tmp_path / name)
                words = [*words[:-1], pictures / f'{name}.svg']
            done = run(*words, *force)
            assert (done.status, done.out) == (2, '') and 'no regular file, and is not written to' in done.err, words
            if (pictures / f'{name}.svg').is_symlink():
                (pictures / f'{name}.svg').unlink()
        assert (os.lstat(tmp_path / name).st_mode, os.lstat(tmp_path / name).st_ino) == (before.st_mode, before.st_ino)
    assert not [name for name in os.listdir(tmp_path) if name.endswith('.part')]


def test_standard_output_by_its_name_is_no_file(rich, run):
    done = run('cut', rich, '2016-06-05', '2016-06-06', '-o', '/dev/stdout', '--force')
    assert (done.status, done.out) == (2, '') and 'no regular file' in done.err


def test_a_link_is_followed(rich, run, tmp_path):
    (tmp_path / 'far').mkdir()
    (tmp_path / 'far' / 'real.eps').write_bytes(b'old')
    (tmp_path / 'link.eps').symlink_to('far/real.eps')
    words = 'cut', rich, '2016-06-05', '2016-06-06', '-o', 'link.eps', '-q'
    assert run(*words).status == 2 and (tmp_path / 'far' / 'real.eps').read_bytes() == b'old'
    assert run(*words, '--force').status == 0
    assert (tmp_path / 'link.eps').is_symlink() and Product(tmp_path / 'far' / 'real.eps').verdict == 16
    assert os.listdir(tmp_path / 'far') == ['real.eps'] and sorted(os.listdir(tmp_path)) == ['far', 'link.eps']
    (tmp_path / 'broken.eps').symlink_to('far/new.eps')
    assert run(*words[:-2], 'broken.eps').status == 2
    assert run(*words[:-2], 'broken.eps', '--force').status == 0 and Product(tmp_path / 'far' / 'new.eps').verdict == 16


def test_errors_name_the_output(rich, run, tmp_path):
    done = run('cut', rich, '2016-06-05', '2016-06-06', '-o', 'no/folder/out.eps')
    assert done == (2, '', 'warpladle: no/folder/out.eps: No such file or directory\n')
    for k in (0, 1):
        (tmp_path / f'{k}.eps').write_bytes(granule(k))
    done = run('join', '0.eps', '1.eps', '-o', 'no/out.eps', '--json')
    assert done.status == 2 and done.value == {
        'file': 'no/out.eps',
        'state': 'error',
        'error': {'words': 'No such file or directory'},
    }


def test_a_full_disk_is_told_of_the_output(rich, tmp_path, environment):
    def limit():
        resource.setrlimit(resource.RLIMIT_FSIZE, (1000, 1000))
        signal.signal(signal.SIGXFSZ, signal.SIG_IGN)

    done = subprocess.run(
        command('cut', rich, '2016-06-05', '2016-06-06', '-o', 'out.eps'),
        cwd=tmp_path,
        env=environment,
        capture_output=True,
        text=True,
        preexec_fn=limit,
    )
    assert done.returncode == 2 and done.stderr == 'warpladle: out.eps: File too large\n' and os.listdir(tmp_path) == []


# ---- endless and odd sources


def small_memory():
    resource.setrlimit(resource.RLIMIT_DATA, (2**28, 2**28))


@pytest.mark.parametrize(
    'words', [['check'], ['list'], ['fields'], ['info'], ['level0'], ['report', '--strict'], ['explain'], ['watch']]
)
def test_an_endless_source_is_refused_and_not_kept(words, environment):
    """With 256 MiB of memory, which such a source would fill at once."""
    for place in ('/dev/zero', '/dev/full'):
        done = subprocess.run(
            command(*words, place), env=environment, capture_output=True, text=True, preexec_fn=small_memory
        )
        assert done.returncode == 1 and 'Traceback' not in done.stderr, (words, done)
        assert '1 0: expected a first header' in done.stdout or words == ['info']


def test_uth_of_an_endless_source(environment):
    done = subprocess.run(
        command('uth', '/dev/zero'), env=environment, capture_output=True, text=True, preexec_fn=small_memory
    )
    assert done.returncode == 1 and 'refused 35 642' in done.stdout


@pytest.mark.parametrize('name', ['check', 'list', 'info', 'fields', 'cut', 'explain'])
def test_a_pipe_is_judged_as_it_comes(name, started):
    """Twenty bytes are refused while the pipe is still open."""
    words = [name, '-', *(['2016-06-05', '2016-06-06', '-o', 'out.eps'] if name == 'cut' else [])]
    process = started(*words)
    process.stdin.write(b'x' * 20)
    process.stdin.flush()
    assert b'refused' in process.stdout.readline()
    assert process.wait(30) == 1


def test_a_pipe_of_many_pointers(run):
    """More than a watch can follow: 24 is not for those who keep the product."""
    many = many_pointers()
    assert run('check', '-', stdin=many) == (0, '-: 201 records\n', '')
    done = run('check', '-', stdin=many + b'!')
    assert done.status == 1 and done.out.startswith(f'-: refused 16 {len(many)}: ')
    assert run('list', '-', stdin=many).out.startswith('records 201\n')


def many_pointers(count=100):
    from making import pointer

    at = 3307 + 27 * count
    pointers = [pointer((8, 9, 2), at + 20 * k) for k in range(count)]
    return product(pointers + [record((8, 9, 2), b'', (DAY, k), (DAY, k)) for k in range(count)])


# ---- signals


@pytest.fixture
def large(tmp_path):
    """Enough that a cut of it takes some time."""
    path = tmp_path / 'in' / 'large.eps'
    path.parent.mkdir()
    mdrs = [record((8, 9, 2), bytes(2_000_000), (DAY, 1000 * k), (DAY, 1000 * k)) for k in range(100)]
    path.write_bytes(product(mdrs))
    return path


@pytest.mark.parametrize('number, status', [(signal.SIGTERM, 143), (signal.SIGHUP, 129), (signal.SIGINT, 130)])
def test_a_signal_leaves_nothing_behind(large, started, tmp_path, number, status):
    """The cut is stopped while its file is there in part; one that was done sooner is tried again."""
    for attempt in range(40):
        out = tmp_path / f'out{attempt}.eps'
        process = started('cut', large, '2016-06-05', '2016-06-06', '-o', out)
        patiently(lambda out=out, process=process: parts(tmp_path) or out.exists() or process.poll() is not None)
        process.send_signal(number)
        if process.wait(30) == status:
            assert parts(tmp_path) == [] and not out.exists() and process.stderr.read() == b''
            return
        assert process.returncode == 0 and out.exists()
    raise AssertionError('the command was never stopped in time')


def parts(folder):
    return [name for name in os.listdir(folder) if name.endswith('.part')]


@pytest.mark.parametrize('number, status', [(signal.SIGTERM, 143), (signal.SIGINT, 130)])
def test_a_report_by_many_jobs_ends_where_its_files_never_come(started, tmp_path, number, status):
    """Each of its processes waits for a pipe that no one writes to."""
    names = [tmp_path / f'pipe{k}' for k in range(8)]
    for name in names:
        os.mkfifo(name)
    process = started('report', '--jobs', '4', *names)
    patiently(lambda: len(children(process.pid)) == 4)
    workers = children(process.pid)
    process.send_signal(number)
    assert process.wait(30) == status
    patiently(lambda: not any(os.path.exists(f'/proc/{worker}') for worker in workers))


def children(process):
    with open(f'/proc/{process}/task/{process}/children') as file:
        return file.read().split()


# ---- files that are cut short while they are read


def test_a_file_cut_short_while_it_is_read_is_told_and_the_others_are_counted(environment, tmp_path, rich):
    """A downloader cuts the file while it is mapped: in a process of its own, which the kernel ends with SIGBUS."""
    names = [tmp_path / f'{k}.eps' for k in range(5)]
    for name in names:
        name.write_bytes(rich.read_bytes() * 400)  # enough to be mapped
    code = '''
import os, sys
from warpladle import cli
from warpladle.cli import check, inputs, report
opened = inputs.open_input
def cut_meanwhile(name, **options):
    product = opened(name, **options)
    if name.endswith('2.eps'):
        os.truncate(name, 0)
    return product
check.open_input = report.open_input = cut_meanwhile
sys.exit(cli.main(sys.argv[1:]))
'''
    for words, expected in (
        (['check'], 'refused 16 4356'),
        (['report', '--jobs', '2'], 'products 4, accepted 0, refused 4'),
    ):
        names[2].write_bytes(rich.read_bytes() * 400)
        done = subprocess.run(
            [os.environ.get('PYTHON', '/usr/bin/python3'), '-B', '-c', code, *words, *map(str, names)],
            env=environment,
            capture_output=True,
            text=True,
        )
        assert done.returncode == 2, done
        assert done.stderr == f'warpladle: {names[2]}: it was cut short while it was read\n'
        assert done.stdout.count(expected) == (4 if words == ['check'] else 1)


def test_a_large_file_cut_short_while_it_is_cut(environment, tmp_path):
    """Large files are mapped, and a process of its own reads them."""
    path, out = tmp_path / 'large.eps', tmp_path / 'out' / 'out.eps'
    out.parent.mkdir()
    path.write_bytes(product([record((8, 9, 2), bytes(40_000_000), (DAY, k), (DAY, k)) for k in range(2)]))
    code = '''
import os, sys
from warpladle import cli, product
from warpladle.cli import cut
written = product.write_into
def cut_meanwhile(room, write):
    os.truncate(sys.argv[2], 4096)
    written(room, write)
product.write_into = cut_meanwhile
sys.exit(cli.main(sys.argv[1:]))
'''
    words = ['cut', path, '2016-06-05', '2016-06-06', '-o', out]
    done = subprocess.run(
        [os.environ.get('PYTHON', '/usr/bin/python3'), '-B', '-c', code, *map(str, words)],
        env=environment,
        capture_output=True,
        text=True,
    )
    assert done.returncode == 2 and done.stderr == f'warpladle: {path}: it was cut short while it was read\n'
    assert os.listdir(out.parent) == []


def test_a_small_file_cut_short_is_told(tmp_path):
    from warpladle.files import CutShort, read_file

    (tmp_path / 'short').write_bytes(b'x' * 10)
    with open(tmp_path / 'short', 'rb') as file:
        assert read_file('short', file.fileno(), 10) == b'x' * 10 and read_file('short', file.fileno(), 0) == b''
        with pytest.raises(CutShort, match='short'):
            read_file('short', file.fileno(), 20)


# ---- many files


def test_folders_and_lists_of_names(rich, run, tmp_path):
    folder = tmp_path / 'month' / 'day'
    folder.mkdir(parents=True)
    names = ['a b.eps', 'c\nd.eps', 'e.eps']
    for name in names:
        (folder / name).write_bytes(rich.read_bytes())
    (folder / '.hidden.part').write_bytes(b'x')
    done = run('check', 'month')
    assert (done.status, done.out) == (2, '') and done.err == 'warpladle: month: Is a directory; -r goes into folders\n'
    assert run('check', '-r', 'month').out.count('15 records') == 3
    lines = '\n'.join(str(folder / name) for name in names if '\n' not in name) + '\n'
    assert run('check', '--files-from', '-', stdin=lines.encode()).out.count('15 records') == 2
    (tmp_path / 'list').write_bytes(b'\0'.join(os.fsencode(folder / name) for name in names))
    assert run('check', '-0', '--files-from', 'list', rich).out.count('15 records') == 4
    assert run('report', '-0', '--files-from', 'list').out.startswith('products 3, accepted 3')
    assert run('check') == (2, '', 'warpladle: no file is named\n')
    assert run('check', '--files-from', '-', '-').status == 2 and run('check', '-', '-').status == 2
    assert run('check', '--files-from', 'none') == (2, '', 'warpladle: none: No such file or directory\n')


def test_standard_input_wherever_a_product_is_read(rich, run, tmp_path):
    data = rich.read_bytes()
    (tmp_path / '-').write_bytes(b'a file of that name')
    (tmp_path / 'rich.eps').write_bytes(data)
    run('watch', 'rich.eps', '--record', 'arrival')
    for words in (
        ['check', '-'],
        ['list', '-'],
        ['fields', '-'],
        ['info', '-'],
        ['report', '-'],
        ['picture', '-', 'out.svg'],
        ['compare', rich, '-'],
        ['compare', '-', rich],
        ['cut', '-', '2016-06-05', '2016-06-06', '-o', 'cut.eps'],
        ['replay', 'arrival', '-'],
        ['explain', '-'],
        ['watch', '-'],
    ):
        done = run(*words, stdin=data)
        assert done.status == 0, (words, done)
    done = run('join', 'rich.eps', '-', '-o', 'no.eps', stdin=data)
    assert done.status == 2 and '27 0: expected - to start' in done.err
    assert run('uth', '-', stdin=(ROOT / 'samples' / 'humidity.uth').read_bytes()).out.startswith('40 41')
    assert run('picture', rich, '-').out.startswith('<?xml') and (tmp_path / '-').read_bytes() == b'a file of that name'


def test_a_worker_that_was_ended_while_it_waited_begins_anew():
    from warpladle.workers import Worker

    worker = Worker(lambda item: item + 1)
    assert worker.ask(1) == 2
    os.kill(worker.process, signal.SIGKILL)
    os.waitid(os.P_PID, worker.process, os.WEXITED | os.WNOWAIT)
    assert worker.ask(2) == 3
    worker.end()


def test_what_a_worker_raises_is_raised_here():
    from warpladle.workers import Died, map_in_workers

    def strange(item):
        if item == 2:
            raise ValueError('two')
        if item == 1:
            os.kill(os.getpid(), signal.SIGKILL)
        return item

    results = map_in_workers(strange, [0, 1, 3, 2], 2)
    assert next(results) == 0 and isinstance(next(results), Died) and next(results) == 3
    with pytest.raises(ValueError, match='two'):
        next(results)
