"""Every command in a terminal of 60 columns, without one, with LANG=C, and with a pipe that is closed."""
import fcntl
import os
import pty
import struct
import subprocess
import termios

import pytest
from conftest import command
from making import granule

from warpladle.cli import COMMANDS

TOWN = ('2016-06-05T00:00:08Z', '2016-06-05T00:00:20Z')


@pytest.fixture
def words(tmp_path, rich, samples):
    """Words for each command that end well, whatever was run before."""
    for k in (0, 1):
        (tmp_path / f'{k}.eps').write_bytes(granule(k))
    (tmp_path / 'rich.eps').write_bytes(rich.read_bytes())
    for name in ('accepted', 'refused', 'incoming'):
        (tmp_path / name).mkdir()
    day = granule(0, SENSING_START='20160605000000Z', SENSING_END='20160606000000Z')
    (tmp_path / 'accepted' / 'day.eps').write_bytes(day)
    from warpladle import record_arrival

    (tmp_path / 'arrival').write_bytes(record_arrival([4000, 356], rich.read_bytes()))
    found = {name: [name, 'rich.eps'] for name in COMMANDS}
    found.update(
        {
            'compare': ['compare', 'rich.eps', 'rich.eps'],
            'cut': ['cut', 'rich.eps', *TOWN, '-o', 'cut.eps', '--force'],
            'intake': ['intake', 'incoming', '--accepted', 'taken', '--refused', 'aside', '--once'],
            'join': ['join', '0.eps', '1.eps', '-o', 'join.eps', '--force'],
            'level0': ['level0', samples / 'example.eps'],
            'overview': ['overview', '2016-06-05', '--accepted', 'accepted', '--refused', 'refused'],
            'picture': ['picture', 'rich.eps', 'p.svg', '--force', '--json'],
            'replay': ['replay', 'arrival', 'rich.eps'],
            'uth': ['uth', samples / 'humidity.uth'],
            'completion': ['completion', 'bash'],
            'help': ['help', 'join'],
        }
    )
    return found


def in_terminal(words, environment, folder, columns=60):
    """What a command prints in a terminal, and its status."""
    seen, terminal = pty.openpty()
    fcntl.ioctl(terminal, termios.TIOCSWINSZ, struct.pack('HHHH', 24, columns, 0, 0))
    env = {name: value for name, value in environment.items() if name not in ('COLUMNS', 'LINES')}
    process = subprocess.Popen(
        command(*words),
        cwd=folder,
        env={**env, 'TERM': 'xterm'},
        stdin=terminal,
        stdout=terminal,
        stderr=terminal,
        start_new_session=True,
    )
    os.close(terminal)
    shown = b''
    while True:
        try:
            part = os.read(seen, 65536)
        except OSError:
            break
        if not part:
            break
        shown += part
    os.close(seen)
    return process.wait(60), shown.decode()


def test_every_command_is_here(words):
    assert set(words) == set(COMMANDS)


@pytest.mark.parametrize('name', COMMANDS)
def test_in_a_terminal_of_60_columns(name, words, environment, tmp_path):
    status, shown = in_terminal(words[name], environment, tmp_path)
    assert status == 0 and shown and 'Traceback' not in shown
    status, shown = in_terminal([name, '--help'], environment, tmp_path)
    assert status == 0 and max(map(len, shown.splitlines())) <= 60, shown


def test_the_help_of_all_in_60_columns(environment, tmp_path):
    status, shown = in_terminal(['--help'], environment, tmp_path)
    assert status == 0 and max(map(len, shown.splitlines())) <= 60


def test_a_progress_bar_on_a_terminal(environment, tmp_path, words):
    status, shown = in_terminal(['report', '0.eps', '1.eps'], environment, tmp_path)
    assert status == 0 and f'[{"#" * 20}{"." * 20}] 1/2' in shown and f'[{"#" * 40}] 2/2' in shown


@pytest.mark.parametrize('name', COMMANDS)
def test_without_a_terminal_and_with_lang_c(name, words, environment, tmp_path):
    plain = {
        name: value
        for name, value in environment.items()
        if not name.startswith('LC_') and name not in ('LANG', 'TERM', 'COLUMNS')
    }
    os.rename(tmp_path / 'rich.eps', os.fsencode(tmp_path) + b'/r\xff\xc3.eps')
    given = [os.fsencode(str(word)).replace(b'rich.eps', b'r\xff\xc3.eps') for word in words[name]]
    for more in ({'LANG': 'C', 'LC_ALL': 'C'}, {'LANG': 'C', 'PYTHONUTF8': '0', 'PYTHONCOERCECLOCALE': '0'}):
        done = subprocess.run(
            [*command(), *given],
            cwd=tmp_path,
            env={**plain, **more},
            capture_output=True,
            stdin=subprocess.DEVNULL,
            start_new_session=True,
        )
        assert done.returncode == 0 and b'Traceback' not in done.stderr, (name, done)


@pytest.mark.parametrize('name', COMMANDS)
def test_with_a_closed_pipe(name, words, environment, tmp_path):
    with subprocess.Popen(
        command(*words[name]), cwd=tmp_path, env=environment, stdout=subprocess.PIPE, stderr=subprocess.PIPE
    ) as process:
        process.stdout.close()
        assert process.wait(60) in (0, 141)
        assert b'Traceback' not in process.stderr.read()


def test_a_pipe_closed_early_is_141(environment, tmp_path, words):
    for given in (['list', 'rich.eps'], ['check', *['rich.eps'] * 2000], ['info', 'rich.eps']):
        with subprocess.Popen(
            command(*given), cwd=tmp_path, env=environment, stdout=subprocess.PIPE, stderr=subprocess.PIPE
        ) as process:
            process.stdout.close()
            assert process.wait(60) == 141 and process.stderr.read() == b''


def test_output_that_takes_nothing(environment, tmp_path, words):
    for name in ('check', 'list', 'fields', 'info'):
        with open('/dev/full', 'w') as full:
            done = subprocess.run(
                command(*words[name]), cwd=tmp_path, env=environment, stdout=full, stderr=subprocess.PIPE
            )
        assert done.returncode == 2 and done.stderr == b'warpladle: standard output: No space left on device\n', (
            name,
            done,
        )
    done = subprocess.run(
        ' '.join(map(str, command('check', 'rich.eps'))) + ' >&-',
        shell=True,
        cwd=tmp_path,
        env=environment,
        stderr=subprocess.PIPE,
    )
    assert (done.returncode, done.stderr) == (2, b'warpladle: standard input and output must be open\n')
