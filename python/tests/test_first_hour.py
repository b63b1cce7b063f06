"""The first hour: a missing library, numpy, matplotlib or an old Python are a line that says what to do; ./warpladle
makes the library."""
import os
import subprocess
import sys

import pytest
from conftest import ROOT, command

TOWN = ('2016-06-05T00:00:08Z', '2016-06-05T00:00:20Z')


def without(folder, *modules):
    """A folder whose modules of these names cannot be imported."""
    folder.mkdir()
    for module in modules:
        (folder / f'{module}.py').write_text('raise ImportError("none here")')
    return str(folder)


def every_command(rich, samples):
    yield 'check', rich
    yield 'level0', samples / 'example.eps'
    yield 'list', rich
    yield 'list', '--times', '--names', rich
    yield 'fields', rich
    yield 'info', rich
    yield 'explain', rich
    yield 'watch', rich
    yield 'cut', rich, *TOWN, '-o', 'town.eps', '--force'
    yield 'compare', rich, 'town.eps'
    yield 'join', rich, 'later.eps', '-o', 'pass.eps', '--force'
    yield 'uth', samples / 'humidity.uth'
    yield 'report', rich
    yield 'watch', 'own.eps', '--record', 'arrival', '--force'
    yield 'replay', 'arrival', 'own.eps'


@pytest.fixture
def prepared(tmp_path, rich):
    from warpladle import Product, record_arrival

    product = Product(rich)
    (tmp_path / 'later.eps').write_bytes(bytes(product.cut('2016-06-06', '2016-06-07')))
    (tmp_path / 'own.eps').write_bytes(rich.read_bytes())
    (tmp_path / 'town.eps').write_bytes(bytes(product.cut(*TOWN)))
    (tmp_path / 'arrival').write_bytes(record_arrival([4000, 356], product))
    return tmp_path


def test_no_command_but_pictures_needs_numpy(run, prepared, rich, samples, environment):
    path = f'{without(prepared / "bare", "numpy", "matplotlib")}:{environment["PYTHONPATH"]}'
    for words in every_command(rich, samples):
        done = run(*words, PYTHONPATH=path)
        assert done.status == 0, (words, done)
    done = run('picture', rich, 'out.svg', PYTHONPATH=path)
    assert (done.status, done.out) == (2, '') and len(done.err.splitlines()) == 1 and 'Debian: python3-' in done.err


def test_no_numpy_is_a_sentence(environment, tmp_path, rich):
    path = f'{without(tmp_path / "bare", "numpy")}:{environment["PYTHONPATH"]}'
    code = f'import warpladle; warpladle.Product({str(rich)!r}).rows'
    done = subprocess.run(
        [sys.executable, '-c', code], env={**environment, 'PYTHONPATH': path}, capture_output=True, text=True
    )
    assert (
        done.stderr.splitlines()[-1]
        == 'warpladle.product.NoNumpy: this needs numpy, which is not installed here (Debian: python3-numpy): none here'
    )


def test_no_library_is_a_sentence(run, prepared, rich, samples):
    library = prepared / 'none.so'
    for words in every_command(rich, samples):
        done = run(*words, WARPLADLE_LIBRARY=str(library))
        assert (done.status, done.out) == (2, ''), (words, done)
        assert (
            done.err
            == f'warpladle: there is no {library}: make it with tools/archive, or name one in WARPLADLE_LIBRARY\n'
        ), words
    (prepared / 'text.so').write_text('no library')
    done = run('check', rich, WARPLADLE_LIBRARY=str(prepared / 'text.so'))
    assert (
        (done.status, done.out) == (2, '')
        and f'{prepared}/text.so cannot be loaded' in done.err
        and 'tools/archive makes one for this machine' in done.err
    )
    for words in (
        ['--version'],
        ['--help'],
        ['help', 'cut'],
        ['cut', '--help'],
        ['explain', '13'],
        ['completion', 'bash'],
    ):
        assert run(*words, WARPLADLE_LIBRARY=str(library)).status == 0, words


def test_an_old_python_is_a_sentence(environment, tmp_path, rich):
    (tmp_path / 'sitecustomize.py').write_text('import sys\nsys.version_info = (3, 9, 2, "final", 0)\n')
    old = {**environment, 'PYTHONPATH': f'{tmp_path}:{environment["PYTHONPATH"]}'}
    done = subprocess.run(command('check', rich), env=old, capture_output=True, text=True)
    assert (done.returncode, done.stdout) == (2, '')
    assert (
        done.stderr == 'warpladle needs Python 3.10 or newer, and this is 3.9; PYTHON names another for ./warpladle\n'
    )
    done = subprocess.run([sys.executable, '-c', 'import warpladle'], env=old, capture_output=True, text=True)
    assert done.stderr.splitlines()[-1].startswith('ImportError: warpladle needs Python 3.10 or newer')


# ---- ./warpladle


@pytest.fixture
def fresh(tmp_path):
    """The repository as it is fetched, with no library; its tools/archive is a script that says what it does and puts
    the library there."""
    for name in ('python', 'samples'):
        (tmp_path / name).symlink_to(ROOT / name)
    (tmp_path / 'warpladle').write_bytes((ROOT / 'warpladle').read_bytes())
    os.chmod(tmp_path / 'warpladle', 0o755)
    (tmp_path / 'tools').mkdir()
    return tmp_path


def archive(folder, text):
    (folder / 'tools' / 'archive').write_text('#!/bin/sh\n' + text)
    os.chmod(folder / 'tools' / 'archive', 0o755)


def shell(words, folder, environment, **more):
    env = {name: value for name, value in environment.items() if name not in ('WARPLADLE_LIBRARY', 'PYTHONPATH')}
    return subprocess.run(
        words, cwd=folder, env={**env, 'PYTHON': sys.executable, **more}, capture_output=True, text=True
    )


def test_the_first_command_makes_the_library(fresh, environment, library):
    archive(fresh, f'echo proving meter, 1 of 24 >&2\nmkdir -p target && cp {library} target/\n')
    # the package looks for the library beside itself and in its own repository's target/
    done = shell(['sh', '-c', './warpladle check samples/rich.eps; ls target'], fresh, environment)
    assert (
        done.stdout.endswith('libwarpladle.so\n')
        and 'warpladle: the library is not made yet' in done.stderr
        and 'proving meter, 1 of 24' in done.stderr
    )
    again = shell(['./warpladle', 'check', 'samples/rich.eps'], fresh, environment)
    assert again.stderr == '' or 'not made yet' not in again.stderr


def test_a_library_that_cannot_be_made(fresh, environment):
    archive(fresh, 'echo "tools/archive: there is no rt" >&2\nexit 1\n')
    done = shell(['./warpladle', 'check', 'samples/rich.eps'], fresh, environment)
    assert (
        (done.returncode, done.stdout) == (2, '')
        and 'there is no rt' in done.stderr
        and done.stderr.endswith('warpladle: the library could not be made\n')
    )
    for words in (['--help'], ['--version'], ['help', 'join'], []):
        assert 'not made yet' not in shell(['./warpladle', *words], fresh, environment).stderr


def test_a_link_to_the_command(tmp_path, environment, library):
    (tmp_path / 'bin').mkdir()
    (tmp_path / 'bin' / 'warpladle').symlink_to(ROOT / 'warpladle')
    (tmp_path / 'bin' / 'again').symlink_to('warpladle')
    for name in ('warpladle', 'again'):
        done = shell(
            [tmp_path / 'bin' / name, 'check', ROOT / 'samples' / 'rich.eps'],
            tmp_path,
            environment,
            WARPLADLE_LIBRARY=str(library),
        )
        assert (done.returncode, done.stdout) == (0, f'{ROOT}/samples/rich.eps: 15 records\n'), done
