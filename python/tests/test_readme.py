"""What python/README.md shows is what happens."""
import doctest
import re
import subprocess

import pytest
from conftest import ROOT

README = ROOT / 'python' / 'README.md'


@pytest.fixture
def folder(tmp_path, samples):
    """The repository as a first user has it, with samples of its own."""
    for name in ('warpladle', 'python'):
        (tmp_path / name).symlink_to(ROOT / name)
    (tmp_path / 'samples').symlink_to(samples)
    (tmp_path / 'target').mkdir()
    return tmp_path


def shown():
    """Each command that is shown, and the lines under it."""
    return re.findall(r'^    \$ (.*)\n((?:    (?!\$ ).*\n)*)', README.read_text(), re.M)


def test_the_commands(folder, environment):
    commands = shown()
    assert len(commands) >= 7
    for command, lines in commands:
        done = subprocess.run(
            command,
            shell=True,
            cwd=folder,
            env=environment,
            stdout=subprocess.PIPE,
            stderr=subprocess.STDOUT,
            text=True,
        )
        assert done.stdout == re.sub('^    ', '', lines, flags=re.M), command


@pytest.mark.parametrize('name', ['README.md', 'python/README.md'])
def test_two_commands_to_a_cut_file(folder, environment, name):
    """The first installs packages, which has been done; the second makes the file."""
    install, cut = re.search(r'^    (apt-get install .*)\n    (.*)\n', (ROOT / name).read_text(), re.M).groups()
    assert (
        'python3-numpy' in install
        and subprocess.run(cut, shell=True, cwd=folder, env=environment, capture_output=True).returncode == 0
    )
    assert (folder / 'target' / 'town.eps').stat().st_size == 3843


def test_the_first_command(folder, environment):
    """README begins with the command, which ends with a status that a script can use."""
    text = (ROOT / 'README.md').read_text()
    first = re.search(r'^    (\./.*)$', text, re.M)[1]
    assert first == './warpladle check samples/rich.eps' and 'exit status is 0 whatever happens' in text
    done = subprocess.run(first, shell=True, cwd=folder, env=environment, capture_output=True, text=True)
    assert (done.returncode, done.stdout, done.stderr) == (0, 'samples/rich.eps: 15 records\n', '')


def test_every_command_is_in_both_documents():
    from warpladle.cli import COMMANDS

    text = (ROOT / 'README.md').read_text()
    for name in COMMANDS:
        assert re.search(rf'^\| .*`{name}[ `]', text, re.M), name


def test_the_module(monkeypatch, folder):
    monkeypatch.chdir(folder)
    failed, tried = doctest.testfile(str(README), module_relative=False)
    assert tried > 10 and failed == 0


def test_the_samples_of_the_repository_are_those_that_are_made(samples):
    for name in ('example.eps', 'rich.eps', 'humidity.uth'):
        assert (ROOT / 'samples' / name).read_bytes() == (samples / name).read_bytes()
