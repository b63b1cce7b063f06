"""Files that are written beside their place."""
import errno
import os

import pytest

from warpladle.files import beside, map_file, write_beside


def test_a_file_that_comes_there_meanwhile_is_kept(tmp_path):
    path = tmp_path / 'out'
    with pytest.raises(FileExistsError):
        with beside(path, 4) as room:
            room[:] = b'ours'
            path.write_bytes(b'theirs')
    assert path.read_bytes() == b'theirs' and os.listdir(tmp_path) == ['out']
    with beside(path, 4, force=True) as room:
        room[:] = b'ours'
        assert path.read_bytes() == b'theirs'
    assert path.read_bytes() == b'ours' and os.listdir(tmp_path) == ['out']


def test_of_an_error_nothing_is_left(tmp_path, monkeypatch):
    for error in (ValueError, KeyboardInterrupt):
        with pytest.raises(error):
            with beside(tmp_path / 'out', 4):
                assert len(os.listdir(tmp_path)) == 1
                raise error
        assert os.listdir(tmp_path) == []

    def full(*_):
        raise OSError(errno.ENOSPC, os.strerror(errno.ENOSPC))

    monkeypatch.setattr(os, 'posix_fallocate', full)
    with pytest.raises(OSError, match='No space left'):
        write_beside(tmp_path / 'out', b'data')
    assert os.listdir(tmp_path) == []


def test_a_file_system_without_links(tmp_path, monkeypatch):
    def none(*_):
        raise OSError(errno.EPERM, os.strerror(errno.EPERM))

    monkeypatch.setattr(os, 'link', none)
    write_beside(tmp_path / 'out', b'data')
    assert (tmp_path / 'out').read_bytes() == b'data' and os.listdir(tmp_path) == ['out']
    with pytest.raises(FileExistsError):
        with beside(tmp_path / 'other', 4):
            (tmp_path / 'other').touch()
    assert sorted(os.listdir(tmp_path)) == ['other', 'out']


def test_a_broken_link_is_an_existing_file(tmp_path):
    (tmp_path / 'out').symlink_to('nowhere')
    with pytest.raises(FileExistsError):
        write_beside(tmp_path / 'out', b'data')


def test_what_is_mapped(tmp_path):
    (tmp_path / 'empty').touch()
    assert map_file(tmp_path / 'empty') == b'' and map_file('/dev/null') == b''
    (tmp_path / 'data').write_bytes(b'data')
    data = map_file(tmp_path / 'data')
    assert data[:] == b'data'
    with pytest.raises(TypeError):
        data[0] = 1
