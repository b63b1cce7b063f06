"""A month counted by Dask on a local cluster of two workers, against the same files counted in one process."""
import json
import os
import subprocess
import sys

import pytest
from conftest import ROOT

from warpladle import Refused, Report

pytest.importorskip('distributed')


@pytest.fixture(scope='module')
def files(given, tmp_path_factory):
    """Every product of the judge's vectors, in a file of its own."""
    folder = tmp_path_factory.mktemp('month')
    names = []
    for k, data in enumerate(given.products('judge/products.bin')):
        names.append(str(folder / f'{k:03}.eps'))
        (folder / f'{k:03}.eps').write_bytes(data)
    return names


def in_one_process(names):
    report = Report()
    for name in names:
        report.add(name)
    return report


def test_the_script_counts_what_one_process_counts(files, environment):
    done = subprocess.run(
        [sys.executable, '-B', ROOT / 'examples' / 'month_dask.py', *files],
        env=environment,
        capture_output=True,
        text=True,
    )
    assert done.returncode == 0, done.stderr
    expected = in_one_process(files).as_dict()
    assert json.loads(done.stdout) == json.loads(json.dumps(expected))
    assert expected['products'] == 269 and len(expected['refused']) == 17


@pytest.fixture(scope='module')
def client(environment):
    """Two workers in processes of their own."""
    sys.path.insert(0, str(ROOT / 'examples'))
    from distributed import Client, LocalCluster

    os.environ.update(
        PYTHONPATH=f"{environment['PYTHONPATH']}:{ROOT / 'examples'}",
        WARPLADLE_LIBRARY=environment['WARPLADLE_LIBRARY'],
    )
    with LocalCluster(n_workers=2, threads_per_worker=1, dashboard_address=None) as cluster, Client(cluster) as client:
        yield client


def test_two_workers_take_part(client, files):
    import month_dask
    from distributed import get_worker

    def where(_):
        import time

        time.sleep(0.2)
        return get_worker().address

    assert len(set(client.gather(client.map(where, range(8), pure=False)))) == 2
    for at_once in (1, 7, 300):
        assert month_dask.month(client, files, at_once) == in_one_process(files)
    assert month_dask.month(client, []) == Report()


def test_a_full_report_comes_back_as_36(client, files):
    import month_dask

    with pytest.raises(Refused) as caught:
        month_dask.month(client, files * 16, 269)
    assert caught.value.number == 36
