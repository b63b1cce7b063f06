"""Products of 32 MiB and of 2 GB, and what they cost."""
import os
import resource
import subprocess
import sys
import textwrap

from conftest import HEAD, LARGEST

from warpladle import Product, Report, Time


def test_32_mib(large):
    product = Product(large)
    assert product.verdict == 100_002 and product.extent == 100_002
    rows = product.rows
    assert len(rows) == 100_002 and rows['ordinal'][-1] == 100_000 and int(rows['size'].sum(dtype='u8')) == 32 * 2**20
    lines = product.listing().splitlines()
    assert lines[0] == 'records 100002' and lines[-1] == '33503307 8 9 2 1 51125' and len(lines) == 100_003


def test_a_cut_and_a_join_of_32_mib(large, tmp_path):
    product = Product(large)
    first = product.cut(Time(6000, 0), Time(6000, 19_999_999), tmp_path / 'first.eps')
    second = product.cut(Time(6000, 20_000_000), Time(6000, 86_399_999), tmp_path / 'second.eps')
    assert first.verdict == 50_002 and first.is_cut_of(product) and second.is_cut_of(product)
    whole = first.join(second, tmp_path / 'whole.eps')
    assert whole.verdict == 100_003 and whole.is_cut_of(product)
    assert not product.is_cut_of(first)
    assert sorted(os.listdir(tmp_path)) == ['first.eps', 'second.eps', 'whole.eps']


def test_2_gb(sparse, tmp_path):
    product = Product(sparse)
    assert product.size == LARGEST and product.verdict == 4
    assert product.rows['start'].tolist() == [0, HEAD, HEAD + 2**30, HEAD + 2**30 + 120]
    assert product.record(3).size == LARGEST - HEAD - 2**30 - 120
    assert product.field('ACTUAL_PRODUCT_SIZE') == LARGEST
    town = product.cut('2016-06-05T00:00:01Z', '2016-06-05T00:00:01Z', tmp_path / 'town.eps')
    assert town.size == HEAD + 27 + 120 and town.is_cut_of(product)
    report = Report()
    assert report.add(product) is None
    assert report.as_dict()['bytes']['MDR'] == LARGEST - HEAD and report.as_dict()['gap_ms'] == 1400


def test_2_gb_costs_no_memory(sparse, environment):
    """A process that may have 1 GiB of memory of its own checks it, and has touched a few megabytes."""
    code = textwrap.dedent(
        '''
        import resource, sys
        import warpladle
        warpladle.Product(b'').size
        before = resource.getrusage(resource.RUSAGE_SELF).ru_maxrss
        product = warpladle.Product(sys.argv[1])
        assert product.verdict == 4 and len(product.fields) == 72
        print(resource.getrusage(resource.RUSAGE_SELF).ru_maxrss - before)
    '''
    )

    def limit():
        resource.setrlimit(resource.RLIMIT_DATA, (2**30, 2**30))

    done = subprocess.run(
        [sys.executable, '-c', code, sparse], env=environment, capture_output=True, text=True, preexec_fn=limit
    )
    assert done.returncode == 0, done.stderr
    assert int(done.stdout) < 4096  # kilobytes
