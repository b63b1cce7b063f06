"""The report of many products: names and reasons, days, what is missing between products, sums of reports."""
import json
import os

import pytest
from making import granule

from warpladle import Overview, Report
from warpladle.overview import count_file


@pytest.fixture
def month(tmp_path):
    """Granules 0, 1 and 3 of one day, 1 twice; one of another spacecraft; one that has not wholly come; one that is
    refused."""
    for name, data in {
        'g0': granule(0),
        'g1': granule(1),
        'g1b': granule(1),
        'g3': granule(3),
        'other': granule(2, SPACECRAFT_ID='M01'),
        'part': granule(4)[:3400],
        'bad': granule(5) + b'!',
    }.items():
        (tmp_path / f'{name}.eps').write_bytes(data)
    return tmp_path


NAMES = ['g0.eps', 'g1.eps', 'g1b.eps', 'g3.eps', 'other.eps', 'part.eps', 'bad.eps']


def test_names_and_reasons(month, run):
    done = run('report', *NAMES)
    lines = done.out.splitlines()
    assert done.status == 0 and lines[0] == 'products 7, accepted 5, refused 2'
    assert lines[1:3] == [
        'refused with 16: 1 (there are bytes beyond the declared size)',
        'refused with 17: 1 (the product is finished short of its main header or of its declared size)',
    ]
    assert 'incomplete: part.eps: 17 3400: expected 4110 bytes, as declared, found 3400' in lines
    assert 'refused: bad.eps: 16 4110: expected 4110 bytes, as declared, found 4111' in lines


def test_what_is_missing_between_products(month, run):
    done = run('report', *NAMES)
    assert (
        'gap of 180000 ms between g1.eps and g3.eps (M02 MHSx xxx 1B, 2016-06-05T01:06:00Z to 2016-06-05T01:09:00Z)'
        in done.out.splitlines()
    )
    assert done.out.count('gap of') == 1 and 'overlap of' not in done.out
    between = run('report', '--json', *NAMES).value['between']
    assert between == [
        {
            'kind': 'gap',
            'ms': 180000,
            'series': ['M02', 'MHSx', 'xxx', '1B'],
            'after': 'g1.eps',
            'before': 'g3.eps',
            'from': '2016-06-05T01:06:00Z',
            'to': '2016-06-05T01:09:00Z',
        }
    ]


def test_overlaps_and_a_product_within_another():
    def entry(name, start, end):
        return {
            'file': name,
            'state': 'whole',
            'product_name': name,
            'header': name,
            'spacecraft': 'M02',
            'instrument': 'MHSx',
            'type': 'xxx',
            'level': '1B',
            'sensing_start': f'2016-06-05T{start}Z',
            'sensing_end': f'2016-06-05T{end}Z',
        }

    long, inside, after, near = (
        entry('a', '01:00:00', '01:10:00'),
        entry('b', '01:02:00', '01:03:00'),
        entry('c', '01:12:00', '01:20:00'),
        entry('d', '01:20:01', '01:30:00'),
    )
    found = Overview([near, after, inside, long]).between_products()
    assert [(one['kind'], one['ms'], one['after'], one['before']) for one in found] == [
        ('overlap', 480000, 'a', 'b'),
        ('gap', 120000, 'a', 'c'),
    ]


def test_a_leap_second_between_products():
    def entry(name, start, end):
        return {
            'file': name,
            'state': 'whole',
            'product_name': name,
            'header': name,
            'spacecraft': 'M02',
            'instrument': 'MHSx',
            'type': 'xxx',
            'level': '1B',
            'sensing_start': start,
            'sensing_end': end,
        }

    found = Overview(
        [
            entry('a', '2016-12-31T23:50:00Z', '2016-12-31T23:59:59Z'),
            entry('b', '2017-01-01T00:00:01Z', '2017-01-01T00:10:00Z'),
        ]
    ).between_products()
    assert [(one['kind'], one['ms']) for one in found] == [('gap', 3000)]


def test_products_that_are_there_twice(month, run):
    done = run('report', *NAMES)
    name = 'MHSx_xxx_1B_M02_20160605010300Z_20160605010600Z_N_O_20160605200000Z'
    assert f'there 2 times: {name}: g1.eps, g1b.eps' in done.out.splitlines()
    (month / 'g1b.eps').write_bytes(granule(1, ORBIT_START=1))
    assert f'there 2 times: {name}, with other main headers: g1.eps, g1b.eps' in run('report', *NAMES).out
    assert run('report', '--json', *NAMES).value['twice'] == [
        {'product_name': name, 'files': ['g1.eps', 'g1b.eps'], 'same_header': False}
    ]


def test_by_day(month, run):
    (month / 'next.eps').write_bytes(granule(0, SENSING_START='20160606000000Z'))
    done = run('report', *NAMES, 'next.eps', '--by', 'day')
    assert '2016-06-05: products 7, accepted 5, refused 1, incomplete 1, MDRs 90, gaps 0 ms, overlaps 0 ms' in done.out
    assert '2016-06-06: products 1, accepted 1, refused 0, incomplete 0, MDRs 18, gaps 0 ms, overlaps 0 ms' in done.out
    days = run('report', *NAMES, 'next.eps', '--by', 'day', '--json').value['days']
    assert {day: of['products'] for day, of in days.items()} == {'2016-06-05': 7, '2016-06-06': 1}
    (month / 'none.eps').write_bytes(b'')
    assert 'unknown: products 1, accepted 0, refused 0, incomplete 1' in run('report', 'none.eps', '--by', 'day').out


def test_strict(month, run):
    assert run('report', 'g0.eps', '--strict').status == 0
    assert run('report', 'g0.eps', 'part.eps', '--strict').status == 3
    assert run('report', *NAMES, '--strict').status == 1 and run('report', *NAMES).status == 0


def test_reports_are_added(month, run):
    whole = run('report', '--json', *NAMES).value
    (month / 'one.json').write_text(run('report', '--json', *NAMES[:3]).out)
    (month / 'two.json').write_text(run('report', '--json', *NAMES[3:5]).out)
    added = run('report', '--json', '--add', 'one.json', '--add', 'two.json', *NAMES[5:])
    assert added.status == 0 and added.value == whole
    (month / 'all.json').write_text(added.out)
    assert run('report', '--json', '--add', 'all.json').value == whole
    assert run('report', '--add', 'all.json').out == run('report', *NAMES).out
    for text in ('no json', '{}', '{"entries": [1]}', '[]'):
        (month / 'bad.json').write_text(text)
        assert run('report', '--add', 'bad.json') == (
            2,
            '',
            'warpladle: bad.json: it is no report that `report --json` wrote\n',
        )
    assert run('report', '--add', 'none.json').status == 2
    assert run('report', '--add', '-', stdin=(month / 'all.json').read_bytes()).out == run('report', *NAMES).out


def test_more_than_4096_products(rich, run, tmp_path):
    (tmp_path / 'names').write_text(f'{rich}\n' * 9000)
    done = run('report', '--files-from', 'names', '--json', '--jobs', '2')
    one = Report()
    one.add(rich)
    assert done.status == 0 and done.value['numbers'] == [9000 * number for number in one.numbers]
    assert [report.numbers[0] for report in Overview(done.value['entries']).reports()] == [4096, 4096, 808]


def test_a_report_of_many_files_by_many_jobs(run, given, tmp_path):
    report = Report()
    for k, data in enumerate(given.products('judge/products.bin')):
        (tmp_path / f'{k:03}.eps').write_bytes(data)
        report.add(data)
    names = sorted(os.listdir(tmp_path))
    first = run('report', '--json', '--jobs', '4', *names).value
    assert first['numbers'] == report.numbers and first == run('report', '--json', *names).value
    assert [entry['file'] for entry in first['entries']] == names


def test_what_cannot_be_read_is_told_and_the_rest_is_counted(month, run):
    done = run('report', 'g0.eps', 'none.eps')
    assert (
        done.status == 2
        and done.out.startswith('products 1,')
        and done.err == 'warpladle: none.eps: No such file or directory\n'
    )
    assert run('report', 'g0.eps', '--jobs', '0').status == 2


def test_a_cluster_counts_the_same(month, run, environment):
    distributed = pytest.importorskip('distributed', reason='Dask is not installed here (Debian: python3-distributed)')
    os.environ.update(PYTHONPATH=environment['PYTHONPATH'], WARPLADLE_LIBRARY=environment['WARPLADLE_LIBRARY'])
    with distributed.LocalCluster(n_workers=2, threads_per_worker=1, dashboard_address=None) as cluster:
        there = run('report', '--json', '--scheduler', cluster.scheduler_address, *NAMES)
        assert there.status == 0, there
        assert there.value == run('report', '--json', *NAMES).value
        assert run('report', '--scheduler', cluster.scheduler_address, '-').status == 2


def test_entries_are_json(month):
    entry = count_file(str(month / 'bad.eps'))
    assert json.loads(json.dumps(entry)) == entry and entry['refusal']['number'] == 16
    assert count_file(str(month / 'nothing'))['error'] == {'words': 'No such file or directory'}
