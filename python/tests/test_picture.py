"""Pictures: what is drawn, that it can be seen, and that they are whole files."""
import io
import subprocess
import sys
import xml.etree.ElementTree as tree
from datetime import timedelta

import numpy
import pytest
from making import DAY, granule, product, record

from warpladle import Overview, Product, Report, Time
from warpladle.charts import picture_of_overview, picture_of_report
from warpladle.drawing import COLOURS, GAP, MARK, clock_ticks, merged, widened
from warpladle.overview import count_product
from warpladle.picture import picture_of_product, runs, see, spans
from warpladle.times import day_length

pytest.importorskip('matplotlib')


def texts(svg):
    """The words of a picture, which stand there as text."""
    return [''.join(element.itertext()) for element in tree.fromstring(svg).iter() if element.tag.endswith('}text')]


def colour_of(name):
    return tuple(int(name[k : k + 2], 16) for k in (1, 3, 5))


def columns_of(png, colour, rows=slice(None)):
    """How many columns of pixels have a colour somewhere."""
    from PIL import Image

    pixels = numpy.asarray(Image.open(io.BytesIO(png)).convert('RGB'))[rows]
    return int((pixels == colour_of(colour)).all(axis=2).any(axis=0).sum())


def test_the_records_along_the_bytes(samples):
    found = runs(Product(samples / 'rich.eps').rows)
    assert found == [
        (1, 0, 3307, 1),
        (2, 3307, 61, 1),
        (3, 3368, 135, 5),
        (4, 3503, 32, 1),
        (5, 3535, 60, 1),
        (6, 3595, 27, 1),
        (7, 3622, 53, 1),
        (8, 3675, 681, 4),
    ]


def test_gaps_are_the_library_s(given):
    """The milliseconds of gap and overlap that are drawn are those of the report, in every accepted product of the
    report's vectors."""
    seen = [0, 0, 0]
    for k in sorted({k for case in given.lines('requests/twelve.jsonl') for k in case.get('products', [])}):
        one, report = Product(given.products()[k]), Report()
        if report.add(one) is not None:
            continue
        of, lengths = report.as_dict(), numpy.diff(spans(see(one)).between, axis=1)
        assert int(lengths[lengths > 0].sum()) == of['gap_ms'] and int(-lengths[lengths < 0].sum()) == of['overlap_ms']
        assert len(lengths) + of['undefined_pairs'] == max(0, of['records']['MDR'] - 1)
        for j, name in enumerate(('gap_ms', 'overlap_ms', 'undefined_pairs')):
            seen[j] += of[name] > 0
    assert min(seen) > 3


def test_days_with_a_leap_second():
    assert [day for day in range(2000, 7000) if day_length(day) != 86_400_000] == [2191, 3287, 4564, 5659, 6209]
    assert day_length(6209) == 86_401_000


def test_bars_too_near_to_tell_apart_are_drawn_as_one():
    assert merged(numpy.array([(5, 6), (0, 1), (1.4, 1.9), (1.95, 1.96)]), 0.5) == pytest.approx([(0, 1.96), (5, 1)])
    assert merged(numpy.array([(0, 1), (2, 3)]), 0.5) == [(0, 1), (2, 1)] and merged(numpy.empty((0, 2)), 1) == []
    assert widened([(10, 1), (20, 5)], 3) == [(9, 3), (20, 5)]


def test_clock_times():
    assert clock_ticks(DAY, 3_600_000, 3_780_000) == [1000 * (3600 + 30 * k) for k in range(7)]
    assert clock_ticks(DAY, 0, 79_200_000)[:3] == [0, 10_800_000, 21_600_000]
    for k in range(2, 20):
        assert 1 <= len(clock_ticks(DAY, 17, 17 + 3.7**k)) <= 11 or k < 3
    # from many days on at midnights, leap seconds or not
    year = clock_ticks(6000, 0, 366 * 86_400_000)
    assert [(Time(6000, 0) + timedelta(milliseconds=tick)).milli for tick in year] == [0] * len(year) and len(year) == 9
    assert year[-1] % 86_400_000 == 1000  # beyond the end of 2016


def test_a_product_s_picture(samples):
    one = Product(samples / 'rich.eps')
    svg = picture_of_product(one)
    words = texts(svg)
    for text in (
        '15 records, 4,356 bytes',
        'MDR 3',
        'dummy 1',
        'gap 3, 21,000 ms',
        'overlap 0, 0 ms',
        'UTC, 2016-06-05',
        '00:00:10',
        'IPR 5',
        'from 3,675',
        'MHSx_xxx_1B_M02_20160605000000Z_20160605000025Z_N_O_20160605003000Z',
        '3,000',
    ):
        assert any(text in word for word in words), (text, words)
    assert picture_of_product(one) == svg and b'<title>MHSx_xxx' in svg


@pytest.mark.parametrize(
    'suffix, first', [('svg', b'<?xml'), ('png', b'\x89PNG'), ('pdf', b'%PDF'), ('jpg', b'\xff\xd8')]
)
def test_kinds_of_pictures(samples, suffix, first, run, rich, tmp_path):
    assert picture_of_product(Product(rich), suffix).startswith(first)
    assert run('picture', rich, f'p.{suffix}') == (0, '', '') and (tmp_path / f'p.{suffix}').read_bytes().startswith(
        first
    )
    assert run('report', rich, '--picture', f'r.{suffix}').status == 0 and (
        tmp_path / f'r.{suffix}'
    ).read_bytes().startswith(first)


def test_a_gap_is_always_seen():
    """30,000 MDRs over 22 hours, with 8 seconds missing in the middle: less than a pixel."""
    mdrs = [
        record(
            (8, 9, 2),
            b'',
            (DAY, 2640 * k + (8000 if k >= 15_000 else 0)),
            (DAY, 2640 * (k + 1) + (8000 if k >= 15_000 else 0)),
        )
        for k in range(30_000)
    ]
    one = Product(product(mdrs))
    assert Report().add(one) is None
    assert columns_of(picture_of_product(one, 'png'), GAP) >= 2
    assert any('gap 1, 8,000 ms' in word for word in texts(picture_of_product(one)))


def test_a_product_without_mdrs(samples):
    one = Product(samples / 'rich.eps').cut(Time(0, 0), Time(0, 0))
    assert 'no MDR with a defined time' in texts(picture_of_product(one))


def test_a_large_product_s_picture_stays_small():
    mdrs = [record((8, 9, 0), b'', (DAY, 10 * k), (DAY, 10 * k + 9)) for k in range(20_000)]
    svg = picture_of_product(Product(product(mdrs)))
    assert len(svg) < 200_000 and any('MDR 20,000' in word for word in texts(svg))


def test_refused_and_incomplete_products_are_drawn_up_to_the_place(rich, run, tmp_path):
    data = rich.read_bytes()
    bad = bytearray(data)
    bad[int(Product(rich).rows['start'][12])] = 9
    for name, made, status, words in (
        ('part', data[:4000], 3, 'incomplete 17 at 4000: expected 4356 bytes'),
        ('bad', bytes(bad), 1, 'refused 7 at 3895: '),
        ('html', b'<!DOCTYPE html>' * 400, 1, 'refused 1 at 0: '),
        ('empty', b'', 3, 'incomplete 17 at 0: '),
    ):
        (tmp_path / name).write_bytes(made)
        assert run('picture', name, f'{name}.svg').status == status
        assert any(words in word for word in texts((tmp_path / f'{name}.svg').read_bytes())), name
        assert columns_of(picture_of_product(Product(made), 'png'), MARK) >= 2
    assert any('MDR 1' in word for word in texts((tmp_path / 'bad.svg').read_bytes()))


def test_whatever_is_refused_can_be_drawn(given):
    """A product for each of the refusals 1 to 17."""
    seen = {}
    for data in given.products('judge/products.bin'):
        refused = Report().add(data)
        if refused is not None and refused.number not in seen:
            seen[refused.number] = picture_of_product(Product(data))
            assert any(f'{refused.number} at {refused.place}: ' in word for word in texts(seen[refused.number]))
    assert set(seen) == set(range(1, 18))


def test_the_caller_s_matplotlib_stays_as_it_is(samples, environment):
    code = f'''
import matplotlib
matplotlib.use('agg')
from matplotlib import pyplot
pyplot.figure()
before = dict(matplotlib.rcParams), matplotlib.get_backend(), pyplot.get_fignums()
import warpladle
product = warpladle.Product({str(samples / 'rich.eps')!r})
product.picture(); product.picture('png')
assert (dict(matplotlib.rcParams), matplotlib.get_backend(), pyplot.get_fignums()) == before
'''
    subprocess.run(
        [sys.executable, '-W', 'error::DeprecationWarning:warpladle', '-c', code], env=environment, check=True
    )
    code = (
        f"import sys, warpladle; warpladle.Product({str(samples / 'rich.eps')!r}).picture(); assert 'matplotlib.pyplot'"
        " not in sys.modules"
    )
    subprocess.run([sys.executable, '-c', code], env=environment, check=True)


def test_a_report_s_picture(samples):
    report = Report()
    report.add(samples / 'rich.eps')
    report.add(b'')
    words = texts(picture_of_report(report))
    for text in (
        '2 products, 1 accepted; gaps 21,000 ms',
        'accepted',
        'refused 17',
        'finished short',
        'MDR',
        'records',
        'bytes',
        '681',
    ):
        assert any(text in word for word in words), text


def test_an_overview_s_picture():
    """Days, gaps between products, names and reasons."""
    made = {
        'g0.eps': granule(0),
        'g1.eps': granule(1),
        'g9.eps': granule(9),
        'next.eps': granule(0, SENSING_START='20160606010000Z', SENSING_END='20160606010300Z'),
        'part.eps': granule(3)[:3400],
        'odd.eps': b'<!DOCTYPE html>' * 300,
    }
    overview = Overview(count_product(name, Product(data)) for name, data in made.items())
    words = texts(picture_of_overview(overview))
    for text in (
        '2016-06-05',
        '2016-06-06',
        'unknown',
        'M02 MHSx xxx 1B',
        'refused: odd.eps: 1 at 0: expected a first header',
        'incomplete: part.eps: 17 at 3400: expected',
        '6 products, 4 accepted',
        'whole 4',
        'refused 1',
        'incomplete 1',
        '72',
    ):
        assert any(text in word for word in words), (text, words)
    assert columns_of(picture_of_overview(overview, 'png'), GAP) >= 2
    assert texts(picture_of_overview(Overview()))


def test_products_far_apart_are_seen():
    """Three minutes each, eleven years apart."""
    early = granule(0, SENSING_START='20050101000000Z', SENSING_END='20050101000300Z')
    overview = Overview(
        [count_product('a', Product(early)), count_product('b', Product(granule(1, SPACECRAFT_ID='M01')))]
    )
    assert columns_of(picture_of_overview(overview, 'png'), COLOURS[8], slice(40, 190)) >= 4


def test_the_command(rich, environment, tmp_path, run):
    assert run('picture', rich, 'rich.svg') == (0, '', '')
    assert (tmp_path / 'rich.svg').read_bytes() == picture_of_product(Product(rich))
    assert run('picture', rich, 'rich.svg') == (
        2,
        '',
        'warpladle: rich.svg: it is there already and is kept; --force replaces it\n',
    )
    assert run('picture', rich, 'rich.svg', '--force').status == 0
    for name in ('rich.nothing', 'rich'):
        done = run('picture', rich, name)
        assert done == (2, '', f'warpladle: {name}: a picture is a file whose name ends in .svg, .png, .pdf, .jpg\n')
    assert run('report', rich, '--picture', '-').status == 2
    (tmp_path / 'bare').mkdir()
    (tmp_path / 'bare' / 'matplotlib.py').write_text('raise ImportError("none here")')
    bare = f'{tmp_path}/bare:{environment["PYTHONPATH"]}'
    assert run('picture', rich, 'other.svg', PYTHONPATH=bare) == (
        2,
        '',
        'warpladle: a picture needs matplotlib, which is not installed here (Debian: python3-matplotlib): none here\n',
    )
    assert run('check', rich, PYTHONPATH=bare).status == 0 and not (tmp_path / 'other.svg').exists()
