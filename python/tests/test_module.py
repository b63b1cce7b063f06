"""The module as an analyst uses it: times, payload, indexing, file objects, pickles, windows, arithmetic of times,
names, notebooks."""
import io
import os
import pickle
from datetime import date, datetime, timedelta, timezone

import numpy
import pytest
from making import DAY, UNDEFINED, granule, product, record

import warpladle
from warpladle import Group, Moment, Product, RecordClass, Refusal, Refused, Report, Time


def test_times_are_those_of_the_headers(given):
    """Of every accepted product of the vectors, each time against the record that the library reads."""
    seen = {'undefined': 0, 'leap': 0, 'plain': 0}
    for data in given.products('requests/products.bin'):
        one = Product(data)
        try:
            records = list(one.records())
        except Refused:
            continue
        for record_, start, stop in zip(records, one.times['start'], one.times['stop'], strict=True):
            for time, found in ((record_.start_time, start), (record_.stop_time, stop)):
                if time is None:
                    assert numpy.isnat(found)
                    seen['undefined'] += 1
                elif time.milli >= 86_400_000:
                    assert found == numpy.datetime64(
                        Time(time.day + 1, time.milli - 86_400_000).datetime().replace(tzinfo=None), 'ms'
                    )
                    seen['leap'] += 1
                else:
                    assert found == numpy.datetime64(time.datetime().replace(tzinfo=None), 'ms')
                    seen['plain'] += 1
    assert min(seen.values()) > 3, seen


def test_times_of_100_000_records(large):
    one = Product(large)
    assert (
        one.times.dtype.names == ('start', 'stop')
        and len(one.times) == 100_002
        and one.times['start'].dtype == 'M8[ms]'
    )
    assert (one.times['start'][1:] == numpy.datetime64('2016-06-05T00:00:00.000') + 400 * numpy.arange(100_001)).all()
    assert not one.times.flags.writeable
    rows = one.rows_with_times()
    assert rows.dtype.names == (
        'start',
        'size',
        'class',
        'group',
        'subclass',
        'version',
        'ordinal',
        'start_time',
        'stop_time',
    )
    assert (rows['start_time'][1:] == one.times['start'][1:]).all() and (rows['size'] == one.rows['size']).all()


def test_payload_and_mdrs(rich):
    one, data = Product(rich), rich.read_bytes()
    assert bytes(one.payload(1)) == data[3307 + 20 : 3307 + 61] and bytes(one.payload(-1)) == bytes(300)
    assert isinstance(one.payload(1), memoryview)
    assert [mdr.start for mdr in one.mdrs()] == [3675, 3895, 4015, 4036]
    with pytest.raises(IndexError):
        one.payload(15)


def test_a_view_of_mdrs_of_one_size():
    data = granule(0)
    one = Product(data)
    table = one.mdr_bytes()
    assert table.shape == (18, 40) and bytes(table[3]) == data[one.row(6).start : one.row(6).start + 40]
    assert numpy.shares_memory(table, numpy.frombuffer(data, 'u1'))
    assert one.mdr_bytes(group=Group.MHS, subclass=2).shape == (18, 40) and one.mdr_bytes(subclass=7).shape == (0, 0)
    assert table[:, 20].tolist() == [0] * 18


def test_a_view_of_mdrs_of_many_sizes(rich):
    with pytest.raises(ValueError, match='4 sizes'):
        Product(rich).mdr_bytes()
    kinds = [record((8, 9, k % 2), bytes(10 + k % 2), (DAY, k), (DAY, k)) for k in range(6)]
    one = Product(product(kinds))
    assert one.mdr_bytes(subclass=1).shape == (3, 31) and one.mdr_bytes(subclass=1)[:, 2].tolist() == [1, 1, 1]
    uneven = Product(product([record((8, 9, k // 2), bytes(10), (DAY, k), (DAY, k)) for k in (0, 2, 0, 0)]))
    with pytest.raises(ValueError, match='one distance'):
        uneven.mdr_bytes(subclass=0)


def test_length_iteration_and_indexing(rich):
    one = Product(rich)
    records = list(one.records())
    assert (
        len(one) == 15
        and list(one) == records
        and one[3] == records[3]
        and one[-1] == records[-1]
        and one[2:5] == records[2:5]
        and one[::-1] == records[::-1]
    )
    with pytest.raises(IndexError):
        one[15]
    assert one and Product(b'')
    with pytest.raises(Refused):
        len(Product(b''))


def test_with_and_close(rich):
    with Product(rich) as one:
        assert one.verdict == 15 and len(one.rows) == 15
        held = open_files()
    assert open_files() == held - 1
    with pytest.raises(ValueError, match='the product is closed'):
        one.verdict
    one.close()
    other = Product(rich)
    view = other.payload(1)
    other.close()
    assert bytes(view[:8]) == b'SUBTITLE'  # the view keeps what it needs


def open_files():
    return len(os.listdir('/proc/self/fd'))


def test_file_objects_and_whatever_has_read(rich):
    data = rich.read_bytes()

    class Body:
        """As the body of an answer of a server is."""

        def __init__(self):
            self.rest = data

        def read(self, size):
            part, self.rest = self.rest[: min(size, 1000)], self.rest[min(size, 1000) :]
            return part

    with open(rich, 'rb') as file, open(rich, 'rb', buffering=0) as raw:
        for source in (file, raw, io.BytesIO(data), Body()):
            assert Product(source).verdict == 15
    with open(rich, encoding='latin-1') as text, pytest.raises(TypeError):
        Product(text)
    assert Report().add(Product(io.BytesIO(data))) is None


def test_a_product_travels_by_its_path(rich, monkeypatch):
    monkeypatch.chdir(rich.parent)
    there = pickle.loads(pickle.dumps(Product('rich.eps')))
    assert there.path == str(rich) and there.verdict == 15 and len(pickle.dumps(Product('rich.eps'))) < 500
    assert bytes(pickle.loads(pickle.dumps(Product(rich.read_bytes())))) == rich.read_bytes()


def test_ends_of_a_window(rich):
    one = Product(rich)
    expected = bytes(one.cut('2016-06-05T00:00:08Z', '2016-06-05T00:00:20Z'))
    east = timezone(timedelta(hours=2))
    for first, last in (
        (numpy.datetime64('2016-06-05T00:00:08'), numpy.datetime64('2016-06-05T00:00:20.000', 'ns')),
        (datetime(2016, 6, 5, 2, 0, 8, tzinfo=east), datetime(2016, 6, 5, 0, 0, 20)),
        (Time(6000, 8000), Moment(2016, 6, 5, 0, 0, 20)),
        (one.times['start'][12], one.times['start'][13]),
    ):
        assert bytes(one.cut(first, last)) == expected
    assert (
        bytes(one.cut(date(2016, 6, 5), date(2016, 6, 6)))
        == bytes(one.cut('2016-06-05', '2016-06-06'))
        == bytes(one.cut(numpy.datetime64('2016-06-05'), '2016-06-06'))
    )
    for wrong, error in (
        (numpy.datetime64('NaT'), ValueError),
        (6000, TypeError),
        (3.5, TypeError),
        (numpy.datetime64('2016-06-05T00:00:08.0001', 'us'), ValueError),
    ):
        with pytest.raises(error):
            one.cut(wrong, '2016-06-06')


def test_arithmetic_of_times():
    second, leap = timedelta(seconds=1), Time(6209, 86_399_500)
    assert Time(6000, 8000) - Time(6000, 3000) == timedelta(seconds=5) and Time(6000, 0) - Time(6000, 1) == timedelta(
        milliseconds=-1
    )
    assert Time(6001, 0) - Time(6000, 0) == timedelta(days=1) and Time(6210, 0) - Time(6209, 0) == timedelta(
        days=1, seconds=1
    )
    assert (
        leap + second == Time(6209, 86_400_500)
        and leap + 2 * second == Time(6210, 500)
        and Time(6210, 500) - 2 * second == leap
    )
    assert second + Time(6000, 0) == Time(6000, 1000) and Time(6000, 0) - second == Time(5999, 86_399_000)
    for wrong in (
        lambda: Time(1, 2) + Time(3, 4),
        lambda: Time(1, 2) + (3, 4),
        lambda: Time(1, 2) * 2,
        lambda: 2 * Time(1, 2),
        lambda: Time(1, 2) + 5,
        lambda: Time(1, 2) - 5,
    ):
        with pytest.raises(TypeError):
            wrong()
    with pytest.raises(ValueError):
        Time(1, 2) + timedelta(microseconds=1)
    with pytest.raises(OverflowError):
        Time(0, 0) - second
    with pytest.raises(OverflowError):
        Time(65535, 86_399_999) + second
    assert max(Time(1, 2), Time(1, 1)) == Time(1, 2)


def test_differences_are_the_library_s(given):
    """Gaps and overlaps by the difference of times are those of the report."""
    seen = 0
    for data in given.products('requests/products.bin'):
        report = Report()
        if report.add(data) is not None:
            continue
        mdrs = list(Product(data).mdrs())
        pairs = [
            (one.stop_time, other.start_time)
            for one, other in zip(mdrs, mdrs[1:])
            if one.stop_time is not None and other.start_time is not None
        ]
        lengths = [(start - stop) // timedelta(milliseconds=1) for stop, start in pairs]
        assert (
            sum(max(0, length) for length in lengths) == report.as_dict()['gap_ms']
            and sum(max(0, -length) for length in lengths) == report.as_dict()['overlap_ms']
        )
        seen += bool(lengths)
    assert seen > 50


def test_names_for_numbers():
    import re

    from conftest import ROOT

    header = (ROOT / 'include' / 'warpladle.h').read_text()
    for enum, first in ((Refusal, 'WL_FIRST_HEADER'), (RecordClass, 'WL_MPHR'), (Group, 'WL_GENERIC')):
        block = next(text for text in re.findall(r'enum[^{]*\{(.*?)\}', header, re.S) if first in text)
        said = {name: int(number) for name, number in re.findall(r'WL_(\w+) = (\d+)', block)}
        said.pop('ACCEPTED', None)
        assert {name: int(number) for name, number in enum.__members__.items()} == said
    assert Product(b'x' * 20).state is warpladle.State.REFUSED and Product(b'').state is warpladle.State.INCOMPLETE


def test_fields_of_one_kind(rich):
    one = Product(rich)
    assert (
        one.number('ORBIT_START') == 50123
        and one.number('LOCATION_TOLERANCE_RADIAL') is None
        and one.text('INSTRUMENT_MODEL') == '2'
    )
    assert (
        one.time('SENSING_END') == datetime(2016, 6, 5, 0, 0, 25, tzinfo=timezone.utc)
        and one.time('LEAP_SECOND_UTC') is None
    )
    for ask, name in ((one.number, 'INSTRUMENT_ID'), (one.text, 'ORBIT_START'), (one.time, 'ORBIT_START')):
        with pytest.raises(TypeError):
            ask(name)


def test_notebooks(rich):
    html = Product(rich)._repr_html_()
    assert html.startswith('<table>') and '47.623 -122.401' in html and 'rich.eps' in html
    assert (
        'incomplete' in Product(rich.read_bytes()[:4000])._repr_html_()
        and 'refused' in Product(b'<script>' * 9)._repr_html_()
    )
    assert '<script>' not in Product(b'<script>' * 9)._repr_html_()
    report = Report()
    report.add(rich)
    assert (
        '681' in report._repr_html_()
        and repr(report) == '<Report of 1 products, 1 accepted, 15 records, 21000 ms of gaps>'
    )


def test_a_picture_of_a_product(rich, tmp_path):
    pytest.importorskip('matplotlib')
    picture = Product(rich).picture()
    assert '<svg' in picture._repr_svg_() and picture._repr_png_() is None
    picture.save(tmp_path / 'p.svg')
    assert (tmp_path / 'p.svg').read_bytes() == picture.data
    with pytest.raises(FileExistsError):
        picture.save(tmp_path / 'p.svg')
    picture.save(tmp_path / 'p.svg', force=True)
    assert Product(rich).picture('png')._repr_png_().startswith(b'\x89PNG')


def test_undefined_times_are_not_a_time():
    one = Product(product([record((8, 9, 2), b'', UNDEFINED, (DAY, 5))]))
    assert numpy.isnat(one.times['start'][1]) and one.times['stop'][1] == numpy.datetime64('2016-06-05T00:00:00.005')
