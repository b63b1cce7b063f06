"""Records, fields, ground points, names and lines, against the vectors."""
import struct
from datetime import datetime, timedelta, timezone

import pytest
from conftest import said
from fields import FIELDS, NAMES, kind_of, line_start

from warpladle import (
    Field,
    GroundPoint,
    Moment,
    Product,
    Record,
    Refused,
    Time,
    all_fields,
    field_number,
    read_header,
    write_header,
)
from warpladle import write_number_line, write_text_line, write_time_line

UTC = timezone.utc


def patched(data, name, value):
    at, width = line_start(NAMES.index(name)) + 32, dict(FIELDS)[name]
    return data[:at] + value.encode().rjust(width) + data[at + width :]


def test_the_fields_are_those_of_the_paper():
    assert all_fields() == [Field(k, name, line_start(k), width, kind_of(k)) for k, (name, width) in enumerate(FIELDS)]


def test_names(given):
    for case in given.lines('leaves/names.jsonl'):
        try:
            name = bytes.fromhex(case['name']).decode()
        except UnicodeDecodeError:
            continue
        answer = said(field_number, name)
        assert answer == (case['answer'] if case['answer'][0] == 'refused' else case['answer'][1])


def test_every_field_of_the_rich_sample(samples):
    product = Product(samples / 'rich.eps')
    fields = product.fields
    assert list(fields) == NAMES and len(fields) == 72
    assert all(product.field(name) == value for name, value in fields.items())
    assert fields['ORBIT_START'] == 50123 and fields['Z_POSITION'] == -1 and fields['LOCATION_TOLERANCE_RADIAL'] is None
    assert fields['INSTRUMENT_MODEL'] == '  2' and fields['LEAP_SECOND_UTC'] is None
    assert fields['SENSING_END'] == datetime(2016, 6, 5, 0, 0, 25, tzinfo=UTC)
    assert fields['STATE_VECTOR_TIME'] == datetime(2016, 6, 4, 23, 50, 12, 345000, UTC)


def test_fields_hold_what_stands_in_the_bytes(given, samples):
    """Each number and text against the bytes of its line, in every accepted product of request Six."""
    checked = 0
    for case in given.lines('requests/six.jsonl'):
        if case['answer'][0] != 'rows':
            continue
        data = given.product(case)
        for k, (name, value) in enumerate(Product(data).fields.items()):
            raw = data[line_start(k) + 32 :][: FIELDS[k][1]].decode()
            if kind_of(k) == 0:
                assert value == raw
            elif kind_of(k) in (1, 2, 3):
                assert value == (None if set(raw) == {'x'} else int(raw))
            elif value is None:
                assert set(raw) <= {'x', 'Z'}
            else:
                text = value.isoformat(timespec='milliseconds') if isinstance(value, datetime) else value.isoformat()
                assert ''.join(filter(str.isdigit, text[:23])) == raw[:-1].ljust(17, '0')
            checked += 1
    assert checked > 3000


def test_times_that_a_datetime_cannot_hold(samples):
    data = (samples / 'rich.eps').read_bytes()
    leap = Product(patched(data, 'SENSING_END', '20161231235960Z')).field('SENSING_END')
    assert leap == Moment(2016, 12, 31, 23, 59, 60) and leap.isoformat() == '2016-12-31T23:59:60.000Z'
    assert Product(patched(data, 'SENSING_END', '00000229000000Z')).field('SENSING_END') == Moment(0, 2, 29, 0, 0, 0)


def test_field_refusals(samples):
    data = (samples / 'rich.eps').read_bytes()
    assert said(Product(data).field, 'NO_SUCH') == ['refused', 22, 0]
    assert said(Product(data[:3306]).field, 'ORBIT_START') == ['refused', 17, 3306]
    assert Product(data[:3307]).field('ORBIT_START') == 50123
    with pytest.raises(Refused, match="for ORBIT_START, found '   q9'"):
        Product(patched(data, 'ORBIT_START', 'q9')).field('ORBIT_START')


def test_every_record_of_the_rich_sample(samples):
    product = Product(samples / 'rich.eps')
    records = list(product.records())
    assert [product.record(k) for k in range(15)] == records
    for record, row in zip(records, product.rows.tolist(), strict=True):
        assert (record.start, record.size, record.class_, record.group, record.subclass, record.version) == row[:6]
    assert records[12].as_dict() == {
        'start': 3895,
        'class': 8,
        'group': 9,
        'subclass': 2,
        'version': 1,
        'size': 120,
        'start_time': '2016-06-05T00:00:08.000Z',
        'stop_time': '2016-06-05T00:00:09.000Z',
    }
    assert said(product.record, 15) == ['refused', 19, 15]


def test_any_buffer_is_a_product(samples):
    import array
    import numpy

    data = (samples / 'rich.eps').read_bytes()
    assert len(data) % 4 == 0
    for buffer in (bytearray(data), memoryview(data), numpy.frombuffer(data, 'u1'), array.array('I', data)):
        product = Product(buffer)
        assert (product.size, product.verdict, product.field('INSTRUMENT_ID'), bytes(product)) == (
            4356,
            15,
            'MHSx',
            data,
        )
    with pytest.raises((BufferError, TypeError)):
        Product(numpy.frombuffer(data, 'u1')[::2])


def test_numbers_that_c_cannot_hold_are_python_s_own_error(samples):
    product = Product(samples / 'rich.eps')
    for k in (-1, 1 << 64):
        with pytest.raises(OverflowError):
            product.record(k)
    with pytest.raises(OverflowError):
        product.cut(Time(65536, 0), Time(65536, 0))
    with pytest.raises(TypeError):
        product.record('0')


def test_ground_points(given, samples):
    data = (samples / 'rich.eps').read_bytes()
    for case in given.lines('leaves/points.jsonl'):
        lat, lon = (bytes.fromhex(case[key]).decode() for key in ('lat', 'lon'))
        for which in ('start', 'end'):
            end = patched(
                patched(data, f'SUBSAT_LATITUDE_{which.upper()}', lat), f'SUBSAT_LONGITUDE_{which.upper()}', lon
            )
            answer = said(Product(end).ground_point, which)
            if case['answer'][0] == 'point':
                assert [struct.pack('>d', x).hex() for x in answer] == [x['f64'] for x in case['answer'][1:]]
            elif case['answer'][0] == 'missing':
                assert answer is None
            else:
                assert answer[:2] == case['answer'][:2]
    assert Product(data).ground_point('end') == GroundPoint(46.18, -122.987)
    with pytest.raises(ValueError):
        Product(data).ground_point('middle')


def time_in(pair):
    return None if tuple(pair) == (65535, 2**32 - 1) else Time(*pair)


def test_headers(given):
    kinds = set()
    for case in given.lines('leaves/headers.jsonl'):
        data = bytes.fromhex(case['bytes'])
        answer = said(read_header, data)
        kinds.add(case['read'][0])
        if case['read'][0] == 'header':
            *numbers, start, stop = case['read'][1]
            assert answer == Record(0, *numbers, time_in(start), time_in(stop))
            assert read_header(b'\x11' * 3 + data, 3) == answer._replace(start=3)
        else:
            assert answer == case['read']
        if 'write' in case and len(data) == 20:
            class_, group, subclass, version, size, *times = struct.unpack('>BBBBIHIHI', data)
            written = said(
                write_header, Record(0, class_, group, subclass, version, size, time_in(times[:2]), time_in(times[2:]))
            )
            assert written == (bytes.fromhex(case['write'][1]) if case['write'][0] == 'written' else case['write'])
    assert kinds == {'header', 'refused'}


def moment(value):
    return None if value is None else Moment(*value)


def test_lines(given):
    writers = {
        'number': lambda k, v: write_number_line(k, None if v is None else int(v)),
        'text': lambda k, v: write_text_line(k, bytes.fromhex(v)),
        'time': lambda k, v: write_time_line(k, moment(v)),
    }
    written, refused = 0, 0
    for case in given.lines('leaves/lines.jsonl') + [
        c for c in given.lines('requests/two.jsonl') if c.get('op') == 'time'
    ]:
        expected = case.get('leap', case['answer'])
        try:
            answer = said(writers[case['op']], case['field'], case['value'])
            if expected[:2] == ['refused', 18]:
                assert len(answer) == expected[2] > case['room']  # the module lends room enough
                continue
        except OverflowError:
            assert expected[0] == 'refused'
            continue
        if expected[0] == 'refused':
            assert answer == expected, case
            refused += 1
        else:
            assert answer == bytes.fromhex(expected[1]), case
            written += 1
    assert written > 100 and refused > 100


def test_a_time_line_takes_a_datetime():
    k = field_number('SENSING_START')
    east = timezone(timedelta(hours=2))
    assert write_time_line(k, datetime(2016, 6, 5, 2, 0, 8, tzinfo=east))[-16:] == b'20160605000008Z\n'
    with pytest.raises(ValueError):
        write_time_line(k, datetime(2016, 6, 5, 2, 0, 8, 1))
