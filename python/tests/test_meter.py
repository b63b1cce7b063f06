"""Times, dates and scaled numbers, against the vectors."""
import struct
from datetime import date, datetime, timedelta, timezone

import pytest
from conftest import said

from warpladle import (
    Moment,
    Scaled,
    Time,
    date_of,
    day_number,
    is_date,
    read_scaled,
    read_time,
    reading,
    round_scaled,
    text_time,
    time_order,
    time_text,
)
from warpladle import write_scaled, write_time


def cases_of(given, *names):
    return [case for name in names for case in given.lines(name)]


def leap(case, key):
    return case.get('leap_' + key, case.get(key))


def as_time(pair):
    return None if pair is None else Time(*pair)


def test_times(given):
    read = texts = orders = 0
    for case in cases_of(given, 'leaves/times.jsonl', 'requests/two.jsonl'):
        if 'bytes' in case:
            data, expected = bytes.fromhex(case['bytes']), leap(case, 'read')
            answer = said(read_time, data)
            time = as_time(expected[1]) if expected[0] == 'time' else None
            assert answer == (expected if expected[0] == 'refused' else time)
            if expected[0] != 'refused':
                assert time_text(answer) == bytes.fromhex(leap(case, 'long')[1]).decode()
                assert write_time(answer) == data
            elif len(data) == 6:
                wrong = Time(*struct.unpack('>HI', data))
                assert said(time_text, wrong) == said(write_time, wrong) == ['refused', 21, 0]
            read += 1
        elif 'text' in case:
            expected = leap(case, 'cds')
            answer = said(text_time, bytes.fromhex(case['text']))
            assert answer == (
                expected if expected[0] == 'refused' else as_time(expected[1]) if expected[0] == 'time' else None
            )
            texts += 1
        elif 'order' in case:
            expected = leap(case, 'answer')
            answer = said(time_order, *map(as_time, case['order']))
            assert answer == (expected if expected[0] == 'refused' else expected[1])
            orders += 1
    assert min(read, texts, orders) > 20


def test_iso_8601():
    assert (
        Time.of('2016-06-05T00:00:08Z')
        == Time.of('2016-06-05 00:00:08')
        == Time.of('20160605T000008Z')
        == Time(6000, 8000)
    )
    assert Time.of('2016-06-05') == Time(6000, 0) and Time.of('2016-06-05T01:00') == Time(6000, 3600000)
    assert Time.of('2016-06-05T00:00:08.250Z').isoformat() == '2016-06-05T00:00:08.250Z'
    assert Time.of('2016-12-31T23:59:60.999Z') == Time(6209, 86400999)
    assert Time(6209, 86400999).isoformat() == '2016-12-31T23:59:60.999Z'
    for text in (
        'yesterday',
        '2016-06',
        '06:00',
        '2016-06-05T00:00:08.0001Z',
        '2016-06-05T00:00:08+2',
        '2016-13-05T00:00+01:00',
        '',
    ):
        with pytest.raises(ValueError):
            Time.of(text)
    for text in ('2015-02-29', '2015-12-31T23:59:60Z', '1999-12-31', '2200-01-01'):
        assert said(Time.of, text) == ['refused', 21, 0]


def test_datetimes():
    when = datetime(2016, 6, 5, 0, 0, 8, 250000, timezone.utc)
    assert Time.of(when) == Time(6000, 8250) and Time(6000, 8250).datetime() == when
    assert Time.of(when.replace(tzinfo=None)) == Time(6000, 8250)
    assert Time.of(when.astimezone(timezone(timedelta(hours=-9)))) == Time(6000, 8250)
    assert Time.of(Time(1, 2)) == Time(1, 2)
    assert Time.of(Moment(2016, 12, 31, 23, 59, 60, 5)) == Time(6209, 86400005)
    with pytest.raises(ValueError):
        Time.of(when.replace(microsecond=250001))
    with pytest.raises(ValueError):
        Time(6209, 86400000).datetime()


def test_dates():
    day = date(2000, 1, 1)
    for k in range(0, 65536, 97):
        there = day + timedelta(days=k)
        assert date_of(k) == there and day_number(there.year, there.month, there.day) == k
    assert date_of(59) == date(2000, 2, 29) and date_of(65535) == date(2179, 6, 6)
    assert is_date(2000, 2, 29) and not is_date(1900, 2, 29) and not is_date(2001, 13, 1) and is_date(0, 1, 1)
    assert said(day_number, 1999, 12, 31) == said(day_number, 2001, 2, 29) == ['refused', 21, 0]


def scaled(case, i='i', s='s'):
    return None if case.get(i) is None else Scaled(int(case[i]), case[s])


def test_scaled_numbers(given):
    seen = {}
    for case in cases_of(given, 'leaves/scaled.jsonl', 'requests/five.jsonl'):
        expected = case.get('wide', case['answer'])
        if expected[0] in ('scaled', 'rounded'):
            expected = [expected[0], str(expected[1]), *expected[2:]]
        answer = scaled_answer(case)
        seen[case['op']] = seen.get(case['op'], 0) + 1
        if expected[:2] == ['refused', 18]:
            assert len(bytes.fromhex(answer[1])) == expected[2] > case['room']  # the module lends room enough
        else:
            assert answer == expected, case
    assert set(seen) == {'read', 'write', 'round', 'reading'} and min(seen.values()) > 50


def scaled_answer(case):
    """What the module says, in the vectors' own form."""
    try:
        if case['op'] == 'read':
            found = said(read_scaled, bytes.fromhex(case['bytes']), 0, case['width'], is_signed=case['signed'])
            return (
                found
                if isinstance(found, list)
                else ['undefined'] if found is None else ['scaled', str(found.integer), found.scale]
            )
        if case['op'] == 'write':
            found = said(write_scaled, scaled(case), case['width'], is_signed=case['signed'])
            return found if isinstance(found, list) else ['written', found.hex()]
        if case['op'] == 'round':
            found = said(round_scaled, scaled(case), case['d'])
            return found if isinstance(found, list) else ['undefined'] if found is None else ['rounded', str(found)]
        found = said(reading, scaled(case))
        if isinstance(found, list):
            return found
        return [found.kind] if found.value is None else [found.kind, {'f64': struct.pack('>d', found.value).hex()}]
    except OverflowError:  # an integer past 64 bits, which C cannot hand in
        assert (
            not -(2**63) <= int(case['i']) < 2**63
            or not -128 <= case['s'] < 128
            or not -128 <= case.get('d', 0) < 128
        )
        return ['refused', 21, 0]
