"""The overview of a day: what is missing, what was put aside, what came twice, how long it took, what still waits; and
its page, also in a real browser."""
import gzip
import html
import json
import os
import re
import shutil
import subprocess
import threading
from datetime import datetime, timezone
from functools import partial
from http.server import SimpleHTTPRequestHandler, ThreadingHTTPServer

import pytest
from conftest import ROOT
from making import granule

from warpladle.cli import COMMANDS, parser_of
from warpladle.day import STATES, DayState, clock_text, day_of, length_text
from warpladle.overview import count_files, unreadable
from warpladle.page import STYLE, page_of_day

DAY = '2016-06-05'
QUARTER = 6 * 3600  # seconds: four products of a quarter make a day
DATES = {-1: '20160604', 0: '20160605', 1: '20160606'}


def written(second):
    """A time of the main header, so many seconds after the day's first."""
    clock = second % 86400
    return f'{DATES[second // 86400]}{clock // 3600:02}{clock // 60 % 60:02}{clock % 60:02}Z'


def sensed(begin, length, **values):
    """A product by its SENSING times: its name and its bytes."""
    lines = {'SPACECRAFT_ID': 'M02', 'SENSING_START': written(begin), 'SENSING_END': written(begin + length), **values}
    name = f'MHSx_xxx_1B_{lines["SPACECRAFT_ID"]}_{written(begin)}_{written(begin + length)}_N_O_20160606000000Z'
    return name, granule(0, step=60, PRODUCT_NAME=name, **lines)


class Folders:
    """The folders of an intake."""

    def __init__(self, root):
        self.root, self.names = root, []
        self.accepted, self.refused, self.incoming = (root / name for name in ('accepted', 'refused', 'incoming'))
        for folder in (self.accepted, self.refused, self.incoming):
            folder.mkdir()

    def accept(self, begin, length=QUARTER, **values):
        name, data = sensed(begin, length, **values)
        (self.accepted / name).write_bytes(data)
        return name

    def put_aside(self, name, data, stored=None, **note):
        """A file and its note, as an intake leaves them."""
        stored = stored or name
        (self.refused / stored).write_bytes(data)
        known = {'name': name, 'state': 'refused', 'number': None, 'place': None, 'words': 'w', **note}
        (self.refused / f'{stored}.json').write_text(json.dumps(known))

    def log(self, *events, name='log'):
        (self.root / name).write_text(''.join(json.dumps(event) + '\n' for event in events))
        return self.root / name

    @property
    def words(self):
        return ['overview', DAY, '--accepted', self.accepted, '--refused', self.refused]


@pytest.fixture
def folders(tmp_path):
    """A day that is whole."""
    found = Folders(tmp_path)
    found.names = [found.accept(k * QUARTER) for k in range(4)]
    return found


def facts(folders, run, *more):
    """The status, and what a program is told."""
    done = run(*folders.words, *more, '--json')
    return done.status, done.value


# ---- whole, or what is missing


def test_a_whole_day(folders, run):
    done = run(*folders.words)
    assert (done.status, done.err) == (0, '')
    assert done.out.splitlines() == [
        f'{DAY}: The day is whole: 4 products, nothing missing, nothing refused.',
        'M02 MHSx xxx 1B: 4 products, 0 gaps, 0 overlaps',
        'latency: no log says it',
    ]
    status, value = facts(folders, run)
    assert (status, value['state'], value['between'], value['waiting'], value['latency']) == (
        0,
        'whole',
        [],
        None,
        None,
    )
    assert value['records']['MDR'] == 12 and value['products'] == value['accepted'] == 4
    assert value['bytes']['MPHR'] == 4 * 3307


def test_a_gap_and_an_overlap(folders, run):
    (folders.accepted / folders.names[2]).unlink()
    late = folders.accept(2 * QUARTER + 125, QUARTER)  # which is 125 s late at both its ends
    done = run(*folders.words)
    assert done.status == 1 and 'The day is not whole: 1 gap, 2 min 05 s missing.' in done.out
    assert 'M02 MHSx xxx 1B: 4 products, 1 gap of 2 min 05 s, 1 overlap of 2 min 05 s' in done.out
    assert f'gap of 2 min 05 s, 12:00:00 to 12:02:05, between {folders.names[1]} and {late}' in done.out
    assert f'overlap of 2 min 05 s, 18:00:00 to 18:02:05, between {late} and {folders.names[3]}' in done.out
    status, value = facts(folders, run)
    assert status == 1 and value['state'] == 'not whole' and [one['ms'] for one in value['between']] == [125000] * 2
    (of_series,) = value['series']
    assert (of_series['gap_ms'], of_series['overlap_ms'], of_series['instrument']) == (125000, 125000, 'MHSx')


def test_an_overlap_alone_leaves_the_day_whole(folders, run):
    folders.accept(QUARTER - 60, 120)
    assert run(*folders.words).status == 0 and len(facts(folders, run)[1]['between']) == 2


def test_midnight_is_an_end_of_the_day(folders, run):
    for name in folders.names[0], folders.names[3]:
        (folders.accepted / name).unlink()
    status, value = facts(folders, run)
    gaps = [(one['from'], one['to'], one['after'], one['before']) for one in value['between']]
    assert status == 1 and gaps == [
        ('2016-06-05T00:00:00Z', '2016-06-05T06:00:00Z', None, folders.names[1]),
        ('2016-06-05T18:00:00Z', '2016-06-06T00:00:00Z', folders.names[2], None),
    ]
    assert '18:00:00 to 24:00:00' in run(*folders.words).out


def test_products_across_midnight_belong_to_the_day_on_which_they_start(folders, run):
    for name in folders.names[0], folders.names[3]:
        (folders.accepted / name).unlink()
    folders.accept(-90, QUARTER + 90)  # of the day before, and reaches into this one
    folders.accept(3 * QUARTER, QUARTER + 90)
    assert facts(folders, run)[0] == 0 and facts(folders, run)[1]['products'] == 3
    folders.accept(86400 + 90, 600)
    assert facts(folders, run)[0] == 0


def test_a_gap_over_midnight_is_told_of_each_day_by_its_part(folders, run):
    (folders.accepted / folders.names[0]).unlink()
    before = folders.accept(-7200, 7140)  # up to a minute before midnight
    folders.accept(120, QUARTER - 120)
    (gap,) = facts(folders, run)[1]['between']
    assert (gap['ms'], gap['from'], gap['after']) == (120000, '2016-06-05T00:00:00Z', before)
    words = ['overview', '2016-06-04', '--accepted', folders.accepted, '--refused', folders.refused, '--json']
    gaps = run(*words).value['between']
    assert [gap['ms'] for gap in gaps] == [22 * 3600 * 1000, 60000] and gaps[1]['to'] == '2016-06-05T00:00:00Z'


def test_a_series_that_ended_the_day_before_is_missed(folders, run):
    last = folders.accept(-600, 500, SPACECRAFT_ID='M01')
    status, value = facts(folders, run)
    assert status == 1 and [(one['spacecraft'], one['products']) for one in value['series']] == [('M01', 0), ('M02', 4)]
    (gap,) = value['between']
    assert (gap['ms'], gap['after'], gap['before']) == (86_400_000, last, None)


def test_a_day_without_products(folders, run):
    for name in folders.names:
        (folders.accepted / name).unlink()
    done = run(*folders.words)
    assert done.status == 1 and 'The day is not whole: no product is accepted.' in done.out


def test_a_day_with_a_leap_second(tmp_path):
    folders = Folders(tmp_path)
    times = {'SENSING_START': '20161231000000Z', 'SENSING_END': '20170101000000Z'}
    (folders.accepted / 'day.eps').write_bytes(granule(0, **times))
    found = day_of('2016-12-31', str(folders.accepted), str(folders.refused))
    assert found.state is DayState.WHOLE
    (folders.accepted / 'day.eps').write_bytes(granule(0, **{**times, 'SENSING_END': '20161231235958Z'}))
    found = day_of('2016-12-31', str(folders.accepted), str(folders.refused))
    assert [gap['ms'] for gap in found.gaps] == [3000] and found.gaps[0]['to'] == '2017-01-01T00:00:00Z'


def test_a_day_that_is_not_over(folders):
    (folders.accepted / folders.names[3]).unlink()
    known = partial(day_of, DAY, str(folders.accepted), str(folders.refused))
    evening = known(now=datetime(2016, 6, 5, 23, 59, 59, tzinfo=timezone.utc))
    assert (evening.state, evening.gaps) == (DayState.WAITING, [])
    assert evening.headline == 'Whole so far, 3 products: the day is not over.'
    midnight = known(now=datetime(2016, 6, 6, tzinfo=timezone.utc))
    assert midnight.state is DayState.NOT_WHOLE and [gap['ms'] for gap in midnight.gaps] == [QUARTER * 1000]


def test_sensing_times_that_no_one_can_count_with(folders, run):
    for value in ('x' * 14 + 'Z', '99990101000000Z'):
        data = sensed(60, QUARTER, SENSING_END=value)[1]
        (folders.accepted / 'odd.eps').write_bytes(data)
        status, found = facts(folders, run)
        assert status == 0 and found['products'] == 5 and found['series'][0]['products'] == 4


# ---- what was put aside


def test_refused_given_up_in_conflict(folders, run):
    name, data = sensed(100, 100)
    other = sensed(200, 100)[0]
    folders.put_aside(name, data + b'!', number=16, place=len(data), words='expected fewer', last_seen='2016-06-07T00Z')
    folders.put_aside(other, data[:3400], state='incomplete', number=17, place=3400, words='expected more')
    folders.put_aside(folders.names[0], data, state='conflict', words='other bytes')
    folders.put_aside('sum', data, state='checksum', words='another sum')
    done = run(*folders.words)
    assert done.status == 1
    assert '1 refused; 1 given up; 1 in conflict; 1 with another checksum.' in done.out
    lines = done.out.splitlines()
    assert f'refused: {name}: 16 {len(data)}: expected fewer' in lines
    assert f'incomplete: {other}: 17 3400: expected more' in lines
    assert f'conflict: {folders.names[0]}: other bytes' in lines and 'checksum: sum: another sum' in lines
    assert facts(folders, run)[1]['aside'][1] == {
        'file': name,
        'name': name,
        'state': 'refused',
        'number': 16,
        'place': len(data),
        'words': 'expected fewer',
        'seen': '2016-06-07T00Z',
        'is_accepted': False,
    }


def test_a_day_that_cannot_be_read_is_that_on_which_it_was_last_seen(folders, run):
    folders.put_aside('portal', b'<html>', number=1, place=0, last_seen='2016-06-05T23:59:59Z')
    folders.put_aside('later', b'<html>', number=1, place=0, last_seen='2016-06-06T00:00:00Z')
    folders.put_aside('other', sensed(86400, 60)[1] + b'!', number=16, place=1, last_seen='2016-06-05T12:00:00Z')
    assert [one['name'] for one in facts(folders, run)[1]['aside']] == ['portal']


def test_what_came_whole_since_is_no_fault(folders, run):
    folders.put_aside(folders.names[1], b'<html>', number=1, place=0, last_seen='2016-06-05T09:00:00Z')
    done = run(*folders.words)
    assert done.status == 0 and f'refused: {folders.names[1]}: 1 0: w; a whole one of this name is accepted' in done.out
    assert 'The day is whole: 4 products, nothing missing, a whole one is accepted of 1 put aside.' in done.out


def test_a_file_without_a_note_and_a_note_without_its_file(folders, run):
    (folders.refused / 'alone').write_bytes(sensed(0, 60)[1] + b'!')
    folders.put_aside('gone', b'', last_seen='2016-06-05T09:00:00Z', number=6, place=3307)
    (folders.refused / 'gone').unlink()
    found = facts(folders, run)[1]['aside']
    assert [(one['name'], one['state'], one['words']) for one in found] == [
        ('alone', 'unknown', 'there is no note of it'),
        ('gone', 'refused', 'w'),
    ]


def test_what_stands_beside_a_file_that_was_put_aside_is_no_other(folders, run):
    name, data = sensed(100, 100)
    folders.put_aside(name, data + b'!', stored=f'{name}.2', number=16)
    for more in ('arrival', 'md5', 'sha256'):
        (folders.refused / f'{name}.2.{more}').write_bytes(b'')
    (folders.refused / '.hidden').write_bytes(b'')
    assert [(one['file'], one['name']) for one in facts(folders, run)[1]['aside']] == [(f'{name}.2', name)]


def test_what_stands_in_accepted_is_judged(folders, run):
    path = folders.accepted / folders.names[2]
    path.write_bytes(path.read_bytes() + b'!')
    status, value = facts(folders, run)
    assert status == 1 and [(one['state'], one['number']) for one in value['aside']] == [('refused', 16)]
    assert [gap['ms'] for gap in value['between']] == [QUARTER * 1000]


# ---- what the log says


def test_what_came_twice(folders, run):
    event = {'time': '2016-06-06T01:00:00Z', 'event': 'duplicate', 'name': folders.names[0]}
    log = folders.log(event, {**event, 'name': 'gone', 'time': '2016-06-05T02:00:00Z'}, {**event, 'name': 'unknown'})
    done = run(*folders.words, '--log', log)
    assert done.status == 0 and f'twice: {folders.names[0]}: came again 1 time with the same bytes' in done.out
    assert [one['name'] for one in facts(folders, run, '--log', log)[1]['twice']] == [folders.names[0], 'gone']


def test_one_product_under_two_names(folders, run):
    name, data = sensed(0, QUARTER)
    (folders.accepted / 'again.eps').write_bytes(data)
    assert facts(folders, run)[0] == 0 and facts(folders, run)[1]['twice'][0]['name'] == name
    (folders.accepted / 'again.eps').write_bytes(sensed(0, QUARTER, ORBIT_START=7)[1])
    done = run(*folders.words)
    assert done.status == 1 and '1 twice with other main headers' in done.out


def test_latency(folders, run):
    times = ['2016-06-05T06:10:00.123456Z', '2016-06-05T12:20:00Z', '2016-06-05T18:10:30+00:00', '2016-06-06T01:00:00Z']
    events = [
        {'time': time, 'event': 'accepted', 'name': name, 'records': 6, 'bytes': 3510, 'sensing_start': 's'}
        for time, name in zip(times, folders.names)
    ]
    log = folders.log(*events, {**events[0], 'time': '2016-06-09T00:00:00Z'}, {**events[1], 'name': 'unknown'})
    status, value = facts(folders, run, '--log', log)
    assert status == 0 and value['latency'] == {
        'products': 4,
        'median_ms': (630000 + 1200000) // 2,
        'most_ms': 3600000,
        'most': folders.names[3],
    }
    assert f'latency: median 15 min 15 s, most 1 h 00 min 00 s ({folders.names[3]}), of 4 products' in (
        run(*folders.words, '--log', log).out
    )
    assert 'no log says it' in run(*folders.words, '--log', folders.log()).out


def test_logs_that_were_rotated_and_lines_that_are_no_events(folders, run):
    event = {'time': '2016-06-05T06:10:00Z', 'event': 'accepted', 'name': folders.names[0]}
    packed = folders.root / 'log.2.gz'
    packed.write_bytes(gzip.compress(folders.log(event).read_bytes()))
    log = folders.log({**event, 'name': folders.names[1], 'time': '2016-06-05T12:10:00Z'})
    half = '{"time": "2016-06-05T18:10:00Z", "event": "acc'  # which is still being written
    log.write_text(f'{log.read_text()}no event\n[1]\n' + half)
    done = run(*folders.words, '--log', log, '--log', packed, '--json')
    assert done.value['latency']['products'] == 2 and done.value['latency']['median_ms'] == 600000
    assert done.err == 'warpladle: note: lines of the log that are no events: 2\n'


# ---- what still waits


def test_what_still_waits(folders, run):
    name, data = sensed(100, 100)
    (folders.incoming / name).write_bytes(data[:3500])
    (folders.incoming / f'{name}.md5').write_bytes(b'')
    (folders.incoming / '.lock').write_bytes(b'')
    (folders.incoming / 'tomorrow').write_bytes(sensed(86400, 100)[1][:3400])
    (folders.incoming / 'begun').write_bytes(data[:100])
    os.utime(folders.incoming / 'begun', (1465092000, 1465092000))  # 02:00 of the day
    done = run(*folders.words, '--incoming', folders.incoming)
    assert done.status == 3 and 'Whole so far, 4 products: 2 files still to come.' in done.out
    waits = [line for line in done.out.splitlines() if line.startswith('waits')]
    assert waits[0] == 'waits: begun: 100 bytes have come, the last at 2016-06-05T02:00:00Z'
    assert waits[1].startswith(f'waits: {name}: 3,500 of {len(data):,} bytes have come') and len(waits) == 2
    assert run(*folders.words).status == 0
    (folders.accepted / folders.names[1]).unlink()
    assert facts(folders, run, '--incoming', folders.incoming)[0] == 1


def test_a_file_without_permission_waits_too(folders, tmp_path, monkeypatch):
    def forbid(path, *given, **named):
        if str(path).startswith(str(folders.incoming)):
            raise PermissionError(13, 'Permission denied', path)
        return open(path, *given, **named)

    (folders.incoming / 'mine').write_bytes(b'12345')
    os.utime(folders.incoming / 'mine', (1465092000, 1465092000))
    monkeypatch.setattr('warpladle.day.open', forbid, raising=False)
    found = day_of(DAY, str(folders.accepted), str(folders.refused), incoming=str(folders.incoming))
    assert found.state is DayState.WAITING and found.waiting == [('mine', 5, None, '2016-06-05T02:00:00Z')]


def test_folders_within_the_incoming_one_do_not_wait(folders, run):
    assert facts(folders, run, '--incoming', folders.root)[1]['waiting'] == []


def test_products_that_someone_has_sorted(folders, run):
    (folders.accepted / 'morning').mkdir()
    os.rename(folders.accepted / folders.names[0], folders.accepted / 'morning' / folders.names[0])
    status, value = facts(folders, run)
    assert status == 0 and value['entries'][-1]['file'] == f'morning/{folders.names[0]}'


def test_holes_have_not_come(folders, run):
    name, data = sensed(100, 100)
    with open(folders.incoming / name, 'wb') as file:
        file.truncate(1 << 20)
        file.write(data)
    os.utime(folders.incoming / name, (1465092000, 1465092000))
    (waits,) = facts(folders, run, '--incoming', folders.incoming)[1]['waiting']
    assert waits['come'] < len(data) and waits['declared'] is None


# ---- the command


def test_trouble(folders, run):
    nowhere = ['overview', DAY, '--accepted', 'nowhere', '--refused', folders.refused]
    assert run(*nowhere) == (2, '', 'warpladle: nowhere: No such file or directory\n')
    assert run(*folders.words, '--log', 'nolog').status == 2 and run(*folders.words, '--incoming', 'no').status == 2
    for day in ('2016-02-30', '2016-06-05T00:00:00Z', '20160605', 'tomorrow', '1999-12-31'):
        assert run('overview', day, *folders.words[2:]).status == 2, day
    assert run(*folders.words, '--json', '-o', 'day.html').status == 2


def test_what_cannot_be_read_is_an_error(folders):
    def count(paths):
        (first,) = count_files(paths[:1])
        return [first, *(unreadable(path, PermissionError(13, 'Permission denied', path)) for path in paths[1:])]

    found = day_of(DAY, str(folders.accepted), str(folders.refused), count=count)
    assert found.state is DayState.ERROR and '3 files cannot be read' in found.headline
    assert page_of_day(found).decode().count('Permission denied') == 3


def test_today_and_yesterday(folders, run):
    done = run('overview', 'today', *folders.words[2:])
    assert done.status == 3 and 'Whole so far, 0 products: the day is not over.' in done.out
    done = run('overview', 'yesterday', *folders.words[2:])
    assert done.status == 1 and re.match(r'\d{4}-\d\d-\d\d: The day is not whole: no product', done.out)


def test_a_report_takes_what_a_program_is_told(folders, run, tmp_path):
    (tmp_path / 'day.json').write_text(run(*folders.words, '--json').out)
    added = run('report', '--add', 'day.json', '--json').value
    assert added['products'] == 4 and added['numbers'] == run('report', '-r', 'accepted', '--json').value['numbers']


def test_many_jobs_find_the_same(folders, run):
    one, two = (facts(folders, run, '--jobs', jobs)[1] for jobs in (1, 2))
    assert {**one, 'made': ''} == {**two, 'made': ''}


def test_lengths_and_clocks():
    assert [length_text(ms) for ms in (0, 999, 59_499, 60_000, 3_600_000, 86_400_000, -61_000)] == [
        '0 min 00 s',
        '0 min 01 s',
        '0 min 59 s',
        '1 min 00 s',
        '1 h 00 min 00 s',
        '24 h 00 min 00 s',
        '-1 min 01 s',
    ]
    assert clock_text(DAY, '2016-06-05T01:02:03Z') == '01:02:03'
    assert clock_text(DAY, '2016-06-06T00:00:00Z') == '24:00:00'
    assert clock_text(DAY, '2016-06-06T00:00:01Z') == '2016-06-06T00:00:01Z'


# ---- with the intake, as the operator's page has it

OPERATOR = ROOT / 'docs' / 'OPERATOR.md'


def test_what_the_intake_leaves(tmp_path, run):
    folders = Folders(tmp_path)
    for k in range(4):
        name, data = sensed(k * QUARTER, QUARTER)
        (folders.incoming / name).write_bytes(data + b'!' * (k == 2))
    (folders.incoming / 'half').write_bytes(data[:3400])
    words = ['--accepted', folders.accepted, '--refused', folders.refused, '--log', 'intake.log']
    assert run('intake', folders.incoming, *words, '--once', '--settle', '0', '--record').status == 0
    status, value = facts(folders, run, '--log', 'intake.log', '--incoming', folders.incoming)
    assert status == 1 and value['latency']['products'] == 3
    (aside,) = value['aside']
    assert (aside['state'], aside['number'], aside['place']) == ('refused', 16, len(data)) and aside['seen']
    assert [one['name'] for one in value['waiting']] == ['half']
    (folders.incoming / 'half').unlink()
    shown = run(*folders.words, '--incoming', folders.incoming).out.splitlines()
    example = re.search(r'\$ warpladle overview .*\n    (.*)\n    (.*)\n', OPERATOR.read_text())
    assert shown[:2] == list(example.groups())


def test_what_came_again_by_the_intake(folders, run):
    name = folders.names[0]
    words = ['--accepted', folders.accepted, '--refused', folders.refused, '--log', 'intake.log']
    for data in ((folders.accepted / name).read_bytes(), sensed(0, QUARTER, ORBIT_START=7)[1]):
        (folders.incoming / name).write_bytes(data)
        assert run('intake', folders.incoming, *words, '--once', '--settle', '0').status == 0
    done = run(*folders.words, '--log', 'intake.log')
    assert done.status == 1 and f'twice: {name}: came again 1 time with the same bytes' in done.out
    assert 'The day is not whole: 1 in conflict.' in done.out and 'another product of this name' in done.out


def test_the_operators_page():
    """It names its reader first, every option that it shows is one, and every state is in it."""
    text = OPERATOR.read_text()
    assert text.startswith('# For the operator')
    commands = re.findall(r'^    .*warpladle (\w+) (.*)$', text, re.M)
    assert {name for name, _ in commands} >= {'intake', 'overview'}
    for name, words in commands:
        known = {option for action in parser_of(name)._actions for option in action.option_strings}
        assert name in COMMANDS and set(re.findall(r'(?<= )--?[a-z-]+', words)) <= known, words
    for state in set(STATES) - {'unknown'}:
        assert f'| `{state}` |' in text, state


# ---- the page


@pytest.fixture
def page(folders, run, tmp_path):
    """The page of a day with some of everything, and its text."""
    (folders.accepted / folders.names[2]).unlink()
    folders.accept(2 * QUARTER + 125, QUARTER)
    folders.accept(0, 4 * QUARTER, SPACECRAFT_ID='M01')
    folders.put_aside('<b>&"bad"', b'<html>', number=1, place=0, words='found <html>', last_seen='2016-06-05T09:00:00Z')
    name, data = sensed(100, 100)
    (folders.incoming / name).write_bytes(data[:3500])
    event = {'time': '2016-06-05T06:10:00Z', 'event': 'accepted', 'name': folders.names[0]}
    log = folders.log(event, {**event, 'event': 'duplicate'})
    done = run(*folders.words, '--incoming', folders.incoming, '--log', log, '-o', 'day.html')
    assert (done.status, done.err) == (1, '') and done.out.startswith('day.html: The day is not whole: 1 gap, ')
    return tmp_path / 'day.html'


def test_the_page_says_it_all(page, folders):
    text = html.unescape(page.read_text())
    for said in (
        'The day is not whole: 1 gap, 2 min 05 s missing; 1 refused; 1 file still to come.',
        'M02 MHSx xxx 1B',
        'M01 MHSx xxx 1B',
        '4 products, 1 gap of 2 min 05 s, 1 overlap of 2 min 05 s',
        f'<title>{folders.names[0]}, 00:00:00 to 06:00:00</title>',
        '<title>gap of 2 min 05 s</title>',
        '<title>overlap of 2 min 05 s</title>',
        'found <html>',
        'came again 1 time with the same bytes',
        '10 min 00 s',
        sensed(100, 100)[0],
    ):
        assert said in text, said
    assert text.count('class="one"') + text.count('class="two"') == 5 + 3  # of which three are of the key
    assert re.search(r'data-name="records"><span>15</span>', text)  # MDRs of five products


def test_the_page_stands_alone(page):
    text = page.read_text()
    assert not re.search(r'https?:|src=|url\(|@import|<script|<iframe|<object', text)
    assert re.findall(r'href="([^"]*)"', text) == ['data:,'] and "default-src 'none'" in text
    assert '<b>' not in text and '&lt;b&gt;&amp;&quot;bad&quot;' in text


def test_the_page_is_well_formed_and_has_headers(page):
    text = page.read_text()
    for tag in ('table', 'caption', 'thead', 'tbody', 'tr', 'section', 'figure', 'svg', 'details', 'main', 'header'):
        assert len(re.findall(rf'<{tag}[ >]', text)) == text.count(f'</{tag}>') > 0, tag
    assert text.count('<table>') == text.count('<caption>') == text.count('<thead>')
    assert text.count('scope="row"') == sum(
        row.count('<tr>') for row in re.findall(r'<tbody>(.*?)</tbody>', text, re.S)
    )


def luminance(colour):
    """As WCAG 2 has it."""
    parts = [int(colour[at : at + 2], 16) / 255 for at in (1, 3, 5)]
    red, green, blue = (part / 12.92 if part <= 0.03928 else ((part + 0.055) / 1.055) ** 2.4 for part in parts)
    return 0.2126 * red + 0.7152 * green + 0.0722 * blue


def contrast(one, other):
    less, more = sorted((luminance(one), luminance(other)))
    return (more + 0.05) / (less + 0.05)


@pytest.mark.parametrize('scheme', [0, 1])
def test_contrast(scheme):
    """Of texts 4.5 or more, of bars 3 or more: WCAG 2.1, 1.4.3 and 1.4.11."""
    colours = dict(re.findall(r'--(\w+): (#\w{6})', STYLE.split('@media')[scheme]))
    for text in ('ink', 'faint', 'faulty', 'waiting'):
        assert all(contrast(colours[text], colours[ground]) >= 4.5 for ground in ('paper', 'band')), text
    for ground in ('whole', 'faulty', 'waiting'):
        assert contrast(colours['on'], colours[ground]) >= 4.5, ground
    for bar in ('one', 'two', 'gap', 'overlap'):
        assert contrast(colours[bar], colours['band']) >= 3, bar


def test_names_of_any_bytes(folders, run):
    odd = os.fsencode(folders.accepted) + b'/o\xff\x1b\n.eps'
    os.rename(folders.accepted / folders.names[0], odd)
    assert run(*folders.words).status == 0
    done = run(*folders.words, '-o', '-')
    assert done.status == 0 and r'o\udcff\x1b\n.eps, 00:00:00 to 06:00:00' in done.out and '\x1b' not in done.out
    assert facts(folders, run)[1]['entries'][-1]['file'] == 'o\udcff\x1b\n.eps'


def test_an_output_is_kept_unless_forced(page, folders, run):
    before = page.read_bytes()
    assert run(*folders.words, '-o', 'day.html').status == 2 and page.read_bytes() == before
    done = run(*folders.words, '-o', 'day.html', '--force')
    assert done.status == 1 and page.read_bytes() != before


# ---- in a real browser


@pytest.fixture
def browser(tmp_path):
    """Debian's chromium without a window: what it prints, of a page, with some words."""
    program = shutil.which('chromium')
    if program is None:
        pytest.skip('chromium is not installed here (Debian: chromium)')
    fixed = ['--headless', '--disable-gpu', '--hide-scrollbars', f'--user-data-dir={tmp_path / "profile"}']
    rooted = ['--no-sandbox'] if os.geteuid() == 0 else []

    def show(address, *words):
        done = subprocess.run([program, *fixed, *rooted, *words, str(address)], capture_output=True)
        assert done.returncode == 0, done.stderr
        return done.stdout.decode()

    return show


DARK = '--blink-settings=preferredColorScheme=0'
GAP = {'light': (0xC6, 0x28, 0x28), 'dark': (0xFF, 0x6B, 0x63)}


@pytest.mark.parametrize('width', [1280, 400])
@pytest.mark.parametrize('scheme', ['light', 'dark'])
def test_screenshots(page, browser, tmp_path, width, scheme):
    """The page is as wide as the window, light or dark as the reader has it, and a gap of two minutes is seen."""
    image = pytest.importorskip('matplotlib.image', reason='matplotlib is not installed (Debian: python3-matplotlib)')
    picture = tmp_path / f'{width}-{scheme}.png'
    dark = [DARK] if scheme == 'dark' else []
    browser(page.as_uri(), f'--window-size={width},2000', f'--screenshot={picture}', *dark)
    pixels = (image.imread(picture)[:, :, :3] * 255).round().astype(int)
    assert pixels.shape == (2000, width, 3)
    assert (pixels[0, 0].min() > 240) if scheme == 'light' else (pixels[0, 0].max() < 40)
    place = (pixels == GAP[scheme]).all(axis=2)
    columns = place.sum(axis=0) >= 20  # a gap is as high as its line
    assert columns[int(0.4 * width) : int(0.6 * width)].sum() >= 2


def test_its_text_is_found_by_a_browser(page, browser):
    found = html.unescape(browser(page.as_uri(), '--dump-dom'))
    assert 'The day is not whole: 1 gap, 2 min 05 s missing; 1 refused; 1 file still to come.' in found
    assert (
        found.count('<table>') == page.read_text().count('<table>') and '<title>2016-06-05: not whole</title>' in found
    )


FARTHEST = '''<script>
document.documentElement.style.width = "%dpx"
const found = [...document.querySelectorAll("body, body *:not(svg *, thead *)")]
document.title = `right ${Math.ceil(Math.max(...found.map(one => one.getBoundingClientRect().right)))}`
</script></body>'''


@pytest.mark.parametrize('width', [1280, 400])
def test_nothing_is_wider_than_the_window(page, browser, tmp_path, width):
    """A copy with a script of the test's own, which writes how far to the right its parts reach. A window of chromium
    is at least 500 pixels wide here, so that the page itself is made narrow."""
    text = re.sub('<meta http-equiv[^>]*>', '', page.read_text()).replace('</body>', FARTHEST % width)
    (tmp_path / 'copy.html').write_text(text.replace('<details>', '<details open>'))
    found = browser((tmp_path / 'copy.html').as_uri(), f'--window-size={width},2000', '--dump-dom')
    right = int(re.search('<title>right (.*)</title>', found)[1])
    assert width - 100 < right <= width


def test_no_request_leaves_the_page(page, browser):
    asked = []

    class Handler(SimpleHTTPRequestHandler):
        def log_message(self, *_):
            asked.append(self.path)

    with ThreadingHTTPServer(('127.0.0.1', 0), partial(Handler, directory=str(page.parent))) as server:
        threading.Thread(target=server.serve_forever, daemon=True).start()
        found = browser(f'http://127.0.0.1:{server.server_address[1]}/day.html', '--dump-dom')
        server.shutdown()
    assert 'The day is not whole' in found and asked == ['/day.html']
