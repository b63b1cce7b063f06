"""Cuts, joins, checks of cuts, humidity files, reports and replays, against the vectors."""
import pickle
import struct
from functools import partial, reduce
from operator import add

import pytest
from conftest import in_pieces, said

from warpladle import Product, Refused, Report, Time, join_all, read_uth, record_arrival, replay


def as_time(pair):
    return None if pair is None else Time(*pair)


def bytes_of(answer):
    return answer if isinstance(answer, list) else bytes(answer)


def output(given, case):
    if case['answer'][0] == 'refused':
        return case['answer']
    return in_pieces(case['output_pieces']) if 'output_pieces' in case else given.products()[case['output']]


def test_every_cut(given):
    seen = set()
    for case in given.lines('requests/three.jsonl'):
        product = Product(given.product(case))
        try:
            answer = bytes_of(said(product.cut, as_time(case['first']), as_time(case['last'])))
        except OverflowError:
            assert case['answer'] == ['refused', 25, 0]
            continue
        assert answer == output(given, case), case['name']
        seen.add(case['answer'][1] if case['answer'][0] == 'refused' else 0)
    assert {0, 25, 28, 17} <= seen


def test_every_join(given):
    seen = set()
    for case in given.lines('requests/seven.jsonl'):
        if 'three' in case:
            continue
        first, second = (Product(given.product(case, key)) for key in ('first', 'second'))
        answer = said(partial(first.join, identical=True), second)
        assert bytes_of(answer) == output(given, case) if 'output' in case else answer == case['answer'], case['name']
        seen.add(case['answer'][1] if case['answer'][0] == 'refused' else 0)
    assert {0, 26, 27, 28} <= seen


def test_three_joined_either_way(given, tmp_path):
    folds = 0
    for n, case in enumerate(given.lines('requests/seven.jsonl')):
        if 'three' not in case or 'output' not in case:
            continue
        a, b, c = (Product(given.products()[k]) for k in case['three'])
        expected = given.products()[case['output']]
        assert bytes(a.join(b).join(c)) == bytes(a.join(b.join(c))) == expected
        assert bytes(a.join(b, identical=True).join(c, identical=True)) == expected
        for identical, out in ((False, tmp_path / f'{n}'), (True, tmp_path / f'{n}i')):
            assert bytes(join_all([a, b, c], out, identical=identical)) == out.read_bytes() == expected
        folds += 1
    assert folds > 5


def test_every_check_of_a_cut(given):
    seen = set()
    for case in given.lines('requests/ten.jsonl'):
        original, cut = (Product(given.products()[case[key]]) for key in ('original', 'cut'))
        place, yes = said(cut.mismatch_with, original), said(cut.is_cut_of, original)
        seen.add(case['answer'][0])
        if case['answer'][0] == 'refused':
            assert place == yes == case['answer']
        else:
            assert (yes, place) == ((True, None) if case['answer'] == ['yes'] else (False, case['answer'][1])), case[
                'name'
            ]
    assert seen == {'yes', 'no', 'refused'}


def test_the_refused_one_of_two_is_named(samples):
    good = Product(samples / 'rich.eps')
    short = Product(bytes(good)[:-1])
    for call, words in (
        (lambda: good.join(short), 'the second: expected 4356 bytes, as declared, found 4355'),
        (lambda: short.join(good), 'the first: expected 4356'),
        (lambda: good.is_cut_of(short), 'the original: '),
        (lambda: short.is_cut_of(good), 'the cut: '),
    ):
        with pytest.raises(Refused) as caught:
            call()
        assert caught.value.number == 17 and caught.value.words.startswith(words)


def bits(value):
    return None if value != value else struct.pack('>f', value).hex()


def test_every_humidity_file(given, tmp_path):
    path, seen = tmp_path / 'file.uth', set()
    for case in given.lines('requests/eleven.jsonl'):
        data = given.product(case, 'file')
        path.write_bytes(data)
        answer = said(read_uth, path)
        seen.add(case['answer'][1] if case['answer'][0] == 'refused' else 0)
        if case['answer'][0] == 'refused':
            assert answer == said(read_uth, data) == case['answer'], case['name']
            with pytest.raises(Refused, match='expected .* found'):
                read_uth(path)
        else:
            assert [[b['line'], b['column'], bits(b['uth']), bits(b['csr'])] for b in answer] == case['answer'][
                1
            ], case['name']
    assert seen == {0, 30, 31, 32, 33, 34, 35}


def test_every_report(given):
    seen = set()
    for case in given.lines('requests/twelve.jsonl'):
        report = Report(map(int, case['before'] or ()))
        if 'times' in case:
            answers = [
                said(report.add, given.products()[product]) for product, times in case['times'] for _ in range(times)
            ]
            assert told(answers[-1]) == case['last_answer'], case['name']
        else:
            answers = [said(report.add, given.products()[k]) for k in case['products']]
            assert list(map(told, answers)) == case['answers'], case['name']
        assert report.numbers == list(map(int, case['report'])), case['name']
        seen |= {told(answer)[0] + str(told(answer)[1]) for answer in answers}
    assert {'refused36', 'added0', *(f'added{n}' for n in range(1, 18))} <= seen


def told(answer):
    if isinstance(answer, list):
        return answer
    return ['added', 0, 0] if answer is None else ['added', answer.number, answer.place]


def one(given, k):
    report = Report()
    report.add(given.products()[k])
    return report


def test_a_report_is_the_sum_of_its_parts(given):
    sums = 0
    for case in given.lines('requests/twelve.jsonl'):
        if case['before'] is None and 'products' in case and case['products'] and 'refused' not in str(case['answers']):
            parts = [one(given, k) for k in case['products']]
            assert sum(parts).numbers == reduce(add, reversed(parts)).numbers == list(map(int, case['report']))
            sums += 1
    assert sums > 20


def test_merging_past_a_limit_is_36_and_changes_nothing():
    full, small = Report([4096] + [0] * 37), Report([1] + [0] * 37)
    assert said(lambda: full + small) == ['refused', 36, 0]
    assert full.numbers[0] == 4096 and small.numbers[0] == 1
    wide = Report([1, 2**64 - 1] + [0] * 36)
    assert said(lambda: wide + wide) == ['refused', 36, 0]
    with pytest.raises(ValueError):
        Report([1, 2, 3])
    with pytest.raises(TypeError):
        full + 1


def test_a_report_travels(samples):
    report = Report()
    report.add(samples / 'rich.eps')
    refused = report.add((samples / 'rich.eps').read_bytes()[:-1])
    assert refused.number == 17 and pickle.loads(pickle.dumps(refused)).words == refused.words
    there = pickle.loads(pickle.dumps(report))
    assert there == report and there is not report
    assert report.as_dict() == {
        'products': 2,
        'accepted': 1,
        'refused': {17: 1},
        'records': {'MPHR': 1, 'SPHR': 1, 'IPR': 5, 'GEADR': 1, 'GIADR': 1, 'VEADR': 1, 'VIADR': 1, 'MDR': 4},
        'bytes': {'MPHR': 3307, 'SPHR': 61, 'IPR': 135, 'GEADR': 32, 'GIADR': 60, 'VEADR': 27, 'VIADR': 53, 'MDR': 681},
        'gap_ms': 21000,
        'overlap_ms': 0,
        'undefined_pairs': 0,
    }


def test_every_record_of_an_arrival_and_every_replay(given):
    seen = set()
    for case in given.lines('requests/thirteen.jsonl'):
        data = given.product(case)
        if case['op'] == 'record':
            answer = said(record_arrival, case['lengths'], data)
            assert (answer if isinstance(answer, list) else ['record', answer.hex()]) == case['answer'], case['name']
        else:
            answer = said(replay, bytes.fromhex(case['record']), Product(data))
            expected = {'none': None, 'part': case['answer'][-1]}.get(case['answer'][0], case['answer'])
            assert answer == expected, case['name']
        seen.add(case['answer'][0] + (str(case['answer'][1]) if case['answer'][0] == 'refused' else ''))
    assert seen == {'record', 'none', 'part', 'refused37', 'refused38', 'refused39'}
