"""The verdict, the rows, the listing, Level 0 and the watch, against the vectors."""
import shutil
from io import BytesIO

import numpy
import pytest
from conftest import said

from warpladle import Product, Refused, Waiting, Watch


def blocks(given):
    """Each product of the judge's vectors with its lines."""
    lines = []
    for line in given.text('judge/expected.txt'):
        if line.startswith('product '):
            lines.append([])
        else:
            lines[-1].append(line.split())
    return zip(given.products('judge/products.bin'), lines, strict=True)


def test_the_verdict_on_every_product(given):
    seen = set()
    for data, ((_, word, *numbers), *_) in blocks(given):
        answer = said(lambda: Product(data).verdict)
        assert answer == (int(numbers[0]) if word == 'accepted' else ['refused', *map(int, numbers)])
        seen.add(answer[1] if isinstance(answer, list) else 0)
    assert seen == set(range(18))


def test_the_words_of_every_refusal_of_a_product(given):
    for data, ((_, word, *numbers), *_) in blocks(given):
        if word == 'refused':
            with pytest.raises(Refused) as caught:
                Product(data).verdict
            assert caught.value.words.startswith('expected ') and ', found ' in caught.value.words


def test_the_watch_changes_its_answer_where_the_arrival_does(given):
    many = 0
    for data, (_, *changes) in blocks(given):
        watch, fed = Watch(), 0
        for _, length, *words in changes:
            for end in (int(length) - 1, int(length)):
                if end <= fed and end != 0:
                    continue
                answer = said(watch.feed, data[fed:end])
                fed = end
            expected = ['refused', *map(int, words[1:])] if words[0] == 'refused' else Waiting(*map(int, words[1:]))
            if answer[:2] == ['refused', 24]:
                many += 1
                break  # a 65th pointer, of which the arrival judge does not speak
            assert answer == expected
    assert many < 5


def test_the_watch_on_every_line(given):
    for case in given.lines('requests/one.jsonl'):
        data, at, watch = given.product(case), 0, Watch()
        for length, (word, a, b) in zip(case['lengths'], case['answers'], strict=True):
            answer = said(watch.feed, data[at : at + length])
            assert answer == (['refused', a, b] if word == 'refused' else Waiting(a, b)), case['name']
            at += length
        assert watch.fed == len(data)


def test_leap_seconds_in_products(given):
    cases = [case for case in given.lines('requests/two.jsonl') if 'product' in case]
    assert len(cases) > 50
    for case in cases:
        word, *numbers = case['finished']
        assert said(lambda: Product(given.product(case)).verdict) == (
            numbers[0] if word == 'accepted' else case['finished']
        )


@pytest.mark.parametrize(
    'name, ask', [('six', lambda p: p.rows), ('nine', Product.level0), ('nine_dummy', Product.level0)]
)
def test_rows(given, name, ask):
    kinds = set()
    for case in given.lines(f'requests/{name}.jsonl'):
        product = Product(given.product(case))
        answer = said(ask, product)
        kinds.add(case['answer'][0])
        if case['answer'][0] == 'rows':
            assert [list(row) for row in answer.tolist()] == case['answer'][1], case['name']
            assert not answer.flags.writeable
        else:
            assert answer == case['answer'], case['name']
    assert kinds == ({'rows'} if name == 'nine_dummy' else {'rows', 'refused'})


def test_rows_too_few_for_the_records_are_refused_with_18_and_kept(given):
    from warpladle.library import ask
    from warpladle.product import ROW

    data = given.product(given.lines('requests/six.jsonl')[0])
    for name in ('rows', 'level0'):
        lent = numpy.full(6, 7, ROW)
        answer = said(ask, name, data, lent)
        assert answer in (['refused', 18, 7], ['refused', 29, 3361])
        assert set(lent.tolist()) == {(7,) * 7}


def test_both_listings_are_the_same(given):
    compared = 0
    for data, ((_, word, *_), *_) in blocks(given):
        product = Product(data)
        made, library = said(product.listing), said(product.library_listing)
        assert made == library
        compared += word == 'accepted'
    assert compared > 10


def test_the_paper_s_listing(samples):
    assert Product(samples / 'example.eps').listing() == 'records 2\n0 1 0 0 2 3307\n3307 8 13 1 1 21\n'


def test_extent(given):
    for data, ((_, word, *numbers), *_) in blocks(given):
        if word == 'accepted':
            assert Product(data).extent == int(numbers[0])
            assert Product(data[:-1]).extent is None
        elif numbers[0] not in ('16', '17'):
            assert said(lambda: Product(data).extent) == ['refused', *map(int, numbers)]


def test_a_watch_is_a_file_to_write_to(samples):
    data = (samples / 'rich.eps').read_bytes()
    with Watch() as watch:
        shutil.copyfileobj(BytesIO(data), watch, 1000)
        assert watch.waiting == Waiting(15, 4356) and watch.whole and watch.declared == 4356
    with pytest.raises(Refused) as caught:
        shutil.copyfileobj(BytesIO(data + b'!'), Watch(), 1000)
    assert str(caught.value) == 'refused 16 4356: expected 4356 bytes, as declared, found 4357 so far'


def test_a_watch_is_not_whole_before_its_last_byte(samples):
    data, watch = (samples / 'rich.eps').read_bytes(), Watch()
    assert watch.feed(b'') == Waiting(0, 0) and watch.declared is None and not watch.whole
    watch.feed(data[:3306])
    assert watch.declared is None
    watch.feed(data[3306:-1])
    assert watch.declared == 4356 and not watch.whole
    assert watch.feed(memoryview(data)[-1:]) == Waiting(15, 4356) and watch.whole
