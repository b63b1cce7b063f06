"""A refusal of each number, 1 to 39, seen through the module, with its place and words."""
import pickle

import pytest

from warpladle import (
    Product,
    Refused,
    Report,
    Scaled,
    Time,
    Watch,
    field_number,
    read_header,
    read_uth,
    record_arrival,
    replay,
    round_scaled,
)
from warpladle.library import ask
from warpladle.refusal import MEANING


def raised(call, *given):
    with pytest.raises(Refused) as caught:
        call(*given)
    return caught.value


def of_the_judge(number):
    """The first product of the judge's vectors that is refused with it."""

    def call(given, samples):
        lines = [line.split() for line in given.text('judge/expected.txt')]
        verdicts = [line[1:] for line in lines if line[0] == 'finished']
        k, place = next((k, int(v[2])) for k, v in enumerate(verdicts) if v[:2] == ['refused', str(number)])
        refused = raised(lambda: Product(given.products('judge/products.bin')[k]).verdict)
        assert refused.place == place
        return refused

    return call


def of_a_request(name, number, call):
    """The first line of a request's vectors that is refused with it."""

    def found(given, samples):
        case = next(
            case
            for case in given.lines(f'requests/{name}.jsonl')
            if case.get('answer', [0])[:2] == ['refused', number] and 'pieces' not in case
        )
        refused = raised(call, given, case)
        assert refused.place == case['answer'][2]
        return refused

    return found


def sixty_fifth(given, samples):
    case = next(case for case in given.lines('requests/one.jsonl') if case['answers'][-1][:2] == ['refused', 24])
    refused = raised(Watch().feed, given.product(case))
    assert refused.place == case['answers'][-1][2]
    return refused


def cut(given, case):
    return Product(given.product(case)).cut(
        *(None if end is None else Time(*end) for end in (case['first'], case['last']))
    )


def join(given, case):
    return Product(given.product(case, 'first')).join(Product(given.product(case, 'second')), identical=True)


def humidity(given, case):
    return read_uth(given.product(case, 'file'))


def full(given, samples):
    return raised(Report([4096] + [0] * 37).add, samples / 'rich.eps')


def replayed(given, case):
    return (
        replay(bytes.fromhex(case['record']), given.product(case))
        if case['op'] == 'replay'
        else record_arrival(case['lengths'], given.product(case))
    )


EACH = {
    **{n: of_the_judge(n) for n in range(1, 18)},
    18: lambda given, samples: raised(
        ask, 'cut', bytes(Product(samples / 'rich.eps')), 1, 6000, 0, 1, 6000, 0, bytearray(100)
    ),
    19: lambda given, samples: raised(Product(samples / 'rich.eps').record, 15),
    20: lambda given, samples: raised(read_header, b'short'),
    21: lambda given, samples: raised(round_scaled, Scaled(1, 99), 0),
    22: lambda given, samples: raised(field_number, 'HUMIDITY'),
    23: lambda given, samples: raised(Product(bytes(65537)).library_listing),
    24: sixty_fifth,
    25: of_a_request('three', 25, cut),
    26: of_a_request('seven', 26, join),
    27: of_a_request('seven', 27, join),
    28: of_a_request('seven', 28, join),
    29: of_a_request('nine', 29, lambda given, case: Product(given.product(case)).level0()),
    **{n: of_a_request('eleven', n, humidity) for n in range(30, 36)},
    36: full,
    **{n: of_a_request('thirteen', n, replayed) for n in (37, 38, 39)},
}
QUOTED = {*range(1, 18), 19, 22, 25, 26, 27, 29, *range(30, 36), 37, 38, 39}


def test_each_number_is_here():
    assert sorted(EACH) == sorted(MEANING) == list(range(1, 40))


@pytest.mark.parametrize('number', EACH)
def test_refusal(number, given, samples):
    refused = EACH[number](given, samples)
    assert refused.number == number and isinstance(refused.place, int)
    assert str(refused) == f'refused {number} {refused.place}: {refused.words}'
    assert ('expected ' in refused.words and ' found ' in refused.words) == (number in QUOTED)
    assert refused.as_dict() == {'number': number, 'place': refused.place, 'words': refused.words}
    again = pickle.loads(pickle.dumps(refused))
    assert (again.number, again.place, again.words) == (number, refused.place, refused.words)


def test_17_has_both_lengths(samples):
    data = bytes(Product(samples / 'rich.eps'))
    assert raised(lambda: Product(data[:4000]).verdict).words == 'expected 4356 bytes, as declared, found 4000'
    assert raised(lambda: Product(data[:100]).verdict).words == 'expected 3307 bytes of main header, found 100'


def test_a_missing_file_is_python_s_own_error(tmp_path):
    with pytest.raises(FileNotFoundError):
        Product(tmp_path / 'none.eps')
    with pytest.raises(IsADirectoryError):
        Product(tmp_path)
    with pytest.raises(TypeError):
        Product(3307)


def test_an_empty_file_is_refused_as_no_bytes_are(tmp_path):
    (tmp_path / 'empty').touch()
    assert (
        str(raised(lambda: Product(tmp_path / 'empty').verdict))
        == 'refused 17 0: expected 3307 bytes of main header, found 0'
    )
