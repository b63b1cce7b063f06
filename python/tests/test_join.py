"""The join of a pass: every vector, what a refusal says, and any number of files."""
import os
import resource
import subprocess
import sys
from functools import reduce

import pytest
from conftest import said
from making import DAY, granule, product, record

from warpladle import Product, Refused, join_all

PASS = 'pass/products.bin'


def bytes_of(answer):
    return answer if isinstance(answer, list) else bytes(answer)


def raised(call, *given, **options):
    with pytest.raises(Refused) as caught:
        call(*given, **options)
    return caught.value


def test_every_pair_of_the_vectors(given):
    seen = set()
    for case in given.lines('pass/pass.jsonl'):
        if 'first' not in case:
            continue
        first, second = (Product(given.products(PASS)[case[key]]) for key in ('first', 'second'))
        for identical, expected in ((False, case['answer']), (True, case['plain'])):
            answer = bytes_of(said(lambda first=first, second=second, i=identical: first.join(second, identical=i)))
            wanted = given.products(PASS)[case['output']] if expected[0] == 'written' else expected
            assert answer == wanted, (case['name'], identical)
        seen.add(
            (
                case['answer'][0],
                case['answer'][1] if case['answer'][0] == 'refused' else 0,
                case['plain'][1] if case['plain'][0] == 'refused' else 0,
            )
        )
    assert {('refused', 26, 26), ('written', 0, 26), ('refused', 27, 27), ('written', 0, 27), ('written', 0, 0)} <= seen


def test_every_pass_of_the_vectors(given, tmp_path):
    passes = 0
    for n, case in enumerate(given.lines('pass/pass.jsonl')):
        if 'granules' not in case or 'output' not in case:
            continue
        granules, expected = [Product(given.products(PASS)[k]) for k in case['granules']], given.products(PASS)[
            case['output']
        ]
        folded = said(lambda granules=granules: bytes(reduce(Product.join, granules)))
        rounds = said(lambda granules=granules: bytes(join_all(granules)))
        for answer in (folded, rounds):
            assert answer == expected or isinstance(answer, list), case['name']
        files = []
        for k, one in enumerate(granules):
            files.append(tmp_path / f'{n}-{k}.eps')
            files[-1].write_bytes(bytes(one))
        assert said(lambda files=files: bytes(join_all(files))) == rounds
        passes += rounds == expected
    assert passes == sum('granules' in case for case in given.lines('pass/pass.jsonl')) > 10


def test_all_cases_are_there(given):
    assert len(given.lines('pass/pass.jsonl')) == 283


# ---- what a refusal says


def test_26_says_which_lines_differ():
    first, second = Product(granule(0)), Product(granule(1, INSTRUMENT_ID='AMSA', SPACECRAFT_ID='M01'))
    refused = raised(first.join, second)
    assert refused.number == 26 and refused.inputs == ('the first', 'the second')
    assert (
        refused.words
        == "expected two products of one kind, found INSTRUMENT_ID 'MHSx' of the first and 'AMSA' of the second, "
        "SPACECRAFT_ID 'M02' of the first and 'M01' of the second"
    )


def test_26_says_which_record_differs_and_from_which_byte_on():
    one, other = granule(0), granule(1)
    at = Product(other).row(2).start
    changed = bytearray(other)
    changed[at + 20 + 7] ^= 1
    refused = raised(Product(one).join, Product(bytes(changed)))
    kind = 'number 1 of group 9, subclass 1'
    assert (
        refused.words
        == f'expected two products of one kind, found GIADR 1 of the first ({kind}), at {at}, and GIADR 1 of the second'
        f' ({kind}), at {at}, which differ from byte 27 of the record on (byte 7 of the payload)'
    )
    changed = bytearray(other)
    changed[at + 3] = 9
    assert raised(Product(one).join, Product(bytes(changed))).words.endswith(
        'which differ from byte 3 of the record on (the version)'
    )


def test_26_says_which_record_has_none_beside_it():
    fixed = [record((2, 9, 0), b'S'), record((5, 9, 1), b'G'), record((5, 9, 2), b'H')]
    one, other = (
        Product(product(records + [record((8, 9, 2), b'', (DAY, at), (DAY, at))]))
        for records, at in ((fixed, 0), (fixed[:2], 1000))
    )
    assert raised(one.join, other).words.endswith(
        'found GIADR 2 of the first (number 1 of group 9, subclass 2), at 3349, with none beside it in the second'
    )
    assert raised(other.join, one).number == 26


def test_26_of_the_join_of_request_seven_says_that_it_was_asked_for():
    first, second = Product(granule(0)), Product(granule(1))
    assert first.join(second).verdict == 41  # with two pointers
    refused = raised(first.join, second, identical=True)
    assert (
        refused.number == 26 and 'found SPHR 1 of the first (number 1 of group 9, subclass 0), at 3307' in refused.words
    )
    assert 'which differ from byte 11 of the record on (the start time)' in refused.words
    assert 'only the times of headers differ' in refused.words and '--identical was asked for' in refused.words


def shifted(millis):
    """A granule that starts so many milliseconds after granule 0 stops."""
    at = 1000 * 3780 + millis
    return Product(
        product(
            [*[granule(0)[3307:3340]], *[granule(0)[3340:3390]], record((8, 9, 2), b'', (DAY, at), (DAY, at + 1000))],
            INSTRUMENT_ID='MHSx',
            PROCESSING_LEVEL='1B',
            SPACECRAFT_ID='M02',
        )
    )


def test_27_says_by_how_much_at_which_times_of_which_files(tmp_path):
    first = Product(granule(0))
    assert first.join(shifted(0)).verdict and first.join(shifted(-1)).verdict
    refused = raised(first.join, shifted(-2))
    assert (refused.number, refused.inputs) == (27, ('the first', 'the second'))
    assert (
        refused.words
        == 'expected the second to start at 2016-06-05T01:03:00.000Z or later, or 1 ms before, where the first stops, '
        'found 2016-06-05T01:02:59.998Z, 2 ms before'
    )
    names = [tmp_path / f'{k}.eps' for k in range(4)]
    for name, k in zip(names, (0, 1, 3, 2)):
        name.write_bytes(granule(k))
    refused = raised(join_all, names)
    assert (
        refused.inputs == (str(names[2]), str(names[3]))
        and f'where {names[2]} stops' in refused.words
        and '360000 ms before' in refused.words
    )


def test_27_across_a_span_names_the_files_themselves(tmp_path):
    names = [tmp_path / f'{k}.eps' for k in range(3)]
    for name, k in zip(names, (0, 2, 1)):
        name.write_bytes(granule(k))
    refused = raised(join_all, names)
    assert refused.inputs == (str(names[1]), str(names[2]))


def test_a_leap_second_counts_for_27():
    """The last millisecond of 2016's leap second and the first of 2017 are a millisecond apart."""

    def at(start, stop):
        return Product(product([record((8, 9, 2), b'', start, stop)]))

    assert at((6209, 86_400_000), (6209, 86_400_999)).join(at((6210, 0), (6210, 5))).verdict == 4
    assert at((6209, 86_400_000), (6210, 1)).join(at((6210, 0), (6210, 5))).verdict == 4
    assert raised(at((6209, 86_400_000), (6210, 1)).join, at((6209, 86_400_999), (6210, 5))).number == 27


def test_the_refused_one_of_many_is_named(tmp_path):
    names = [tmp_path / f'{k}.eps' for k in range(5)]
    for k, name in enumerate(names):
        name.write_bytes(granule(k)[:-1] if k == 3 else granule(k))
    refused = raised(join_all, names)
    assert (
        refused.number == 17
        and refused.inputs == (str(names[3]),)
        and refused.words.startswith(f'{names[3]}: expected ')
    )


def test_the_end_of_a_join_is_the_first_s():
    first = granule(0, SUBSAT_LATITUDE_END=46180, SUBSAT_LONGITUDE_END=-122987, ORBIT_END=50100)
    second = granule(1, SUBSAT_LATITUDE_END=-12345, SUBSAT_LONGITUDE_END=1, ORBIT_END=50101)
    joined = Product(first).join(Product(second))
    assert joined.ground_point('end') == Product(first).ground_point('end') and joined.field('ORBIT_END') == 50100
    assert joined.field('SENSING_END') == Product(second).field('SENSING_END')
    assert 'first product' in Product.ground_point.__doc__ and 'ORBIT_END' in Product.join.__doc__


def test_names_and_products_may_be_mixed(tmp_path):
    path = tmp_path / '1.eps'
    path.write_bytes(granule(1))
    kept = Product(granule(0))
    whole = join_all([kept, str(path)])
    assert whole.verdict == 41 and kept.verdict == 21  # the caller's product is not closed
    with pytest.raises(ValueError):
        join_all([kept])
    with pytest.raises(FileNotFoundError):
        join_all([kept, tmp_path / 'none'])


# ---- many files


def limited():
    resource.setrlimit(resource.RLIMIT_NOFILE, (1024, 1024))


@pytest.fixture(scope='module')
def five_thousand(tmp_path_factory):
    folder = tmp_path_factory.mktemp('many')
    for k in range(5000):
        (folder / f'{k:04}.eps').write_bytes(granule(k, length=4, step=4, mdr=20))
    return folder


def run(environment, *words, **options):
    return subprocess.run(
        [sys.executable, '-B', '-m', 'warpladle', *map(str, words)],
        env=environment,
        capture_output=True,
        text=True,
        preexec_fn=limited,
        **options,
    )


def test_5000_files_are_joined_with_1024_descriptors(five_thousand, environment, tmp_path):
    done = run(environment, 'join', '-r', five_thousand, '-o', tmp_path / 'pass.eps')
    assert done.returncode == 0, done.stderr
    joined = Product(tmp_path / 'pass.eps')
    assert joined.field('TOTAL_MDR') == 5000 and len(joined) == 1 + 1 + 2 + 1 + 5000
    assert os.listdir(tmp_path) == ['pass.eps']
    done = run(
        environment,
        'join',
        '--files-from',
        '-',
        '-0',
        '-o',
        tmp_path / 'three.eps',
        input='\0'.join(str(five_thousand / f'{k:04}.eps') for k in range(3)),
    )
    assert done.returncode == 0 and Product(tmp_path / 'three.eps').field('TOTAL_MDR') == 3


def test_5000_files_are_counted_with_1024_descriptors(five_thousand, environment):
    done = run(environment, 'report', '-r', five_thousand)
    assert done.returncode == 0, done.stderr
    assert done.stdout.splitlines()[0] == 'products 5000, accepted 5000, refused 0'
    done = run(environment, 'check', '-q', '-r', five_thousand)
    assert (done.returncode, done.stdout, done.stderr) == (0, '', '')
