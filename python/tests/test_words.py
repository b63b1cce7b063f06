"""Words that help: what a refusal says, `explain`, `check --all`, `compare`, `info`, `list`, `fields`, and what a user
is warned of."""
import pytest
from conftest import ROOT
from making import DAY, UNDEFINED, granule, pointer, product, record, with_values

from warpladle import Product, Refused, Time
from warpladle.explanations import CAUSES, MEND, PLACES
from warpladle.refusal import MEANING
from warpladle.survey import find_faults

WINDOW = '2016-06-05', '2016-06-06'


def words_of(data):
    with pytest.raises(Refused) as caught:
        Product(data).verdict
    return caught.value


# ---- refusals


def test_13_names_the_record_and_its_neighbours():
    fixed = [record((5, 9, 1), bytes(50)), record((8, 9, 2), bytes(10))]
    data = product([pointer((5, 9, 1), 3334 + 61), *fixed])
    refused = words_of(data)
    assert (refused.number, refused.place) == (13, 3307)
    assert (
        refused.words
        == 'expected a record that starts at 3395, where the pointer points, found the middle of the GIADR that starts'
        ' at 3334 (70 bytes), 61 after its start; the next record starts at 3404'
    )


def test_10_has_times_as_people_write_them():
    refused = words_of(product([record((8, 9, 2), b'', (9816, 21_626_670), (9816, 21_626_669))]))
    assert (
        refused.number == 10
        and refused.words
        == 'expected two times, the start not after the stop, found start 2026-11-16T06:00:26.670Z, '
        'stop 2026-11-16T06:00:26.669Z, in the header of MDR 1'
    )
    refused = words_of(product([record((8, 9, 2), b'', (9816, 99_999_999), UNDEFINED)]))
    assert 'found start day 9816 millisecond 99999999, which is no time, stop undefined' in refused.words


def test_25_has_times_as_people_write_them(rich):
    with pytest.raises(Refused, match='found 2016-06-05T00:00:20.000Z to 2016-06-05T00:00:08.000Z'):
        Product(rich).cut('2016-06-05T00:00:20Z', '2016-06-05T00:00:08Z')


def test_3_says_that_digits_stand_at_the_right(rich):
    data = rich.read_bytes()
    at = data.index(b'TOTAL_MDR ') + 32
    refused = words_of(data[:at] + b'4     ' + data[at + 6 :])
    assert (
        refused.number == 3
        and refused.words
        == "expected an unsigned number for TOTAL_MDR, found '4     '; digits stand at the right, with spaces before"
        " them"
    )


@pytest.mark.parametrize(
    'first, what',
    [
        (b'<!DOCTYPE html><html>', 'HTML'),
        (b'\n<HTML><head>', 'HTML'),
        (b'\x1f\x8b\x08\0', 'gzip'),
        (b'BZh91AY', 'bzip2'),
        (b'\0' * 30, 'zeros'),
        (b'PRODUCT_NAME                  = AVHR', 'without the 20 bytes'),
    ],
)
def test_what_is_no_product_is_recognised(first, what, run, tmp_path):
    (tmp_path / 'odd').write_bytes(first * 200)
    done = run('check', 'odd')
    assert (
        done.status == 1
        and done.out.startswith('odd: refused 1 0: ')
        and what in done.out.split('; it begins with ')[1]
    )


def test_a_humidity_file_is_recognised(run, samples):
    assert 'which is a humidity file: read it with `uth`' in run('check', samples / 'humidity.uth').out


# ---- explain


def test_each_number_is_explained(run):
    assert set(PLACES) == set(CAUSES) == set(MEND) == set(MEANING) == set(range(1, 40))
    for number in (1, 13, 17, 26, 39):
        done = run('explain', number)
        assert (
            done.status == 0
            and done.out.startswith(f'{number} ')
            and all(f'\n{word}' in done.out for word in ('means', 'place', 'causes', 'mend'))
        )
        assert ' '.join(done.out.split()).find(CAUSES[number][:40]) > 0
    assert (
        run('explain', '40') == (2, '', 'warpladle: there is no refusal 40: they are 1 to 39\n')
        and run('explain', '0').status == 2
    )


def test_a_file_is_explained(run, tmp_path):
    fixed = [record((5, 9, 1), bytes(50)), record((8, 9, 2), bytes(10))]
    (tmp_path / 'bad.eps').write_bytes(product([pointer((5, 9, 1), 3334 + 61), *fixed]))
    done = run('explain', 'bad.eps')
    assert done.status == 1
    for text in (
        'bad.eps: refused 13 3307: expected a record that starts at 3395',
        '13 POINTS_INSIDE',
        'records there:',
        '  MPHR 1 at 0 (3307 bytes, group GENERIC',
        '> IPR 1 at 3307 (27 bytes',
        (
            '  GIADR 1 at 3334 (70 bytes, group MHS, subclass 1, version 1, 2016-06-05T00:00:00.000Z to'
            ' 2016-06-05T00:00:01.000Z)'
        ),
        'the pointer names GIADR, group 9, subclass 1, at 3395',
        'a record starts 61 before: GIADR 1 at 3334',
        'a record starts 9 after: MDR 1 at 3404',
        'the first record of that kind starts 61 before, at 3334',
        'bytes there:',
        '>       3307 03 00 00 01 00 00 00 1b',
    ):
        assert text in done.out, text
    value = run('explain', 'bad.eps', '--json').value
    assert value['explained']['name'] == 'POINTS_INSIDE' and any('GIADR 1 at 3334' in line for line in value['there'])


def test_lines_of_the_main_header_are_explained(run, rich, tmp_path):
    data = rich.read_bytes()
    at = data.index(b'TOTAL_MDR ')
    (tmp_path / 'bad.eps').write_bytes(data[: at + 32] + b'4     ' + data[at + 38 :])
    done = run('explain', 'bad.eps')
    assert (
        done.status == 1
        and f">   {at} b'TOTAL_MDR                     = 4     \\n'" in done.out
        and "b'TOTAL_VIADR " in done.out
    )
    assert run('explain', rich).out == f'{rich}: whole, 15 records, 4356 bytes; there is nothing to explain\n'


def test_every_refused_product_can_be_explained(given, tmp_path, environment):
    """Whatever the bytes are, it ends with a state and no traceback."""
    from warpladle.cli.explain import what_is_there

    seen = set()
    for data in given.products('judge/products.bin'):
        product = Product(data)
        try:
            product.verdict
        except Refused as refused:
            assert what_is_there(product, refused)
            seen.add(refused.number)
    assert seen == set(range(1, 18))


# ---- check --all


def test_the_survey_finds_what_the_library_does(given):
    """Of every product of the vectors: nothing of an accepted one; of a refused one the library's own refusal, and
    often more."""
    more = 0
    for data in [*given.products('judge/products.bin'), *given.products('requests/products.bin')]:
        found = find_faults(data)
        try:
            Product(data).verdict
            assert found == [], found
        except Refused as refused:
            assert (refused.number, refused.place) in [(fault.number, fault.place) for fault in found], (refused, found)
            assert all(fault.words for fault in found)
            more += len(found) > 1
    assert more > 50


def test_all_faults_of_a_product(run, rich, tmp_path):
    data = bytearray(with_values(rich.read_bytes(), TOTAL_MDR=3, ORBIT_START='q9'))
    rows = Product(rich).rows
    data[int(rows['start'][12]) + 1] = 14  # an unknown group
    data[int(rows['start'][9]) + 8 : int(rows['start'][9]) + 14] = b'\xff\xff\xff\xff\xff\xfe'  # a bad time
    (tmp_path / 'bad.eps').write_bytes(data)
    done = run('check', '--all', 'bad.eps')
    assert (
        done.status == 1 and done.out.startswith('bad.eps: refused 3 ') and 'by a look that is not proved' in done.out
    )
    assert [line.split()[1] for line in done.out.splitlines() if line.startswith('    also ')] == ['5', '10', '7', '11']
    value = run('check', '--all', '--json', 'bad.eps').value
    assert [fault['number'] for fault in value['also']] == [5, 10, 7, 11] and all(
        fault['words'] for fault in value['also']
    )
    assert run('check', '--all', rich) == (0, f'{rich}: 15 records\n', '')


# ---- compare


@pytest.fixture
def pair(tmp_path):
    """An original and a cut of it, to be changed."""
    mdrs = [record((8, 9, 2), bytes([k]) * 10, (DAY, 1000 * k), (DAY, 1000 * k + 999)) for k in range(6)]
    fixed = [record((2, 9, 0), b'SPHR'), record((5, 9, 1), b'one'), record((5, 9, 2), b'two')]
    (tmp_path / 'original').write_bytes(product(fixed + mdrs))

    def compare(run, fixed, mdrs, **values):
        (tmp_path / 'cut').write_bytes(product(fixed + mdrs, **values))
        return run('compare', 'original', 'cut').out

    return compare, fixed, mdrs


def test_compare_says_what_differs(pair, run):
    compare, fixed, mdrs = pair
    assert compare(run, fixed, mdrs[1:4]) == 'yes: cut is a cut of original\n'
    assert (
        "at 0: a line of the main header differs: INSTRUMENT_ID is 'xxxx' in the original and 'MHSx' in the cut"
        in compare(run, fixed, mdrs, INSTRUMENT_ID='MHSx').replace(
            repr(Product((ROOT / 'samples' / 'example.eps')).field('INSTRUMENT_ID')), "'xxxx'"
        )
    )
    assert 'a record of the original is missing: GIADR 2 at 3354 (23 bytes' in compare(run, fixed[:2], mdrs)
    out = compare(run, [fixed[0], record((5, 9, 1), b'onE'), fixed[2]], mdrs)
    assert 'GIADR 1 at 3331 ' in out and 'the next such record of the original, GIADR 1 at 3331, ' in out
    assert 'differs from byte 22 of the record on (byte 2 of the payload)' in out
    out = compare(run, fixed, [mdrs[0], mdrs[2], mdrs[1]])
    assert (
        'MDR 3 at ' in out
        and '2016-06-05T00:00:01.000Z' in out
        and 'it is out of order: it is MDR 2 of the original' in out
    )
    assert 'it is repeated: it is MDR 2 of the original, at 3407, and stands at 3377 of the cut already' in compare(
        run, fixed, [mdrs[1], mdrs[1]]
    )
    changed = bytearray(mdrs[3])
    changed[25] ^= 1
    assert (
        'it is changed: MDR 4 of the original, at 3467, has the same times and differs from byte 25 of the record on'
        ' (byte 5 of the payload)'
        in compare(run, fixed, [mdrs[1], bytes(changed)])
    )
    other = record((8, 9, 2), b'', (DAY, 77_000), (DAY, 78_000))
    assert 'the original has no MDR from 2016-06-05T00:01:17.000Z to 2016-06-05T00:01:18.000Z' in compare(
        run, fixed, [other]
    )
    assert run('compare', 'original', 'cut', '--json').value['words'].startswith('MDR 1 at ')


def test_every_no_of_the_vectors_has_words(given):
    from warpladle.compare import explain_mismatch

    seen = set()
    for case in given.lines('requests/ten.jsonl'):
        if case['answer'][0] != 'no':
            continue
        original, cut = (Product(given.products()[case[key]]) for key in ('original', 'cut'))
        words = explain_mismatch(cut, original, case['answer'][1])
        seen.add(
            next(
                word
                for word in (
                    'line of the main',
                    'missing',
                    'repeated',
                    'out of order',
                    'changed',
                    'no MDR',
                    'next such',
                    'no SPHR',
                )
                if word in words
            )
        )
    assert {'line of the main', 'missing', 'changed', 'next such'} <= seen, seen


# ---- info, list, fields, help


def test_info(run, rich, tmp_path):
    assert (
        run('info', rich).out
        == 'state       whole\nname       '
        ' MHSx_xxx_1B_M02_20160605000000Z_20160605000025Z_N_O_20160605003000Z\nspacecraft  M02\ninstrument  MHSx,'
        ' type xxx, level 1B\nsensing     2016-06-05T00:00:00Z to 2016-06-05T00:00:25Z\norbits      50123 to'
        ' 50124\nground      47.623 -122.401 to 46.180 -122.987\nsize        4356 bytes of 4356 declared\nrecords   '
        '  1 MPHR, 1 SPHR, 5 IPR, 1 GEADR, 1 GIADR, 1 VEADR, 1 VIADR, 4 MDR\nsubsetted   F\n'
    )
    (tmp_path / 'part.eps').write_bytes(rich.read_bytes()[:4000])
    done = run('info', 'part.eps')
    assert done.status == 3 and done.out.startswith(
        'state       incomplete, expected 4356 bytes, as declared, found 4000\nname        MHSx'
    )
    assert len(run('info', rich).out.splitlines()) == 10


def test_list_with_times_and_names(run, rich):
    lines = run('list', '--times', rich).out.splitlines()
    assert (
        lines[0] == 'records 15' and lines[13] == '3895 8 9 2 1 120 2016-06-05T00:00:08.000Z 2016-06-05T00:00:09.000Z'
    )
    lines = run('list', '--names', rich).out.splitlines()
    assert (
        lines[13] == '3895 MDR MHS 2 1 120'
        and lines[14] == '4015 MDR DUMMY 1 1 21'
        and lines[1] == '0 MPHR GENERIC 0 2 3307'
    )
    records = run('list', '--times', '--names', '--json', rich).value['records']
    assert records[12] == {
        'start': 3895,
        'class': 'MDR',
        'group': 'MHS',
        'subclass': 2,
        'version': 1,
        'size': 120,
        'start_time': '2016-06-05T00:00:08.000Z',
        'stop_time': '2016-06-05T00:00:09.000Z',
    }


def test_an_undefined_time_in_a_list(run, tmp_path):
    (tmp_path / 'u.eps').write_bytes(product([record((8, 9, 2), b'', UNDEFINED, UNDEFINED)]))
    assert run('list', '--times', 'u.eps').out.splitlines()[2] == '3307 8 9 2 1 20 - -'
    assert run('list', '--times', '--json', 'u.eps').value['records'][1]['start_time'] is None


def test_fields_have_units(run, rich):
    assert (
        run('fields', rich, 'SUBSAT_LATITUDE_START', 'ORBIT_START', 'LOCATION_TOLERANCE_RADIAL').out
        == 'SUBSAT_LATITUDE_START         = 47623 (0.001 degree)\nORBIT_START                   ='
        ' 50123\nLOCATION_TOLERANCE_RADIAL     = undefined\n'
    )
    value = run('fields', '--json', rich, 'X_VELOCITY').value
    assert value == {
        'file': str(rich),
        'state': 'whole',
        'fields': {'X_VELOCITY': 880223},
        'units': {'X_VELOCITY': 'mm/s'},
    }


def test_the_units_are_the_header_s():
    """As include/warpladle.h has them, which says them after the width of each number."""
    import re

    from warpladle import all_fields

    text = (ROOT / 'include' / 'warpladle.h').read_text()
    said = dict(re.findall(r'WL_FIELD_(\w+)(?: = 0)?, +/\* (.*?) \*/', text))
    assert len(said) == 72 - 1 or len(said) == 72
    for line in all_fields():
        if line.name in said:
            unit = said[line.name].split(', ')[2:]
            expected = (
                {'since launch': '', 'seconds: -1': 's', 'blocks of MDRs': 'blocks'}.get(unit[0], unit[0])
                if unit
                else ''
            )
            assert line.unit == expected, line


def test_version_and_help(run):
    import warpladle

    assert run('--version') == (0, f'warpladle {warpladle.__version__}\n', '')
    assert run('help').out == run('--help').out and 'explain' in run('help').out
    assert run('help', 'cut').out == run('cut', '--help').out and 'FROM' in run('help', 'cut').out
    assert 'did you mean check?' in run('chekc').err and run('chekc').status == 2 and run().status == 2
    assert run('help', 'nothing').status == 2


def test_the_version_is_that_of_the_library_s_header():
    import warpladle

    assert f'version = "{warpladle.__version__}"' in (ROOT / 'python' / 'pyproject.toml').read_text()
    assert f'#define WARPLADLE_VERSION "{warpladle.__version__}"' in (ROOT / 'include' / 'warpladle.h').read_text()


def test_completion(run, tmp_path):
    import subprocess

    script = run('completion', 'bash').out
    (tmp_path / 'c.sh').write_text(
        script
        + 'COMP_WORDS=(warpladle joi)\nCOMP_CWORD=1\n_warpladle\necho "${COMPREPLY[@]}"\n'
        'COMP_WORDS=(warpladle join --ide)\nCOMP_CWORD=2\n_warpladle\necho "${COMPREPLY[@]}"\n'
    )
    done = subprocess.run(['bash', tmp_path / 'c.sh'], capture_output=True, text=True)
    assert (done.stdout, done.stderr) == ('join\n--identical\n', '')
    assert 'bashcompinit' in run('completion', 'zsh').out and 'complete -c warpladle' in run('completion', 'fish').out


def test_times_with_offsets_and_fractions(run, rich):
    whole = run('cut', rich, '2016-06-05T00:00:08Z', '2016-06-05T00:00:20Z', '-o', 'a.eps').out
    for first, last in (
        ('2016-06-05T02:00:08+02:00', '2016-06-04T19:00:20.5-05:00'),
        ('2016-06-05T00:00:08.000Z', '2016-06-05T00:00:20.25'),
        ('20160605T020008+02', '2016-06-05 00:00:20Z'),
    ):
        assert run('cut', rich, first, last, '-o', 'a.eps', '--force').out == whole
    assert Time.of('2017-01-01T00:59:60.5+01:00') == Time(6209, 86_400_500)
    done = run('cut', rich, '2016-06-05T00:00:08.0005Z', '2016-06-06', '-o', 'b.eps')
    assert done.status == 2 and 'between two milliseconds' in done.err


# ---- warnings


def test_a_cut_with_no_mdr(run, rich, tmp_path):
    done = run('cut', rich, '2017-01-01', '2017-01-02', '-o', 'empty.eps')
    assert done.status == 0 and done.out == 'empty.eps: 10 records, 3648 bytes; 0 of 4 MDRs\n'
    assert (
        done.err
        == f'warpladle: note: empty.eps has no MDR: none of the 4 of {rich} starts from 2017-01-01T00:00:00.000Z to'
        ' 2017-01-02T00:00:00.000Z\n'
    )
    done = run('cut', rich, '2017-01-01', '2017-01-02', '-o', 'not.eps', '--fail-if-empty')
    assert done.status == 1 and 'nothing is written' in done.out and not (tmp_path / 'not.eps').exists()
    assert run('cut', rich, *WINDOW, '-o', 'all.eps', '--fail-if-empty').status == 0
    assert run('cut', rich, '2017-01-01', '2017-01-02', '-o', '-', '--fail-if-empty').out == ''


def test_orbits_and_ground_points_that_are_carried_over(run, rich, tmp_path):
    done = run('cut', rich, '2016-06-05T00:00:08Z', '2016-06-05T00:00:20Z', '-o', 'town.eps')
    assert done == (
        0,
        'town.eps: 14 records, 3843 bytes; 2 of 4 MDRs\n',
        f'warpladle: note: orbits and ground points of town.eps are those of all of {rich}\n',
    )
    assert (
        run('cut', rich, *WINDOW, '-o', 'all.eps').err == ''
        and run('cut', rich, *WINDOW, '-o', 'all.eps', '--force', '-q').err == ''
    )
    for k, orbit in ((0, 50100), (1, 50101)):
        (tmp_path / f'{k}.eps').write_bytes(granule(k, ORBIT_END=orbit, SUBSAT_LATITUDE_END=1000 * k))
    done = run('join', '0.eps', '1.eps', '-o', 'pass.eps')
    assert (
        done.status == 0
        and done.err
        == 'warpladle: note: ORBIT_END, SUBSAT_LATITUDE_END of the result are those of 0.eps, not of 1.eps, as request'
        ' Seven has it\n'
    )
    assert run('join', '0.eps', '1.eps', '-o', 'other.eps', '--quiet').err == ''


def test_a_gap_in_a_join(run, tmp_path):
    for k in (0, 1, 2):
        (tmp_path / f'{k}.eps').write_bytes(granule(k))
    done = run('join', '0.eps', '2.eps', '-o', 'pass.eps')
    assert (
        done.status == 0
        and done.err
        == 'warpladle: note: 180000 ms are missing between 0.eps, which stops at 2016-06-05T01:03:00.000Z, '
        'and 2.eps, which starts at 2016-06-05T01:06:00.000Z\n'
    )
    assert run('join', '0.eps', '1.eps', '2.eps', '-o', 'all.eps').err == ''


def test_help_says_what_a_join_keeps(run):
    text = ' '.join(run('join', '--help').out.split())
    assert (
        'keeps ORBIT_END, SUBSAT_LATITUDE_END, SUBSAT_LONGITUDE_END and SENSING_END_THEORETICAL of the first' in text
        and '--identical' in text
    )
    assert 'ground points of the whole product' in ' '.join(run('cut', '--help').out.split())
    assert 'SENSING_END_THEORETICAL' in (ROOT / 'README.md').read_text()
