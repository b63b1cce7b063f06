"""A reader that no one here wrote: satpy's, of AVHRR level 1B, which has a record description of its own, reads what is
cut and joined here."""
import struct

import numpy
import pytest
from making import DAY, UNDEFINED, product, record

from warpladle import Product, Time, all_fields

eps_l1b = pytest.importorskip('satpy.readers.eps_l1b', reason='satpy is not installed here (Debian: python3-satpy)')

AVHRR, LINE = 4, 400  # the group, and milliseconds of a scan line


@pytest.fixture(scope='module')
def form():
    from satpy._config import get_config_path
    from satpy.readers.xmlformat import XMLFormat

    return XMLFormat(get_config_path('eps_avhrrl1b_6.5.xml'))


def filled(form, key, **values):
    """The payload of a record of satpy's own type."""
    room = numpy.zeros(1, form.dtype(key))
    for name, value in values.items():
        room[name] = value
    return room.tobytes()


def sphr_text(form):
    """The lines of an SPHR: of each field its name, `= ` and a value."""
    lines = b''
    for name in form.dtype(('sphr', 0)).names:
        width = form.dtype(('sphr', 0))[name].itemsize - 33
        value = {'EARTH_VIEWS_PER_SCANLINE': '2048', 'NAV_SAMPLE_RATE': '20'}.get(name, '0')
        lines += f'{name:<30}= {value.rjust(width)}\n'.encode()
    return lines


def scan_line(form, k):
    """MDR k, with values that tell which it is."""
    radiances = numpy.zeros((5, 2048), '>i2')
    radiances[0], radiances[3] = k % 30000, numpy.arange(2048)
    payload = filled(form, ('mdr', 2), SCENE_RADIANCES=radiances, EARTH_LOCATION_FIRST=[10 * k, -10 * k])
    return record((8, AVHRR, 2), payload, (DAY, LINE * k), (DAY, LINE * (k + 1)), 4)


def granule(form, first, count):
    """A granule of so many lines: SPHR, GIADRs of subclass 1 and 2 and MDRs of subclass 2; the former have the times of
    the first and the last MDR, as 002's Table 15 has it."""
    times = (DAY, LINE * first), (DAY, LINE * (first + count))
    fixed = [
        record((2, AVHRR, 0), sphr_text(form), *times, 3),
        *(record((5, AVHRR, subclass), filled(form, ('giadr', subclass)), *times, 3) for subclass in (1, 2)),
    ]
    lines = [scan_line(form, k) for k in range(first, first + count)]
    return product(fixed + lines, INSTRUMENT_ID='AVHR', PROCESSING_LEVEL='1B', SPACECRAFT_ID='M02', PRODUCT_TYPE='xxx')


@pytest.fixture(scope='module')
def two(form):
    return Product(granule(form, 0, 36)), Product(granule(form, 36, 30))


def read_by_satpy(made, path):
    """The product as satpy's reader has it."""
    path.write_bytes(bytes(made))
    when = Time(DAY, 0).datetime()
    handler = eps_l1b.EPSAVHRRFile(str(path), {'start_time': when, 'end_time': when}, {})
    handler._read_all()
    return handler


def holds(handler, lines):
    """Whether it has just these scan lines, with their values and times."""
    assert int(handler.scanlines) == len(lines) == int(handler['TOTAL_MDR'])
    mdrs = handler.sections[('mdr', 2)].compute()
    assert mdrs['SCENE_RADIANCES'][:, 0, 0].tolist() == [k % 30000 for k in lines]
    assert (mdrs['SCENE_RADIANCES'][:, 3, :] == numpy.arange(2048)).all()
    assert mdrs['EARTH_LOCATION_FIRST'].tolist() == [[10 * k, -10 * k] for k in lines]
    assert [struct.unpack('>HI', time.ljust(6, b'\0')) for time in mdrs['RECORD_START_TIME'].tolist()] == [
        (DAY, LINE * k) for k in lines
    ]


def test_a_granule_a_join_and_a_cut(two, tmp_path):
    first, second = two
    holds(read_by_satpy(first, tmp_path / 'first'), range(36))
    joined = first.join(second)
    holds(read_by_satpy(joined, tmp_path / 'joined'), range(66))
    cut = joined.cut(Time(DAY, LINE * 30), Time(DAY, LINE * 49))
    holds(read_by_satpy(cut, tmp_path / 'cut'), range(30, 50))
    handler = read_by_satpy(cut.join(joined.cut(Time(DAY, LINE * 60), Time(DAY, LINE * 65))), tmp_path / 'both')
    holds(handler, [*range(30, 50), *range(60, 66)])
    assert handler.pixels == 2048 and handler.platform_name == 'Metop-A' and handler.sensor_name == 'avhrr-3'


def test_the_fields_of_the_main_header_are_satpy_s(form):
    """Names, places and widths of all 72."""
    dtype = form.dtype(('mphr', 0))
    assert len(dtype.names) == 72
    for line, name in zip(all_fields(), dtype.names, strict=True):
        assert (line.name, line.start, line.width + 33) == (name, 20 + dtype.fields[name][1], dtype[name].itemsize)


def test_the_times_of_our_own_are_those_that_it_reads(two):
    """An undefined time is none of them."""
    first, _ = two
    assert struct.pack('>HI', *UNDEFINED) == b'\xff' * 6
    assert first.times['start'][4:].astype('i8').tolist() == [
        946_684_800_000 + 86_400_000 * DAY + LINE * k for k in range(36)
    ]
