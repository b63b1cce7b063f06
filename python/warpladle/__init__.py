"""Warpladle: EPS native products read, judged, cut and joined by a proved library. Nothing here judges: every answer is
the library's."""
from .about import __version__  # first: what follows is read by newer Pythons alone
from .headers import (
    Field,
    Group,
    Record,
    RecordClass,
    all_fields,
    field_number,
    read_header,
    write_header,
    write_number_line,
    write_text_line,
    write_time_line,
)
from .humidity import read_uth
from .join import join_all
from .library import LibraryMissing
from .numbers import Reading, Scaled, read_scaled, reading, round_scaled, write_scaled
from .overview import Overview
from .product import GroundPoint, Product, Row
from .refusal import Refusal, Refused, State
from .report import Report
from .times import Moment, Time, date_of, day_number, is_date, read_time, text_time, time_order, time_text, write_time
from .watch import Waiting, Watch, record_arrival, replay

__all__ = [
    '__version__',
    'Field',
    'GroundPoint',
    'Group',
    'LibraryMissing',
    'Moment',
    'Overview',
    'Product',
    'Reading',
    'Record',
    'RecordClass',
    'Refusal',
    'Refused',
    'Report',
    'Row',
    'Scaled',
    'State',
    'Time',
    'Waiting',
    'Watch',
    'all_fields',
    'date_of',
    'day_number',
    'field_number',
    'is_date',
    'join_all',
    'read_header',
    'read_scaled',
    'read_time',
    'read_uth',
    'reading',
    'record_arrival',
    'replay',
    'round_scaled',
    'text_time',
    'time_order',
    'time_text',
    'write_header',
    'write_number_line',
    'write_scaled',
    'write_text_line',
    'write_time',
    'write_time_line',
]
