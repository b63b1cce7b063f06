"""What is known of each refusal: what its place is, how it usually comes about, and what to mend."""
from __future__ import annotations

_LINE = 'the start of the line, in the main header'
_RECORD = 'the start of the record'
_POINTER = 'the start of the pointer record'
_NONE = '0, since no byte is at fault'
_AGAIN = 'Fetch the file again; where it is the same, ask whoever made it.'
_MAKER = 'The program that made the product has to be mended.'
_QUESTION = 'The file is not at fault: ask otherwise.'

PLACES = {
    1: '0',
    2: _LINE,
    3: 'the start of the value, 32 after the start of its line',
    4: '1485, the value of ACTUAL_PRODUCT_SIZE',
    5: '2675, the value of TOTAL_RECORDS',
    6: 'where the record should start',
    7: _RECORD,
    8: _RECORD,
    9: _RECORD,
    10: _RECORD,
    11: _RECORD,
    12: _POINTER,
    13: _POINTER,
    14: _POINTER,
    15: 'the declared size',
    16: 'the declared size, where the product ends',
    17: 'how many bytes there are',
    18: 'how many places or bytes are needed',
    19: 'how many records there are',
    20: 'how many bytes were lent',
    21: _NONE,
    22: _NONE,
    23: '65536',
    24: 'the start of the 65th pointer record',
    25: _NONE,
    26: _NONE,
    27: _NONE,
    28: _NONE,
    29: 'the start of the first record against the profile',
    30: 'how many bytes there are',
    31: '614, where the number of segments stands',
    32: 'where the line or the column stands',
    33: 'where the number of blocks stands',
    34: 'how many bytes there are',
    35: 'where the bytes start that are left over',
    36: _NONE,
    37: _NONE,
    38: _NONE,
    39: _NONE,
}

CAUSES = {
    1: (
        'The file is no EPS native product: a page of a portal, a packed file, another format; or bytes were lost or'
        ' put before its start.'
    ),
    2: (
        'A line was written with another width, name or order, or with a carriage return; or bytes of the header were'
        ' lost, so that all after them moved.'
    ),
    3: (
        'A number that stands at the left of its line and not at the right, a time in another form, a byte that is no'
        ' ASCII.'
    ),
    4: 'ACTUAL_PRODUCT_SIZE was not set, or is of another unit.',
    5: 'A tool cut or joined a product and did not count anew; TOTAL_RECORDS leaves out the main header.',
    6: 'The declared size is a few bytes too large or too small, or the size of the last record is.',
    7: (
        'The size of the record before leads to a place where no record starts; or bytes were lost, or have not come'
        ' and are zeros.'
    ),
    8: 'Records were put together in the order of time and not of their classes.',
    9: (
        'Bytes were lost before this record, so that something else is read as its size; or the declared size was not'
        ' set anew after a record was added.'
    ),
    10: (
        'A time of all ones but for one part, a millisecond past the end of its day, or a leap second on a day that has'
        ' none; or start and stop changed places.'
    ),
    11: 'A tool added records and did not count anew.',
    12: (
        'The pointer names a class that no pointer may name, a byte before its own end, or one past the end of the'
        ' product.'
    ),
    13: (
        'Records before the target were added, dropped or changed in size, and the pointers were kept. How far the'
        ' pointer is off is what was added or dropped.'
    ),
    14: 'The order of auxiliary records was changed and the pointers were kept, or the pointer is of another product.',
    15: 'A tool dropped records and did not count anew.',
    16: 'Two products stand in one file, or something was appended: a checksum, a line, zeros of a block.',
    17: 'The file has not wholly come, the disk was full, or the transfer broke off.',
    18: 'The room that was lent has fewer places or bytes than the answer needs.',
    19: 'Records are counted from 0, and the product, or what has come of it, has no more.',
    20: 'What was to be read begins or ends beyond the bytes that were lent.',
    21: 'A number outside of its range, a time that is none, a header that is none.',
    22: (
        'The name is misspelt, or padded with spaces, or the field is of another kind, or the value is too wide for its'
        ' line.'
    ),
    23: 'The listing of the library itself, which was asked for up to 65,536 bytes.',
    24: 'A watch keeps 64 pointers and no more, since it does not keep the product.',
    25: 'The two ends of the window changed places, or one is no time.',
    26: (
        'The two products are of other instruments, types, levels or spacecraft, or of two versions of a processor,'
        ' whose global records differ.'
    ),
    27: 'The products were named in another order than that of time, or overlap, or one is there twice.',
    28: (
        'The result would be larger than the format allows, or a sum of counts or durations has more digits than its'
        ' line.'
    ),
    29: 'The product is of another level, or of another version of the Level 0 format.',
    30: 'The file has not wholly come, or is no humidity file.',
    31: 'The file is no humidity file, or is of the other byte order.',
    32: 'The file is no humidity file, or bytes were lost before the segment.',
    33: 'The file is no humidity file, or bytes were lost before the segment.',
    34: 'The file has not wholly come, or says that it has more segments or blocks than it has.',
    35: 'Something was appended, or the number of segments is too small.',
    36: 'A report holds 4,096 products.',
    37: 'The file is no record of an arrival, or has not wholly come.',
    38: 'The file is no record of an arrival, or was put together of two.',
    39: 'The record is of another product, or of another version of it.',
}

MEND = {
    1: 'Look at the first bytes (`explain FILE`); unpack it, or fetch it again.',
    2: _MAKER,
    3: _MAKER,
    4: _MAKER,
    5: _MAKER,
    6: _MAKER,
    7: _AGAIN,
    8: _MAKER,
    9: _AGAIN,
    10: _MAKER,
    11: _MAKER,
    12: _MAKER,
    13: 'Write the pointers anew when records are added or dropped.',
    14: _MAKER,
    15: _MAKER,
    16: 'Cut what is beyond the declared size; `info` says how much that is.',
    17: 'Wait, or fetch it again; `watch` waits for the rest.',
    18: 'Lend as much as the place says.',
    19: _QUESTION,
    20: _QUESTION,
    21: _QUESTION,
    22: '`fields FILE` lists the 72 names.',
    23: 'Use `list`, or the rows.',
    24: 'Use `check` once the product has come, or `watch` on the file.',
    25: 'Give the earlier end first.',
    26: 'Join granules of one pass; where only the times of headers differ, leave out --identical.',
    27: 'Name the files in the order of time, each once.',
    28: 'Join fewer products.',
    29: 'Use `check`, which holds a product against the format alone.',
    30: _AGAIN,
    31: _AGAIN,
    32: _AGAIN,
    33: _AGAIN,
    34: _AGAIN,
    35: _AGAIN,
    36: 'Begin another report and add the two; `report` does so.',
    37: 'Use what `watch --record` wrote.',
    38: 'Use what `watch --record` wrote.',
    39: 'Replay it with the product of which it was recorded.',
}
