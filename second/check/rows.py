"""An accepted request of each row of document 01's table, with an image and a clock that
it is accepted with, for check.py and why.py."""

from harness import *

JAN = label_a(1, 1, 1, 0, 15)  # 1 January 2001 00:15
CLOCK = label_b(1, 1, 1, 12, 30, 15, 250)
OPEN_1 = message(183, 1, 6, 1, 0, le(0x12345678, 4))
SPAN = label_a(1, 1, 1, 0, 0) + label_a(1, 1, 2, 0, 0)
FULL = image(
    meter(1, 0x12, 0x34, 0x56789ABC), point(1, 0x12345678), point(2, 0),
    point(0x1234, 0xFFFFFFFF),
    dates(label_a(1, 3, 25, 2, 0), label_a(1, 10, 28, 3, 0)),
    reading(1, 11, label_a(1, 1, 1, 0, 15), [(1, 2)] * 6),
    reading(1, 21, label_a(1, 1, 1, 0, 15), [(3, 4)] * 6),
    event(1, 52, 1, 3, label_b(1, 1, 1, 0, 15)))

# Each row of the table with a request that is accepted: N, cause, record, body.
ROWS = {
    100: (0, 5, 0, b""),
    102: (0, 6, 52, SPAN),
    103: (0, 5, 0, b""),
    122: (1, 6, 21, b"\1\6" + SPAN),
    123: (1, 6, 11, b"\1\6" + SPAN),
    181: (1, 6, 0, label_b(1, 2, 3, 4, 5, 6, 7)),
    183: (1, 6, 0, le(0x12345678, 4)),
    185: (1, 5, 0, b""),
    186: (1, 6, 0, label_a(2, 3, 31, 2, 0) + label_a(2, 10, 27, 3, 0)),
    187: (0, 6, 0, b""),
}


def request(kind, address=1, n=None, cause=None, rec=None, body=None):
    row = ROWS[kind]
    return message(kind, row[0] if n is None else n, row[1] if cause is None else cause,
                   address, row[2] if rec is None else rec,
                   row[3] if body is None else body)
