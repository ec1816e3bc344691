"""Octets as they stand on the line: labels, frames, characters with parity bits, and requests.

This module builds octets. It judges none, with one exception: `is_frame`, by which a conversation knows whether a
frame that it damaged became another sound one by chance.
"""

from bisect import bisect_right
from datetime import datetime, timedelta

START_OF_TIME = datetime(2000, 1, 1)
# Minutes are numbers of standard time from the start of 2000. With SU 1 the clock's face shows an hour more, so the
# first of all is 00:00 with SU 1.
SUMMER_HOUR = 60
FIRST_MINUTE = -SUMMER_HOUR
LAST_MINUTE = (datetime(2100, 1, 1) - START_OF_TIME) // timedelta(minutes=1) - 1
LONGEST_RUN = 261
MOST_USER_OCTETS = 252

# Functions of the centre, as whole control octets. The FCB is added to those that have FCV.
RESET, USER_DATA, STATUS, CLASS_2 = 0x40, 0x53, 0x49, 0x5B
FCB = 0x20
OFFERED_FIXED = {RESET, RESET | FCB, STATUS, STATUS | FCB, CLASS_2, CLASS_2 | FCB}
OFFERED_VARIABLE = {USER_DATA, USER_DATA | FCB}

# Each request type with its structure octet, cause and record address (None: one of several).
IDENTITY, EVENTS, CLOCK, TOTALS, PERIODS = 100, 102, 103, 122, 123
SET_CLOCK, OPEN, DATES, SET_DATES, CLOSE = 181, 183, 185, 186, 187
ROWS = {
    IDENTITY: (0, 5, 0),
    EVENTS: (0, 6, None),
    CLOCK: (0, 5, 0),
    TOTALS: (1, 6, 21),
    PERIODS: (1, 6, 11),
    SET_CLOCK: (1, 6, 0),
    OPEN: (1, 6, 0),
    DATES: (1, 5, 0),
    SET_DATES: (1, 6, 0),
    CLOSE: (0, 6, 0),
}
EVENT_RECORDS = (52, 53, 54, 55, 128, 129)
# First and last object of 122 and 123: all that may be asked for, and all six.
OBJECT_RANGES = tuple((first, last) for first in range(1, 7) for last in range(first, 7))
ALL_OBJECTS = (1, 6)


def low_first(number, width):
    return number.to_bytes(width, "little")


def minute_of(year, month, day, hour=0, minute=0):
    """The minute of a date and time of standard time. By this number records are put in order here."""
    return (datetime(year, month, day, hour, minute) - START_OF_TIME) // timedelta(minutes=1)


def last_sunday(year, month):
    """Of a month with 31 days."""
    return 31 - (datetime(year, month, 31).weekday() + 1) % 7


# The minutes at which summer time begins (02:00 becomes 03:00) and ends (03:00 becomes 02:00), by turns.
CHANGES = tuple(minute_of(year, month, last_sunday(year, month), 2) for year in range(2000, 2100) for month in (3, 10))
SPRING_2001, AUTUMN_2001 = minute_of(2001, 3, 25, 2), minute_of(2001, 10, 28, 2)


def is_summer(minute):
    """The SU of a clock that is changed on these days."""
    return bisect_right(CHANGES, minute) % 2


def summers(minute):
    """Every SU with which a label can show this minute in the years 2000 to 2099."""
    return [summer for summer in (0, 1) if 0 <= minute + SUMMER_HOUR * summer <= LAST_MINUTE]


def label_a(minute, weekday=0, summer=0):
    when = START_OF_TIME + timedelta(minutes=minute + SUMMER_HOUR * summer)
    return bytes([when.minute, when.hour | summer << 7, when.day | weekday << 5, when.month, when.year - 2000])


def face_label_a(face, weekday=0, summer=0):
    """The label whose clock shows this minute, whatever SU is: with SU 1 it is an hour earlier."""
    return label_a(face - SUMMER_HOUR * summer, weekday, summer)


def label_b(millisecond, weekday=0, summer=0):
    minute, rest = divmod(millisecond, 60_000)
    seconds, milliseconds = divmod(rest, 1000)
    return low_first(milliseconds | seconds << 10, 2) + label_a(minute, weekday, summer)


# Ways to make a valid label a one that is not: (place, bits kept, bits set) for each octet to change.
LABEL_A_SPOILS = {
    "minute 60": [(0, 0xC0, 60)],
    "minute 63": [(0, 0xC0, 63)],
    "TIS": [(0, 0xFF, 0x40)],
    "IV": [(0, 0xFF, 0x80)],
    "hour 24": [(1, 0xE0, 24)],
    "hour 31": [(1, 0xE0, 31)],
    "hour bit 6": [(1, 0xFF, 0x20)],
    "hour bit 7": [(1, 0xFF, 0x40)],
    "day 0": [(2, 0xE0, 0)],
    "30 February": [(2, 0xE0, 30), (3, 0xF0, 2)],
    "29 February 2001": [(2, 0xE0, 29), (3, 0xF0, 2), (4, 0x80, 1)],
    "29 February 2098": [(2, 0xE0, 29), (3, 0xF0, 2), (4, 0x80, 98)],
    "31 April": [(2, 0xE0, 31), (3, 0xF0, 4)],
    "31 November": [(2, 0xE0, 31), (3, 0xF0, 11)],
    "month 0": [(3, 0xF0, 0)],
    "month 13": [(3, 0xF0, 13)],
    "month 15": [(3, 0xF0, 15)],
    "month bit 5": [(3, 0xFF, 0x10)],
    "month bit 6": [(3, 0xFF, 0x20)],
    "month bit 7": [(3, 0xFF, 0x40)],
    "month bit 8": [(3, 0xFF, 0x80)],
    "year 100": [(4, 0x80, 100)],
    "year 127": [(4, 0x80, 127)],
    "year bit 8": [(4, 0xFF, 0x80)],
}
# The same for the two octets that a label b has in front, low octet first: milliseconds, seconds above.
LABEL_B_SPOILS = {
    "millisecond 1000": (0xFC00, 1000),
    "millisecond 1023": (0xFC00, 1023),
    "second 60": (0x03FF, 60 << 10),
    "second 63": (0x03FF, 63 << 10),
}


def spoil_label_a(label, way):
    octets = bytearray(label)
    for place, kept, added in LABEL_A_SPOILS[way]:
        octets[place] = octets[place] & kept | added
    return bytes(octets)


def spoil_label_b(label, way):
    if way in LABEL_A_SPOILS:
        return label[:2] + spoil_label_a(label[2:], way)
    kept, added = LABEL_B_SPOILS[way]
    return low_first(int.from_bytes(label[:2], "little") & kept | added, 2) + label[2:]


def fixed(control, address):
    summed = bytes([control]) + low_first(address, 2)
    return b"\x10" + summed + bytes([sum(summed) & 0xFF, 0x16])


def variable(control, address, user):
    summed = bytes([control]) + low_first(address, 2) + bytes(user)
    length = len(summed) & 0xFF
    return bytes([0x68, length, length, 0x68]) + summed + bytes([sum(summed) & 0xFF, 0x16])


def is_frame(run):
    """Whether a run is a sound frame, for a conversation that must not lose count of the FCB."""
    if len(run) == 6 and run[0] == 0x10:
        summed = run[1:4]
    elif len(run) >= 9 and run[:4] == bytes([0x68, len(run) - 6 & 0xFF, len(run) - 6 & 0xFF, 0x68]):
        summed = run[4:-2]
    else:
        return False
    return run[-2:] == bytes([sum(summed) & 0xFF, 0x16])


# ---- characters of the eleven-bit profile: pairs of an octet and its parity bit ----

BITS_OF_A_CHARACTER = 9  # of data and parity


def parity_bit(octet):
    """The right one: with it the number of ones is even."""
    return bin(octet).count("1") % 2


def characters(octets, wrong=()):
    """Each octet with its parity bit, at the places in `wrong` with the other one."""
    return tuple((octet, parity_bit(octet) ^ (place in wrong)) for place, octet in enumerate(octets))


def all_wrong(octets):
    return characters(octets, range(len(octets)))


def altered(octets, bits):
    """The characters with these bits altered on the way: 0 to 7 are the first one's data bits, 8 is its parity bit, 9
    is the lowest of the second."""
    pairs = [list(pair) for pair in characters(octets)]
    for bit in bits:
        place, of_character = divmod(bit, BITS_OF_A_CHARACTER)
        if of_character < 8:
            pairs[place][0] ^= 1 << of_character
        else:
            pairs[place][1] ^= 1
    return tuple(map(tuple, pairs))


class Request:
    """A message from the centre, in parts that can be made wrong one by one."""

    def __init__(self, kind, point, record=None, body=b""):
        self.kind = kind
        self.structure, self.cause, row_record = ROWS[kind]
        self.point = point
        self.record = row_record if record is None else record
        self.body = bytes(body)

    def octets(self):
        header = bytes([self.kind, self.structure, self.cause]) + low_first(self.point, 2) + bytes([self.record])
        return (header + self.body)[:MOST_USER_OCTETS]


def open_request(point, password):
    return Request(OPEN, point, body=low_first(password, 4))


def readings_request(kind, point, first, last, objects=ALL_OBJECTS):
    return Request(kind, point, body=bytes(objects) + first + last)


def events_request(point, record, first, last):
    return Request(EVENTS, point, record, body=first + last)
