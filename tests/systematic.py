"""Inputs for both faces that are made by rule and not at random: every place, every octet, every length.

`systematic_inputs` yields (face, name, octets). The order is from quick to slow.
"""

import random
from dataclasses import replace

from generate import conversation
from lines import DriveLine, ElevenBitLine, PrintLine
from meter import (FACE_BORDERS, LAST_MILLISECOND, LAST_SUMMER_MILLISECOND, RICH, UNSOUND, Meter, day_of_change,
                   fullest_meter, meter_of_events, meter_of_moments, meter_of_objects, meter_of_readings, moments_apart,
                   moments_around, moments_of, overfull_meter, sound_images, without_point)
from wire import (AUTUMN_2001, CLASS_2, CLOCK, CLOSE, DATES, EVENT_RECORDS, EVENTS, FCB, FIRST_MINUTE, IDENTITY,
                  LABEL_A_SPOILS, LABEL_B_SPOILS, LAST_MINUTE, OBJECT_RANGES, PERIODS, RESET, ROWS, SET_CLOCK,
                  SET_DATES, SPRING_2001, STATUS, TOTALS, USER_DATA, Request, events_request, face_label_a, fixed,
                  label_a, label_b, low_first, minute_of, open_request, readings_request, spoil_label_a, spoil_label_b,
                  summers, variable)

NOON = label_b(minute_of(2026, 11, 15, 12) * 60_000 + 1234)
# The first and the last label of all in standard time.
FIRST_LABEL, LAST_LABEL = label_a(FIRST_MINUTE, 0, 1), label_a(LAST_MINUTE)
BARE = Meter()  # the image of the paper's example
LINES = {"print": PrintLine, "drive": DriveLine, "eleven": ElevenBitLine}


class Talk:
    """A conversation by hand: the FCB is kept, nothing else. The face `eleven` is the driving one in the eleven-bit
    profile."""

    def __init__(self, face, meter, clock=NOON):
        self.meter = meter
        self.line = LINES[face](None, meter.octets, clock)
        self.fcb = FCB

    def reset(self):
        self.line.run(fixed(RESET, self.meter.link))
        self.fcb = FCB

    def status(self):
        self.line.run(fixed(STATUS, self.meter.link))

    def send(self, user):
        self.line.run(variable(USER_DATA | self.fcb, self.meter.link, user))
        self.fcb ^= FCB

    def ask(self, request):
        self.send(request.octets())

    def collect(self, times=1):
        for _ in range(times):
            self.line.run(fixed(CLASS_2 | self.fcb, self.meter.link))
            self.fcb ^= FCB

    def collect_twice(self, times):
        """Each collection repeated with the same FCB."""
        for _ in range(times):
            self.collect()
            self.fcb ^= FCB
            self.collect()

    def open(self, point=None):
        """From a reset on, with the right password."""
        point = min(self.meter.points) if point is None else point
        self.reset()
        self.ask(open_request(point, self.meter.points[point]))
        self.collect()

    def exchange(self, meter):
        self.meter = meter
        self.line.lend_image(meter.octets)

    def octets(self):
        return self.line.octets()


def range_request(point, record, first, last):
    """122, 123 or 102, as the record needs it."""
    if record in EVENT_RECORDS:
        return events_request(point, record, first, last)
    return readings_request(TOTALS if record == 21 else PERIODS, point, first, last)


def whole(point, record):
    """A request for everything of a record."""
    return range_request(point, record, FIRST_LABEL, LAST_LABEL)


def accepted_requests(point):
    """One accepted request of each type, for the rich meter."""
    label = face_label_a(minute_of(2021, 6, 30, 23, 59), 3, 1)
    yield Request(IDENTITY, point)
    yield Request(CLOCK, point)
    yield Request(DATES, point)
    yield Request(SET_CLOCK, point, body=label_b(LAST_SUMMER_MILLISECOND, 5, 1))
    yield Request(SET_DATES, point, body=label + FIRST_LABEL)
    yield open_request(point, RICH.points[point])
    for record in (*EVENT_RECORDS, 11, 21):
        yield whole(point, record)
    yield Request(CLOSE, point)


# ---- the printing program's input ----

def small_print_input(image=BARE.octets):
    """The paper's example, a message and an empty run: short enough to be cut in every place."""
    line = PrintLine(None, image, NOON)
    line.run(fixed(RESET, 1))
    line.run(bytes.fromhex("104101004116"))
    line.run(b"")
    line.run(variable(USER_DATA | FCB, 1, open_request(1, 0x12345678).octets()))
    line.run(fixed(CLASS_2, 1))
    return line.octets()


def print_faults():
    sound, unsound = small_print_input(), small_print_input(BARE.octets[:-1] + b"\x00\x00")
    yield "no runs", sound[:3 + len(BARE.octets) + 7]
    for version in range(256):
        yield f"version {version}", bytes([version]) + sound[1:]
        yield f"only version {version}", bytes([version])
    for at in range(len(sound)):
        yield f"cut at {at}", sound[:at]
    for at in range(3 + len(BARE.octets) + 20):
        yield f"unsound image cut at {at}", unsound[:at]
        yield f"other version cut at {at}", b"\x02" + unsound[1:at + 1]
    for declared in range(0, 40):
        yield f"image of {declared} octets declared", b"\x01" + declared.to_bytes(2, "big") + sound[3:]
    for name, image in [*UNSOUND, *sound_images(RICH)]:
        yield f"image: {name}", b"\x01" + len(image).to_bytes(2, "big") + image + NOON + b"\x00\x00"


def long_runs():
    """Runs of every length to 300 and some that are longer; then one that is cut though long."""
    line = PrintLine(None, BARE.octets, NOON)
    line.run(fixed(RESET, 1))
    for length in (*range(301), 511, 512, 513, 517, 518, 1000, 65_535):
        line.run(bytes(length))
        line.run(fixed(STATUS, 1).ljust(length, b"\x16")[:length])
        line.run((variable(USER_DATA | FCB, 1, bytes(252)) * 252)[:length])
    line.run(fixed(CLASS_2, 1))
    yield "lengths", line.octets()
    yield "longest run cut", line.octets() + b"\xFF\xFF" + bytes(65_534)


# ---- frames ----

def control_octets(face):
    """All 256 in both forms, before the first reset and after it, with the link asked after each."""
    for was_reset in (False, True):
        talk = Talk(face, RICH)
        if was_reset:
            talk.open()
        for control in range(256):
            talk.line.run(fixed(control, RICH.link))
            talk.line.run(variable(control, RICH.link, Request(IDENTITY, 0x102).octets()))
            talk.line.run(variable(control, RICH.link, b""))
            talk.line.run(fixed(control, RICH.link ^ 0x100))
        yield f"control octets, reset {was_reset}", talk.octets()


def lengths_of_frames(face):
    """L 0 to 255 with the right length and wrong ones, the two L not equal, and messages of 0 to 252 octets."""
    talk = Talk(face, RICH)
    talk.open()
    for length in range(256):
        frame = variable(USER_DATA | talk.fcb, RICH.link, bytes(max(length - 3, 0)))
        for run in (bytes([0x68, length, length, 0x68]) + frame[4:4 + length] + frame[-2:],
                    frame[:-3] + frame[-2:], frame[:-1] + b"\x00\x16", frame + b"\x16", b"\x16" + frame,
                    frame[:1] + bytes([length ^ 1]) + frame[2:], frame[:2] + bytes([length ^ 0x80]) + frame[3:]):
            if length < 3 or run != frame:
                talk.line.run(run)
    yield "wrong lengths", talk.octets()
    talk = Talk(face, RICH)
    talk.open()
    for length in range(253):
        talk.send(bytes([EVENTS, 0, 6, 2, 1, 52]).ljust(length, b"\x01")[:length])
        talk.collect()
    yield "messages of 0 to 252 octets", talk.octets()


def damage_of(frame):
    """Every bit changed, every octet cut out, doubled, swapped, and every cut; what is still sound is left out."""
    for at in range(len(frame)):
        for bit in range(8):
            yield frame[:at] + bytes([frame[at] ^ 1 << bit]) + frame[at + 1:]
        yield frame[:at]
        yield frame[at + 1:]
        yield frame[:at] + frame[at + 1:]
        yield frame[:at] + frame[at:at + 1] + frame[at:]
        if frame[at:at + 1] != frame[at + 1:at + 2]:
            yield frame[:at] + frame[at:at + 2][::-1] + frame[at + 2:]


def damaged_frames(face):
    """Each damaged frame is followed by the repeat that shows whether the FCB has advanced."""
    for name, frame in (("fixed", fixed(CLASS_2 | FCB, RICH.link)),
                        ("variable", variable(USER_DATA | FCB, RICH.link, Request(IDENTITY, 0x102).octets()))):
        talk = Talk(face, RICH)
        talk.open()
        talk.collect()
        for run in damage_of(frame):
            talk.line.run(run)
        talk.line.run(frame)
        talk.line.run(fixed(CLASS_2, RICH.link))
        yield f"{name} damaged", talk.octets()


def count_bit(face):
    """FCB 0 and 1 in each order after a reset, with each frame, and the remembered reply of each kind repeated."""
    talk = Talk(face, RICH)
    for first in (0, FCB):
        for second in (0, FCB):
            for request in accepted_requests(0x102):
                talk.open()
                talk.line.run(variable(USER_DATA | FCB ^ first, RICH.link, request.octets()))
                talk.line.run(variable(USER_DATA | FCB ^ first, RICH.link, request.octets()))
                for fcb in (first, first, second, second, first, second):
                    talk.line.run(fixed(CLASS_2 | fcb, RICH.link))
                    talk.status()
                    talk.line.run(variable(USER_DATA | fcb, RICH.link, Request(SET_CLOCK, 0x102, body=NOON).octets()))
    yield "count bit", talk.octets()


# ---- messages ----

def requests_accepted(face):
    """Each type collected to the end and twice more, each reply repeated; at the end the session is shown closed."""
    talk = Talk(face, RICH)
    for point in RICH.points:
        talk.open(point)
        for request in accepted_requests(point):
            talk.ask(request)
            talk.collect_twice(12)
        talk.ask(Request(IDENTITY, point))
        talk.collect(2)
    yield "requests accepted", talk.octets()


def requests_refused(face):
    """Each type with each octet of its request changed in each bit, and with each record address."""
    for request in accepted_requests(0x102):
        if request.kind == EVENTS and request.record not in (52, 129):
            continue
        talk = Talk(face, RICH)
        user = request.octets()
        for at in range(len(user)):
            for bit in range(8):
                talk.open()
                talk.send(user[:at] + bytes([user[at] ^ 1 << bit]) + user[at + 1:])
                talk.collect(3)
                talk.ask(Request(IDENTITY, 0x102))  # is the session still open?
        for record in range(256):
            talk.open()
            talk.send(user[:5] + bytes([record]) + user[6:])
            talk.collect()
        for length in range(6, 20):
            talk.open()
            talk.send(user.ljust(length, b"\x01")[:length])
            talk.collect()
        yield f"type {request.kind} record {request.record} changed", talk.octets()


def headers(face):
    """All types with all causes; all types with N 0 and 1 and lengths that fit; without a session and with each."""
    talk = Talk(face, RICH)
    for session in (None, 0x102, 0x201):
        for kind in range(256):
            for structure, cause, length in ((0, 5, 6), (1, 5, 6), (0, 6, 6), (1, 6, 10)):
                talk.reset() if session is None else talk.open(session)
                talk.send(bytes([kind, structure, cause]) + low_first(0x102, 2) + bytes(length - 5))
                talk.collect()
    yield "types", talk.octets()
    talk = Talk(face, RICH)
    for kind in ROWS:
        for cause in range(256):
            request = next(request for request in accepted_requests(0x201) if request.kind == kind)
            request.cause = cause
            talk.open(0x201)
            talk.ask(request)
            talk.collect(2)
    yield "causes", talk.octets()


def rule_pairs(face):
    """Two rules broken at once for each type: the first in the paper's order decides."""
    def marked(request): request.cause |= 0x80
    def unlisted(request): request.kind ^= 1 << 7
    def no_point(request): request.point = 0x304
    def other_point(request): request.point = 0x201
    def structured(request): request.structure ^= 0x80
    def longer(request): request.body += b"\x00"
    def caused(request): request.cause ^= 3
    def recorded(request): request.record ^= 0x40
    def objected(request): request.body = b"\x07" + request.body[1:]
    def labelled(request): request.body = request.body[:-1] + b"\xFF"

    faults = (marked, unlisted, no_point, other_point, structured, longer, caused, recorded, objected, labelled)
    for dates in (RICH.dates, None):
        talk = Talk(face, replace(RICH, dates=dates), bytes(7))
        for one in faults:
            for other in faults:
                for kind in ROWS:
                    for session in (True, False):
                        request = next(request for request in accepted_requests(0x102) if request.kind == kind)
                        one(request)
                        if other is not one:
                            other(request)
                        talk.open() if session else talk.reset()
                        talk.ask(request)
                        talk.collect()
        yield f"two rules, dates {dates is not None}", talk.octets()


def sessions(face):
    """Passwords wrong by one bit in each octet; sessions replaced, closed, kept."""
    talk = Talk(face, RICH)
    for point, password in RICH.points.items():
        for bit in range(32):
            for opened in RICH.points:
                talk.open(opened)
                talk.ask(open_request(point, password ^ 1 << bit))
                talk.collect()
                for asked in RICH.points:
                    talk.ask(Request(IDENTITY, asked))
                    talk.collect()
                talk.ask(open_request(point, password))
                talk.collect()
                for asked in RICH.points:
                    talk.ask(Request(IDENTITY, asked))
                    talk.collect()
    yield "passwords", talk.octets()


# ---- labels ----

def all_days():
    """Days 0 to 31 of months 0 to 15 in years that are leap years and not, and those that are no years."""
    for year in (0, 1, 2, 3, 4, 96, 98, 99, 100, 127):
        for month in range(16):
            for day in range(32):
                yield bytes([0, 0, day, month, year])


def all_fields():
    """Every value of each octet of a label a."""
    good = label_a(minute_of(2012, 5, 10, 11, 12))
    for at in range(5):
        for value in range(256):
            yield good[:at] + bytes([value]) + good[at + 1:]


def labels_set(face):
    """181 and 186 show by their orders which labels are valid."""
    good = label_a(minute_of(2012, 5, 10, 11, 12))
    talk = Talk(face, RICH)
    talk.open()
    for label in (*all_days(), *all_fields()):
        talk.ask(Request(SET_CLOCK, 0x102, body=b"\xE7\xEF" + label))
        talk.collect()
    for label in all_fields():
        talk.ask(Request(SET_DATES, 0x102, body=label + good))
        talk.collect()
        talk.ask(Request(SET_DATES, 0x102, body=good + label))
        talk.collect()
    for front in (*range(0, 0x10000, 509), 999, 1000, 1023, 59 << 10, 60 << 10, 63 << 10, 59 << 10 | 999):
        talk.ask(Request(SET_CLOCK, 0x102, body=low_first(front, 2) + good))
        talk.collect()
    yield "labels set", talk.octets()


def labels_asked(face):
    """Labels not valid at either end of a range, with everything chosen if they were."""
    talk = Talk(face, RICH)
    talk.open()
    for way in LABEL_A_SPOILS:
        spoiled_first, spoiled_last = spoil_label_a(FIRST_LABEL, way), spoil_label_a(LAST_LABEL, way)
        for first, last in ((spoiled_first, LAST_LABEL), (FIRST_LABEL, spoiled_last)):
            for request in (events_request(0x102, 52, first, last), readings_request(TOTALS, 0x102, first, last),
                            readings_request(PERIODS, 0x102, first, last)):
                talk.ask(request)
                talk.collect(2)
                talk.open()
    yield "labels asked", talk.octets()


def ranges(face):
    """Every pair of borders around the labels of a record: the minute before, at and after each; and far ones."""
    for record in (11, 21, 52, 129):
        talk = Talk(face, RICH)
        minutes = sorted({minute + step for minute in RICH.minutes(0x102, record) for step in (-1, 0, 1)})
        day = minutes[0]
        far = [day + days * 1440 for days in (-366, -31, -1, 1, 31, 366)] + [0, LAST_MINUTE]
        for first in minutes + far:
            for last in minutes + far:
                talk.open()
                talk.ask(range_request(0x102, record, label_a(first, 7, summers(first)[-1]), label_a(last, 0, 0)))
                talk.collect(7)
        yield f"ranges of record {record}", talk.octets()


# ---- labels in standard time ----

CHANGED_DAYS = {"autumn": AUTUMN_2001, "spring": SPRING_2001}
MOMENTS_RECORDS = (11, 21, 52)  # those that `meter_of_moments` has


def days_of_change(face):
    """The whole day on which the clock is changed, asked for by its own first and last label and with everything."""
    for name, change in CHANGED_DAYS.items():
        moments = day_of_change(change)
        first, last = (label_a(minute, 7, summer) for minute, summer in (moments[0], moments[-1]))
        talk = Talk(face, meter_of_moments(moments))
        talk.open()
        for record in MOMENTS_RECORDS:
            for request in (range_request(1, record, first, last), whole(1, record)):
                talk.ask(request)
                talk.collect(6 if record in EVENT_RECORDS else len(moments) + 3)
        yield f"{name} day", talk.octets()


def ranges_over_changes(face):
    """Every range between the half hours around the change, each end with SU 0 and with SU 1."""
    for name, change in CHANGED_DAYS.items():
        moments = moments_of(range(change - 120, change + 120, 30))
        labels = [face_label_a(change + step, 7, summer) for step in range(-30, 91, 30) for summer in (0, 1)]
        for record in MOMENTS_RECORDS:
            talk = Talk(face, meter_of_moments(moments))
            talk.open()
            for first in labels:
                for last in labels:
                    talk.ask(range_request(1, record, first, last))
                    talk.collect(3 if record in EVENT_RECORDS else len(moments) + 2)
            yield f"ranges in {name}, record {record}", talk.octets()


def pairs_of_labels(face):
    """Every pair of labels around each border as first and last of a range, with these labels in the image."""
    for place, (name, border) in enumerate(FACE_BORDERS.items()):
        around = moments_around(border)
        apart = moments_apart(around)
        meter = replace(meter_of_moments(around), readings=meter_of_moments(apart).readings)
        labels = [label_a(minute, 7, summer) for minute, summer in around]
        for record, replies in ((52, 3), ((11, 21)[place % 2], len(apart) + 2)):
            talk = Talk(face, meter)
            talk.open()
            for first in labels:
                for last in labels:
                    talk.ask(range_request(1, record, first, last))
                    talk.collect(replies)
            yield f"labels around {name}, record {record}", talk.octets()


# ---- ranges of objects ----

def object_ranges(face):
    """All 21 ranges for 122 and for 123, each collected to the end and once more, each reply repeated."""
    talk = Talk(face, meter_of_objects(4))
    talk.open()
    for kind in (TOTALS, PERIODS):
        for objects in OBJECT_RANGES:
            talk.ask(readings_request(kind, 1, FIRST_LABEL, LAST_LABEL, objects))
            talk.collect_twice(7)
    yield "ranges of objects", talk.octets()


def object_pairs(face):
    """Every pair of firsts and lasts around the borders of the rules and of a signed octet, and 1 and 6 with bit 8 set.
    The labels are right."""
    ends = (*range(9), 127, 128, 129, 134, 254, 255)
    talk = Talk(face, meter_of_objects(1))
    for kind in (TOTALS, PERIODS):
        for first in ends:
            for last in ends:
                talk.open()
                talk.ask(readings_request(kind, 1, FIRST_LABEL, LAST_LABEL, (first, last)))
                talk.collect(4)
    yield "pairs of objects", talk.octets()


def objects_and_labels(face):
    """Ranges of objects, wrong by each rule and right, together with labels that are wrong by each rule and right."""
    meter = meter_of_objects(2)
    before, behind = (label_a(meter.readings[place].minute + step) for place, step in ((0, -1), (-1, 1)))
    between = label_a(meter.readings[0].minute + 1)
    spans = [(FIRST_LABEL, LAST_LABEL), (before, behind), (behind, before), (between, before), (before, before),
             (between, between), (behind, LAST_LABEL), (bytes(5), bytes(5)), (b"\xFF" * 5, b"\xFF" * 5)]
    for way in ("minute 60", "IV", "day 0", "29 February 2001", "year 100"):
        spans += [(spoil_label_a(FIRST_LABEL, way), LAST_LABEL), (FIRST_LABEL, spoil_label_a(LAST_LABEL, way))]
    pairs = [(0, 6), (0, 0), (1, 7), (7, 7), (2, 1), (6, 1), (7, 6), (0, 7), (1, 255), (255, 1), (1, 0), (128, 129),
             (1, 6), (1, 1), (6, 6), (2, 5), (3, 4)]
    talk = Talk(face, meter)
    for kind in (TOTALS, PERIODS):
        for objects in pairs:
            for span in spans:
                talk.open()
                talk.ask(readings_request(kind, 1, *span, objects))
                talk.collect(2)
    yield "objects and labels", talk.octets()


# ---- many records ----

def many_events(face):
    for count in (*range(0, 61), 80, 81, 82, 108, 109, 270, 300):
        for step in (0, 1, 61_000):
            talk = Talk(face, meter_of_events(count, step, EVENT_RECORDS[count % 6]))
            talk.open()
            talk.ask(whole(1, EVENT_RECORDS[count % 6]))
            talk.collect(4 + count // 27)
            yield f"{count} events, step {step}", talk.octets()


def many_readings(face):
    for count, record in ((40, 11), (320, 21), (320, 11)):
        talk = Talk(face, meter_of_readings(count, record))
        talk.open()
        talk.ask(whole(1, record))
        talk.collect(count + 3)
        yield f"{count} readings of record {record}", talk.octets()


def fullest_images(face):
    """1,597 readings; and the image of exactly 65,535 octets, whose last records are asked for."""
    for name, meter in (("1,597 readings", meter_of_readings(1597)), ("65,535 octets", fullest_meter())):
        talk = Talk(face, meter)
        talk.open()
        last = meter.readings[-1].minute
        talk.ask(readings_request(TOTALS, 1, label_a(last - 5), label_a(last)))
        talk.collect(9)
        talk.ask(Request(DATES, 1))
        talk.collect(2)
        if 2 in meter.points:
            talk.open(2)
            talk.ask(whole(2, 129))
            talk.collect(4)
        yield name, talk.octets()


def readings_too_many_for_print():
    """1,598 readings have 65,539 octets: the length field cannot say so, and what it says ends inside a record."""
    image = meter_of_readings(1598).octets
    for length in (len(image) & 0xFFFF, 0xFFFF):
        yield f"1,598 readings as {length} octets", b"\x01" + length.to_bytes(2, "big") + image + NOON


def longest_transfers():
    """All of the most readings and of the most events that an image can hold, collected to the end."""
    for name, meter, record, replies in (("1,597 readings", meter_of_readings(1597), 21, 1597),
                                         ("4,367 events", meter_of_events(4367, 1), 52, 162)):
        talk = Talk("print", meter)
        talk.open()
        talk.ask(whole(1, record))
        talk.collect(replies + 4)
        yield f"{name} collected", talk.octets()


def long_conversation(face):
    """Much longer than the others: a program keeps one image and one run, not its whole input."""
    yield "long conversation", conversation(random.Random("long"), face, {"print": 12_000, "drive": 4_000}[face])


def both_faces(face):
    for family in (count_bit, control_octets, lengths_of_frames, damaged_frames, requests_accepted, requests_refused,
                   headers, rule_pairs, sessions, labels_set, labels_asked, ranges, object_ranges, object_pairs,
                   days_of_change, ranges_over_changes, pairs_of_labels, objects_and_labels, many_events,
                   many_readings, fullest_images, clocks):
        yield from family(face)


def clocks(face):
    """103 with each clock: the answer shows whether it is valid. One clock for each input of the printing program."""
    good = label_b(minute_of(2012, 5, 10, 11, 12) * 60_000 + 59_999, 7, 1)
    spoiled = [spoil_label_b(good, way) for way in (*LABEL_A_SPOILS, *LABEL_B_SPOILS)]
    for clock in (good, NOON, label_b(0), label_b(LAST_MILLISECOND), bytes(7), b"\xFF" * 7, *spoiled):
        talk = Talk(face, RICH, clock)
        talk.open()
        talk.ask(Request(CLOCK, 0x102))
        talk.collect(2)
        yield f"clock {clock.hex()}", talk.octets()


# ---- what only the driving face shows ----

def small_drive_input():
    line = DriveLine(None, BARE.octets, NOON)
    line.run(fixed(RESET, 1))
    line.lend_buffer(300)
    line.run(b"")
    line.run(variable(USER_DATA | FCB, 1, open_request(1, 0x12345678).octets()))
    line.run(fixed(CLASS_2, 1))
    return line.octets()


def drive_faults():
    small = small_drive_input()
    for at in range(len(small) + 1):
        yield f"cut at {at}", small[:at]
    for letter in range(256):
        yield f"letter {letter}", small + bytes([letter])
        yield f"letter {letter} first", bytes([letter]) + small
    for length in (65_599, 65_600, 65_601, 65_792, 0x010000, 0x01FFFF, 0xFFFFFF):
        start = small + b"I" + length.to_bytes(3, "big")
        yield f"I {length}", start
        yield f"I {length} with octets", start + bytes(min(length, 66_000)) + b"G"
    for length in (0, 260, 261, 299, 300, 301, 511, 512, 556, 0x8000, 0xFFFF):
        yield f"B {length}", small + b"B" + length.to_bytes(2, "big") + small[-20:]
    yield "nothing lent", b"GO\x00\x06" + fixed(RESET, 0) + b"G" + small + b"G"
    yield "clock of the start", b"".join((small[:4 + len(BARE.octets)], Talk("drive", BARE, bytes(7)).octets()))


def short_buffers():
    """Lent 0 to 300 octets of the buffer: 9 keeps the run, which is answered when enough is lent."""
    line = DriveLine(None, RICH.octets, NOON)
    for length in range(301):
        line.put(fixed(RESET if length % 2 else STATUS, RICH.link))
        line.borrow_buffer(length)
        line.gap()
        line.borrow_buffer(261 + length % 40)
        line.gap()
        line.gap()
    yield "short buffers", line.octets()


def kept_runs():
    """The run kept behind 8 and 9 and joined by what follows; overfull stays overfull; 9 comes before 8 before 1."""
    line = DriveLine(None, RICH.octets, NOON)
    frame = variable(USER_DATA | FCB, RICH.link, bytes(252))
    for kept in (b"", fixed(RESET, RICH.link), frame[:100], frame, frame + b"\x00", frame * 2, bytes(65_535)):
        for joined in (b"", frame[len(kept):], fixed(RESET, RICH.link), b"\x16"):
            for buffer, image in ((260, RICH.octets), (261, b""), (0, b"\x02"), (300, BARE.octets)):
                line.put(kept)
                line.borrow_buffer(buffer)
                line.borrow_image(image)
                line.gap()
                line.put(joined)
                line.gap()
                line.borrow_buffer(261)
                line.borrow_image(RICH.octets)
                line.gap()
                line.run(fixed(RESET, RICH.link))
    yield "kept runs", line.octets()


def unsound_lent():
    """Each unsound image lent with a gap in the middle of a transfer: 8, nothing changes, and the run is kept."""
    talk = Talk("drive", RICH)
    line = talk.line
    talk.open()
    talk.ask(whole(0x102, 52))
    for name, image in [*UNSOUND, *sound_images(RICH), ("too long", overfull_meter().octets),
                        ("1,598 readings", meter_of_readings(1598).octets)]:
        line.put(fixed(CLASS_2 | talk.fcb, RICH.link))
        line.borrow_image(image)
        line.gap()
        line.borrow_image(RICH.octets)
        line.gap()
        talk.fcb ^= FCB
        talk.ask(whole(0x102, 52))
    yield "unsound images", talk.octets()


def sound_lent():
    """Sound images on the right side of each rule, asked for status and clock."""
    for name, image in sound_images(RICH):
        line = DriveLine(None, image, NOON)
        for address in (0, 1, 9, 0x304):
            line.run(fixed(STATUS, address))
        yield f"image: {name}", line.octets()


def neighbours_lent():
    """Every pair of labels around each border as neighbours in an image: two readings; two events at the same place in
    their minutes, and the first of them a millisecond or 59 seconds later."""
    for name, border in FACE_BORDERS.items():
        line = DriveLine(None, BARE.octets, NOON)
        around = moments_around(border)
        for first in around:
            for last in around:
                for more in (0, 1, 59_000):
                    meter = meter_of_moments((first, last), more)
                    if more == 0:
                        line.borrow_image(replace(meter, events=()).octets)
                        line.gap()
                    line.borrow_image(replace(meter, readings=()).octets)
                    line.gap()
        yield f"neighbours around {name}", line.octets()


def months_lent():
    """The labels around the start of every month from 2000 on, in their order, in one image for each."""
    line = DriveLine(None, BARE.octets, NOON)
    for year in range(2000, 2100):
        for month in range(1, 13):
            around = moments_around(minute_of(year, month, 1))
            readings = meter_of_moments(moments_apart(around)).readings
            line.borrow_image(replace(meter_of_moments(around), readings=readings).octets)
            line.gap()
    yield "starts of months", line.octets()


def variations(meter):
    """Images that a transfer may be continued from."""
    yield "the same", meter
    yield "without dates", replace(meter, dates=None)
    yield "other dates", replace(meter, dates=FIRST_LABEL + LAST_LABEL)
    yield "other identity", replace(meter, identity=b"\x09\x08\x07\x06\x05\x04")
    yield "other link", replace(meter, link=0x403)
    yield "other passwords", replace(meter, points={point: 1 for point in meter.points})
    yield "no records", replace(meter, readings=(), events=())
    yield "fewer records", replace(meter, readings=meter.readings[1:], events=meter.events[2:])
    yield "one left", replace(meter, readings=meter.readings[:1], events=meter.events[:1])
    yield "point gone", without_point(meter, 0x102)
    yield "other point gone", without_point(meter, 0x201)
    yield "only the other", replace(Meter(), points={0x302: 0})


def exchanged_images():
    """Every request, exchanged after each number of collections, and back again for the rest."""
    for name, other in variations(RICH):
        talk = Talk("drive", RICH)
        for request in accepted_requests(0x102):
            for before in range(6):
                talk.open()
                talk.ask(request)
                talk.collect(before)
                talk.exchange(other)
                talk.line.lend_clock(label_b(before * 1000))
                talk.fcb ^= FCB
                talk.collect(1)  # a repeat, in the octets of the old image
                talk.collect(3)
                talk.ask(request)
                talk.collect(2)
                talk.exchange(RICH)
                talk.line.lend_clock(NOON)
                talk.collect(8)
        yield f"exchanged: {name}", talk.octets()


def grown_images():
    """Events that become more between two messages, from and to each number around 27."""
    for before in (1, 26, 27, 28, 54, 55):
        for after in (0, 1, 26, 27, 28, 53, 54, 55, 60, 82):
            talk = Talk("drive", meter_of_events(before, 1000))
            talk.open()
            talk.ask(whole(1, 52))
            talk.collect(2)
            talk.exchange(meter_of_events(after, 1000))
            talk.collect(3)
            talk.exchange(meter_of_events(90, 1000))
            talk.collect(5)
            yield f"{before} events become {after}", talk.octets()


def exchanged_objects():
    """Every range of objects, with the image exchanged after each number of collections for one with other values, for
    one with fewer readings and for one with more; a request for another range, which has to wait, changes nothing."""
    meter = meter_of_objects(3)
    talk = Talk("drive", meter)
    for other in (meter_of_objects(3, turned=True), meter_of_objects(1, turned=True), meter_of_objects(4)):
        for kind in (TOTALS, PERIODS):
            for first, last in OBJECT_RANGES:
                for before in range(1, 4):
                    talk.exchange(meter)
                    talk.open()
                    talk.ask(readings_request(kind, 1, FIRST_LABEL, LAST_LABEL, (first, last)))
                    talk.collect(before)
                    talk.ask(readings_request(kind, 1, FIRST_LABEL, LAST_LABEL, (7 - last, 7 - first)))
                    talk.exchange(other)
                    talk.collect_twice(1)
                    talk.exchange(meter)
                    talk.collect(4)
    yield "ranges of objects, exchanged", talk.octets()


def damaged_count():
    """The count of damaged runs past 65,535, and what does not count."""
    line = DriveLine(None, BARE.octets, NOON)
    for run in (bytes(262), b"\x10", fixed(STATUS, 1)[:-2] + b"\x00\x16", fixed(STATUS, 2), fixed(0x44, 1),
                fixed(CLASS_2, 1), b"", fixed(RESET, 1)):
        line.run(run)
    # Three counted above; all but the last few by the quickest damage.
    line.parts += [b"O\x00\x01\x00G"] * (65_535 - 3 - 2)
    for _ in range(2):
        for run in (b"\x10", bytes(262), fixed(STATUS, 1)[:-2] + b"\x00\x16", fixed(STATUS, 1)):
            line.run(run)
    yield "65,535 damaged runs", line.octets()


def systematic_inputs():
    for family in (print_faults, long_runs, lambda: both_faces("print"), readings_too_many_for_print, longest_transfers,
                   lambda: long_conversation("print")):
        for name, octets in family():
            yield "print", name, octets
    for family in (drive_faults, short_buffers, kept_runs, unsound_lent, sound_lent, neighbours_lent, months_lent,
                   exchanged_images, grown_images, exchanged_objects, lambda: both_faces("drive"),
                   lambda: long_conversation("drive"), damaged_count):
        for name, octets in family():
            yield "drive", name, octets


def little_by_little():
    """Inputs to be delivered in pieces: pipes do so, and a program must not take a short read for the end."""
    yield "print", "example in pieces", small_print_input()
    yield "print", "example in pieces, cut", small_print_input()[:-1]
    yield "drive", "example in pieces", small_drive_input()
    for face in ("print", "drive"):
        yield face, "conversation in pieces", conversation(random.Random("pieces"), face)[:6000]
