"""Meter images: sound ones drawn at random, variations of them, and unsound ones by each rule."""

from dataclasses import dataclass, field, replace
from functools import cached_property
from typing import NamedTuple, Optional

from wire import (AUTUMN_2001, CHANGES, EVENT_RECORDS, FIRST_MINUTE, LABEL_A_SPOILS, LABEL_B_SPOILS, LAST_MINUTE,
                  SPRING_2001, SUMMER_HOUR, face_label_a, is_summer, label_a, label_b, minute_of, spoil_label_a,
                  spoil_label_b, summers)

READING_RECORDS = (11, 21)
MOST_POINTS = 8
FIRST_MILLISECOND = FIRST_MINUTE * 60_000
LAST_MILLISECOND = LAST_MINUTE * 60_000 + 59_999
LAST_SUMMER_MILLISECOND = LAST_MILLISECOND - SUMMER_HOUR * 60_000


class Reading(NamedTuple):
    point: int
    record: int
    minute: int
    label: bytes
    values: bytes  # six times value (big-endian) and quality

    def octets(self):
        return b"\x04" + self.point.to_bytes(2, "big") + bytes([self.record]) + self.label + self.values


class Event(NamedTuple):
    point: int
    record: int
    millisecond: int
    label: bytes
    signal: bytes  # SPA and SPQ/SPI

    @property
    def minute(self):
        return self.millisecond // 60_000

    def octets(self):
        return b"\x05" + self.point.to_bytes(2, "big") + bytes([self.record]) + self.signal + self.label


@dataclass
class Meter:
    """What an image says. Never changed in place: variations are made with `replace`."""

    link: int = 1
    identity: bytes = bytes(6)  # date, maker, product
    points: dict = field(default_factory=lambda: {1: 0x12345678})  # address: password
    dates: Optional[bytes] = None
    readings: tuple = ()
    events: tuple = ()

    def records(self):
        """The image's records in order, each as kind and body."""
        records = [b"\x01" + self.link.to_bytes(2, "big") + self.identity]
        for address, password in sorted(self.points.items()):
            records.append(b"\x02" + address.to_bytes(2, "big") + password.to_bytes(4, "big"))
        if self.dates is not None:
            records.append(b"\x03" + self.dates)
        records.extend(reading.octets() for reading in self.readings)
        records.extend(event.octets() for event in self.events)
        return records

    @cached_property
    def octets(self):
        return image_of(self.records())

    def minutes(self, point, record):
        """The minutes of the readings or events of that point and record, in image order."""
        table = self.readings if record in READING_RECORDS else self.events
        return [entry.minute for entry in table if entry.point == point and entry.record == record]


def image_of(records, version=1):
    return bytes([version]) + b"".join(len(record).to_bytes(2, "big") + record for record in records)


# ---- sound images at random ----

# Addresses whose octets differ, are swapped against each other, or stand at a border.
ADDRESSES = (1, 2, 3, 7, 0xFF, 0x100, 0x101, 0x102, 0x201, 0x1234, 0x3412, 0x7FFF, 0x8000, 0xFFFE, 0xFFFF)

# Minutes around which labels are compared wrongly if they are: borders of day, month, year, leap day, the ends.
BORDERS = tuple(minute_of(*date) for date in (
    (2000, 1, 1), (2000, 2, 29), (2000, 3, 1), (2001, 1, 1), (2001, 3, 1), (2004, 2, 29), (2010, 1, 1), (2015, 10, 1),
    (2015, 12, 31), (2016, 1, 1), (2031, 2, 1), (2031, 9, 30), (2063, 12, 31), (2064, 1, 1), (2099, 12, 31)))
MINUTE_STEPS = (1, 1, 15, 15, 15, 60, 1440, 1440, 1440 * 31, 1440 * 366)
MILLISECOND_STEPS = (0, 0, 0, 1, 1, 999, 1000, 31_000, 59_999, 60_000, 60_000, 900_000, 86_400_000, 2_678_400_000)
COUNTS_OF_READINGS = (0, 1, 2, 3, 5, 8, 12)
COUNTS_OF_EVENTS = (0, 1, 2, 3, 7, 26, 27, 28, 29, 54, 55, 56, 60)
MOST_RECORDS_AT_RANDOM = 160


def random_octets(chance, length):
    return chance.randbytes(length)


def random_minute(chance):
    """Often on a day on which the clock is changed, in the first hours of 2000, or at a border or an hour before it."""
    way = chance.random()
    if way < 0.2:
        return chance.randint(FIRST_MINUTE, LAST_MINUTE)
    if way < 0.6:
        near = chance.choice((AUTUMN_2001, *chance.choices(CHANGES, k=3))) + chance.randint(-130, 70)
    elif way < 0.7:
        near = chance.randint(FIRST_MINUTE, 70)
    else:
        near = chance.choice(BORDERS) - chance.choice((0, SUMMER_HOUR)) + chance.randint(-20, 20)
    return min(max(near, FIRST_MINUTE), LAST_MINUTE)


def random_clock_face(chance):
    """How one clock shows minutes: SU by the calendar, anyhow, or always the same."""
    always = chance.randint(0, 1)
    return chance.choice((is_summer, is_summer, lambda minute: chance.randint(0, 1), lambda minute: always))


def random_summer(chance, minute, summer=None):
    """This SU, or any if none is given, where a label can have it."""
    return summer if summer in summers(minute) else chance.choice(summers(minute))


def random_label_a(chance, minute, summer=None):
    return label_a(minute, chance.randint(0, 7), random_summer(chance, minute, summer))


def random_label_b(chance, millisecond, summer=None):
    return label_b(millisecond, chance.randint(0, 7), random_summer(chance, millisecond // 60_000, summer))


def rising(chance, count, start, steps, most):
    """Up to `count` rising numbers from `start`, ended early where time ends."""
    numbers = []
    number = start
    # One conversation has small steps, another large ones: ranges then cut in different places.
    some_steps = chance.sample(steps, 3)
    while len(numbers) < count and number <= most:
        numbers.append(number)
        number += chance.choice(some_steps)
    return numbers


def random_value(chance):
    extreme = chance.choice((b"\x80\x00\x00\x00", b"\x7F\xFF\xFF\xFF", b"\xFF\xFF\xFF\xFF", b"\x00\x00\x00\x01"))
    value = extreme if chance.random() < 0.2 else random_octets(chance, 4)
    return value + random_octets(chance, 1)


def random_readings(chance, point, record, count):
    minutes = rising(chance, count, random_minute(chance), MINUTE_STEPS, LAST_MINUTE)
    face = random_clock_face(chance)
    return [Reading(point, record, minute, random_label_a(chance, minute, face(minute)),
                    b"".join(random_value(chance) for _ in range(6))) for minute in minutes]


def random_events(chance, point, record, count):
    start = random_minute(chance) * 60_000 + chance.choice((0, 1, 999, 1000, 59_998, 59_999))
    times = rising(chance, count, start, MILLISECOND_STEPS, LAST_MILLISECOND)
    face = random_clock_face(chance)
    return [Event(point, record, time, random_label_b(chance, time, face(time // 60_000)), random_octets(chance, 2))
            for time in times]


def random_dates(chance):
    return random_label_a(chance, random_minute(chance)) + random_label_a(chance, random_minute(chance))


def random_points(chance):
    addresses = chance.sample(ADDRESSES, chance.choice((1, 2, 2, 3, 3, 4, 7)))
    if chance.random() < 0.5:
        addresses.append(chance.randint(1, 0xFFFF))
    return {address: chance.choice((0, 0xFFFFFFFF, chance.getrandbits(32), chance.getrandbits(32)))
            for address in addresses}


def random_link(chance, points):
    """Different from every point: then a link address used for a point is noticed."""
    free = [address for address in (0, *ADDRESSES, chance.randint(0, 0xFFFF)) if address not in points]
    return chance.choice(free)


def in_order(records):
    """Readings by point, record, minute; events by point, record, millisecond, equals as they come. Whatever SU is:
    minutes and milliseconds are those of standard time."""
    return tuple(sorted(records, key=lambda entry: entry[:3]))


def random_meter(chance):
    points = random_points(chance)
    readings, events = [], []
    for point in chance.sample(sorted(points), min(len(points), 3)):
        for record in READING_RECORDS:
            readings += random_readings(chance, point, record, chance.choice(COUNTS_OF_READINGS))
        for record in chance.sample(EVENT_RECORDS, 3):
            if len(readings) + len(events) < MOST_RECORDS_AT_RANDOM:
                events += random_events(chance, point, record, chance.choice(COUNTS_OF_EVENTS))
    return Meter(random_link(chance, points), random_octets(chance, 6), points,
                 random_dates(chance) if chance.random() < 0.6 else None, in_order(readings), in_order(events))


# ---- images exchanged between gaps ----

def some_of(chance, records):
    """Fewer records: any left out, the first ones left out, or all."""
    way = chance.random()
    if way < 0.2:
        return ()
    if way < 0.5:
        return records[chance.randint(0, len(records)):]
    return tuple(record for record in records if chance.random() < 0.6)


def more_readings(chance, meter):
    point = chance.choice(sorted(meter.points))
    added = random_readings(chance, point, chance.choice(READING_RECORDS), chance.randint(1, 6))
    # Some beside the readings that are there, so that a range under way takes them in.
    beside = [Reading(reading.point, reading.record, reading.minute + 1,
                      random_label_a(chance, reading.minute + 1), reading.values)
              for reading in meter.readings if reading.minute < LAST_MINUTE and chance.random() < 0.3]
    by_place = {reading[:3]: reading for reading in [*added, *beside, *meter.readings]}
    return in_order(by_place.values())


def more_events(chance, meter):
    point = chance.choice(sorted(meter.points))
    added = random_events(chance, point, chance.choice(EVENT_RECORDS), chance.choice(COUNTS_OF_EVENTS))
    doubled = [event for event in meter.events if chance.random() < 0.3]
    return in_order([*meter.events, *added, *doubled])


def relabelled(chance, meter):
    """The same instants as another clock shows them."""
    return replace(meter,
                   readings=tuple(entry._replace(label=random_label_a(chance, entry.minute))
                                  for entry in meter.readings),
                   events=tuple(entry._replace(label=random_label_b(chance, entry.millisecond))
                                for entry in meter.events))


def without_point(meter, point):
    return replace(meter, points={address: password for address, password in meter.points.items() if address != point},
                   readings=tuple(entry for entry in meter.readings if entry.point != point),
                   events=tuple(entry for entry in meter.events if entry.point != point))


def exchanged(chance, meter, session=None):
    """Another image, as the meter's own life or a careless host could make it."""
    way = chance.choice(("dates", "dates", "fewer", "fewer", "more", "more", "labels", "point", "link", "password",
                         "identity"))
    if way == "dates":
        return replace(meter, dates=None if meter.dates else random_dates(chance))
    if way == "fewer":
        return replace(meter, readings=some_of(chance, meter.readings), events=some_of(chance, meter.events))
    if way == "more":
        return replace(meter, readings=more_readings(chance, meter), events=more_events(chance, meter))
    if way == "labels":
        return relabelled(chance, meter)
    if way == "point" and len(meter.points) > 1:
        gone = session if session in meter.points and chance.random() < 0.7 else chance.choice(sorted(meter.points))
        return without_point(meter, gone)
    if way == "link":
        return replace(meter, link=random_link(chance, meter.points))
    if way == "password":
        return replace(meter, points={address: chance.getrandbits(32) for address in meter.points})
    return replace(meter, identity=random_octets(chance, 6))


# ---- images for fixed purposes ----

def rich_meter():
    """Records of every kind, for two of three points, so that every rule of soundness can be broken."""
    day = minute_of(2015, 12, 31, 23, 30)
    values = bytes(range(30))
    readings = [Reading(point, record, day + 15 * step, label_a(day + 15 * step, step, step & 1), values)
                for point in (0x102, 0x201) for record in READING_RECORDS for step in range(4)]
    times = [day * 60_000 + milliseconds for milliseconds in (0, 0, 1, 1000, 59_999, 60_000, 1_800_000, 1_860_001)]
    events = [Event(point, record, time, label_b(time, 7, 1), bytes([place, 0x80]))
              for point in (0x102, 0x201) for record in EVENT_RECORDS for place, time in enumerate(times)]
    return Meter(0x304, bytes.fromhex("0102030405F6"), {0x102: 0x12345678, 0x201: 0x87654321, 0x302: 0},
                 label_a(minute_of(2015, 3, 29, 2)) + label_a(minute_of(2015, 10, 25, 3)),
                 in_order(readings), in_order(events))


def meter_of_events(count, step=0, record=52):
    """One point with `count` events; a step of 0 gives them all the same label."""
    start = minute_of(2020, 2, 28, 23, 59) * 60_000
    times = [start + place * step for place in range(count)]
    return Meter(9, events=tuple(Event(1, record, time, label_b(time), place.to_bytes(2, "big"))
                                 for place, time in enumerate(times)))


def meter_of_readings(count, record=21):
    """One point with `count` readings, one for each minute; 1,597 are the most that fit."""
    start = minute_of(2020, 2, 28, 22, 0)
    return Meter(9, readings=tuple(Reading(1, record, start + place, label_a(start + place),
                                           place.to_bytes(4, "big") * 7 + bytes(2)) for place in range(count)))


def meter_of_objects(count, turned=False):
    """One point with `count` readings, 4 at most, of each record; every octet of a value or quality occurs only once.
    Turned, the same minutes have other octets."""
    start = minute_of(2020, 2, 29, 23, 45)
    readings = []
    for record in READING_RECORDS:
        for minute in range(start, start + 15 * count, 15):
            octets = bytes(range(30 * len(readings), 30 * len(readings) + 30))
            readings.append(Reading(1, record, minute, label_a(minute, 7, 1),
                                    bytes(255 - octet for octet in octets) if turned else octets))
    return Meter(9, readings=tuple(readings))


def fullest_meter():
    """Exactly 65,535 octets: 1,597 readings, the dates, one event and a second point."""
    meter = meter_of_readings(1597)
    event = Event(2, 129, 0, label_b(0), b"\x01\x02")
    return replace(meter, points={1: 0x12345678, 2: 5}, dates=label_a(0) + label_a(LAST_MINUTE), events=(event,))


def overfull_meter():
    """Sound but for its 65,536 octets."""
    meter = meter_of_readings(1596)
    event = Event(2, 129, 0, label_b(0), b"\x01\x02")
    return replace(meter, points={address: address for address in range(1, 6)},
                   dates=label_a(0) + label_a(LAST_MINUTE), events=(event, event))


# ---- days on which the clock is changed, and pairs of labels ----

def meter_of_moments(moments, more=0):
    """One point with a reading of each record and an event for each (minute, SU), in the order given, sound or not. The
    events lie inside their minutes, each by so many milliseconds more than the one behind it."""
    readings = [Reading(1, record, minute, label_a(minute, 7, summer), bytes([place]) * 30)
                for record in READING_RECORDS for place, (minute, summer) in enumerate(moments)]
    events = []
    for place, (minute, summer) in enumerate(moments):
        time = minute * 60_000 + 500 + more * (len(moments) - 1 - place)
        events.append(Event(1, 52, time, label_b(time, 7, summer), bytes([place, 0x80])))
    return Meter(9, readings=tuple(readings), events=tuple(events))


def moments_of(minutes):
    """As a clock shows them that is changed in March and October."""
    return [(minute, is_summer(minute)) for minute in minutes]


def day_of_change(change):
    """The quarters of this day from 00:15 to 00:00 of the next on the clock's face, 23 hours in spring and 25 in
    autumn: then 02:00 to 02:45 come with SU 1 and again with SU 0."""
    begin = change - 120 - SUMMER_HOUR * is_summer(change - 1)
    end = change + 22 * 60 - SUMMER_HOUR * is_summer(change)
    return moments_of(range(begin + 15, end + 1, 15))


# Borders on the clock's face on both sides of which labels are compared with each other, with SU 0 and 1.
FACE_BORDERS = {
    "midnight": minute_of(2010, 6, 2),
    "a month": minute_of(2010, 7, 1),
    "a year": minute_of(2011, 1, 1),
    "a leap day": minute_of(2004, 2, 29),
    "the day behind a leap day": minute_of(2004, 3, 1),
    "1 March": minute_of(2005, 3, 1),
    "the start of 2000": 0,
    "the end of 2099": LAST_MINUTE + 1,
    "02:00 in autumn": AUTUMN_2001,
    "03:00 in spring": SPRING_2001 + SUMMER_HOUR,
}


def moments_around(border):
    """(minute, SU) of the faces a minute and an hour on both sides of a border, as far as there are such labels, from
    the earliest on. Some instants come twice, with either SU."""
    faces = [face for face in (border - 60, border - 1, border, border + 59, border + 60) if 0 <= face <= LAST_MINUTE]
    return sorted((face - SUMMER_HOUR * summer, summer) for face in faces for summer in (0, 1))


def moments_apart(moments):
    """One of each instant, for readings: with SU 1 where there are two."""
    return sorted(dict(moments).items())


# ---- unsound images by each rule ----

KINDS = {1: "meter", 2: "point", 3: "dates", 4: "reading", 5: "event"}


def places(records, kind):
    return [place for place, record in enumerate(records) if record[0] == kind]


def changed(records, place, record):
    return records[:place] + [record] + records[place + 1:]


def without(records, place):
    return records[:place] + records[place + 1:]


def swapped(records, one, other):
    result = list(records)
    result[one], result[other] = result[other], result[one]
    return result


def wrong_lengths(records):
    """Each kind's first and last record one octet shorter or longer, in its octets, in its length, or in both."""
    for kind, name in KINDS.items():
        for place in {places(records, kind)[0], places(records, kind)[-1]}:
            record = records[place]
            yield f"{name} {place} shorter", image_of(changed(records, place, record[:-1]))
            yield f"{name} {place} longer", image_of(changed(records, place, record + b"\x00"))
            before, behind = image_of(records[:place]), image_of(records[place + 1:])[1:]
            for step in (-1, 1, 256):
                length = (len(record) + step).to_bytes(2, "big")
                yield f"{name} {place} length {step:+}", before + length + record + behind
            yield f"{name} {place} without body", image_of(changed(records, place, record[:1]))


def wrong_kinds(records):
    for kind, name in KINDS.items():
        place = places(records, kind)[0]
        for other in (0, 1, 2, 3, 4, 5, 6, 0x80 | kind, 255):
            if other != kind:
                yield f"{name} as kind {other}", image_of(changed(records, place, bytes([other]) + records[place][1:]))
        yield f"{name} moved to the end", image_of(without(records, place) + [records[place]])
        if kind > 1:
            yield f"{name} moved to the front", image_of([records[place]] + without(records, place))
    for kind in (1, 3):
        place = places(records, kind)[0]
        yield f"{KINDS[kind]} twice", image_of(records[:place] + [records[place]] + records[place:])
    # A kind behind its successor, though in order itself.
    for kind in (2, 3, 4):
        last = places(records, kind)[-1]
        yield f"{KINDS[kind]} behind the next kind", image_of(swapped(records, last, last + 1))


def wrong_points(records):
    first = places(records, 2)[0]
    rest = [record for record in records if record[0] not in (2, 4, 5)]

    def points(*addresses):
        listed = [b"\x02" + address.to_bytes(2, "big") + bytes(4) for address in addresses]
        return image_of(rest[:1] + listed + rest[1:])

    yield "no point", points()
    yield "point 0", points(0)
    yield "point 0 before others", points(0, 1)
    yield "nine points", points(*range(1, 10))
    yield "equal points", points(1, 5, 5)
    yield "falling points", points(1, 0x201, 0x102)
    yield "points falling by the high octet", points(0x0100, 0x00FF)
    yield "a point doubled", image_of(records[:first] + [records[first]] + records[first:])


def wrong_labels(records):
    for kind, at in ((3, 1), (3, 6), (4, 4)):
        for place in {places(records, kind)[0], places(records, kind)[-1]}:
            record = records[place]
            for way in LABEL_A_SPOILS:
                spoiled = record[:at] + spoil_label_a(record[at:at + 5], way) + record[at + 5:]
                yield f"{KINDS[kind]} {place}, label at {at}: {way}", image_of(changed(records, place, spoiled))
    for place in (places(records, 5)[0], places(records, 5)[-1]):
        record = records[place]
        for way in [*LABEL_A_SPOILS, *LABEL_B_SPOILS]:
            spoiled = record[:6] + spoil_label_b(record[6:], way)
            yield f"event {place}: {way}", image_of(changed(records, place, spoiled))


def group_borders(records, kind):
    """The first and the last place of each point and record: there a wrong one can stand without breaking the order."""
    table = places(records, kind)
    return [place for place in table
            if any(records[near][:4] != records[place][:4] for near in (place - 1, (place + 1) % len(records)))]


def wrong_places(records):
    """Readings and events of points or records that are not to be."""
    for kind, wrong_records in ((4, (0, 10, 12, 20, 22, 52, 255)), (5, (0, 11, 21, 51, 56, 127, 130, 255))):
        for place in group_borders(records, kind):
            record = records[place]
            for wrong in wrong_records:
                yield f"{KINDS[kind]} {place} of record {wrong}", image_of(
                    changed(records, place, record[:3] + bytes([wrong]) + record[4:]))
            # Before all points, between two, behind all, and the link address.
            for point in (0, 1, 0x103, 0x202, 0x304, 0xFFFF):
                yield f"{KINDS[kind]} {place} of point {point}", image_of(
                    changed(records, place, record[:1] + point.to_bytes(2, "big") + record[3:]))


def wrong_order(records):
    for kind in (4, 5):
        table = places(records, kind)
        for one, other in zip(table, table[1:]):
            if records[one][:4] + records[one][6:] != records[other][:4] + records[other][6:]:
                yield f"{KINDS[kind]}s {one} and {other} swapped", image_of(swapped(records, one, other))
    first = places(records, 4)[0]
    reading = records[first]
    yield "equal readings", image_of(records[:first] + [reading] + records[first:])
    twin = reading[:6] + bytes([reading[6] ^ 0x20]) + reading[7:]
    yield "readings equal but for the weekday", image_of(records[:first] + [twin] + records[first:])
    yield "readings equal but for the weekday, behind", image_of(records[:first + 1] + [twin] + records[first + 1:])


def images_by_moments(name, moments):
    """The readings and the events of these moments, each alone in an image."""
    meter = meter_of_moments(moments)
    yield f"readings, {name}", replace(meter, events=()).octets
    yield f"events, {name}", replace(meter, readings=()).octets


def wrong_instants():
    """Labels out of order in standard time, and two of one instant."""
    autumn, spring = AUTUMN_2001, SPRING_2001
    quarters = range(0, 60, 15)
    yield from images_by_moments("autumn hour with SU 0 first", [(autumn + step, 0) for step in quarters]
                                 + [(autumn - SUMMER_HOUR + step, 1) for step in quarters])
    yield from images_by_moments("02:15 SU 0, 02:15 SU 1", [(autumn + 15, 0), (autumn - 45, 1)])
    yield from images_by_moments("03:00 SU 1, 01:45 SU 0 in spring", [(spring, 1), (spring - 15, 0)])
    yield from images_by_moments("00:00 SU 0, 00:15 SU 1 in 2000", [(0, 0), (-45, 1)])
    for name, instant in (("autumn", autumn + 15), ("spring", spring), ("2000", 0), ("2099", LAST_MINUTE - 60)):
        for one, other in ((0, 1), (1, 0)):
            same = [(instant, one), (instant, other)]
            yield f"readings of one instant, SU {one} first, {name}", replace(meter_of_moments(same), events=()).octets
            yield (f"events of one minute, the earlier behind, SU {one} first, {name}",
                   replace(meter_of_moments(same, 1), readings=()).octets)


def right_instants():
    """The same labels the other way round."""
    for name, change in (("autumn", AUTUMN_2001), ("spring", SPRING_2001)):
        yield from images_by_moments(f"{name} day", day_of_change(change))
    yield from images_by_moments("02:15 SU 1, 02:15 SU 0", [(AUTUMN_2001 - 45, 1), (AUTUMN_2001 + 15, 0)])
    yield from images_by_moments("01:45 SU 0, 03:00 SU 1 in spring", [(SPRING_2001 - 15, 0), (SPRING_2001, 1)])
    yield from images_by_moments("00:15 SU 1, 00:00 SU 0 in 2000", [(-45, 1), (0, 0)])
    for instant in (AUTUMN_2001 + 15, SPRING_2001, 0, LAST_MINUTE - 60):
        for one, other in ((0, 1), (1, 0)):
            same = meter_of_moments([(instant, one), (instant, other)])
            yield f"events of one instant {instant}, SU {one} first", replace(same, readings=()).octets


def ends(image):
    yield "empty", b""
    for version in (0, 2, 255):
        yield f"version {version}", bytes([version]) + image[1:]
    yield "only the version", image[:1]
    for cut in (1, 2, 3, 14, 16):
        yield f"{cut} octets cut", image[:-cut]
    for tail in (b"\x00", b"\x00\x00", b"\x00\x01\x05", b"\x00\x01\x06", b"\x00\x02\x06\x00", b"\xFF"):
        yield f"{tail.hex()} behind", image + tail


def unsound_images(meter):
    """(name, octets) of images that break one rule each. `meter` has records of every kind."""
    records = meter.records()
    yield from ends(meter.octets)
    for family in (wrong_lengths, wrong_kinds, wrong_points, wrong_labels, wrong_places, wrong_order):
        yield from family(records)
    yield from wrong_instants()


def sound_images(meter):
    """(name, octets) of images on the right side of the same rules."""
    bare = Meter()
    yield "smallest", bare.octets
    yield "link 0", replace(bare, link=0).octets
    yield "link and point the same", replace(bare, link=1).octets
    yield "eight points", replace(bare, points={point: point for point in range(1, 9)}).octets
    yield "point 65535", replace(bare, points={1: 0, 0xFFFF: 0}).octets
    yield "points rising by the high octet", replace(bare, points={0x00FF: 0, 0x0100: 0}).octets
    yield "dates in the wrong order", replace(bare, dates=label_a(LAST_MINUTE) + label_a(0)).octets
    yield "events only", replace(meter, readings=(), dates=None).octets
    yield "readings only", replace(meter, events=(), dates=None).octets
    for minute in (0, LAST_MINUTE, minute_of(2000, 2, 29), minute_of(2096, 2, 29), minute_of(2001, 4, 30, 23, 59)):
        yield f"date {minute}", replace(bare, dates=face_label_a(minute, 7, 1) + face_label_a(minute)).octets
    yield "equal events", meter_of_events(30).octets
    yield "events by millisecond", meter_of_events(30, step=1).octets
    yield "events by second", meter_of_events(30, step=1000).octets
    yield from right_instants()


RICH = rich_meter()
UNSOUND = list(unsound_images(RICH))
