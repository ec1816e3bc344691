"""Inputs by rule for the question `W` (document 02, #105): every rule alone and beside each later one, every value of
each header octet, every length, the refusals, the states of the card, and that asking changes nothing. All are for the
driving face.

`why_inputs` yields (face, name, octets); each name begins with "why". The inputs know no answers: a message is asked
about, then sent in a frame and collected, so that the programs' answers to both stand beside each other. The image is
small, for every question reads the whole of it.
"""

import itertools
import random
from copy import copy
from dataclasses import replace

from generate import conversation
from lines import DriveLine
from meter import (FACE_BORDERS, RICH, UNSOUND, Event, Meter, Reading, meter_of_moments, moments_apart, moments_around,
                   sound_images, without_point)
from systematic import BARE, FIRST_LABEL, LAST_LABEL, NOON, Talk, small_drive_input
from wire import (CLOCK, CLOSE, DATES, EVENTS, FCB, IDENTITY, LABEL_A_SPOILS, LABEL_B_SPOILS, LONGEST_RUN,
                  MOST_USER_OCTETS, OPEN, PERIODS, RESET, ROWS, SET_CLOCK, SET_DATES, STATUS, TOTALS, USER_DATA,
                  Request, all_wrong, characters, events_request, face_label_a, fixed, label_a, label_b, low_first,
                  minute_of, open_request, readings_request, spoil_label_a, spoil_label_b, variable)

# Two points with two readings of each record and two events each, and the dates. The octets of an address make another
# one if they are exchanged: for POINT the link address.
DAY = minute_of(2026, 11, 15)
POINT, OTHER, LINK = 0x0102, 0x0302, 0x0201
QUARTERS = (DAY, DAY + 15)
METER = Meter(
    LINK, bytes(6), {POINT: 0x12345678, OTHER: 0x9ABCDEF0}, label_a(DAY) + label_a(DAY + 1),
    tuple(Reading(point, record, minute, label_a(minute, 7, step), bytes(range(30)))
          for point in (POINT, OTHER) for record in (11, 21) for step, minute in enumerate(QUARTERS)),
    tuple(Event(point, record, minute * 60_000 + 59_999, label_b(minute * 60_000 + 59_999, 7, step), b"\x01\x81")
          for point in (POINT, OTHER) for record in (52, 129) for step, minute in enumerate(QUARTERS)))
NO_DATES = replace(METER, dates=None)
NO_CLOCK = bytes(7)
SPAN = label_a(DAY - 1), label_a(DAY + 30)
SESSIONS = {"closed": None, "open": POINT, "other": OTHER}


def right_request(kind, point=POINT):
    """A request that is accepted, of this type."""
    if kind == EVENTS:
        return events_request(point, 52, *SPAN)
    if kind in (TOTALS, PERIODS):
        return readings_request(kind, point, *SPAN)
    if kind == OPEN:
        return open_request(point, METER.points.get(point, 0))
    bodies = {SET_CLOCK: NOON, SET_DATES: SPAN[1] + SPAN[0]}
    return Request(kind, point, body=bodies.get(kind, b""))


def right_messages(point=POINT):
    return [right_request(kind, point).octets() for kind in ROWS]


def changed_at(octets, at, octet):
    return octets[:at] + bytes([octet]) + octets[at + 1:]


class Asking(Talk):
    """A conversation by hand with questions in it."""

    def why(self, *messages):
        for message in messages:
            self.line.question(message)

    def session(self, point):
        """A card with this session, from a reset on."""
        self.reset() if point is None else self.open(point)

    def why_and_send(self, message, replies=1):
        """The question, the message itself, the question again, the replies, the question again."""
        self.why(message)
        self.send(message)
        self.why(message)
        self.collect(replies)
        self.why(message)


# ---- the rules ----

class Case:
    """A right request with the session, dates and clock that it is accepted with."""

    def __init__(self, kind):
        self.request = right_request(kind)
        self.session = None if kind == OPEN else POINT
        self.dated = True
        self.clock = NOON

    def state(self):
        return self.session, self.dated, self.clock

    def message(self):
        return self.request.octets()

    def spoiled(self, *ways):
        case = copy(self)
        case.request = copy(self.request)
        for way in ways:
            way(case)
        return case


def of_request(change):
    return lambda case: change(case.request)


def put(**parts):
    """Parts of the request replaced."""
    return of_request(lambda request: vars(request).update(parts))


def xor(part, bits):
    return of_request(lambda request: setattr(request, part, getattr(request, part) ^ bits))


def set_bits(part, bits):
    return of_request(lambda request: setattr(request, part, getattr(request, part) | bits))


def state(**parts):
    return lambda case: vars(case).update(parts)


def body(change):
    return of_request(lambda request: setattr(request, "body", change(request.body)))


def inside(change):
    """Of a body that has the length of one of the types; one of another length stays."""
    return body(lambda octets: change(octets) if len(octets) in (4, 7, 10, 12) else octets)


def labels(change):
    """The two labels a at the body's end."""
    return inside(lambda octets: octets[:-10] + change(octets[-10:-5], octets[-5:]))


def spoiled_times():
    """A label b, and two labels a, with each part not valid. Seconds and milliseconds come first."""
    yield SET_CLOCK, [inside(lambda octets, way=way: spoil_label_b(octets, way))
                      for way in (*LABEL_B_SPOILS, "IV", "day 0")]
    yield SET_DATES, spoiled_labels()


def spoiled_labels():
    return [labels(lambda first, last: spoil_label_a(first, "IV") + last),
            labels(lambda first, last: first + spoil_label_a(last, "IV")),
            labels(lambda first, last: spoil_label_a(first, "hour 24") + spoil_label_a(last, "minute 60"))]


def spans(*pairs):
    return [labels(lambda first, last, pair=pair: b"".join(pair)) for pair in pairs]


ELSEWHERE = label_a(DAY + 1), label_a(DAY + 14)  # between the records
BEHIND = label_a(DAY + 16), LAST_LABEL
# Exchanged; beside no record; by a minute; by SU alone, which makes the last an hour earlier.
FALLING = [labels(lambda first, last: last + first), *spans(ELSEWHERE[::-1], (label_a(DAY + 1), label_a(DAY)),
                                                            (label_a(DAY), face_label_a(DAY, 0, 1)))]
NONE_THERE = spans(ELSEWHERE, BEHIND, (FIRST_LABEL, label_a(DAY - 1)))


def ways_of(kind):
    """Ways to make a right request of this type refused, by rule, in the paper's order."""
    request = right_request(kind)
    ways = {
        "marked": [set_bits("cause", bits) for bits in (0x80, 0x40, 0xC0)],
        "type": [xor("kind", 0x80), put(kind=0), put(kind=255), put(kind=182)],
        "session": [state(session=None)],
        "point": [put(point=LINK), put(point=0), put(point=POINT ^ 1), put(point=0xFFFF)],
        "other": [state(session=OTHER)],
        "shape": [xor("structure", 1), xor("structure", 0x80), set_bits("structure", 2), xor("cause", 3),
                  set_bits("cause", 0x20), put(cause=0), body(lambda octets: octets + b"\x00"),
                  body(lambda octets: octets.ljust(MOST_USER_OCTETS - 6, b"\x01")),
                  *([body(lambda octets: octets[:-1]), put(body=b"")] if request.body else ())],
        "record": [xor("record", 0x40), put(record={11: 21, 21: 11}.get(request.record, 11)), put(record=255)],
    }
    if kind == OPEN:
        del ways["session"], ways["other"]
        ways["password"] = [inside(lambda octets, bit=bit: low_first(int.from_bytes(octets, "little") ^ 1 << bit, 4))
                            for bit in (0, 15, 16, 31)] + [inside(lambda octets: octets[::-1])]
    if kind in (TOTALS, PERIODS):
        ways["objects"] = [inside(lambda octets, pair=pair: bytes(pair) + octets[2:])
                           for pair in ((0, 6), (1, 7), (4, 3), (0, 0), (7, 7), (255, 255))]
    if kind in (TOTALS, PERIODS, EVENTS):
        ways["label"], ways["range"], ways["none"] = spoiled_labels(), FALLING, NONE_THERE
    if kind == CLOCK:
        ways["clock"] = [state(clock=clock)
                         for clock in (NO_CLOCK, *(spoil_label_b(NOON, way) for way in LABEL_B_SPOILS))]
    if kind in (DATES, SET_DATES):
        ways["no dates"] = [state(dated=False)]
    ways |= {"time": times for of_kind, times in spoiled_times() if of_kind == kind}
    return ways


def lend(talk, case):
    talk.exchange(METER if case.dated else NO_DATES)
    talk.line.lend_clock(case.clock)


def apart(one, other):
    """Whether two rules can be broken in one message and one state."""
    return {one, other} != {"session", "other"}


def rules(face):
    """Each rule broken alone in each of its ways, the message also sent; then two rules, each in its first way."""
    for kind in ROWS:
        talk = Asking(face, METER)
        right, ways = Case(kind), ways_of(kind)
        cases = [right, *(right.spoiled(way) for of_rule in ways.values() for way in of_rule)]
        pairs = [pair for pair in itertools.combinations(ways, 2) if apart(*pair)]
        cases += [right.spoiled(ways[one][0], ways[later][0]) for one, later in pairs]
        cases += [right.spoiled(ways[later][0], ways[one][0]) for one, later in pairs]
        for case in cases:
            talk.exchange(METER)
            talk.session(case.session)
            lend(talk, case)
            talk.why_and_send(case.message(), 4 if case is right else 1)
        yield f"rules of {kind}", talk.octets()


def rules_together(face):
    """Two rules in each of their ways, and three in their first, asked only. What has one state is asked there."""
    for kind in ROWS:
        right, ways = Case(kind), ways_of(kind)
        asked = {}
        for one, later in itertools.combinations(ways, 2):
            for first, second in itertools.product(ways[one], ways[later]) if apart(one, later) else ():
                for case in (right.spoiled(first, second), right.spoiled(second, first)):
                    asked.setdefault(case.state(), {})[case.message()] = case
        for three in itertools.combinations(ways, 3):
            case = right.spoiled(*(ways[rule][0] for rule in three))
            asked.setdefault(case.state(), {})[case.message()] = case
        talk = Asking(face, METER)
        for cases in asked.values():
            case = next(iter(cases.values()))
            talk.exchange(METER)
            talk.session(case.session)
            lend(talk, case)
            talk.why(*cases)
        yield f"rules of {kind} together", talk.octets()


# ---- octets and lengths ----

def header_octets():
    """Every value of each octet of the header, for each type in each state of the session."""
    for name, point in SESSIONS.items():
        for at in range(6):
            talk = Asking("drive", METER)
            talk.session(point)
            for message in right_messages():
                talk.why(*(changed_at(message, at, octet) for octet in range(256)))
            yield f"octet {at} of headers, session {name}", talk.octets()


def body_octets():
    """Every octet of each body with each bit changed, and with some values; in the open session, and closed for 183."""
    talk = Asking("drive", METER)
    for point in (POINT, None):
        talk.session(point)
        for message in right_messages():
            for at in range(6, len(message)):
                octets = {message[at] ^ 1 << bit for bit in range(8)} | {0, 1, 6, 7, 59, 60, 127, 128, 255}
                talk.why(*(changed_at(message, at, octet) for octet in sorted(octets)))
    yield "octets of bodies", talk.octets()


# From 253 on no frame can carry it. Some are a length that could be, if they were counted in one octet.
LONG = (261, 262, 263, 266, 272, 274, 300, 507, 508, 509, 511, 512, 518, 522, 768, 774, 1024, 4096, 32_768, 65_280,
        65_286, 65_290, 65_534, 65_535)


def lengths():
    """Every length from 0 to 260 and some larger ones, of each type."""
    talk = Asking("drive", METER)
    for point in (None, POINT):
        talk.session(point)
        for message in right_messages():
            for length in range(261):
                talk.why(message.ljust(length, b"\x00")[:length])
    yield "lengths", talk.octets()
    talk = Asking("drive", METER)
    talk.session(POINT)
    for length in LONG:
        for message in (right_messages()[0], right_messages()[6], b"\xFF"):
            talk.why(message.ljust(length, b"\x00"))
        talk.status()
    talk.why(*right_messages())
    yield "long messages", talk.octets()
    # Frames of as many octets as can be sent beside the questions.
    talk = Asking("drive", METER)
    talk.session(POINT)
    for length in (*range(0, 20), 250, 251, 252):
        for message in (right_messages()[0], right_messages()[3]):
            talk.why_and_send(message.ljust(length, b"\x00")[:length], 1)
            talk.collect()
    yield "lengths sent", talk.octets()


# ---- labels, objects, passwords ----

def labels_asked():
    """Each way in which a label is not valid: of the first, the last and both, of a time and of the clock."""
    talk = Asking("drive", METER)
    talk.session(POINT)
    for way in LABEL_A_SPOILS:
        for kind in (EVENTS, TOTALS, PERIODS, SET_DATES):
            message = right_request(kind).octets()
            front, first, last = message[:-10], message[-10:-5], message[-5:]
            talk.why(front + spoil_label_a(first, way) + last, front + first + spoil_label_a(last, way),
                     front + spoil_label_a(first, way) + spoil_label_a(last, way),
                     front + last + spoil_label_a(first, way))
    for way in (*LABEL_A_SPOILS, *LABEL_B_SPOILS):
        message = right_request(SET_CLOCK).octets()
        talk.why(message[:6] + spoil_label_b(message[6:], way))
    for way in (*LABEL_A_SPOILS, *LABEL_B_SPOILS, None):
        talk.line.lend_clock(spoil_label_b(NOON, way) if way else NOON)
        talk.why(*right_messages())
        talk.why_and_send(right_request(CLOCK).octets())
    for clock in (bytes(7), b"\xFF" * 7, label_b(0), NOON):
        talk.line.lend_clock(clock)
        talk.why(*right_messages())
    yield "labels and clocks", talk.octets()


def spans_asked():
    """Ranges around the records, and pairs of labels on both sides of a border, with SU 0 and 1."""
    talk = Asking("drive", METER)
    talk.session(POINT)
    minutes = [minute + step for minute in QUARTERS for step in (-61, -60, -59, -1, 0, 1, 59, 60, 61)]
    for (first, last), one, other in itertools.product(itertools.product(minutes, repeat=2), (0, 1), (0, 1)):
        span = label_a(first, 0, one), label_a(last, 0, other)
        talk.why(events_request(POINT, 129, *span).octets(), readings_request(PERIODS, POINT, *span).octets())
    for record in (52, 53, 54, 55, 128, 129):
        for point in (POINT, OTHER):
            talk.why(events_request(point, record, *SPAN).octets())
    yield "ranges around records", talk.octets()
    for name, border in FACE_BORDERS.items():
        moments = moments_around(border)
        talk = Asking("drive", meter_of_moments(moments_apart(moments)))
        talk.session(1)
        for (first, one), (last, other) in itertools.product(moments, repeat=2):
            span = label_a(first, 0, one), label_a(last, 0, other)
            talk.why(events_request(1, 52, *span).octets(), readings_request(TOTALS, 1, *span).octets(),
                     readings_request(PERIODS, 1, *span).octets())
        yield f"ranges around {name}", talk.octets()


def records_of_one_kind():
    """Images with readings or events only, of one record or one point only: each request chooses of its own."""
    talk = Asking("drive", METER)
    talk.session(POINT)
    for chosen in (lambda entry: entry.point == OTHER, lambda entry: entry.record in (11, 52),
                   lambda entry: entry.record in (21, 129), lambda entry: isinstance(entry, Reading),
                   lambda entry: isinstance(entry, Event), lambda entry: entry.minute == DAY):
        talk.exchange(replace(METER, readings=tuple(filter(chosen, METER.readings)),
                              events=tuple(filter(chosen, METER.events))))
        for record in (52, 53, 129):
            talk.why(events_request(POINT, record, *SPAN).octets())
        for kind in (TOTALS, PERIODS):
            talk.why(right_request(kind).octets())
            talk.why_and_send(right_request(kind).octets(), 4)
        talk.why_and_send(right_request(EVENTS).octets(), 4)
    yield "records of one kind", talk.octets()


def objects_and_passwords():
    talk = Asking("drive", METER)
    for point in (POINT, None, OTHER):
        talk.session(point)
        for kind in (TOTALS, PERIODS):
            message = right_request(kind).octets()
            for first, last in itertools.product((*range(9), 127, 128, 129, 134, 255), repeat=2):
                talk.why(message[:6] + bytes([first, last]) + message[8:])
        for of_point, password in METER.points.items():
            for bit in range(32):
                talk.why(open_request(of_point, password ^ 1 << bit).octets())
            for other in (password, 0, 0xFFFFFFFF, password & 0xFFFF, password & 0xFFFF0000, *METER.points.values()):
                talk.why(open_request(of_point, other).octets())
    yield "objects and passwords", talk.octets()


# ---- the refusals ----

def unsound_images():
    """Each unsound image with messages too short, right and too long; the sound ones beside them; nothing lent."""
    line = DriveLine(None, b"", NOON)
    messages = b"", bytes(5), right_messages()[0], bytes(253)
    for _, image in [*UNSOUND, *sound_images(RICH)]:
        line.borrow_image(image)
        for message in messages:
            line.question(message)
        line.gap()
    yield "unsound images", line.octets()
    yield "nothing lent", b"".join(b"W" + len(message).to_bytes(2, "big") + message for message in messages) + b"G"
    # A card with a session, and an image that is unsound for a while.
    talk = Asking("drive", METER)
    talk.session(POINT)
    for image in (b"", b"\x01", METER.octets[:-1], METER.octets + b"\x00", b"\x02" + METER.octets[1:], METER.octets):
        talk.line.borrow_image(image)
        talk.why(*right_messages(), b"", bytes(5), bytes(252), bytes(253))
        talk.line.borrow_image(METER.octets)
        talk.why(right_messages()[0])
        talk.collect()
    yield "an image unsound for a while", talk.octets()


# ---- the states of a card ----

def all_questions(talk):
    """Of every right request for each point, of one that is not there, and of some that are refused."""
    for point in (POINT, OTHER, LINK, 0):
        talk.why(*right_messages(point))
    talk.why(open_request(POINT, 1).octets(), right_messages()[0] + b"\x00", b"\xC8" + right_messages()[0][1:])


def states(face):
    """Every question in the states behind a reset, each 183 and 187, refused ones, a NACK and a repeat."""
    talk = Asking(face, METER)
    line = talk.line
    all_questions(talk)  # at power-on
    line.run(fixed(STATUS, LINK))
    line.run(variable(USER_DATA | FCB, LINK, right_request(OPEN).octets()))
    all_questions(talk)  # 7: not reset
    opening = right_request(OPEN)
    steps = (
        opening, Request(IDENTITY, POINT), open_request(POINT, 1), opening, open_request(OTHER, 1), opening,
        right_request(OPEN, OTHER), open_request(LINK, 1), opening, Request(CLOSE, OTHER), Request(CLOSE, POINT),
        opening, right_request(SET_CLOCK), right_request(SET_DATES), Request(CLOSE, POINT), Request(CLOSE, POINT))
    for refused in (put(cause=5), set_bits("cause", 0x80), put(record=1), put(point=0x777), put(body=b"")):
        case = Case(OPEN).spoiled(refused)
        steps += (opening, case.request)
    for closing in (False, True):
        talk.reset()
        all_questions(talk)
        for request in steps:
            talk.ask(request)
            all_questions(talk)
            talk.fcb ^= FCB
            talk.ask(request)  # a repeat
            talk.collect()
            all_questions(talk)
            if closing:
                talk.reset()
                all_questions(talk)
    yield "states", talk.octets()
    talk = Asking(face, METER)
    talk.open(POINT)
    for gone in (POINT, OTHER):
        talk.exchange(without_point(METER, gone))
        all_questions(talk)
        talk.why_and_send(right_messages(gone)[0])
        talk.exchange(replace(METER, points={point: 5 for point in METER.points}))
        all_questions(talk)
        talk.exchange(METER)
        all_questions(talk)
    yield "states and other images", talk.octets()


def waiting(face):
    """Every question while replies wait: behind each request, and behind each of its replies."""
    talk = Asking(face, METER)
    for request in (right_request(kind) for kind in ROWS):
        talk.open(POINT)
        talk.ask(request)
        for _ in range(5):
            all_questions(talk)
            talk.ask(Request(IDENTITY, POINT))  # NACK, if any waits
            all_questions(talk)
            talk.collect()
        all_questions(talk)
    yield "replies waiting", talk.octets()


def asked_of():
    """Messages that would change a session, give an order, or leave replies, and some that are refused."""
    yield from right_messages()
    yield open_request(POINT, 1).octets()
    yield right_request(OPEN, OTHER).octets()
    yield Request(IDENTITY, OTHER).octets()
    yield bytes(5)
    yield bytes(300)


def inside_runs(face):
    """Asked between two octets of a run, at every place; and of a run that is kept by 8 and by 9. The gap behind it
    answers as if nothing had been asked, and so does what follows."""
    for waits in (False, True):
        talk = Asking(face, METER)
        for message in asked_of():
            talk.open(POINT)
            if waits:
                talk.ask(right_request(PERIODS))
            frame = variable(USER_DATA | talk.fcb, LINK, message[:MOST_USER_OCTETS])
            for cut in range(0, len(frame) + 1, 1 if len(frame) < 30 else 37):
                status = fixed(STATUS, LINK)
                talk.line.put(status[:cut])
                talk.why(message)
                talk.line.put(status[cut:])
                talk.why(message)
                talk.line.gap()
                talk.why(message)
            for cut in (0, 1, len(frame) // 2, len(frame) - 1):
                talk.line.put(frame[:cut])
                talk.why(message, Request(IDENTITY, POINT).octets())
                talk.line.put(frame[cut:])
                talk.why(message, Request(IDENTITY, POINT).octets())
                talk.line.gap()  # the first is carried out, the others are repeats
                talk.why(message, Request(IDENTITY, POINT).octets())
            talk.fcb ^= FCB
            talk.collect(2)
            talk.why_and_send(Request(IDENTITY, POINT).octets(), 4)
        yield f"inside runs, replies wait: {waits}", talk.octets()


def kept_runs(face):
    """A run kept by 8 and by 9, asked before, between and behind; then the run is answered."""
    talk = Asking(face, METER)
    for message in asked_of():
        for refused in (((260, METER.octets),), ((LONGEST_RUN, b""),), ((0, b"\x02"), (LONGEST_RUN, b"\x01"))):
            talk.open(POINT)
            talk.why(message)
            talk.line.put(variable(USER_DATA | talk.fcb, LINK, message[:MOST_USER_OCTETS]))
            for buffer, image in refused:
                talk.line.borrow_buffer(buffer)
                talk.line.borrow_image(image)
                talk.why(message)
                talk.line.gap()
                talk.why(message)
            talk.line.borrow_buffer(LONGEST_RUN)
            talk.line.borrow_image(METER.octets)
            talk.why(message)
            talk.line.gap()
            talk.why(message)
            talk.fcb ^= FCB
            talk.collect(2)
            talk.why(message)
    yield "kept runs", talk.octets()


def damaged(face):
    """Asked of a card with runs in its collector that are damaged, too long, marked; the count is the gaps' alone."""
    talk = Asking(face, METER)
    talk.open(POINT)
    runs = [b"\x10", bytes(261), bytes(262), bytes(600), fixed(RESET, LINK)[:5], fixed(RESET, LINK)[:4] + b"\x00\x16",
            fixed(RESET, LINK ^ 1), fixed(0x44, LINK), b""]
    if face == "eleven":
        runs += [characters(fixed(RESET, LINK), (2,)), all_wrong(fixed(RESET, LINK)), all_wrong(bytes(262))]
    for run in runs:
        talk.line.put(run)
        talk.why(*asked_of())
        talk.line.gap()
        talk.why(*asked_of())
        talk.why_and_send(Request(IDENTITY, POINT).octets(), 2)
    yield "damaged runs", talk.octets()


def lent_now():
    """The image, clock and buffer lent when it is asked, and not those of the last gap or of power-on."""
    talk = Asking("drive", METER)
    messages = right_messages()
    talk.open(POINT)
    for clock, meter in itertools.product((NO_CLOCK, NOON), (METER, NO_DATES, BARE, without_point(METER, POINT),
                                                            replace(METER, readings=()), replace(METER, events=()))):
        talk.why(*messages)
        talk.line.lend_clock(clock)
        talk.why(*messages)
        talk.exchange(meter)
        talk.why(*messages)
        talk.status()
        talk.why(*messages)
    for length in (0, 6, 260, 261, 300):
        talk.line.lend_buffer(length)
        talk.why(*messages)
    yield "lent now", talk.octets()
    # Before any clock or image is lent, and with an image alone.
    parts = b"".join(b"W" + len(message).to_bytes(2, "big") + message for message in messages)
    image = b"I" + len(METER.octets).to_bytes(3, "big") + METER.octets
    yield "no clock lent", parts + image + parts + b"C" + NOON + parts + b"B\x00\x00" + parts + b"G"


def powered_on():
    """`E` in the middle: a fresh card has no session, whatever the one before it had."""
    talk = Asking("drive", METER)
    talk.open(POINT)
    talk.why(*asked_of())
    for _ in range(2):
        talk.line.parts.append(b"E")
        talk.why(*asked_of())
        talk.open(POINT)
        talk.why(*asked_of())
        talk.ask(right_request(PERIODS))
        talk.line.put(fixed(STATUS, LINK)[:3])
        talk.why(*asked_of())
    yield "E between questions", talk.octets()


# ---- the call ----

def calls():
    lent = small_drive_input()
    for name, before in (("ten", lent), ("eleven", lent + b"E"), ("nothing lent,", b"")):
        for message in (right_request(OPEN, 1).octets(), b""):
            call = b"W" + len(message).to_bytes(2, "big") + message
            for at in range(len(call) + 1):
                yield f"{name} {len(message)} octets cut at {at}", before + call[:at]
    call = b"W\xFF\xFF" + bytes(65_535)
    yield "the longest", lent + call + b"G"
    yield "the longest, cut", lent + call[:-1]
    for length in (253, 0x0100, 0x8000, 0xFFFF):
        yield f"of {length}, nothing behind", lent + b"W" + length.to_bytes(2, "big")
        yield f"of {length}, cut", lent + b"W" + length.to_bytes(2, "big") + bytes(252)
    yield "W behind W", lent + b"W\x00\x00W\x00\x01WW\x00\x06WWWWWWGW"
    yield "w", lent + b"w\x00\x00"


def both_profiles(face):
    for family in (rules, states, waiting, inside_runs, kept_runs, damaged):
        for name, octets in family(face):
            yield name if face == "drive" else f"eleven bits, {name}", octets


def why_inputs():
    for family in (lambda: both_profiles("drive"), lambda: rules_together("drive"), lengths, header_octets, body_octets,
                   labels_asked, spans_asked, records_of_one_kind, objects_and_passwords, unsound_images, lent_now,
                   powered_on, lambda: both_profiles("eleven"), calls):
        for name, octets in family():
            yield "drive", f"why, {name}", octets


def why_little_by_little():
    """Inputs to be delivered in pieces."""
    talk = Asking("drive", METER)
    talk.open(POINT)
    talk.why(*right_messages(), bytes(300))
    yield "drive", "why, in pieces", talk.octets()
    yield "drive", "why, in pieces, cut", talk.octets()[:-2]
    yield "drive", "why, conversation in pieces", conversation(random.Random("pieces"), "why")[:6000]
