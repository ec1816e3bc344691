"""The centre's side of a conversation, drawn at random so that it goes deep.

The centre keeps only what it must know to go on: the meter lent, the FCB to use next, the point whose session it
believes open and how many replies it believes to wait. It does not know what the card must answer. Where its belief
is wrong the conversation goes on all the same, and the next reset puts it right.
"""

from meter import (FIRST_MILLISECOND, LAST_MILLISECOND, exchanged, random_label_a, random_label_b, random_meter,
                   random_minute, random_octets)
from wire import (ALL_OBJECTS, BITS_OF_A_CHARACTER, CLASS_2, CLOCK, CLOSE, DATES, EVENT_RECORDS, EVENTS, FCB,
                  FIRST_MINUTE, IDENTITY, LABEL_A_SPOILS, LABEL_B_SPOILS, LAST_MINUTE, LONGEST_RUN, MOST_USER_OCTETS,
                  OBJECT_RANGES, OFFERED_FIXED, OFFERED_VARIABLE, OPEN, PERIODS, RESET, ROWS, SET_CLOCK, SET_DATES,
                  STATUS, SUMMER_HOUR, TOTALS, USER_DATA, Request, all_wrong, altered, characters, events_request,
                  fixed, is_frame, open_request, readings_request, spoil_label_a, spoil_label_b, variable)

MOST_EVENTS_IN_A_MESSAGE = 27
ALL_LABEL_B_SPOILS = (*LABEL_A_SPOILS, *LABEL_B_SPOILS)
UNLISTED_TYPES = (0, 1, 8, 11, 71, 72, 99, 101, 104, 121, 124, 128, 130, 131, 180, 182, 184, 188, 255)
NEAR_RECORDS = (0, 1, 10, 11, 12, 20, 21, 22, 51, 52, 53, 54, 55, 56, 127, 128, 129, 130, 255)
WRONG_RANGES = ((0, 6), (0, 0), (0, 1), (0, 7), (1, 7), (6, 7), (7, 7), (7, 6), (2, 1), (4, 3), (6, 1), (6, 5), (1, 0),
                (1, 255), (255, 6), (255, 255), (129, 134))
SPANNED = {TOTALS: 21, PERIODS: 11}


def random_clock(chance):
    clock = random_label_b(chance, chance.choice((FIRST_MILLISECOND, 0, LAST_MILLISECOND,
                                                  chance.randint(FIRST_MILLISECOND, LAST_MILLISECOND))))
    return spoil_label_b(clock, chance.choice(ALL_LABEL_B_SPOILS)) if chance.random() < 0.25 else clock


# ---- frames that are not what they should be ----

def damaged(chance, frame):
    """The frame with its octets spoiled on the way."""
    place = chance.randrange(len(frame) if chance.random() < 0.6 else 6)
    way = chance.choice(("bit", "bit", "octet", "octet", "cut", "front cut", "doubled", "swapped", "noise", "long"))
    if way == "bit":
        return frame[:place] + bytes([frame[place] ^ 1 << chance.randrange(8)]) + frame[place + 1:]
    if way == "octet":
        return frame[:place] + random_octets(chance, 1) + frame[place + 1:]
    if way == "cut":
        return frame[:place]
    if way == "front cut":
        return frame[place:]
    if way == "doubled":
        return frame[:place] + frame[place:place + 1] + frame[place:]
    if way == "swapped":
        return frame[:place] + frame[place:place + 2][::-1] + frame[place + 2:]
    if way == "noise":
        return random_octets(chance, chance.choice((1, 2, 5, 6, 7, 9, 30)))
    return frame + random_octets(chance, chance.choice((1, len(frame), LONGEST_RUN - len(frame),
                                                        LONGEST_RUN + 1 - len(frame), 256, 300)))


def not_offered(chance, link):
    """A sound frame whose control field is offered in no form, or not in this one."""
    control = chance.choice((chance.randrange(256), RESET | 0x10, STATUS | 0x10, USER_DATA & ~0x10, CLASS_2 & ~0x10,
                             USER_DATA, CLASS_2, RESET | 0x80, USER_DATA & ~0x40, USER_DATA | 0x80, STATUS & ~0x40))
    if chance.random() < 0.5:
        return fixed(0x44 if control in OFFERED_FIXED else control, link)
    user = random_octets(chance, chance.choice((0, 6)))
    return variable(CLASS_2 if control in OFFERED_VARIABLE else control, link, user)


class Centre:
    """One conversation over one line. `unrest` is how often something happens between two steps."""

    def __init__(self, chance, meter, line, unrest):
        self.chance = chance
        self.meter = meter
        self.line = line
        self.unrest = unrest
        self.first_meter = meter
        self.fcb = FCB
        self.session = None
        self.waiting = 0
        self.last_frame = fixed(STATUS, meter.link)

    def often(self, part):
        return self.chance.random() < part

    # ---- steps of the link ----

    def reset(self):
        self.line.run(fixed(RESET | self.chance.choice((0, FCB)), self.meter.link))
        self.fcb, self.session, self.waiting = FCB, None, 0

    def status(self):
        self.line.run(fixed(STATUS | self.chance.choice((0, FCB)), self.meter.link))

    def frame(self, control, user, fcb):
        """Function 3 or 11 with this FCB."""
        if control == CLASS_2:
            return fixed(control | fcb, self.meter.link)
        return variable(control | fcb, self.meter.link, user)

    def counted(self, control, user=b""):
        """Function 3 or 11 with a new FCB, perhaps after a spoiled try and perhaps repeated."""
        if self.often(self.unrest):
            self.disturb(self.frame(control, user, self.fcb))
        self.last_frame = self.frame(control, user, self.fcb)
        self.line.run(self.last_frame)
        self.fcb ^= FCB
        if self.often(self.unrest):
            self.repeat()

    def repeat(self):
        """The FCB just used again: the same frame, or another one, which must not be carried out either."""
        for _ in range(self.chance.choice((1, 1, 2))):
            other = self.random_request().octets()
            frame = self.chance.choice((
                self.last_frame, self.last_frame, self.frame(CLASS_2, b"", self.fcb ^ FCB),
                self.frame(USER_DATA, other, self.fcb ^ FCB), self.frame(USER_DATA, other[:3], self.fcb ^ FCB)))
            if self.often(0.2):
                self.status()
            self.line.run(frame)

    def disturb(self, frame):
        """Something before `frame` that leaves link and session as they are."""
        way = self.chance.choice(("damage", "damage", "damage", "status", "empty", "address", "control", "repeat",
                                  "exchange", "clock"))
        if way == "damage":
            self.send_damaged(frame)
        elif way == "status":
            self.status()
        elif way == "empty":
            self.line.run(b"")
        elif way == "address":
            self.line.run(self.to_another_address(frame))
        elif way == "control":
            self.line.run(not_offered(self.chance, self.meter.link))
        elif way == "repeat":
            self.line.run(self.last_frame)
        elif way == "exchange":
            self.exchange()
        elif self.line.can_exchange:
            self.line.lend_clock(random_clock(self.chance))

    def send_damaged(self, frame):
        run = damaged(self.chance, frame)
        # By chance still a sound frame: it would be taken, and this side would lose count.
        if not is_frame(run):
            self.line.run(run)

    def to_another_address(self, frame):
        link = self.meter.link
        other = self.chance.choice((link ^ 1, link ^ 0x100, (link >> 8 | link << 8) & 0xFFFF, 0, 0xFFFF,
                                    *self.meter.points))
        if other == link:
            other ^= 0x8000
        if self.often(0.2):
            return not_offered(self.chance, other)  # both rules broken: the address decides
        if frame[0] == 0x10:
            return fixed(frame[1], other)
        return variable(frame[4], other, frame[7:-2])

    def exchange(self):
        if self.line.can_exchange:
            again = self.chance.random()
            if again < 0.2:
                self.meter = self.first_meter
            elif again < 0.25:
                self.meter = random_meter(self.chance)
            else:
                self.meter = exchanged(self.chance, self.meter, self.session)
            self.line.lend_image(self.meter.octets)
            if self.often(0.3):
                self.repeat()  # still in the octets of the old image

    # ---- requests ----

    def a_point(self):
        return self.chance.choice(sorted(self.meter.points))

    def other_point(self, point):
        """An address that is not the session's: another point, the link address, or one that is near."""
        near = (self.meter.link, point ^ 1, (point >> 8 | point << 8) & 0xFFFF, 0, self.chance.randint(0, 0xFFFF))
        return self.chance.choice((*self.meter.points, *near))

    def span(self, minutes):
        """First and last minute around some of these: each at, just before or just after one of them, or an hour."""
        chance = self.chance
        if not minutes or self.often(0.05):
            first, last = chance.choice(((FIRST_MINUTE, LAST_MINUTE), (random_minute(chance), random_minute(chance))))
        else:
            first, last = sorted((chance.choice(minutes), chance.choice(minutes)))
            if self.often(0.4):
                first, last = minutes[0], minutes[-1]
            first += chance.choice((-1, 0, 0, 0, 1, -15, -SUMMER_HOUR, SUMMER_HOUR, -1440))
            last += chance.choice((-1, 0, 0, 0, 1, 15, -SUMMER_HOUR, SUMMER_HOUR, 1440))
        return tuple(min(max(minute, FIRST_MINUTE), LAST_MINUTE) for minute in (first, last))

    def spanned_request(self, kind, point):
        """102, 122 or 123, and how many replies it should leave waiting."""
        record = SPANNED.get(kind)
        if record is None:
            known = {event.record for event in self.meter.events if event.point == point}
            record = self.chance.choice(sorted(known) if known and self.often(0.9) else EVENT_RECORDS)
        minutes = self.meter.minutes(point, record)
        first, last = self.span(minutes)
        chosen = sum(first <= minute <= last for minute in minutes)
        labels = random_label_a(self.chance, first), random_label_a(self.chance, last)
        if kind == EVENTS:
            return events_request(point, record, *labels), 2 - (-chosen // MOST_EVENTS_IN_A_MESSAGE)
        objects = ALL_OBJECTS if self.often(0.3) else self.chance.choice(OBJECT_RANGES)
        return readings_request(kind, point, *labels, objects), 2 + chosen

    def random_request(self, kind=None):
        return self.request_and_replies(kind or self.chance.choice(tuple(ROWS)))[0]

    def request_and_replies(self, kind):
        """A request that breaks no rule by itself, and the number of replies to collect for it."""
        chance = self.chance
        point = self.session if self.session is not None else self.a_point()
        if kind in (EVENTS, TOTALS, PERIODS):
            return self.spanned_request(kind, point)
        if kind == SET_CLOCK:
            millisecond = chance.randint(FIRST_MILLISECOND, LAST_MILLISECOND)
            return Request(kind, point, body=random_label_b(chance, millisecond)), 1
        if kind == SET_DATES:
            return Request(kind, point, body=random_label_a(chance, random_minute(chance))
                           + random_label_a(chance, random_minute(chance))), 1
        if kind == OPEN:
            return open_request(point, self.meter.points.get(point, 0)), 1
        return Request(kind, point), 1

    # ---- requests made wrong by one rule each ----

    def spoil_mark(self, request):
        request.cause |= self.chance.choice((0x80, 0x40, 0xC0))

    def spoil_type(self, request):
        request.kind = self.chance.choice(UNLISTED_TYPES)

    def spoil_point(self, request):
        request.point = self.other_point(request.point)

    def spoil_structure(self, request):
        request.structure = self.chance.choice((request.structure ^ 1, request.structure | 0x80, 2, 6, 0x81, 255))

    def spoil_length(self, request):
        room = MOST_USER_OCTETS - 6
        body = request.body + random_octets(self.chance, room)
        length = self.chance.choice((len(request.body) + 1, max(len(request.body) - 1, 0), 0, 4, 7, 10, 12, room))
        request.body = body[:length + (length == len(request.body))]

    def spoil_cause(self, request):
        request.cause = self.chance.choice((5, 6, 7, 0, 8, 10, 63, 0x25, 0x16))

    def spoil_record(self, request):
        swapped = {11: 21, 21: 11}.get(request.record, 0)
        request.record = swapped if self.often(0.3) else self.chance.choice(NEAR_RECORDS)

    def spoil_objects(self, request):
        """A wrong range; now and then any two numbers, which may be a right one."""
        chance = self.chance
        if len(request.body) == 12:
            objects = chance.choice((*WRONG_RANGES, (chance.randint(0, 8), chance.randint(0, 8)),
                                     (chance.randint(0, 8), chance.randint(0, 8)), random_octets(chance, 2)))
            request.body = bytes(objects) + request.body[2:]

    def spoil_label(self, request):
        """One of the labels not valid, wherever they stand in this type's body."""
        body = request.body
        if len(body) == 7:
            request.body = spoil_label_b(body, self.chance.choice(ALL_LABEL_B_SPOILS))
        elif len(body) in (10, 12):
            at = len(body) - self.chance.choice((10, 5))
            spoiled = spoil_label_a(body[at:at + 5], self.chance.choice(tuple(LABEL_A_SPOILS)))
            request.body = body[:at] + spoiled + body[at + 5:]

    def spoil_span(self, request):
        """First and last exchanged."""
        if len(request.body) in (10, 12):
            front = len(request.body) - 10
            request.body = request.body[:front] + request.body[front + 5:] + request.body[front:front + 5]

    def spoil_summer(self, request):
        """The other SU at one end of the range, which moves it by an hour and may leave it right."""
        if len(request.body) in (10, 12):
            at = len(request.body) - self.chance.choice((10, 5)) + 1
            request.body = request.body[:at] + bytes([request.body[at] ^ 0x80]) + request.body[at + 1:]

    def spoil_password(self, request):
        if request.kind == OPEN and len(request.body) == 4:
            at = self.chance.randrange(4)
            changed = request.body[at] ^ 1 << self.chance.randrange(8)
            request.body = request.body[:at] + bytes([changed]) + request.body[at + 1:]

    HEADER_SPOILS = (spoil_mark, spoil_type, spoil_point, spoil_point, spoil_structure, spoil_length, spoil_cause,
                     spoil_record, spoil_record)
    BODY_SPOILS = {
        EVENTS: (spoil_label, spoil_label, spoil_span, spoil_summer),
        TOTALS: (spoil_objects, spoil_label, spoil_label, spoil_span, spoil_summer),
        PERIODS: (spoil_objects, spoil_label, spoil_label, spoil_span, spoil_summer),
        SET_CLOCK: (spoil_label,),
        SET_DATES: (spoil_label,),
        OPEN: (spoil_password,),
    }

    def spoil(self, request):
        """Mostly one rule is broken; with more, the order of the rules shows."""
        of_body = self.BODY_SPOILS.get(request.kind, self.HEADER_SPOILS)
        for _ in range(self.chance.choice((1, 1, 1, 2, 2, 3))):
            self.chance.choice(of_body if self.often(0.5) else self.HEADER_SPOILS)(self, request)

    # ---- whole exchanges ----

    def ask(self, kind):
        """Sends one request, right or spoiled, and believes what should come of it."""
        request, replies = self.request_and_replies(kind)
        point, wrong = request.point, self.often(0.35)
        if wrong:
            self.spoil(request)
        accepted = not wrong and self.session is not None
        taken = self.waiting == 0
        self.counted(USER_DATA, request.octets())
        if taken:
            self.waiting = replies if accepted else 1
            if kind == CLOSE and accepted:
                self.close(point)
            if kind == OPEN:
                self.believe_open(request, point, wrong)

    def close(self, point):
        """Now no session is open, which is 14 for every point, also one that is not in the image (else 16)."""
        self.session = None
        if self.often(0.5):
            self.collect(1)
            self.counted(USER_DATA, Request(IDENTITY, self.chance.choice((point, self.other_point(point)))).octets())
            self.waiting = 1

    def believe_open(self, request, point, wrong):
        if not wrong:
            self.session = point
        elif request.octets()[:6] == open_request(point, 0).octets()[:6] and len(request.body) == 4:
            # Only the password was spoiled, so the session is closed.
            self.session = None

    def open_session(self, right=True):
        point = self.a_point()
        request = open_request(point, self.meter.points[point])
        if not right:
            self.spoil_password(request)
        self.counted(USER_DATA, request.octets())
        self.session, self.waiting = (point if right else None), 1

    def collect(self, times):
        for _ in range(times):
            self.counted(CLASS_2)
            self.waiting = max(self.waiting - 1, 0)

    def collect_somehow(self):
        """All and perhaps one more; or some, and then something that has to wait."""
        way = self.chance.random()
        if way < 0.6:
            self.collect(self.waiting + self.chance.choice((0, 0, 0, 1)))
        elif way < 0.75:
            self.collect(self.chance.randint(0, self.waiting))
            self.counted(USER_DATA, self.random_request().octets())  # NACK, if any waits
            self.collect(self.waiting)
        elif way < 0.9:
            self.collect(self.chance.randint(0, self.waiting))
            self.exchange()
            self.collect(self.waiting + self.chance.choice((0, 1, 2 if self.line.can_exchange else 0)))
        else:
            self.collect(self.chance.randint(0, self.waiting))

    def send_too_little(self):
        """Under 6 user octets: NACK, which takes the FCB."""
        self.counted(USER_DATA, self.random_request().octets()[:self.chance.randint(0, 5)])

    def before_reset(self):
        """Functions 3 and 11 before the first reset, with either FCB; status is answered."""
        for _ in range(self.chance.randint(1, 5)):
            way = self.chance.randrange(4)
            if way == 0:
                self.status()
            elif way == 1:
                self.line.run(not_offered(self.chance, self.meter.link))
            else:
                control = self.chance.choice((USER_DATA, CLASS_2))
                self.line.run(self.frame(control, self.random_request().octets(), self.chance.choice((0, FCB))))

    def step(self):
        """One step inside a session, or without one."""
        if self.session is None and self.often(0.6):
            self.open_session()
            self.collect(1)
        way = self.chance.random()
        if way < 0.06:
            self.open_session(right=self.often(0.5))
        elif way < 0.09:
            self.send_too_little()
        elif way < 0.11:
            self.collect(1)
        elif way < 0.13:
            self.repeat()
        else:
            kind = self.chance.choice((IDENTITY, CLOCK, DATES, DATES, EVENTS, EVENTS, TOTALS, TOTALS, PERIODS, PERIODS,
                                       SET_CLOCK, SET_DATES, OPEN, CLOSE if self.often(0.5) else EVENTS))
            self.ask(kind)
        self.collect_somehow()

    def scene(self):
        if self.often(0.9):
            self.reset()
        if self.often(self.unrest):
            self.repeat()
        if self.often(0.92):
            self.open_session(right=self.often(0.9))
            self.collect(1)
        for _ in range(self.chance.randint(2, 14)):
            self.step()

    def converse(self, gaps):
        if self.often(0.3):
            self.before_reset()
        while self.line.gaps < gaps:
            self.scene()


def spoiled_characters(chance, run):
    """Characters of a run of octets, some of them with a wrong parity bit, or with a few bits altered on the way."""
    last = len(run) - 1
    way = chance.choice(("first", "last", "some", "some", "all", "altered", "altered"))
    if way == "all":
        return all_wrong(run)
    if way == "altered":
        bits = range(BITS_OF_A_CHARACTER * len(run))
        return altered(run, chance.sample(bits, min(chance.choice((1, 2, 3, 4)), len(bits))))
    if way == "some":
        return characters(run, {chance.randint(0, max(last, 0)) for _ in range(chance.choice((1, 1, 2, 3)))})
    return characters(run, {0 if way == "first" else last})


class ElevenBitCentre(Centre):
    """A conversation with a card of the eleven-bit profile: parity bits go wrong on the way, and now and then a card at
    power-on takes its place."""

    def send_damaged(self, frame):
        """Octets spoiled, their parity bits right; or parity bits wrong, of a sound frame or of a spoiled one."""
        if self.often(0.3):
            super().send_damaged(frame)
        else:
            run = frame if self.often(0.7) else damaged(self.chance, frame)
            self.line.run(spoiled_characters(self.chance, run))

    def power_on(self):
        for _ in range(self.chance.choice((1, 1, 1, 2))):
            self.line.power_on()
        if self.often(0.7):
            self.before_reset()
        self.reset()

    def scene(self):
        """Some begin at power-on, a few of these with octets in the collector."""
        if self.often(0.2):
            if self.often(0.3):
                self.line.put(self.last_frame[:self.chance.randint(0, len(self.last_frame))])
            self.power_on()
        super().scene()


class Wonder:
    """Of a centre: asks `W` of the message that is about to be sent, and of others, and again when it has been sent."""

    def counted(self, control, user=b""):
        if control == USER_DATA:
            self.line.about = user
            for _ in range(self.chance.choice((0, 1, 1, 2))):
                self.line.question(user)
        if self.often(0.2):
            self.line.question(self.another_message())
        super().counted(control, user)
        if self.often(0.2):
            self.line.question(self.line.about)

    def another_message(self):
        """A request, right or spoiled, or random octets, of a length that a frame can carry or not."""
        chance = self.chance
        request = self.random_request()
        way = chance.random()
        if way < 0.3:
            return request.octets()
        if way < 0.7:
            self.spoil(request)
            return request.octets()
        if way < 0.8:
            octets = request.octets()
            return octets.ljust(chance.choice((0, 5, 6, 7, 252, 253, 255, 256, 262, 300, 512, 518)), b"\x00")
        return random_octets(chance, chance.choice((0, 5, 6, 10, 16, 18, 252, 253, chance.randint(0, 300))))

    def exchange(self):
        super().exchange()
        if self.often(0.5):
            self.line.question(self.line.about)


class WonderingCentre(Wonder, Centre):
    """A conversation with questions."""


class WonderingElevenBitCentre(Wonder, ElevenBitCentre):
    """The same with a card of the eleven-bit profile."""
