"""Tests of the question `W` (document 02, #105), written by hand. Usage: why.py
FOLDER-OF-THE-PROGRAMS"""

import itertools
import random

from harness import *
from rows import *

# The words in document 01's order, each with the cause and P/N of its mirror.
ANSWERS = {
    "marked": (14, 0), "type": (14, 0), "session": (14, 0), "point": (16, 0),
    "other": (14, 0), "shape": (14, 0), "record": (15, 0), "objects": (17, 0),
    "reading-label": (18, 0), "reading-range": (18, 0), "no-reading": (18, 0),
    "event-label": (18, 0), "event-range": (18, 0), "no-event": (13, 0),
    "clock": (13, 0), "no-dates": (14, 0), "time": (7, 1), "password": (7, 1),
}
ORDER = list(ANSWERS)
ACCEPTED = "accepted"

WITHOUT_DATES = image(meter(), point(1, 0x12345678), point(2, 0), reading(1, 11, JAN),
                      reading(1, 21, JAN), event(1, 52, 1, 3, b"\0\0" + JAN))


def ask(d, user, word, what=""):
    """Asks of a message; `word` is the rule, or accepted."""
    return d.why(user, 0, word, *ANSWERS.get(word, ("-", "-")), what=what or user.hex(" "))


def ask_and_send(d, user, word, what=""):
    """The same, and the message itself: the mirror that the card gives by that rule."""
    ask(d, user, word, what)
    if word in ANSWERS:
        cause, negative = ANSWERS[word]
        d.refuse(user, user[2] & 0x80 | negative << 6 | cause, what)
    return d


# ---- a message and what is wrong with it --------------------------------------

class Case:
    """An accepted request with the session, image and clock it is accepted with."""

    def __init__(self, kind):
        self.kind = kind
        self.type = kind
        self.n, self.cause, self.record, self.body = ROWS[kind]
        self.point = 1
        self.session = None if kind == 183 else 1
        self.image, self.clock = FULL, CLOCK

    def user(self):
        return message(self.type, self.n, self.cause, self.point, self.record, self.body)

    def card(self, d):
        """A card in this state, with this image and clock lent."""
        d.image(self.image).clock(self.clock).reset()
        if self.session == 1:
            d.open()
        if self.session == 2:
            d.open(2, 0)
        return d

    def with_labels(self, change):
        front, span = self.body[:-10], self.body[-10:]
        self.body = front + change(span[:5], span[5:])


def ored(octets, at, bits):
    return octets[:at] + bytes([octets[at] | bits]) + octets[at + 1:]


def marked(case): case.cause |= 0x80
def unlisted(case): case.type ^= 0x80
def closed(case): case.session = None
def unknown(case): case.point = 999
def other(case): case.session = 2
def structured(case): case.n ^= 0x80
def recorded(case): case.record = 77
def objected(case): case.body = b"\7" + case.body[1:]
def invalid(case): case.with_labels(lambda first, last: ored(first, 0, 0x80) + last)
def falling(case): case.with_labels(lambda first, last: last + first)
def empty(case): case.with_labels(lambda first, last: ored(first, 4, 0x20) + ored(last, 4, 0x20))
def no_clock(case): case.clock = bytes(7)
def dateless(case): case.image = WITHOUT_DATES
def no_time(case): case.body = ored(case.body, len(case.body) - 1, 0x80)
def misspelt(case): case.body = bytes([case.body[0] ^ 1]) + case.body[1:]


READINGS, EVENTS = (122, 123), (102,)
ALL = tuple(ROWS)
SESSIONED = tuple(kind for kind in ALL if kind != 183)

# The word, what is done to a request for it, and the types it can be done to. The
# paper's order is the list's.
FAULTS = [
    ("marked", marked, ALL), ("type", unlisted, ALL), ("session", closed, SESSIONED),
    ("point", unknown, ALL), ("other", other, SESSIONED), ("shape", structured, ALL),
    ("record", recorded, ALL), ("objects", objected, READINGS),
    ("reading-label", invalid, READINGS), ("reading-range", falling, READINGS),
    ("no-reading", empty, READINGS), ("event-label", invalid, EVENTS),
    ("event-range", falling, EVENTS), ("no-event", empty, EVENTS),
    ("clock", no_clock, (103,)), ("no-dates", dateless, (185, 186)),
    ("time", no_time, (181, 186)), ("password", misspelt, (183,)),
]


def spoiled(kind, *faults):
    case = Case(kind)
    for fault in faults:
        fault(case)
    return case


def faults_of(kind):
    return [(word, fault) for word, fault, kinds in FAULTS if kind in kinds]


# ---- each rule, and two together ----------------------------------------------

def each_rule():
    Tally.equal("every word has a fault", [word for word, _, _ in FAULTS], ORDER)
    for kind in ROWS:
        d = Drive(f"type {kind}")
        ask_and_send(Case(kind).card(d), Case(kind).user(), ACCEPTED)
        for word, fault in faults_of(kind):
            case = spoiled(kind, fault)
            ask_and_send(case.card(d), case.user(), word)
        d.check()


NEIGHBOURS = {
    ("marked", "type"), ("type", "session"), ("session", "point"), ("point", "other"),
    ("other", "shape"), ("shape", "record"), ("record", "objects"),
    ("objects", "reading-label"), ("reading-label", "reading-range"),
    ("reading-range", "no-reading"), ("event-label", "event-range"),
    ("event-range", "no-event"), ("no-dates", "time"),
}


def two_rules():
    """Both faults in one message: the earlier rule is named. A session cannot be
    missing and be another point's."""
    met = set()
    for kind in ROWS:
        d = Drive(f"two rules, type {kind}")
        for (word, fault), (later, second) in itertools.combinations(faults_of(kind), 2):
            if (word, later) != ("session", "other"):
                met.add((word, later))
                for faults in ((fault, second), (second, fault)):
                    case = spoiled(kind, *faults)
                    ask_and_send(case.card(d), case.user(), word, f"{word} and {later}")
        d.check()
    Tally.equal("every pair of neighbours", NEIGHBOURS - met, set())


# ---- both sides of each rule --------------------------------------------------

def parts_of_rules():
    d = Drive("T and P/N", FULL).clock(CLOCK).reset().open()
    for kind in ROWS:
        cause = ROWS[kind][1]
        for octet, word in ((cause | 0x80, "marked"), (cause | 0x40, "marked"),
                            (cause | 0xC0, "marked"), (cause, ACCEPTED),
                            (cause ^ 3, "shape"), (cause | 0x20, "shape"), (0, "shape")):
            ask(d, request(kind, cause=octet), word)
    d.check()

    d = Drive("every type", FULL).clock(CLOCK).reset()
    for kind in range(256):
        word = "type" if kind not in ROWS else "session" if kind != 183 else "shape"
        ask(d, message(kind, 9, 5, 1, 0), word)
    d.check()

    d = Drive("the session", FULL).clock(CLOCK).reset()
    ask(d, request(103), "session")
    ask(d, request(183), ACCEPTED, "183 needs no session")
    d.open(2, 0)
    ask(d, request(103), "other")
    ask(d, request(103, 2), ACCEPTED)
    ask(d, request(183), ACCEPTED, "183 replaces another's session")
    ask(d, request(103, 0x1234), "other")
    ask(d, request(103, 9), "point", "no point, so no other one")
    ask(d, request(183, 9), "point")
    d.open()
    d.image(image(meter(), point(2, 0)))
    ask(d, request(103), "point", "the session's point has left")
    ask(d, request(103, 2), "other")
    d.image(FULL).refuse(message(183, 1, 6, 1, 0, bytes(4)), 0x47, "wrong password")
    ask(d, request(103), "session")
    d.open().ask(request(187), with_cause(request(187), 7))
    ask(d, request(103), "session", "closed by 187")
    d.open().reset()
    ask(d, request(103), "session", "closed by a reset")
    d.check()

    d = Drive("shape and record", FULL).clock(CLOCK).reset().open()
    for kind, (n, _, rec, body) in ROWS.items():
        for wrong in (n ^ 1, n + 2, n | 0x80):
            ask(d, request(kind, n=wrong), "shape")
        ask(d, request(kind, body=body + b"\0"), "shape", "an octet too many")
        if body:
            ask(d, request(kind, body=body[:-1]), "shape", "an octet too few")
        good = {102: (52, 53, 54, 55, 128, 129), 122: (21,), 123: (11,)}.get(kind, (0,))
        for wrong in set(range(256)) - set(good):
            ask(d, request(kind, rec=wrong), "record", f"type {kind}, record {wrong}")
    for rec in (53, 54, 55, 128, 129):
        ask(d, request(102, rec=rec), "no-event")
    d.check()

    d = Drive("objects", FULL).clock(CLOCK).reset().open()
    for kind in READINGS:
        for first, last in itertools.product((0, 1, 2, 5, 6, 7, 8, 255), repeat=2):
            word = ACCEPTED if 1 <= first <= last <= 6 else "objects"
            ask(d, request(kind, body=bytes([first, last]) + SPAN), word)
    d.check()


def labels_of_ranges():
    """122, 123 and 102: one label, both, and the order, in standard time (#102)."""
    for kind, label, falls, none in ((122, "reading-label", "reading-range", "no-reading"),
                                     (123, "reading-label", "reading-range", "no-reading"),
                                     (102, "event-label", "event-range", "no-event")):
        front = ROWS[kind][3][:-10]
        d = Drive(f"labels of {kind}", FULL).clock(CLOCK).reset().open()

        def span(first, last, word):
            ask_and_send(d, request(kind, body=front + first + last), word)

        no = label_a(1, 2, 29, 0, 0)
        span(JAN, JAN, ACCEPTED)
        span(no, JAN, label)
        span(JAN, no, label)
        span(no, no, label)
        late = label_a(1, 1, 1, 0, 16)
        span(late, JAN, falls)
        span(late, late, none)
        # 02:15 with SU 1 comes before 02:15 with SU 0, and 03:15 with SU 1 is that one.
        autumn = label_a(1, 10, 28, 2, 15)
        span(autumn, summer(autumn), falls)
        span(summer(autumn), autumn, none)
        span(autumn, summer(label_a(1, 10, 28, 3, 15)), none)
        span(summer(label_a(1, 10, 28, 3, 15)), autumn, none)
        span(label_a(0, 1, 1, 0, 0), summer(label_a(0, 1, 1, 0, 59)), falls)
        # The record is chosen by its instant.
        span(summer(label_a(1, 1, 1, 1, 15)), JAN, ACCEPTED)
        span(summer(JAN), summer(JAN), none)
        # Another point has none.
        d.open(2, 0)
        ask(d, request(kind, 2), none)
        d.check()


def by_type():
    d = Drive("the clock", FULL).reset().open()
    for clock, word in ((CLOCK, ACCEPTED), (bytes(7), "clock"), (b"\xFF" * 7, "clock"),
                        (hx("E8 EF 0F 00 21 01 01"), "clock"),
                        (hx("E7 F3 0F 00 21 01 01"), "clock"),
                        (hx("E7 EF 0F 00 21 01 01"), ACCEPTED),
                        (hx("E7 EF 40 00 21 01 01"), "clock")):
        ask(d.clock(clock), request(103), word)
        for kind in set(ROWS) - {103}:
            ask(d, request(kind), ACCEPTED, "the clock is 103's alone")
    d.check()

    d = Drive("dates and times", WITHOUT_DATES).clock(CLOCK).reset().open()
    for kind in ROWS:
        ask(d, request(kind), "no-dates" if kind in (185, 186) else ACCEPTED)
    ask(d, request(186, body=bytes(10)), "no-dates", "before the labels")
    ask(d, request(181, body=bytes(7)), "time", "181 needs no dates")
    d.image(FULL)
    for body in (JAN + bytes(5), bytes(5) + JAN, bytes(10)):
        ask_and_send(d, request(186, body=body), "time")
    ask(d, request(186, body=label_a(2, 3, 4, 5, 6) + JAN), ACCEPTED, "the two have no order")
    for front in (hx("E8 EF"), hx("E7 F3"), hx("FF FF")):
        ask_and_send(d, request(181, body=front + JAN), "time")
    ask(d, request(181, body=hx("E7 EF") + JAN), ACCEPTED)
    d.check()

    d = Drive("passwords", FULL).clock(CLOCK)
    for opened in (False, True):
        d.reset()
        for bit in range(32):
            ask(d, request(183, body=le(0x12345678 ^ 1 << bit, 4)), "password", f"bit {bit}")
        ask(d, request(183, body=hx("12 34 56 78")), "password", "the other way round")
        ask(d, request(183, 2, body=bytes(4)), ACCEPTED)
        ask(d, request(183, 0x1234, body=b"\xFF" * 4), ACCEPTED)
        ask(d, request(183, 0x1234), "password", "another point's password")
        if not opened:
            d.open()
    d.check()


# ---- the two refusals, the call, and what asking leaves -----------------------

def refusals():
    d = Drive("image, then octets", None)
    lengths = (0, 1, 5, 6, 7, 10, 251, 252, 253, 254, 255, 256, 300, 508, 511, 512, 518, 65535)
    for length in lengths:
        d.why(OPEN_1.ljust(length, b"\0")[:length], 1, what=f"no image, {length} octets")
    for unsound in (b"", b"\1", SMALL[:-1], SMALL + b"\0", b"\2" + SMALL[1:]):
        d.image(unsound)
        for length in (0, 5, 6, 252, 253, 65535):
            d.why(bytes(length), 1, what=f"unsound, {length} octets")
    d.image(SMALL)
    for length in range(300):
        user = OPEN_1.ljust(length, b"\0")[:length]
        if 6 <= length <= 252:
            ask(d, user, ACCEPTED if length == 10 else "shape", f"{length} octets")
        else:
            d.why(user, 2, what=f"{length} octets")
    for length in (300, 508, 511, 512, 518, 65535):
        d.why(OPEN_1.ljust(length, b"\0")[:length], 2, what=f"{length} octets")
    d.check()

    for eleven in (b"", b"E"):
        lent = eleven + b"I" + be(21, 3) + SMALL + b"W\0\0"
        whole = b"W" + be(10, 2) + OPEN_1
        for end in range(len(whole)):
            Tally.equal(f"W cut at {end}", run("drive", lent + whole[:end]),
                        "why 2 - - -\n" + ("cut\n" if end else ""))
        Tally.equal("W at the end", run("drive", lent + whole),
                    "why 2 - - -\nwhy 0 accepted - -\n")
    Tally.equal("the longest W, cut", run("drive", b"W\xFF\xFF" + bytes(65534)), "cut\n")
    slow = Slow("drive")
    slow.feed(b"W\0\0")
    Tally.equal("as soon as the call is whole", slow.line(), "why 1 - - -\n")
    slow.feed(b"x")
    Tally.equal("and the next is read", slow.ends(), ("call\n", 0))


def not_looked_at():
    """The link, the collector, the count, the lent length and waiting replies."""
    d = Drive("at power-on", FULL).clock(CLOCK)
    ask(d, request(103), "session", "before the first reset")
    ask(d, OPEN_1, ACCEPTED, "before the first reset")
    d.run(variable(0x73, OPEN_1), 7)
    d.lend(0)
    ask(d, OPEN_1, ACCEPTED, "no buffer lent")
    d.gap(9).lend(261).check()

    for through in ("O", "P"):
        d = Drive(f"replies wait, through {through}", FULL).clock(CLOCK)
        d.through = through
        if through == "P":
            d.eleven()
        d.reset().open()
        d.send(request(123))
        for reply in (with_cause(request(123), 7), None, with_cause(request(123), 10)):
            ask(d, request(103), ACCEPTED, "while replies wait")
            ask(d, request(103, rec=1), "record", "while replies wait")
            d.send(request(103), NACK)
            if reply is None:
                values = b"".join(bytes([i]) + hx("01 00 00 00 02") for i in range(1, 7))
                reply = message(11, 6, 5, 1, 11, values + JAN)
            d.collect(reply)
        d.collect(None)
        # Between two octets of a run, behind a damaged one, and where a run is kept.
        ask(d.octets(STATUS[:3]), request(100), ACCEPTED)
        ask(d.octets(STATUS[3:]), request(100), ACCEPTED)
        d.gap(0, fixed(0x0B))
        ask(d.run(b"x", 3), request(100), ACCEPTED)
        d.octets(STATUS).lend(260).gap(9)
        ask(d, request(100), ACCEPTED, "behind 9")
        d.image(b"").lend(261).gap(8).why(request(100), 1, what="behind 8")
        d.image(FULL)
        ask(d, request(100), ACCEPTED)
        d.gap(0, fixed(0x0B)).octets(bytes(262))
        ask(d, request(100), ACCEPTED, "overfull")
        d.gap(2)
        if through == "P":
            ask(d.characters(characters(STATUS, [0])), request(100), ACCEPTED, "marked")
            d.gap(10)
        # Asking opens and closes nothing.
        for user in (request(187), request(183, 2, body=bytes(4)), request(183, body=bytes(4)),
                     request(181), request(186)):
            d.calls += b"W" + be(len(user), 2) + user
            d.lines.append(("asked", "why 0 password 7 1" if user[6:] == bytes(4) and user[3] == 1
                            else "why 0 accepted - -"))
        d.ask(request(100), message(71, 1, 5, 1, 0, hx("12 34 BC 9A 78 56")))
        d.check()

    # What is lent now counts, and not what was.
    d = Drive("lent now", FULL).clock(CLOCK).reset().open()
    ask(d, request(103), ACCEPTED)
    ask(d.clock(bytes(7)), request(103), "clock")
    ask(d, request(185), ACCEPTED)
    ask(d.image(WITHOUT_DATES), request(185), "no-dates")
    ask(d.image(image(meter(), point(2, 0))), request(185), "point")
    d.image(b"\1").why(request(185), 1)
    ask(d.image(FULL).clock(CLOCK), request(103), ACCEPTED)
    d.eleven()
    ask(d, request(103), "session", "another card")
    d.check()


# ---- at random: what is named is what the card does ---------------------------

PICTURES = [
    FULL, FULL, WITHOUT_DATES, SMALL, image(meter(), point(2, 0), dates(JAN, JAN)),
    image(meter(), point(1, 0x12345678), point(2, 0), reading(1, 11, summer(JAN)),
          event(1, 52, 1, 3, b"\0\0" + summer(JAN)), event(2, 129, 1, 3, b"\0\0" + JAN)),
]


def random_case(source):
    case = Case(source.choice(ALL))
    # The rules by type stand last, and would hardly be reached.
    faults = faults_of(case.kind)[-4 if source.random() < 0.4 else 0:]
    for _ in range(source.choice((0, 1, 1, 1, 2, 3))):
        source.choice(faults)[1](case)
    if source.random() < 0.3:
        case.session = source.choice((None, 1, 2))
    if source.random() < 0.3:
        case.image = source.choice(PICTURES)
    if source.random() < 0.2:
        case.point = source.choice((1, 2, 2, 0x1234))
    user = case.user()
    if source.random() < 0.3:
        at = source.randrange(len(user))
        user = user[:at] + bytes([source.choice((user[at] ^ 1 << source.randrange(8),
                                                 source.randrange(256)))]) + user[at + 1:]
    if source.random() < 0.1:
        user = user[:max(6, source.randrange(len(user) + 1))]
        user += source.randbytes(source.choice((0, 1, 4, 200)))
    return case, user


def framed(fcb, user=None):
    return fixed(0x5B | fcb) if user is None else variable(0x53 | fcb, user)


def given(octets):
    return b"O" + be(len(octets), 2) + octets + b"G"


def state_calls(case):
    """Leaves the card with the case's session and last FCB 0, nothing waiting."""
    calls = b"I" + be(len(FULL), 3) + FULL + given(RESET)
    if case.session is not None:
        opening = message(183, 1, 6, case.session, 0, le({1: 0x12345678, 2: 0}[case.session], 4))
        calls += given(framed(0x20, opening)) + given(framed(0))
    return calls + b"I" + be(len(case.image), 3) + case.image + b"C" + case.clock


def is_refusal(user, reply):
    """A mirror of the message with a refusal's cause, or with cause 7 and P/N 1."""
    return (reply[:2] + reply[3:] == user[:2] + user[3:]
            and (reply[2] & 0x3F in range(13, 19) or reply[2] & 0x7F == 0x47))


def at_random():
    source = random.Random(105)
    seen = {}
    for profile in (b"", b"E"):
        calls, cases = profile, []
        for _ in range(4000):
            case, user = random_case(source)
            cases.append((case, user))
            calls += state_calls(case) + b"W" + be(len(user), 2) + user
            calls += given(framed(0x20, user)) + given(framed(0))
        lines = iter(run("drive", calls).splitlines())
        for case, user in cases:
            for _ in range(1 if case.session is None else 3):
                next(lines)
            why, ack, reply = (next(lines).split(" ") for _ in range(3))
            what, got = user.hex(" "), bytes.fromhex(reply[5])[:int(reply[1])][7:-2]
            seen[why[2]] = seen.get(why[2], 0) + 1
            Tally.equal(f"{what}: taken", (ack[:2], ack[5][:12]), (["0", "6"], ACK.hex().upper()))
            Tally.equal(f"{what}: the line's parts", (len(why), why[:2]), (5, ["why", "0"]))
            if why[2] == ACCEPTED:
                Tally.equal(f"{what}: accepted", (why[3:], is_refusal(user, got)),
                            (["-", "-"], False))
            else:
                cause, negative = int(why[3]), int(why[4])
                Tally.equal(f"{what}: cause and P/N of {why[2]}", got,
                            with_cause(user, user[2] & 0x80 | negative << 6 | cause))
                Tally.equal(f"{what}: {why[2]} is a refusal", is_refusal(user, got), True)
                Tally.equal(f"{why[2]}'s own answer", (cause, negative), ANSWERS[why[2]])
    Tally.equal("every word occurs", set(seen), {*ANSWERS, ACCEPTED})
    Tally.equal("and often", min(seen.values()) >= 20, True)


def a_conversation_with_questions():
    """The same calls with and without questions between them: every gap's line is the
    same, and so is the buffer. Questions stand between the octets of runs, too."""
    source = random.Random(1105)
    for profile in (b"", b"E"):
        plain, asked = profile, profile
        for _ in range(600):
            case, user = random_case(source)
            runs = [framed(source.choice((0, 0x20)), user), framed(0), framed(0x20), RESET, STATUS,
                    source.randbytes(source.choice((0, 1, 6, 262)))]
            if source.random() < 0.3:
                calls = [state_calls(case)]
            else:
                octets = source.choice(runs)
                cut = source.randint(0, len(octets))
                calls = [b"O" + be(len(part), 2) + part for part in (octets[:cut], octets[cut:])]
                calls += [b"B" + be(source.choice((0, 260, 261, 300)), 2), b"G", b"B\1\5", b"G"]
            for call in calls:
                plain += call
                asked += call
                length = source.choice((0, 5, 253, 65535)) if source.random() < 0.05 else len(user)
                asked += b"W" + be(length, 2) + user.ljust(length, b"\0")[:length]
        gaps = [line for line in run("drive", asked).splitlines() if not line.startswith("why ")]
        Tally.equal("gaps beside questions", gaps, run("drive", plain).splitlines())


run_parts(each_rule, two_rules, parts_of_rules, labels_of_ranges, by_type, refusals,
          not_looked_at, at_random, a_conversation_with_questions)
