"""Inputs by rule for the eleven-bit profile (document 02, #104): wrong parity bits in every kind of run and at every
kind of place, altered bits, the kept mark, and the calls `E` and `P`. All are for the driving face.

`eleven_bit_inputs` yields (face, name, octets); each name begins with "eleven bits". The images are small, for every
gap reads the whole of its image. The count's limit is not here but in second/check: it takes 65,535 gaps more.
"""

import itertools
import random
from dataclasses import replace

from generate import conversation
from lines import DriveLine, ElevenBitLine
from meter import meter_of_moments
from systematic import (BARE, FIRST_LABEL, LAST_LABEL, NOON, Talk, count_bit, damaged_frames, short_buffers,
                        small_drive_input, whole)
from wire import (BITS_OF_A_CHARACTER, CLASS_2, CLOCK, CLOSE, DATES, FCB, IDENTITY, LONGEST_RUN, MOST_USER_OCTETS,
                  RESET, SET_CLOCK, SET_DATES, STATUS, USER_DATA, Request, all_wrong, altered, characters, fixed,
                  is_frame, label_a, minute_of, open_request, parity_bit, variable)

# Two readings of each record, two events and the dates.
DAY = minute_of(2026, 11, 15)
SMALL = replace(meter_of_moments(((DAY, 0), (DAY + 15, 0))), dates=label_a(DAY) + label_a(DAY + 1))
LINK = SMALL.link
OPENING = open_request(1, SMALL.points[1])
UNLISTED = bytes([200, 0, 5, 1, 0, 0])  # answered by a mirror whatever follows
FULLEST = variable(USER_DATA | FCB, LINK, UNLISTED.ljust(MOST_USER_OCTETS, b"\x5A"))


def accepted_requests():
    """One accepted request of each type, for the small meter."""
    yield from (Request(kind, 1) for kind in (IDENTITY, CLOCK, DATES))
    yield Request(SET_CLOCK, 1, body=NOON)
    yield Request(SET_DATES, 1, body=FIRST_LABEL + LAST_LABEL)
    yield OPENING
    yield from (whole(1, record) for record in (52, 11, 21))
    yield Request(CLOSE, 1)


def marks(length):
    """Places of wrong parity bits in a run: none, the first, a middle, the last one, the first and the last, all."""
    return (), (0,), (length // 2,), (length - 1,), (0, length - 1), range(length)


def opened():
    """A card of the eleven-bit profile with a session."""
    talk = Talk("eleven", SMALL)
    talk.open()
    return talk


def collected_again(talk):
    """The last frame's FCB once more: shows whether what came between was taken."""
    talk.line.run(fixed(CLASS_2 | talk.fcb ^ FCB, LINK))


# ---- parity bits ----

def every_octet():
    """Each octet with both parity bits: alone, and in a frame that is answered if the bit is right."""
    line = ElevenBitLine(None, BARE.octets, NOON)
    for octet in range(256):
        line.run(((octet, 0),))
        line.run(((octet, 1),))
    yield "every octet alone", line.octets()
    talk = opened()
    for octet in range(256):
        user = UNLISTED + bytes([octet])
        talk.line.run(characters(variable(USER_DATA | talk.fcb, LINK, user), (len(user) + 6,)))
        talk.send(user)
        talk.collect()
    yield "every octet in a frame", talk.octets()


def runs_of_every_kind():
    """Runs that are answered, and runs for each of 3 to 7 where no parity bit is wrong."""
    opening = variable(USER_DATA | FCB, LINK, OPENING.octets())
    for control in (RESET, STATUS, CLASS_2, CLASS_2 | FCB):
        yield fixed(control, LINK)
    yield opening
    yield variable(USER_DATA, LINK, Request(CLOCK, 1).octets())
    yield variable(USER_DATA | FCB, LINK, Request(SET_CLOCK, 1, body=NOON).octets())
    yield variable(USER_DATA | FCB, LINK, b"")
    # Number 3, then 4, 5 and 6.
    reset = fixed(RESET, LINK)
    yield from (b"\x10", b"\x00", reset[:-1], reset + b"\x16", reset[:-1] + b"\x17", bytes(LONGEST_RUN),
                b"\x68\x02\x02\x68\x53\x09\x5C\x16", opening[1:], opening[:3] + opening[4:])
    yield from (reset[:-2] + b"\x00\x16", opening[:-2] + bytes([opening[-2] ^ 3, 0x16]))
    yield from (fixed(RESET, LINK ^ 1), fixed(0x47, LINK ^ 0x100), variable(USER_DATA | FCB, 1, OPENING.octets()))
    yield from (fixed(0x44, LINK), fixed(USER_DATA | FCB, LINK), variable(RESET, LINK, b""))


def verdicts():
    """Runs of every kind with wrong parity bits: at power-on, with a session, and while a reply waits. The run behind
    each is answered as usual."""
    talk = Talk("eleven", SMALL)
    for run in runs_of_every_kind():
        for wrong in marks(len(run)):
            talk.line.power_on()
            talk.line.run(characters(run, wrong))
            talk.line.run(fixed(CLASS_2, LINK))
            talk.status()
    yield "verdicts at power-on", talk.octets()
    for waits in (False, True):
        talk = opened()
        for run in runs_of_every_kind():
            for wrong in marks(len(run)):
                talk.open()
                if waits:
                    talk.ask(Request(IDENTITY, 1))
                talk.line.run(characters(run, wrong))
                talk.line.gap()
                collected_again(talk)
                talk.collect()
                talk.ask(Request(IDENTITY, 1))
                talk.collect()
        yield f"verdicts, a reply waits: {waits}", talk.octets()


# ---- the length of a run ----

def marked_lengths():
    """2 comes before 10: wrong parity bits before, at and behind the place where the collector becomes overfull."""
    line = ElevenBitLine(None, BARE.octets, NOON)
    for length in (*range(1, 12), *range(255, 271), 300, 511, 512, 513, 522, 523, 600):
        for wrong in (*marks(length), (LONGEST_RUN - 2,), (LONGEST_RUN - 1,), (LONGEST_RUN,), (LONGEST_RUN + 1,)):
            line.run(characters(b"\x10" * length, wrong))
        line.run(fixed(STATUS, 1))
    for wrong in ((), (0,), (65_534,)):
        line.run(characters(b"\x10" * 65_535, wrong))
        line.run(fixed(STATUS, 1))
    yield "lengths", line.octets()
    talk = opened()
    talk.reset()
    for place in range(LONGEST_RUN):
        talk.line.run(characters(FULLEST, (place,)))
    talk.line.run(characters(FULLEST + b"\x16", (LONGEST_RUN,)))
    talk.line.run(all_wrong(FULLEST))
    talk.line.run(FULLEST)
    talk.line.run(fixed(CLASS_2, LINK))
    yield "each place of the longest frame", talk.octets()


def given_in_pieces():
    """A run in several calls, `P` and `O`, with the wrong parity bit in the first, a middle, the last or no piece."""
    line = ElevenBitLine(None, BARE.octets, NOON)
    frame = fixed(RESET, 1)
    for first in range(7):
        for second in range(first, 7):
            pieces = frame[:first], frame[first:second], frame[second:]
            for bad in range(4):
                for at, piece in enumerate(pieces):
                    if at == bad:
                        line.put(characters(piece, (0,)))
                    elif (first + at) % 2:
                        line.put_octets(piece)
                    else:
                        line.put(piece)
                line.gap()
                line.gap()
    yield "runs in pieces", line.octets()


# ---- the kept run ----

def kept_parts():
    """What is in the collector when a gap keeps it, marked or not."""
    reset = fixed(RESET, LINK)
    yield ()
    for run in (b"\x10", reset, reset[:3], FULLEST[:100], FULLEST, FULLEST + b"\x00"):
        yield characters(run)
        yield characters(run, (0,))
        yield characters(run, (len(run) - 1,))
    yield all_wrong(reset)


def kept_marks():
    """A run kept over 8, over 9 and over both, with its mark; characters that join it, marked or not; then a gap with a
    sound image and enough buffer. The run behind it is answered."""
    line = ElevenBitLine(None, SMALL.octets, NOON)
    reset = fixed(RESET, LINK)
    short, unsound = (260, SMALL.octets), (LONGEST_RUN, b"\x02")
    for kept in kept_parts():
        for joined in ((), characters(FULLEST[len(kept):]), characters(reset[len(kept):]), characters(b"\x16", (0,))):
            for refused in ((short,), (unsound,), (short, unsound), (unsound, short), ((0, b""),), ()):
                line.put(kept)
                for buffer, image in refused:
                    line.borrow_buffer(buffer)
                    line.borrow_image(image)
                    line.gap()
                line.put(joined)
                line.borrow_buffer(LONGEST_RUN)
                line.borrow_image(SMALL.octets)
                line.gap()
                line.run(fixed(STATUS, LINK))
    yield "the kept mark", line.octets()


# ---- altered bits ----

def frames_to_alter():
    yield "fixed", fixed(CLASS_2 | FCB, LINK)
    yield "reset", fixed(RESET, LINK)
    yield "short", variable(USER_DATA | FCB, LINK, b"")
    yield "message", variable(USER_DATA | FCB, LINK, Request(CLOCK, 1).octets())


def bits_to_alter(chance, frame):
    """Each bit; every two of one character, which leave its parity right; some of the other twos, threes and fours."""
    bits = range(BITS_OF_A_CHARACTER * len(frame))
    yield from ((bit,) for bit in bits)
    for place in range(len(frame)):
        yield from itertools.combinations(bits[place * BITS_OF_A_CHARACTER:][:BITS_OF_A_CHARACTER], 2)
    for count, times in ((2, 200), (3, 300), (4, 50)):
        yield from (chance.sample(bits, count) for _ in range(times))


def altered_bits():
    """One, two or three altered bits never make another sound frame. The repeat shows that the FCB has not advanced."""
    for name, frame in frames_to_alter():
        talk = opened()
        for number, bits in enumerate(bits_to_alter(random.Random(name), frame)):
            talk.line.run(altered(frame, bits))
            if number % 20 == 0:
                collected_again(talk)
        talk.line.run(frame)
        talk.collect(2)
        yield f"altered bits, {name}", talk.octets()


def sound_by_four(frame):
    """Four altered bits that make another sound frame: two in each of two characters."""
    twos = tuple(itertools.combinations(range(BITS_OF_A_CHARACTER), 2))
    for one, other in itertools.combinations(range(len(frame)), 2):
        for first, second in itertools.product(twos, twos):
            run = altered(frame, [*(one * BITS_OF_A_CHARACTER + bit for bit in first),
                                  *(other * BITS_OF_A_CHARACTER + bit for bit in second)])
            if is_frame(bytes(octet for octet, _ in run)):
                yield run


def four_altered_bits():
    """Each is answered as the frame that it became."""
    for name, frame in (("fixed", fixed(CLASS_2 | FCB, LINK)), ("short", variable(USER_DATA | FCB, LINK, b""))):
        talk = opened()
        for run in sound_by_four(frame):
            talk.line.run(run)
            collected_again(talk)
            talk.reset()
        yield f"four altered bits, {name}", talk.octets()


# ---- the link, the session and the count ----

def spoiled_before_repeats():
    """Each frame of a conversation comes spoiled, then whole, then spoiled again, then repeated with the same FCB."""
    for wrong in (0, 2, -1):
        talk = opened()

        def spoil(frame):
            talk.line.run(characters(frame, (wrong % len(frame),)))

        for request in accepted_requests():
            talk.open()
            for control in (USER_DATA, *[CLASS_2] * 5):
                frame = (variable(control | talk.fcb, LINK, request.octets()) if control == USER_DATA
                         else fixed(control | talk.fcb, LINK))
                spoil(frame)
                talk.line.run(frame)
                spoil(frame)
                spoil(fixed(CLASS_2 | talk.fcb ^ FCB, LINK))
                spoil(fixed(RESET, LINK))
                talk.line.run(frame)
                talk.fcb ^= FCB
        yield f"repeats, wrong at {wrong}", talk.octets()


def counted_runs():
    """The count of damaged runs grows by 2, 10, 3 and 4 and by nothing else."""
    talk = opened()
    reset = fixed(RESET, LINK)
    for _ in range(3):
        for run in ((), characters(b"\x00", (0,)), characters(reset, (3,)), all_wrong(FULLEST), reset[:5],
                    reset[:4] + b"\x00\x16", bytes(262), all_wrong(bytes(262)), fixed(RESET, 0), fixed(0x44, LINK),
                    reset):
            talk.line.run(run)
            for buffer, image in ((0, SMALL.octets), (LONGEST_RUN, b"")):
                talk.line.put(characters(b"\x00", (0,)))
                talk.line.borrow_buffer(buffer)
                talk.line.borrow_image(image)
                talk.line.gap()
            talk.line.borrow_image(SMALL.octets)
            talk.line.gap()
    yield "counted runs", talk.octets()


# ---- power-on ----

def before_power_on(face):
    """Conversations that leave something in each part of the card, and something lent."""
    def talk_of(*steps):
        talk = Talk(face, SMALL)
        for step in steps:
            step(talk)
        return talk.octets()

    def reset(talk): talk.reset()
    def session(talk): talk.open()
    def damaged(talk): talk.line.run(b"\x10")
    def ask(talk): talk.ask(whole(1, 11))
    def collect(talk): talk.collect(2)
    def part(talk): talk.line.put(fixed(RESET, LINK)[:3])
    def frame(talk): talk.line.put(fixed(STATUS, LINK))
    def overfull(talk): talk.line.put(bytes(262))
    def clock(talk): talk.line.lend_clock(bytes(7))
    def buffer(talk): talk.line.lend_buffer(300)
    def short_buffer(talk): talk.line.lend_buffer(260)
    def no_image(talk): talk.line.borrow_image(b"")
    def bare_image(talk): talk.line.borrow_image(replace(BARE, link=LINK).octets)

    def mark(talk): talk.line.put(characters(fixed(RESET, LINK)[:3], (1,)))

    of_both = ((), (reset,), (damaged,), (session,), (session, ask), (session, ask, collect), (session, part), (part,),
               (session, frame), (overfull,), (session, damaged, overfull), (clock,), (session, buffer),
               (session, short_buffer), (session, short_buffer, part), (no_image,), (session, no_image, frame),
               (session, ask, bare_image))
    of_eleven_bits = ((mark,), (session, mark), (damaged, mark, short_buffer)) if face == "eleven" else ()
    for steps in (*of_both, *of_eleven_bits):
        yield " and ".join(step.__name__.replace("_", " ") for step in steps) or "nothing", talk_of(*steps)


def calls_of(line):
    """What a line has behind its opening: nothing is lent by it."""
    return line.octets()[len(ElevenBitLine(None, SMALL.octets, NOON).octets()):]


def shown():
    """Calls that show every part of a card and what is lent: FCB 0 and 1 before a reset and behind it, the session."""
    talk = Talk("eleven", SMALL)
    talk.line.gap()
    for run in (fixed(CLASS_2, LINK), fixed(CLASS_2 | FCB, LINK), variable(USER_DATA | FCB, LINK, OPENING.octets()),
                fixed(RESET, LINK)[3:], fixed(STATUS, LINK)):
        talk.line.run(run)
    talk.reset()
    talk.line.run(fixed(CLASS_2, LINK))
    talk.collect()
    talk.ask(Request(CLOCK, 1))
    talk.collect(2)
    talk.open()
    talk.ask(Request(CLOCK, 1))
    talk.collect(2)
    return calls_of(talk.line)


def powered_on():
    """`E` in the middle of a conversation of either profile, once and twice; what was lent is lent still."""
    for face in ("drive", "eleven"):
        for name, before in before_power_on(face):
            for times in (1, 2):
                yield f"E after {face}, {name}, {times}", before + b"E" * times + shown()
                yield f"E after {face}, {name}, {times}, then lent", (before + b"E" * times + b"B\x01\x05I"
                                                                      + len(SMALL.octets).to_bytes(3, "big")
                                                                      + SMALL.octets + shown())
    # A run that is begun before `E` and ended behind it; and the two profiles' runs one after the other.
    line = DriveLine(None, SMALL.octets, NOON)
    line.run(fixed(RESET, LINK))
    for cut in range(7):
        line.put(fixed(STATUS, LINK)[:cut])
        line.parts.append(b"E")
        line.put(fixed(STATUS, LINK)[cut:])
        line.gap()
        line.gap()
    yield "E inside runs", line.octets()


# ---- the calls E and P ----

def call_of(pairs):
    return b"P" + len(pairs).to_bytes(2, "big") + b"".join(map(bytes, pairs))


def calls():
    lent = small_drive_input()
    reset = call_of(characters(fixed(RESET, 1)))
    marked = call_of(characters(fixed(RESET, 1), (0,)))
    yield "P first", reset + b"G"
    yield "P before any E", lent + reset + b"G"
    yield "P before any E, the letter alone", lent + b"P"
    yield "P before any E, no characters", lent + b"P\x00\x00G"
    yield "P before any E, parity bit 02", lent + b"P\x00\x01\x00\x02G"
    yield "P before any E, then E", b"P" + lent + b"E" + reset + b"G"
    yield "P with nothing lent", b"E" + reset + b"G" + lent + b"G"
    yield "P of no characters", lent + b"EP\x00\x00GP\x00\x00" + reset + b"P\x00\x00GG"
    yield "P of no characters keeps the mark", lent + b"E" + marked + b"P\x00\x00GP\x00\x00G"
    yield "E alone", b"E"
    yield "E and gaps", b"EGEEG" + lent + b"EGEEG"
    for letter in b"EPepO\x00\x01\xFF":
        yield f"letter {letter} behind E", lent + b"E" + reset + b"G" + bytes([letter])
        yield f"letter {letter} behind E, then P", lent + b"E" + bytes([letter]) + reset + b"G"
    for name, call in (("right", reset), ("marked", marked)):
        for at in range(len(call) + 1):
            yield f"P {name} cut at {at}", lent + b"EG" + call[:at]
    for octet in (0x02, 0x03, 0x10, 0x30, 0x31, 0x80, 0x81, 0xFE, 0xFF):
        for place in (0, 3, 5):
            at = 3 + 2 * place + 1
            call = reset[:at] + bytes([octet]) + reset[at + 1:]
            yield f"parity bit {octet} at {place}", lent + b"EG" + call + b"G"
            if octet in (0x02, 0xFF):
                for cut in range(at + 1, len(call) + 1):
                    yield f"parity bit {octet} at {place}, cut at {cut}", lent + b"EG" + call[:cut]
        yield f"every parity bit {octet}", lent + b"E" + call_of([(0x10, octet)] * 6) + b"G"
        yield f"octet {octet}, a right one", lent + b"E" + call_of([(octet, parity_bit(octet))]) + b"G"
    long = call_of(characters(b"\x10" * 65_535))
    yield "the longest P", lent + b"E" + long + b"G" + reset + b"G"
    yield "the longest P, cut", lent + b"E" + long[:-1]
    yield "the longest P, last parity bit 02", lent + b"E" + long[:-1] + b"\x02G"


# ---- the inputs of the ten-bit profile ----

def as_with_ten_bits():
    """Inputs of the other profile: on an eleven-bit card through `O`, and some of them made anew through `P`."""
    for family in (lambda: damaged_frames("drive"), short_buffers):
        for name, octets in family():
            yield f"{name}, through O", b"E" + octets
    for family in (damaged_frames, count_bit):
        for name, octets in family("eleven"):
            yield f"{name}, through P", octets


def eleven_bit_inputs():
    for family in (calls, every_octet, verdicts, marked_lengths, given_in_pieces, kept_marks, altered_bits,
                   four_altered_bits, spoiled_before_repeats, counted_runs, powered_on, as_with_ten_bits):
        for name, octets in family():
            yield "drive", f"eleven bits, {name}", octets


def eleven_bits_little_by_little():
    """Inputs to be delivered in pieces."""
    talk = opened()
    talk.line.run(characters(fixed(RESET, LINK), (2,)))
    talk.collect()
    yield "drive", "eleven bits, in pieces", talk.octets()
    yield "drive", "eleven bits, in pieces, cut", talk.octets()[:-2]
    yield "drive", "eleven bits, conversation in pieces", conversation(random.Random("pieces"), "eleven")[:6000]
