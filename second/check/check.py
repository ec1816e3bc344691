"""Tests of the card, written by hand from documents 01 and 02. Usage: check.py FOLDER-OF-THE-PROGRAMS"""

import random

from harness import *
from rows import *


# ---- document 01, "Octets on both sides of each rule" --------------------------

def paper_cases():
    reset = hx("10 40 01 00 41 16")
    ack = hx("10 00 01 00 01 16")
    collect = hx("10 5B 01 00 5C 16")

    Drive("case 1").run(reset, 0, ack).check()
    Drive("case 2").run(hx("10 41 01 00 41 16"), 4).check()
    Drive("case 3").run(reset, 0, ack).run(collect, 0, ack).check()
    opening = hx("68 0D 0D 68 73 01 00 B7 01 06 01 00 00 78 56 34 12 47 16")
    opened = hx("68 0D 0D 68 08 01 00 B7 01 07 01 00 00 78 56 34 12 DD 16")
    (Drive("cases 4 and 5").run(reset, 0, ack).run(opening, 0, ack)
     .run(collect, 0, opened).run(collect, 0, opened).check())
    asking = hx("68 09 09 68 73 01 00 67 00 05 01 00 00 E1 16")
    refused = hx("68 09 09 68 08 01 00 67 00 0E 01 00 00 7F 16")
    (Drive("case 6").run(reset, 0, ack).run(asking, 0, ack)
     .run(collect, 0, refused).check())

    # 7 to 9: labels, judged as the clock a 103 asks for.
    labels = Drive("cases 7 to 9").reset().open()
    ask_clock(labels, hx("00 00 0F 00 21 01 01"), True)
    ask_clock(labels, label_b(0, 2, 29, 0, 0), True)
    ask_clock(labels, label_b(1, 2, 29, 0, 0), False)
    ask_clock(labels, hx("E7 EF 0F 00 21 01 01"), True)
    ask_clock(labels, hx("E8 EF 0F 00 21 01 01"), False)
    ask_clock(labels, hx("E7 F3 0F 00 21 01 01"), False)
    labels.check()

    # 10: L 255 is read (and mirrored whole), L 2 is number 3.
    big = Drive("case 10").reset()
    user = message(200, 3, 9, 7, 9, bytes(range(246)))
    assert len(variable(0x73, user)) == 261
    big.refuse(user, 0x0E)
    big.run(hx("68 02 02 68 53 01 54 16"), 3)
    big.check()


def ask_clock(drive, clock, valid):
    request = message(103, 0, 5, 1, 0)
    drive.clock(clock)
    if valid:
        drive.ask(request, message(72, 1, 5, 1, 0, clock), what=clock.hex())
    else:
        drive.refuse(request, 0x0D, what=clock.hex())


def labels():
    """Both sides of every part of a label, as the clock and as a 181."""
    valid = [
        label_b(0, 1, 1, 0, 0), label_b(99, 12, 31, 23, 59, 59, 999),
        hx("0000 3B 17 1F 0C 63"),          # 59 minutes, 23 hours, 31 December
        hx("0000 00 80 01 01 00"),          # SU
        hx("0000 00 97 01 01 00"),          # SU and hour 23
        hx("0000 00 00 E1 01 00"),          # weekday 7
        hx("0000 00 00 01 01 63"),          # year 99
        label_b(4, 2, 29, 1, 1), label_b(96, 2, 29, 1, 1), label_b(1, 2, 28, 1, 1),
        *[label_b(1, month, last, 0, 0) for month, last in enumerate(
            (31, 28, 31, 30, 31, 30, 31, 31, 30, 31, 30, 31), start=1)],
    ]
    invalid = [
        hx("0000 3C 00 01 01 00"),          # minute 60
        hx("0000 40 00 01 01 00"),          # TIS
        hx("0000 80 00 01 01 00"),          # IV
        hx("0000 00 18 01 01 00"),          # hour 24
        hx("0000 00 20 01 01 00"), hx("0000 00 40 01 01 00"),  # reserved
        hx("0000 00 00 00 01 00"),          # day 0
        hx("0000 00 00 1F 04 00"),          # 31 April
        hx("0000 00 00 1F 06 00"), hx("0000 00 00 1F 09 00"), hx("0000 00 00 1F 0B 00"),
        hx("0000 00 00 1E 02 00"),          # 30 February 2000
        hx("0000 00 00 1D 02 02"), hx("0000 00 00 1D 02 03"), hx("0000 00 00 1D 02 63"),
        hx("0000 00 00 01 00 00"),          # month 0
        hx("0000 00 00 01 0D 00"),          # month 13
        hx("0000 00 00 00 0D 00"), hx("0000 00 00 01 0E 00"), hx("0000 00 00 01 0F 00"),
        hx("0000 00 00 01 11 00"), hx("0000 00 00 01 21 00"),  # ETI
        hx("0000 00 00 01 41 00"), hx("0000 00 00 01 81 00"),  # PTI
        hx("0000 00 00 01 01 64"),          # year 100
        hx("0000 00 00 01 01 80"),          # reserved
        le(1000, 2) + hx("00 00 01 01 00"), le(1023, 2) + hx("00 00 01 01 00"),
        le(60 << 10, 2) + hx("00 00 01 01 00"), le(63 << 10, 2) + hx("00 00 01 01 00"),
        bytes(7), b"\xFF" * 7,
    ]
    drive = Drive("labels").reset().open()
    for octets in valid:
        ask_clock(drive, octets, True)
        request = message(181, 1, 6, 1, 0, octets)
        drive.ask(request, with_cause(request, 7), order="clock", order_octets=octets)
    for octets in invalid:
        ask_clock(drive, octets, False)
        drive.refuse(message(181, 1, 6, 1, 0, octets), 0x47)
    drive.check()


# ---- the printing face ------------------------------------------------------

def printing():
    first, second = hx("10 40 01 00 41 16"), hx("10 41 01 00 41 16")
    whole = printing_input([first, second])
    prints("the example", whole, "1 0 - 10 00 01 00 01 16\n2 4 - -\n")
    prints("no runs", printing_input([]), "")
    prints("empty", b"", "cut\n")

    # Cut anywhere: before the clock's end only `cut`; later, whole runs first.
    opening = len(printing_input([]))
    for end in range(1, len(whole)):
        wanted = "cut\n"
        if end == opening:
            wanted = ""
        if end >= opening + 8:
            wanted = "1 0 - 10 00 01 00 01 16\n" + ("cut\n" if end > opening + 8 else "")
        prints(f"cut at {end}", whole[:end], wanted)

    for version in (0, 2, 255):
        prints("version", bytes([version]), "version\n")
        prints("version", bytes([version]) + whole[1:], "version\n")
        prints("version and image", printing_input([first], b"\x00", version=version),
               "version\n")
    bad = SMALL[:-1]
    prints("image", printing_input([first], bad), "image\n")
    prints("image, no runs", printing_input([], bad), "image\n")
    prints("image, run cut", printing_input([first], bad)[:-1], "image\n")
    prints("image of length 0", printing_input([first], b""), "image\n")
    prints("image, clock cut", printing_input([], bad)[:-1], "cut\n")
    prints("image, image cut", printing_input([], bad)[:10], "cut\n")

    prints("run of length 0", printing_input([b"", first, b""]),
           "1 1 - -\n2 0 - 10 00 01 00 01 16\n3 1 - -\n")
    prints("long runs", printing_input([b"\x10" * 65535, first, b"\x10" * 262, b"\x10" * 261]),
           "1 2 - -\n2 0 - 10 00 01 00 01 16\n3 2 - -\n4 3 - -\n")
    prints("a cut run is not given", printing_input([first]) + hx("FFFF") + first, 
           "1 0 - 10 00 01 00 01 16\ncut\n")
    many = 66000
    prints("many runs", printing_input([b""] * many),
           "".join(f"{i} 1 - -\n" for i in range(1, many + 1)))

    # Orders are printed with the ACK and not again with a repeat.
    dated = image(meter(), point(1, 5), dates(JAN, JAN))
    clock = message(181, 1, 6, 1, 0, label_b(1, 1, 1, 0, 15))
    switch = message(186, 1, 6, 1, 0, JAN + JAN)
    runs = [RESET, variable(0x73, message(183, 1, 6, 1, 0, le(5, 4))), fixed(0x5B),
            variable(0x73, clock), variable(0x73, clock), fixed(0x5B),
            variable(0x73, switch), variable(0x73, switch), fixed(0x49)]
    ack = "10 00 01 00 01 16"
    prints("orders", printing_input(runs, dated),
           f"1 0 - {ack}\n2 0 - {ack}\n"
           "3 0 - 68 0D 0D 68 08 01 00 B7 01 07 01 00 00 05 00 00 00 CE 16\n"
           f"4 0 clock {ack}\n5 0 - {ack}\n"
           "6 0 - 68 10 10 68 08 01 00 B5 01 07 01 00 00 00 00 0F 00 01 01 01 D9 16\n"
           f"7 0 dates {ack}\n8 0 - {ack}\n9 0 - 10 0B 01 00 0C 16\n")


# ---- the driving face -------------------------------------------------------

def driving():
    def says(what, calls, wanted):
        Tally.equal(f"drive: {what}", run("drive", calls), wanted)

    aa = "AA" * 300
    says("nothing", b"", "")
    says("at the start the image is empty", b"G", f"8 0 - - 0 {aa}\n")
    says("unknown letter", b"GxG", f"8 0 - - 0 {aa}\ncall\n")
    says("newline is a letter too", b"\n", "call\n")
    says("I over", b"I" + be(65601, 3), "call\n")
    says("I at most", b"I" + be(65600, 3) + bytes(65600) + b"G", f"8 0 - - 0 {aa}\n")
    says("B over", b"B" + be(301, 2) + b"G", "call\n")
    says("B at most", b"B" + be(300, 2) + b"G", f"8 0 - - 0 {aa}\n")
    for cut in (b"I", b"I\0", b"I\0\0", b"I\0\0\1", b"C", b"C123456", b"B", b"B\1",
                b"O", b"O\0", b"O\0\1", b"O\0\2x"):
        says(f"cut {cut!r}", b"G" + cut, f"8 0 - - 0 {aa}\ncut\n")
    Drive("ends between calls").octets(RESET).check()
    Drive("O of no octets").octets(b"").gap(1).check()


def little_by_little():
    """Lines come while the input is still open; a read that waited for more
    than it needs would hang here."""
    slow = Slow("print")
    slow.feed(printing_input([RESET]))
    Tally.equal("slow print", slow.line(), "1 0 - 10 00 01 00 01 16\n")
    slow.feed(be(0, 2))
    Tally.equal("slow print", slow.line(), "2 1 - -\n")
    slow.feed(be(300, 2) + bytes(300))
    Tally.equal("slow print", slow.line(), "3 2 - -\n")
    slow.process.stdin.close()
    Tally.equal("slow print's end", (slow.process.stdout.read(), slow.process.wait()), (b"", 0))

    aa = "AA" * 300
    slow = Slow("drive")
    slow.feed(b"G")
    Tally.equal("slow drive", slow.line(), f"8 0 - - 0 {aa}\n")
    slow.feed(b"I" + be(21, 3) + SMALL + b"G")
    Tally.equal("slow drive", slow.line(), f"1 0 - - 0 {aa}\n")
    slow.feed(b"x")
    Tally.equal("said as soon as the letter is read", slow.ends(), ("call\n", 0))
    for calls in (b"I" + be(65601, 3), b"I\xFF\xFF\xFF", b"B" + be(301, 2)):
        slow = Slow("drive")
        slow.feed(calls)
        Tally.equal("said as soon as the length is read", slow.ends(), ("call\n", 0))


# ---- what a gap answers, 1 to 9 ---------------------------------------------

def refusals():
    d = Drive("numbers 1 to 7")
    d.gap(1)
    d.run(b"\x10" * 262, 2).run(b"\x16" * 40000, 2)
    d.run(RESET + bytes(300), 2)
    # 3: every part of the form, also with a wrong checksum.
    d.run(b"\x10", 3).run(RESET[:5], 3).run(RESET + b"\x16", 3).run(b"\x00" + RESET, 3)
    d.run(hx("11 40 01 00 41 16"), 3).run(hx("10 40 01 00 41 17"), 3)
    d.run(hx("10 40 01 00 99 17"), 3).run(b"\xE5", 3)
    sound = variable(0x73, b"\x01\x02")
    d.run(sound[:-1], 3).run(sound + b"\x16", 3).run(sound[:-1] + b"\x15", 3)
    for at in (0, 1, 2, 3):
        d.run(sound[:at] + bytes([sound[at] ^ 1]) + sound[at + 1:], 3, what=f"octet {at}")
    d.run(hx("68 02 02 68 40 01 41 16"), 3).run(hx("68 00 00 68 00 16"), 3)
    d.run(hx("68 01 01 68 40 40 16"), 3).run(b"\x68" * 261, 3)
    d.run(hx("68 03 03 68 73 01 00 74 16")[:8], 3)
    # 4
    d.run(hx("10 40 01 00 42 16"), 4).run(sound[:-2] + bytes([sound[-2] ^ 1, 0x16]), 4)
    d.run(hx("10 40 02 00 41 16"), 4).run(hx("10 FF 09 09 00 16"), 4)
    # 5, also with a control field that is not offered, also before the reset.
    d.run(fixed(0x40, 2), 5).run(fixed(0x40, 256), 5).run(fixed(0x40, 0), 5)
    d.run(fixed(0x40, 65535), 5).run(fixed(0x47, 2), 5).run(fixed(0x5B, 2), 5)
    # 6: all 256 control fields, in both frames, before the first reset.
    for control in range(256):
        what = f"control {control:02X}"
        if control not in (0x40, 0x60, 0x49, 0x69, 0x5B, 0x7B):
            d.run(fixed(control), 6, what=what)
        if control not in (0x53, 0x73):
            d.run(variable(control, b""), 6, what=what)
            d.run(variable(control, OPEN_1), 6, what=what)
    # 7
    for control in (0x5B, 0x7B):
        d.run(fixed(control), 7)
    for control in (0x53, 0x73):
        d.run(variable(control, OPEN_1), 7).run(variable(control, b""), 7)
    # Status is answered before the first reset and is no reset.
    d.run(STATUS, 0, fixed(0x0B)).run(fixed(0x69), 0, fixed(0x0B)).run(fixed(0x7B), 7)
    d.run(fixed(0x60), 0, ACK).run(fixed(0x7B), 0, NOTHING)
    d.check()

    d = Drive("numbers 8 and 9 and the kept run")
    d.lend(260).gap(9).lend(261).gap(1)
    d.lend(260).run(RESET[:3], 9).image(b"").gap(9).lend(0).gap(9)
    d.lend(261).gap(8).octets(RESET[3:]).gap(8).gap(8)
    d.image(SMALL).gap(0, ACK).gap(1)
    # A run kept under 8 is joined by what follows, and may become too long.
    d.image(SMALL + b"\0").run(RESET, 8).octets(RESET).image(SMALL).gap(3).gap(1)
    d.lend(260).run(b"\x10" * 261, 9).run(b"\x10", 9).run(RESET, 9).lend(300).gap(2).gap(1)
    d.lend(260).run(b"\x10" * 261, 9).lend(261).gap(3)
    # Link, session and count bit are the same behind 8 and 9.
    d.reset().open()
    d.image(b"\1").run(fixed(0x7B), 8).image(SMALL).lend(1)
    d.gap(9).lend(261)
    d.gap(0, NOTHING)
    d.fcb = 1
    d.refuse(message(185, 1, 5, 1, 0), 0x0E)
    d.check()

    d = Drive("the buffer behind the lent part stays").lend(300)
    d.reset().open().check()

    d = Drive("2 to 7 keep link and session").reset().open()
    request = message(103, 0, 5, 1, 0)
    d.clock(label_b(1, 2, 3, 4, 5)).send(request)
    for octets, number in ((b"\x10" * 262, 2), (b"x", 3), (hx("10 7B 01 00 7D 16"), 4),
                           (fixed(0x7B, 2), 5), (fixed(0x7A), 6), (fixed(0x40)[:-1], 3),
                           (fixed(0x40, 7), 5), (variable(0x40, b""), 6)):
        d.run(octets, number)
    d.again(ACK)
    d.collect(message(72, 1, 5, 1, 0, label_b(1, 2, 3, 4, 5)))
    d.refuse(message(185, 1, 5, 1, 0), 0x0E).check()

    d = Drive("the count stays at 65,535")
    d.calls += (b"O\0\1\0G") * 65534
    out = run("drive", d.calls + b"O\0\1\0G" * 3)
    counts = [line.split(" ")[4] for line in out.splitlines()]
    Tally.equal("the count stays at 65,535", counts[-4:], ["65534", "65535", "65535", "65535"])
    Tally.equal("the count grows by one", counts[:65535], [str(i) for i in range(1, 65536)])


# ---- the eleven-bit profile -------------------------------------------------

COLLECT_0, COLLECT_1 = fixed(0x5B), fixed(0x7B)


def eleven_bit_calls():
    """`E` and `P` as calls: what is lent stays, `call` and `cut` in their places."""
    def says(what, calls, wanted):
        Tally.equal(f"drive: {what}", run("drive", calls), wanted)

    aa = "AA" * 300
    lent = b"I" + be(21, 3) + SMALL
    whole = b"P" + be(6, 2) + characters(RESET)
    answered = f"0 6 - - 0 {ACK.hex().upper()}{'AA' * 294}\n"
    says("E alone", b"E", "")
    says("E lends nothing", b"EG", f"8 0 - - 0 {aa}\n")
    says("P on a ten-bit card", lent + b"G" + whole + b"G", f"1 0 - - 0 {aa}\ncall\n")
    says("P on a ten-bit card, the letter alone", b"P", "call\n")
    says("P on an eleven-bit card", lent + b"E" + whole + b"G", answered)
    says("E before the image", b"E" + lent + whole + b"G", answered)
    says("P of no characters", lent + b"EP\0\0G", f"1 0 - - 0 {aa}\n")
    for end in range(len(whole)):
        says(f"P cut at {end}", lent + b"EG" + whole[:end],
             f"1 0 - - 0 {aa}\n" + ("cut\n" if end else ""))
    for bit in (2, 3, 0x10, 0x80, 0x81, 0xFE, 0xFF):
        for place in range(6):
            at = 3 + 2 * place + 1
            wrong = whole[:at] + bytes([bit]) + whole[at + 1:]
            says(f"parity bit {bit:02X}", lent + b"EG" + wrong + b"G", f"1 0 - - 0 {aa}\ncall\n")
            for end in range(at + 1, len(wrong)):
                says(f"parity bit {bit:02X}, cut", lent + b"E" + wrong[:end], "cut\n")
    most = b"P\xFF\xFF" + characters(b"\x10" * 65535)
    says("P of the most characters", lent + b"E" + most + b"G", f"2 0 - - 1 {aa}\n")
    says("P of the most characters, cut", lent + b"E" + most[:-1], "cut\n")
    slow = Slow("drive")
    slow.feed(b"P")
    Tally.equal("P on a ten-bit card: as soon as the letter is read", slow.ends(), ("call\n", 0))
    slow = Slow("drive")
    slow.feed(b"EP\0\2\0\2\0\0")
    Tally.equal("a parity bit 02: as soon as the call is whole", slow.ends(), ("call\n", 0))


def parity_bits():
    """Every octet with both parity bits, alone and in a frame."""
    even = {0x00, 0x03, 0x81, 0xFF, 0x7E, 0x0F, 0x55}
    odd = {0x01, 0x80, 0x10, 0x7F, 0xFE, 0x68, 0x16}
    Tally.equal("octets with an even number of ones", {parity(octet) for octet in even}, {0})
    Tally.equal("octets with an odd number of ones", {parity(octet) for octet in odd}, {1})
    d = Drive("every octet").eleven()
    for octet in range(256):
        d.characters(character(octet, parity(octet))).gap(3, what=f"{octet:02X}")
        d.characters(character(octet, 1 - parity(octet))).gap(10, what=f"{octet:02X}, wrong")
        d.run(bytes([octet]), 3, what=f"{octet:02X} through O")
    d.check()
    d = Drive("every octet in a frame").eleven().reset()
    for octet in range(256):
        user = message(200, 0, 5, 1, 0, bytes([octet]))
        frame = variable(0x73, user)
        d.marked(frame, 13, what=f"{octet:02X}")
        d.characters(characters(frame)).gap(0, ACK, what=f"{octet:02X}")
        d.fcb = 1
        d.collect(with_cause(user, 0x0E), what=f"{octet:02X}")
    d.check()


def wrong_parity():
    """Number 10: what comes before it, what comes behind it, and its effects."""
    sound = variable(0x73, OPEN_1)
    d = Drive("10 before 3 to 7 and an answered frame").eleven()
    for octets, number in ((b"\x10", 3), (RESET[:5], 3), (hx("10 40 01 00 41 17"), 3),
                           (b"\x68" * 261, 3), (hx("10 40 01 00 42 16"), 4),
                           (fixed(0x40, 2), 5), (fixed(0x47), 6), (variable(0x40, b""), 6),
                           (COLLECT_0, 7), (COLLECT_1, 7), (sound, 7)):
        for wrong in ((0,), (len(octets) // 2,), (-1,), range(len(octets))):
            d.marked(octets, *wrong)
        d.characters(characters(octets)).gap(number)
    for octets in (RESET, STATUS):
        for place in range(6):
            d.marked(octets, place)
    d.run(COLLECT_1, 7, what="a marked reset is none")
    d.run(STATUS, 0, fixed(0x0B)).reset().run(COLLECT_1, 0, NOTHING).check()

    d = Drive("2 before 10").eleven()
    for length in (262, 263, 300, 1000):
        for wrong in ((0,), (130,), (260,), (261,), (-1,), range(length)):
            d.marked(b"\x10" * length, *wrong, number=2)
        d.marked(b"\x10" * length, number=2, what="no parity bit wrong")
    for length in (1, 2, 259, 260, 261):
        for wrong in ((0,), (length // 2,), (-1,), range(length)):
            d.marked(b"\x10" * length, *wrong)
        d.marked(b"\x10" * length, number=3, what="no parity bit wrong")
    d.run(RESET, 0, ACK, what="no mark is left").check()

    d = Drive("the longest frame").eleven().reset()
    user = message(200, 3, 9, 7, 9, bytes(range(246)))
    frame = variable(0x73, user)
    for place in range(261):
        d.marked(frame, place)
    d.refuse(user, 0x0E).check()

    d = Drive("9, 8 and 1 before 10, and the kept mark").eleven()
    d.lend(260).characters(characters(RESET, [2])).gap(9).image(b"").gap(9)
    d.lend(261).gap(8).gap(8).image(SMALL).gap(10).gap(1).gap(1)
    d.lend(260).characters(characters(RESET[:3], [0])).gap(9).octets(RESET[3:])
    d.gap(9).lend(300).gap(10).run(RESET, 0, ACK)
    d.image(b"").characters(characters(RESET[:3])).gap(8)
    d.characters(characters(RESET[3:], [2])).image(SMALL).gap(10).run(RESET, 0, ACK)
    d.image(b"").characters(characters(RESET[:3], [1])).gap(8).octets(RESET[3:])
    d.image(SMALL).gap(10).run(RESET, 0, ACK)
    d.lend(260).characters(characters(b"\x10" * 261, [0])).gap(9).lend(261).gap(10)
    d.lend(260).characters(characters(b"\x10" * 261, [0])).gap(9).octets(b"\x10").lend(261)
    d.gap(2).gap(1).run(RESET, 0, ACK).check()

    d = Drive("every number clears the mark that it answers").eleven()
    d.marked(b"\x10" * 262, 0, number=2).run(b"\x10", 3)
    d.marked(b"\x10", 0).run(b"\x10", 3).run(RESET, 0, ACK).check()

    d = Drive("10 keeps link and session").eleven().reset().open()
    request = message(103, 0, 5, 1, 0)
    d.clock(label_b(1, 2, 3, 4, 5)).send(request)
    for octets in (COLLECT_0, COLLECT_1, RESET, sound, variable(0x53, request), b"x"):
        d.marked(octets, 0).marked(octets, -1)
    d.again(ACK)
    d.collect(message(72, 1, 5, 1, 0, label_b(1, 2, 3, 4, 5)))
    d.marked(RESET, 3).again(data(message(72, 1, 5, 1, 0, label_b(1, 2, 3, 4, 5))))
    d.refuse(message(185, 1, 5, 1, 0), 0x0E).check()

    d = Drive("a marked 181 gives no order").eleven().reset().open()
    time = label_b(5, 6, 7, 8, 9, 10, 11)
    request = message(181, 1, 6, 1, 0, time)
    d.marked(variable(0x53 | 0x20 * (d.fcb ^ 1), request), 12)
    d.ask(request, with_cause(request, 7), order="clock", order_octets=time).check()

    out = run("drive", b"I" + be(21, 3) + SMALL + b"E" + b"P\0\1\0\1G" * 65537 + b"O\0\1\0G")
    ends = [(line.split(" ")[0], line.split(" ")[4]) for line in out.splitlines()[65533:]]
    Tally.equal("the count stays at 65,535", ends,
                [("10", "65534"), ("10", "65535"), ("10", "65535"), ("10", "65535"), ("3", "65535")])


def altered_bits():
    """One, two and three altered bits of a sound frame's 54, data and parity; and
    four that make another sound frame."""
    def altered(frame, *bits):
        pairs = bytearray(characters(frame))
        for bit in bits:
            place, of_nine = divmod(bit, 9)
            at, of_octet = (2 * place, of_nine) if of_nine < 8 else (2 * place + 1, 0)
            pairs[at] ^= 1 << of_octet
        return bytes(pairs)

    def wrong(pairs):
        return any(parity(octet) != bit for octet, bit in zip(pairs[::2], pairs[1::2]))

    d = Drive("altered bits").eleven().reset()
    source = random.Random(104)
    bits = range(6 * 9)
    threes = [source.sample(bits, 3) for _ in range(3000)]
    for some in (*((one,) for one in bits), *((one, two) for one in bits for two in range(one)),
                 *threes):
        pairs = altered(COLLECT_1, *some)
        if wrong(pairs):
            d.characters(pairs).gap(10, what=f"bits {some}")
        else:
            # Two in one character: the form for 10 and 16, else the checksum.
            d.characters(pairs).gap(3 if some[0] // 9 in (0, 5) else 4, what=f"bits {some}")
    # 7B becomes 7A and 00 becomes 01, with their parity bits: the address is 257.
    d.characters(altered(COLLECT_1, 9, 17, 27, 35)).gap(5, what="four bits")
    d.run(hx("10 7A 01 01 7C 16"), 5)
    d.collect(None, "and the count bit has not moved").check()


def power_on_again():
    """`E` in the middle: all of the card is gone, what is lent stays."""
    clock = label_b(1, 2, 3, 4, 5)
    request = message(103, 0, 5, 1, 0)
    for before in ("ten", "eleven"):
        d = Drive(f"E after {before} bits").clock(clock)
        if before == "eleven":
            d.eleven()
        d.run(b"x", 3).reset().open().send(request).run(b"x", 3).lend(300)
        d.octets(COLLECT_0).eleven().gap(1)
        d.run(COLLECT_0, 7).run(COLLECT_1, 7).run(variable(0x73, OPEN_1), 7)
        d.run(STATUS, 0, fixed(0x0B)).reset().collect(None)
        d.refuse(request, 0x0E)
        d.open().ask(request, message(72, 1, 5, 1, 0, clock)).check()

    d = Drive("E empties the collector and clears the mark").eleven()
    d.characters(characters(b"\x10", [0])).eleven().gap(1).run(RESET, 0, ACK)
    d.characters(characters(b"\x10" * 262)).eleven().eleven().run(RESET, 0, ACK)
    d.octets(RESET[:3]).eleven().octets(RESET[3:]).gap(3).check()

    d = Drive("E leaves what is lent").lend(260).eleven().gap(9).lend(261).gap(1)
    d.image(b"").eleven().gap(8).check()


def eleven_bit_conversation():
    """The same conversation through `O` and `P`; spoiled frames before repeats."""
    for through in ("O", "P"):
        d = Drive(f"through {through}", FULL).clock(CLOCK).eleven()
        d.through = through
        d.reset().open()
        for kind in ROWS:
            ask_accepted(d, kind)
            if kind == 187:
                d.open()
        d.reset().open().send(message(100, 0, 5, 1, 0))
        given = message(71, 1, 5, 1, 0, hx("12 34 BC 9A 78 56"))
        d.marked(fixed(0x5B | 0x20 * (d.fcb ^ 1)), 1).again(ACK)
        d.collect(given).marked(fixed(0x5B | 0x20 * d.fcb), 5)
        d.marked(fixed(0x5B | 0x20 * (d.fcb ^ 1)), 0, 1).again(data(given))
        d.marked(RESET, 4).again(data(given)).collect(None).check()


# ---- the count bit ----------------------------------------------------------

def count_bit():
    d = Drive("FCB 0 straight after a reset").reset()
    d.run(fixed(0x5B), 0, ACK).run(variable(0x53, OPEN_1), 0, ACK)
    d.run(variable(0x53, b""), 0, ACK)
    d.collect(None).check()

    d = Drive("one count bit for 3 and 11").reset()
    d.send(OPEN_1)
    d.run(fixed(0x7B), 0, ACK, what="collection with the same bit")
    d.collect(with_cause(OPEN_1, 7))
    repeated = data(with_cause(OPEN_1, 7))
    d.again(repeated).run(variable(0x53, OPEN_1), 0, repeated)
    d.run(variable(0x53, b"\1"), 0, repeated, what="whatever the frame holds")
    d.run(STATUS, 0, fixed(0x0B)).again(repeated, "status changes nothing")
    d.collect(None).again(NOTHING).again(NOTHING)
    d.check()

    d = Drive("NACK takes the count bit and is remembered").reset()
    d.send(b"", NACK).again(NACK)
    d.send(b"\1\2\3\4\5", NACK).run(variable(0x53, OPEN_1), 0, NACK)
    d.send(OPEN_1).send(OPEN_1, NACK, what="a reply waits")
    d.send(b"", NACK)
    d.collect(with_cause(OPEN_1, 7)).send(message(187, 0, 6, 1, 0))
    d.collect(message(187, 0, 7, 1, 0)).check()

    d = Drive("a reset drops what waits and closes the session").reset().open()
    d.send(message(100, 0, 5, 1, 0)).reset().collect(None)
    d.refuse(message(100, 0, 5, 1, 0), 0x0E)
    d.open().reset().reset()
    d.refuse(message(100, 0, 5, 1, 0), 0x0E)
    d.check()

    d = Drive("a reset puts the last FCB to 0").reset().collect(None)
    d.reset().run(fixed(0x5B), 0, ACK).run(fixed(0x7B), 0, NOTHING).check()

    d = Drive("181 repeated sets the clock once").reset().open()
    time = label_b(5, 6, 7, 8, 9, 10, 11)
    request = message(181, 1, 6, 1, 0, time)
    d.send(request, order="clock", order_octets=time)
    d.run(variable(0x53 | 0x20 * d.fcb, request), 0, ACK)
    d.collect(with_cause(request, 7)).run(variable(0x53 | 0x20 * d.fcb, request), 0,
                                          data(with_cause(request, 7)))
    d.check()

    # Two link addresses: replies carry the lent one's, repeats the old octets.
    other = image(meter(link=0x0203), point(1, 0x12345678))
    d = Drive("another link address").reset().open()
    d.send(message(100, 0, 5, 1, 0)).image(other)
    d.run(fixed(0x7B), 5)
    d.link = 0x0203
    d.again(ACK, "the stored octets")
    d.collect(message(71, 1, 5, 1, 0, bytes(6))).run(STATUS, 5)
    d.run(fixed(0x49, 0x0203), 0, hx("10 0B 03 02 10 16")).collect(None).check()
    d = Drive("link address 0", image(meter(link=0), point(1, 2)))
    d.link = 0
    d.reset().run(fixed(0x40, 1), 5).check()
    d = Drive("link and point differ", image(meter(link=9), point(700, 3)))
    d.link = 9
    d.reset().open(700, 3)
    d.refuse(message(100, 0, 5, 9, 0), 0x10)
    d.ask(message(100, 0, 5, 700, 0), message(71, 1, 5, 700, 0, bytes(6))).check()


# ---- messages ---------------------------------------------------------------

def objects(value, quality):
    return b"".join(bytes([i]) + value + bytes([quality]) for i in range(1, 7))


def accepted_replies():
    first = label_a(1, 1, 1, 0, 15)
    return {
        100: [message(71, 1, 5, 1, 0, hx("12 34 BC 9A 78 56"))],
        102: [with_cause(request(102), 7),
              message(1, 1, 5, 1, 52, hx("01 03 00 00") + first),
              with_cause(request(102), 10)],
        103: [message(72, 1, 5, 1, 0, CLOCK)],
        122: [with_cause(request(122), 7),
              message(8, 6, 5, 1, 21, objects(hx("03 00 00 00"), 4) + first),
              with_cause(request(122), 10)],
        123: [with_cause(request(123), 7),
              message(11, 6, 5, 1, 11, objects(hx("01 00 00 00"), 2) + first),
              with_cause(request(123), 10)],
        181: [with_cause(request(181), 7)],
        183: [with_cause(request(183), 7)],
        185: [message(131, 1, 5, 1, 0, hx("00 02 19 03 01 00 03 1C 0A 01"))],
        186: [with_cause(request(186), 7)],
        187: [with_cause(request(187), 7)],
    }


def ask_accepted(d, kind):
    orders = {181: "clock", 186: "dates"}
    order = orders.get(kind, "-")
    octets = ROWS[kind][3] if kind in orders else b""
    d.ask(request(kind), *accepted_replies()[kind], order=order, order_octets=octets,
          what=f"type {kind} accepted")


def messages_accepted():
    for kind in ROWS:
        d = Drive(f"type {kind}", FULL).clock(CLOCK).reset().open()
        ask_accepted(d, kind)
        if kind == 187:
            d.refuse(request(103), 0x0E)
        else:
            ask_accepted(d, 103)
        d.check()


def messages_refused():
    """Each rule, for each type, next to an accepted request."""
    for kind in ROWS:
        row = ROWS[kind]
        d = Drive(f"type {kind} refused", FULL).clock(CLOCK).reset()
        if kind != 183:
            d.refuse(request(kind), 0x0E, "no session")
            d.refuse(request(kind, 999), 0x0E, "no session comes before the point")
        d.open()
        # T and P/N come before all else; T is kept, P/N is 0.
        d.refuse(request(kind, cause=row[1] | 0x80), 0x8E, "T")
        d.refuse(request(kind, cause=row[1] | 0x40), 0x0E, "P/N")
        d.refuse(request(kind, cause=row[1] | 0xC0), 0x8E, "T and P/N")
        d.refuse(request(kind, 999, cause=row[1] | 0x80), 0x8E, "T before the point")
        d.refuse(request(kind, 999), 0x10, "point not in the image")
        d.refuse(request(kind, 0), 0x10, "point 0")
        d.refuse(request(kind, 0x0100), 0x10, "the point's octets the other way round")
        d.refuse(request(kind, 999, n=9), 0x10, "the point before the structure")
        if kind != 183:
            d.refuse(request(kind, 2), 0x0E, "session of another point")
            d.refuse(request(kind, 2, rec=77), 0x0E, "which comes before the record")
        d.refuse(request(kind, n=1 - row[0]), 0x0E, "N")
        d.refuse(request(kind, n=row[0] + 2), 0x0E, "N")
        d.refuse(request(kind, n=row[0] | 0x80), 0x0E, "SQ")
        d.refuse(request(kind, cause=11 - row[1]), 0x0E, "cause")
        d.refuse(request(kind, cause=0), 0x0E, "cause 0")
        d.refuse(request(kind, cause=row[1] | 0x20), 0x0E, "all six bits of the cause")
        d.refuse(request(kind, body=row[3] + b"\0"), 0x0E, "an octet too many")
        d.refuse(request(kind, body=row[3] + bytes(246 - len(row[3]))), 0x0E, "252 octets")
        if row[3]:
            d.refuse(request(kind, body=row[3][:-1]), 0x0E, "an octet too few")
            d.refuse(request(kind, body=b""), 0x0E, "only the header")
        d.refuse(request(kind, n=row[0] + 2, rec=77), 0x0E, "the structure before the record")
        good = {102: (52, 53, 54, 55, 128, 129), 122: (21,), 123: (11,)}.get(kind, (0,))
        for rec in (0, 1, 11, 12, 21, 51, 52, 55, 56, 103, 127, 128, 129, 130, 255):
            if rec not in good:
                d.refuse(request(kind, rec=rec), 0x0F, f"record {rec}")
        ask_accepted(d, kind)
        d.check()

    d = Drive("types not in the table", FULL).reset().open()
    for kind in range(256):
        if kind not in ROWS:
            d.refuse(message(kind, 1, 6, 1, 0), 0x0E)
            d.refuse(message(kind, 0, 5, 999, 77), 0x0E, "the type before the point")
    d.check()


def passwords():
    d = Drive("183", FULL).clock(CLOCK).reset()

    def wrong(address, octets):
        d.refuse(message(183, 1, 6, address, 0, octets), 0x47, "wrong password")

    # A wrong one closes the session, whosever it is; nothing is open before.
    wrong(1, hx("12 34 56 78"))
    d.refuse(request(103), 0x0E)
    d.open()
    ask_accepted(d, 103)
    wrong(1, hx("78 56 34 13"))
    d.refuse(request(103), 0x0E)
    d.open()
    wrong(2, hx("01 00 00 00"))
    d.refuse(request(103), 0x0E)
    # Refused by 14, 15 or 16 it changes none.
    d.open()
    d.refuse(request(183, cause=5), 0x0E).refuse(request(183, cause=0x86), 0x8E)
    d.refuse(request(183, rec=1), 0x0F).refuse(request(183, 999), 0x10)
    d.refuse(request(183, body=b"\0\0\0"), 0x0E)
    ask_accepted(d, 103)
    # Password 0 and all 32 bits; opening replaces.
    d.open(2, 0)
    d.refuse(request(103), 0x0E, "session of another point")
    d.ask(request(103, 2), message(72, 1, 5, 2, 0, CLOCK))
    d.open(0x1234, 0xFFFFFFFF)
    d.refuse(request(103, 2), 0x0E)
    d.ask(request(103, 0x1234), message(72, 1, 5, 0x1234, 0, CLOCK))
    d.open(0x1234, 0xFFFFFFFF)
    wrong(0x1234, hx("FF FF FF 7F"))
    d.check()

    # Eight points, each with its own password; a ninth is not there, and one
    # that has left with an exchanged image is not there either.
    def eight(count):
        return image(meter(), *[point(10 * i, i) for i in range(1, count + 1)])

    d = Drive("eight points", eight(8)).clock(CLOCK).reset()
    for i in range(1, 9):
        d.open(10 * i, i)
        d.ask(request(103, 10 * i), message(72, 1, 5, 10 * i, 0, CLOCK))
        d.refuse(request(103, 10 * i + 1), 0x10)
    d.refuse(message(183, 1, 6, 90, 0, le(9, 4)), 0x10)
    d.image(eight(7)).refuse(request(103, 80), 0x10)
    d.refuse(message(183, 1, 6, 80, 0, le(8, 4)), 0x10)
    d.image(eight(8)).ask(request(103, 80), message(72, 1, 5, 80, 0, CLOCK))
    d.check()

    # The session opens and closes with the ACK; collections need no session.
    d = Drive("187", FULL).clock(CLOCK).reset().open()
    d.refuse(request(187, 2), 0x0E)
    ask_accepted(d, 103)
    ask_accepted(d, 187)
    d.refuse(request(187), 0x0E).refuse(request(100), 0x0E)
    d.open()
    ask_accepted(d, 100)
    d.check()


def clock_and_dates():
    d = Drive("the clock is taken when 103 is accepted", FULL).clock(CLOCK).reset().open()
    d.send(request(103)).clock(bytes(7)).collect(message(72, 1, 5, 1, 0, CLOCK))
    d.refuse(request(103), 0x0D)
    d.clock(CLOCK)
    d.refuse(request(103, rec=1), 0x0F)
    ask_accepted(d, 103)
    d.check()

    d = Drive("without switch dates").reset().open()
    bad = bytes(10)
    d.refuse(request(185), 0x0E).refuse(request(186), 0x0E)
    d.refuse(request(186, body=bad), 0x0E, "14 before the label")
    d.refuse(request(185, rec=1), 0x0F, "15 before no dates")
    d.refuse(request(186, rec=1), 0x0F)
    d.image(FULL)
    d.refuse(request(186, body=bad), 0x47)
    d.refuse(request(186, body=JAN + bytes(5)), 0x47)
    d.refuse(request(186, body=bytes(5) + JAN), 0x47)
    ask_accepted(d, 186)
    later = label_a(2, 10, 27, 3, 0) + label_a(2, 3, 31, 2, 0)
    d.ask(request(186, body=later), with_cause(request(186, body=later), 7),
          order="dates", order_octets=later, what="the two dates have no order")
    ask_accepted(d, 185)
    # A waiting 131 when the image is exchanged.
    d.send(request(185)).image(SMALL).collect(message(185, 1, 0x0E, 1, 0)).collect(None)
    d.image(FULL).send(request(185)).image(image(
        meter(), point(1, 1), dates(label_a(9, 9, 9, 9, 9), label_a(8, 8, 8, 8, 8))))
    d.collect(message(131, 1, 5, 1, 0, hx("09 09 09 09 09 08 08 08 08 08"))).collect(None)
    # Dates are given octet for octet, SU and weekday too.
    d.image(image(meter(), point(1, 1), dates(hx("00 82 F9 03 01"), hx("00 83 FC 0A 01"))))
    d.ask(request(185), message(131, 1, 5, 1, 0, hx("00 82 F9 03 01 00 83 FC 0A 01")))
    # Accepted without the point too: the request was accepted before.
    d.image(FULL).send(request(185)).image(image(meter(), point(7, 1)))
    d.collect(message(185, 1, 0x0E, 1, 0)).collect(None)
    d.image(FULL).send(request(100)).image(image(meter(1, 1, 2, 3), point(7, 1)))
    d.collect(message(71, 1, 5, 1, 0, hx("01 02 03 00 00 00"))).collect(None)
    # The session stays while its point is away.
    d.refuse(request(100), 0x10)
    d.refuse(message(100, 0, 5, 7, 0), 0x0E)
    d.image(FULL)
    ask_accepted(d, 100)
    d.check()


def totals():
    values = [(-2147483648, 0x80), (2147483647, 0x7F), (-1, 0), (0, 255),
              (0x01020304, 1), (-2, 2)]
    wire = (hx("01 00 00 00 80 80") + hx("02 FF FF FF 7F 7F") + hx("03 FF FF FF FF 00")
            + hx("04 00 00 00 00 FF") + hx("05 04 03 02 01 01") + hx("06 FE FF FF FF 02"))
    labels_ = [label_a(1, 1, 1, 0, 15), label_a(1, 1, 1, 0, 30), label_a(1, 1, 1, 23, 45),
               label_a(1, 1, 2, 0, 0), label_a(1, 1, 2, 0, 15)]
    picture = image(meter(), point(1, 0x12345678), point(2, 2),
                    *[reading(1, 11, one, values) for one in labels_],
                    *[reading(1, 21, one) for one in labels_[:1]],
                    *[reading(2, 11, one) for one in labels_])
    d = Drive("123", picture).reset().open()

    def ask(first, last, *chosen):
        user = request(123, body=b"\1\6" + first + last)
        d.ask(user, with_cause(user, 7),
              *[message(11, 6, 5, 1, 11, wire + one) for one in chosen],
              with_cause(user, 10), what=f"{first.hex()} to {last.hex()}")

    def refuse(octet, body, kind=123):
        d.refuse(request(kind, body=body), octet)

    # "a day runs from 00:15 to 00:00 next day, both in"
    ask(labels_[0], labels_[3], *labels_[:4])
    ask(labels_[0], labels_[0], labels_[0])
    ask(label_a(1, 1, 1, 0, 16), labels_[1], labels_[1])
    ask(label_a(0, 1, 1, 0, 0), label_a(99, 12, 31, 23, 59), *labels_)
    # The weekday takes no part in the comparison, and is mirrored; SU takes an hour.
    ask(hx("1E 00 E1 01 01"), hx("1E 00 01 01 01"), labels_[1])
    ask(hx("1E 81 E1 01 01"), hx("1E 00 01 01 01"), labels_[1])
    refuse(0x12, b"\1\6" + labels_[1] + labels_[0])
    refuse(0x12, b"\1\6" + label_a(1, 1, 1, 0, 16) + label_a(1, 1, 1, 0, 29))
    refuse(0x12, b"\1\6" + label_a(1, 1, 2, 0, 16) + label_a(99, 1, 1, 0, 0))
    refuse(0x12, b"\1\6" + bytes(5) + labels_[0])
    refuse(0x12, b"\1\6" + labels_[0] + hx("0F 00 21 01 81"))
    refuse(0x12, b"\1\6" + labels_[0] + hx("8F 00 21 01 01"))
    refuse(0x12, b"\1\6" + labels_[1] + labels_[1], 122)
    # Compared by year first: 00:15 on 2 January 2000 is before 2001.
    refuse(0x12, b"\1\6" + labels_[0] + label_a(0, 12, 31, 23, 59))
    refuse(0x12, b"\1\6" + label_a(1, 2, 1, 0, 0) + label_a(1, 1, 31, 23, 59))
    refuse(0x12, b"\1\6" + label_a(1, 1, 2, 0, 0) + label_a(1, 1, 1, 23, 59))
    refuse(0x12, b"\1\6" + label_a(1, 1, 1, 1, 0) + label_a(1, 1, 1, 0, 59))
    d.check()


# ---- readings by object range (document 02, #101) ---------------------------

# Two readings whose values and qualities all differ; record 21 has them the
# other way round.
MORNING = [(-2147483648, 0x80), (2147483647, 0x7F), (-1, 0), (0, 255), (0x01020304, 1), (-2, 2)]
EVENING = [(0x11, 0xA1), (0x1200, 0xA2), (0x130000, 0xA3), (0x14000000, 0xA4), (-21, 0xA5),
           (0x16171819, 0xA6)]
MIDNIGHT, NOON, LATE = (label_a(1, 1, 1, hour, 0) for hour in (0, 12, 18))


def two_readings(first, second, values, others, more=()):
    """An image with these two labels and, behind them, `more` readings of each record."""
    return image(meter(), point(1, 0x12345678),
                 reading(1, 11, first, values), reading(1, 11, second, others),
                 *[reading(1, 11, *one) for one in more],
                 reading(1, 21, first, others), reading(1, 21, second, values),
                 *[reading(1, 21, *one) for one in more])


# First and last, N, and what a reading of MORNING and one of EVENING carry
# between header and label.
CARRIED = [
    ("01 02", 2, "01 00000080 80  02 FFFFFF7F 7F", "01 11000000 A1  02 00120000 A2"),
    ("02 05", 4, "02 FFFFFF7F 7F  03 FFFFFFFF 00  04 00000000 FF  05 04030201 01",
     "02 00120000 A2  03 00001300 A3  04 00000014 A4  05 EBFFFFFF A5"),
    ("03 03", 1, "03 FFFFFFFF 00", "03 00001300 A3"),
    ("06 06", 1, "06 FEFFFFFF 02", "06 19181716 A6"),
    ("01 06", 6, "01 00000080 80  02 FFFFFF7F 7F  03 FFFFFFFF 00  04 00000000 FF  05 04030201 01"
     " 06 FEFFFFFF 02",
     "01 11000000 A1  02 00120000 A2  03 00001300 A3  04 00000014 A4  05 EBFFFFFF A5"
     " 06 19181716 A6"),
]

# "17 now exactly when first is 0, last is over 6 or first is after last"
NOT_CARRIED = ["00 06", "00 00", "00 07", "01 07", "06 07", "07 07", "01 FF", "FF FF", "03 02",
               "06 05", "01 00", "07 06", "FF 01", "81 86"]

WRONG_SPANS = {"no label": bytes(10), "last no label": JAN + bytes(5), "falling": LATE + JAN,
               "no reading": NOON + NOON}

# Request, record address, reply, and the columns of CARRIED in image order.
BY_RANGE = ((122, 21, 8, (3, 2)), (123, 11, 11, (2, 3)))


def object_ranges():
    for kind, rec, reply, (first, second) in BY_RANGE:
        d = Drive(f"{kind} by range", two_readings(JAN, LATE, MORNING, EVENING)).reset().open()
        for row in CARRIED:
            ask = request(kind, body=hx(row[0]) + SPAN)
            d.send(ask, what=row[0])
            for user in (with_cause(ask, 7),
                         message(reply, row[1], 5, 1, rec, hx(row[first]) + JAN),
                         message(reply, row[1], 5, 1, rec, hx(row[second]) + LATE),
                         with_cause(ask, 10)):
                d.collect(user, row[0]).again(data(user), f"{row[0]} repeated")
            d.collect(None)
            # "its place is unchanged": a right range leaves the labels to be judged ...
            for what, span in WRONG_SPANS.items():
                d.refuse(request(kind, body=hx(row[0]) + span), 0x12, f"{row[0]}, {what}")
        # ... and a wrong one does not, but comes behind the record address.
        for objects_ in NOT_CARRIED:
            for what, span in {"right labels": SPAN, **WRONG_SPANS}.items():
                d.refuse(request(kind, body=hx(objects_) + span), 0x11, f"{objects_}, {what}")
            d.refuse(request(kind, rec=12, body=hx(objects_) + SPAN), 0x0F, f"{objects_}, record")
        d.check()


def ranges_exchanged():
    """The range is that of the request that waits, whatever image is lent with a
    collection and whatever is asked in between."""
    for kind, rec, reply, (first, second) in BY_RANGE:
        row = ("04 05", 2, "04 00000000 FF  05 04030201 01", "04 00000014 A4  05 EBFFFFFF A5")
        ask = request(kind, body=hx(row[0]) + SPAN)

        def give(column, label):
            return message(reply, row[1], 5, 1, rec, hx(row[column]) + label)

        d = Drive(f"{kind} by range, exchanged", two_readings(JAN, LATE, MORNING, EVENING))
        d.reset().open().send(ask).collect(with_cause(ask, 7)).collect(give(first, JAN))
        d.send(request(kind, body=hx("01 01") + SPAN), NACK)
        # One reading has been given, so the second of the other image follows.
        d.image(two_readings(MIDNIGHT, NOON, EVENING, MORNING)).collect(give(first, NOON))
        d.run(variable(0x53 | 0x20 * d.fcb, request(kind, body=hx("06 06") + SPAN)), 0,
              data(give(first, NOON)), what="a repeat with another range")
        d.image(two_readings(MIDNIGHT, NOON, MORNING, EVENING, more=[(LATE, EVENING)]))
        d.collect(give(3, LATE)).collect(with_cause(ask, 10)).collect(None)
        d.check()


# ---- events -----------------------------------------------------------------

def many_events(count, address=1):
    return [event(address, 53, i % 256, 255 - i % 256, label_b(1, 1, 1, 0, i // 60, i % 60, i))
            for i in range(count)]


def wire_events(first, past):
    return b"".join(bytes([i % 256, 255 - i % 256])
                    + label_b(1, 1, 1, 0, i // 60, i % 60, i) for i in range(first, past))


def diaries():
    ask = request(102, rec=53)
    for count, split in ((1, [1]), (26, [26]), (27, [27]), (28, [27, 1]), (54, [27, 27]),
                         (55, [27, 27, 1])):
        picture = image(meter(), point(1, 0x12345678), *many_events(count))
        d = Drive(f"{count} events", picture).reset().open()
        replies, done = [with_cause(ask, 7)], 0
        for part in split:
            replies.append(message(1, part, 5, 1, 53, wire_events(done, done + part)))
            done += part
        d.ask(ask, *replies, with_cause(ask, 10))
        d.check()

    # Equal labels stay in image order; events are compared by their minute.
    late = label_b(1, 1, 1, 0, 15, 59, 999)
    picture = image(
        meter(), point(1, 0x12345678), point(3, 1),
        event(1, 52, 9, 9, label_b(1, 1, 1, 0, 14, 59, 999)),
        event(1, 52, 2, 1, label_b(1, 1, 1, 0, 15)), event(1, 52, 1, 1, label_b(1, 1, 1, 0, 15)),
        event(1, 52, 3, 1, late), event(1, 52, 9, 9, label_b(1, 1, 1, 0, 16)),
        event(1, 129, 9, 9, label_b(1, 1, 1, 0, 15)), event(3, 52, 9, 9, late))
    ask = request(102, body=JAN + JAN)
    d = Drive("one minute of events", picture).reset().open()
    inside = (hx("02 01") + label_b(1, 1, 1, 0, 15) + hx("01 01") + label_b(1, 1, 1, 0, 15)
              + hx("03 01") + late)
    d.ask(ask, with_cause(ask, 7), message(1, 3, 5, 1, 52, inside), with_cause(ask, 10))
    d.refuse(request(102, rec=128, body=JAN + JAN), 0x0D)
    d.refuse(request(102, body=label_a(1, 1, 1, 0, 17) + label_a(2, 1, 1, 0, 0)), 0x0D)
    d.refuse(request(102, body=label_a(1, 1, 1, 0, 16) + JAN), 0x12)
    d.refuse(request(102, body=bytes(5) + JAN), 0x12)
    d.refuse(request(102, body=JAN + bytes(5)), 0x12)
    d.refuse(request(102, body=label_a(0, 1, 1, 0, 0) + label_a(0, 1, 1, 0, 0)), 0x0D)
    d.check()


# ---- labels in standard time (document 02, #102) ----------------------------

def quarters(day, hours):
    """Labels of the four quarters of each (hour, SU), on the day of these three octets."""
    return [bytes([minute, hour | su << 7]) + day
            for hour, su in hours for minute in (0, 15, 30, 45)]


# 28 October and 25 March 2001, both Sundays (weekday 7).
AUTUMN_DAY, SPRING_DAY = hx("FC 0A 01"), hx("F9 03 01")
# "In October the hour from 02:00 comes twice, first with SU 1, then SU 0"
AUTUMN = quarters(AUTUMN_DAY, [(1, 1), (2, 1), (2, 0), (3, 0)])
# In March it is left out: 01:45 SU 0 is followed by 03:00 SU 1, 02:00 in standard time.
SPRING = quarters(SPRING_DAY, [(0, 0), (1, 0), (3, 1), (4, 1)])

# The first label lies before the second.
RISING = [
    ("0F 82 FC 0A 01", "0F 02 FC 0A 01"),  # the request's own octets: 02:15 SU 1, 02:15 SU 0
    ("3B 82 FC 0A 01", "00 02 FC 0A 01"),  # 02:59 SU 1, 02:00 SU 0
    ("0E 02 FC 0A 01", "0F 83 FC 0A 01"),  # 02:14 SU 0, 03:15 SU 1
    ("0F 83 FC 0A 01", "10 02 FC 0A 01"),  # 03:15 SU 1, 02:16 SU 0
    ("3B 01 F9 03 01", "00 83 F9 03 01"),  # 01:59 SU 0, 03:00 SU 1 in spring
    ("1D 17 01 06 05", "1E 80 02 06 05"),  # midnight: 00:30 SU 1 is 23:30 the day before
    ("1E 80 02 06 05", "1F 17 01 06 05"),
    ("1D 17 1E 06 05", "1E 80 01 07 05"),  # the start of a month
    ("1E 80 01 07 05", "1F 17 1E 06 05"),
    ("1D 17 1F 0C 05", "1E 80 01 01 06"),  # of a year
    ("1E 80 01 01 06", "1F 17 1F 0C 05"),
    ("1D 17 1C 02 04", "1E 80 1D 02 04"),  # of 29 February
    ("1E 80 1D 02 04", "1F 17 1C 02 04"),
    ("1D 17 1D 02 04", "1E 80 01 03 04"),  # of 1 March behind it
    ("1E 80 01 03 04", "1F 17 1D 02 04"),
    ("1D 17 1C 02 05", "1E 80 01 03 05"),  # of 1 March in another year
    ("1E 80 01 03 05", "1F 17 1C 02 05"),
    ("00 80 01 01 00", "0F 80 01 01 00"),  # the first hour of 2000, all of it before
    ("0F 80 01 01 00", "00 00 01 01 00"),  # 00:00 SU 0
    ("3B 80 01 01 00", "00 00 01 01 00"),
    ("3B 80 01 01 00", "00 81 01 01 00"),
    ("3B 97 1F 0C 63", "00 17 1F 0C 63"),  # the last hour of 2099
    ("00 80 01 01 00", "3B 17 1F 0C 63"),  # the first label of all and the last
]

# The two are one instant.
SAME = [
    ("0F 02 FC 0A 01", "0F 83 FC 0A 01"),  # the request's own: 02:15 SU 0, 03:15 SU 1
    ("00 02 F9 03 01", "00 83 F9 03 01"),
    ("1E 17 01 06 05", "1E 80 02 06 05"),
    ("1E 17 1E 06 05", "1E 80 01 07 05"),
    ("1E 17 1F 0C 05", "1E 80 01 01 06"),
    ("1E 17 1C 02 04", "1E 80 1D 02 04"),
    ("1E 17 1D 02 04", "1E 80 01 03 04"),
    ("1E 17 1C 02 05", "1E 80 01 03 05"),
    ("00 00 01 01 00", "00 81 01 01 00"),
    ("3B 16 1F 0C 63", "3B 97 1F 0C 63"),
]

# Seconds and milliseconds that stand in front of a label b.
AT_0, AT_1_MS, AT_LAST = hx("00 00"), hx("01 00"), hx("E7 EF")


def readings_image(labels_, rec=11):
    return image(meter(), point(1, 0x12345678), *[reading(1, rec, one) for one in labels_])


def events_image(labels_, rec=52):
    return image(meter(), point(1, 0x12345678), *[event(1, rec, 7, 8, one) for one in labels_])


def standard_time_in_images():
    """8 uses the new comparison: readings strictly rising, events with equals allowed."""
    d = Drive("images in standard time", None)

    def judged(what, octets, number):
        d.image(octets).gap(number, what=what)

    for name, day in (("autumn", AUTUMN), ("spring", SPRING)):
        judged(name, readings_image(day), 1)
        judged(name, events_image([AT_0 + one for one in day]), 1)
        for i in range(len(day) - 1):
            swapped = day[:i] + [day[i + 1], day[i]] + day[i + 2:]
            judged(f"{name}, {i} swapped", readings_image(swapped), 8)
            judged(f"{name}, {i} swapped", events_image([AT_0 + one for one in swapped]), 8)
    winter_first = AUTUMN[:4] + AUTUMN[8:12] + AUTUMN[4:8] + AUTUMN[12:]
    judged("SU 0 before SU 1", readings_image(winter_first), 8)
    judged("SU 0 before SU 1", events_image([AT_0 + one for one in winter_first]), 8)

    for before, behind in RISING:
        what, one, other = f"{before}, {behind}", hx(before), hx(behind)
        judged(what, readings_image([one, other]), 1)
        judged(what, readings_image([other, one]), 8)
        # An event's second and millisecond come behind its minute.
        for front, other_front in ((AT_0, AT_0), (AT_LAST, AT_0), (AT_0, AT_LAST)):
            judged(what, events_image([front + one, other_front + other]), 1)
            judged(what, events_image([other_front + other, front + one]), 8)

    for pair in SAME:
        for one, other in (map(hx, pair), map(hx, reversed(pair))):
            what = f"{one.hex(' ')}, {other.hex(' ')}"
            judged(what, readings_image([one, other]), 8)
            judged(what, events_image([AT_0 + one, AT_0 + other]), 1)
            judged(what, events_image([AT_LAST + one, AT_LAST + other]), 1)
            judged(what, events_image([AT_0 + one, AT_1_MS + other]), 1)
            judged(what, events_image([AT_1_MS + one, AT_0 + other]), 8)
    # Point and record come before the label, also one before the start of 2000.
    early, start = map(hx, ("0F 80 01 01 00", "00 00 01 01 00"))
    both = (meter(), point(1, 2))
    judged("records first", image(*both, reading(1, 11, start), reading(1, 21, early)), 1)
    judged("records first", image(*both, reading(1, 21, early), reading(1, 11, start)), 8)
    judged("records first", image(*both, event(1, 52, 0, 0, AT_0 + start),
                                  event(1, 53, 0, 0, AT_0 + early)), 1)
    d.check()


class Asking:
    """Ranges asked of one record: whole labels must come back octet for octet."""

    def __init__(self, kind, labels_):
        self.kind = kind
        self.rec = {102: 52, 122: 21, 123: 11}[kind]
        octets = (events_image([AT_LAST + one for one in labels_]) if kind == 102
                  else readings_image(labels_, self.rec))
        self.drive = Drive(f"{kind} in standard time", octets).reset().open()

    def request(self, first, last):
        return request(self.kind, body=(b"" if self.kind == 102 else b"\1\6") + first + last)

    def data(self, chosen):
        if self.kind == 102:
            events = b"".join(hx("07 08") + AT_LAST + one for one in chosen)
            return [message(1, len(chosen), 5, 1, 52, events)]
        return [message({122: 8, 123: 11}[self.kind], 6, 5, 1, self.rec, objects(bytes(4), 0) + one)
                for one in chosen]

    def gives(self, first, last, chosen):
        ask = self.request(first, last)
        self.drive.ask(ask, with_cause(ask, 7), *self.data(chosen), with_cause(ask, 10),
                       what=f"{first.hex(' ')} to {last.hex(' ')}")

    def after(self, first, last):
        """First after last: 18 for all three."""
        self.drive.refuse(self.request(first, last), 0x12)

    def none(self, first, last):
        """Nothing chosen: 18 for readings, 13 for events."""
        self.drive.refuse(self.request(first, last), 0x0D if self.kind == 102 else 0x12)


def autumn(hour, minute, su):
    return bytes([minute, hour | su << 7]) + AUTUMN_DAY


def spring(hour, minute, su):
    return bytes([minute, hour | su << 7]) + SPRING_DAY


def autumn_ranges(kind):
    asking = Asking(kind, AUTUMN)
    asking.gives(autumn(1, 0, 1), autumn(3, 45, 0), AUTUMN)
    asking.gives(autumn(2, 0, 1), autumn(2, 45, 0), AUTUMN[4:12])
    asking.gives(autumn(2, 0, 1), autumn(2, 45, 1), AUTUMN[4:8])
    asking.gives(autumn(2, 0, 0), autumn(2, 45, 0), AUTUMN[8:12])
    asking.gives(autumn(2, 45, 1), autumn(2, 15, 0), AUTUMN[7:10])
    asking.gives(autumn(2, 15, 1), autumn(2, 15, 0), AUTUMN[5:10])
    # The same instants under other labels.
    asking.gives(autumn(3, 0, 1), autumn(3, 45, 1), AUTUMN[8:12])
    asking.gives(autumn(1, 0, 0), autumn(1, 45, 0), AUTUMN[4:8])
    asking.gives(autumn(2, 15, 0), autumn(3, 15, 1), AUTUMN[9:10])
    asking.gives(autumn(3, 15, 1), autumn(2, 15, 0), AUTUMN[9:10])
    asking.gives(autumn(0, 0, 0), autumn(0, 59, 0), AUTUMN[:4])
    # Weekday 0 instead of 7 is the same label.
    asking.gives(hx("0F 82 1C 0A 01"), hx("0F 02 1C 0A 01"), AUTUMN[5:10])
    asking.after(autumn(2, 15, 0), autumn(2, 45, 1))
    asking.after(autumn(2, 15, 0), autumn(2, 15, 1))
    asking.after(autumn(2, 0, 0), autumn(2, 59, 1))
    asking.after(autumn(2, 16, 0), autumn(3, 15, 1))
    asking.after(autumn(3, 15, 1), autumn(2, 14, 0))
    asking.none(autumn(2, 46, 1), autumn(2, 59, 1))
    asking.none(autumn(2, 46, 1), autumn(1, 59, 0))
    asking.none(autumn(0, 0, 1), autumn(0, 59, 1))
    asking.none(autumn(4, 0, 0), autumn(6, 0, 1))
    asking.drive.check()


def spring_ranges(kind):
    asking = Asking(kind, SPRING)
    asking.gives(spring(0, 0, 0), spring(4, 45, 1), SPRING)
    asking.gives(spring(1, 45, 0), spring(3, 0, 1), SPRING[7:9])
    asking.gives(spring(1, 0, 0), spring(3, 45, 1), SPRING[4:12])
    asking.gives(spring(2, 0, 0), spring(2, 45, 0), SPRING[8:12])
    asking.gives(spring(2, 0, 1), spring(2, 45, 1), SPRING[4:8])
    asking.gives(spring(3, 0, 1), spring(2, 0, 0), SPRING[8:9])
    asking.gives(spring(4, 45, 1), spring(3, 45, 0), SPRING[15:])
    asking.after(spring(2, 15, 0), spring(3, 0, 1))
    asking.after(spring(3, 0, 1), spring(1, 59, 0))
    asking.none(spring(1, 46, 0), spring(2, 59, 1))
    asking.none(spring(4, 0, 0), spring(6, 0, 0))
    asking.none(spring(0, 0, 1), spring(0, 59, 1))
    asking.drive.check()


def start_ranges(kind):
    """1 January 2000: 00:15 SU 1 is 23:15 of the day before."""
    early, start, later = map(hx, ("0F 80 01 01 00", "00 00 01 01 00", "0F 00 01 01 00"))
    first_of_all, last_of_all = hx("00 80 01 01 00"), hx("3B 17 1F 0C 63")
    asking = Asking(kind, [early, start, later])
    asking.gives(early, early, [early])
    asking.gives(early, start, [early, start])
    asking.gives(first_of_all, last_of_all, [early, start, later])
    asking.gives(first_of_all, hx("3B 80 01 01 00"), [early])
    asking.gives(start, last_of_all, [start, later])
    asking.gives(hx("10 80 01 01 00"), later, [start, later])
    asking.gives(hx("00 81 01 01 00"), hx("0E 81 01 01 00"), [start])
    asking.after(start, early)
    asking.after(early, first_of_all)
    asking.after(start, hx("3B 80 01 01 00"))
    asking.none(hx("10 80 01 01 00"), hx("3B 80 01 01 00"))
    asking.none(first_of_all, hx("0E 80 01 01 00"))
    asking.drive.check()


def standard_time_in_ranges():
    """"Selection uses it too"; 18 uses the new comparison."""
    for kind in (102, 122, 123):
        autumn_ranges(kind)
        spring_ranges(kind)
        start_ranges(kind)
        for before, behind in RISING:
            one, other = hx(before), hx(behind)
            asking = Asking(kind, [one, other])
            asking.gives(one, other, [one, other])
            asking.gives(one, one, [one])
            asking.gives(other, other, [other])
            asking.after(other, one)
            asking.drive.check()
        for pair in SAME:
            one, other = map(hx, pair)
            for label in (one, other):
                asking = Asking(kind, [label])
                for first, last in ((one, one), (one, other), (other, one), (other, other)):
                    asking.gives(first, last, [label])
                asking.drive.check()


# ---- images exchanged between gaps ------------------------------------------

def exchanged():
    base = [meter(), point(1, 0x12345678)]
    some = [label_a(1, 1, 1, 0, minute) for minute in (10, 20, 30, 40)]

    def picture(chosen, value=0):
        return image(*base, *[reading(1, 11, one, [(value, 0)] * 6) for one in chosen])

    def give(one, value=0):
        return message(11, 6, 5, 1, 11, objects(le(value, 4), 0) + one)

    ask = request(123)
    seven, ten = with_cause(ask, 7), with_cause(ask, 10)
    d = Drive("readings, exchanged", picture(some)).reset().open()
    # Chosen anew from the new image, the given count skipped.
    d.send(ask).collect(seven).collect(give(some[0]))
    d.image(picture(some, 5)).collect(give(some[1], 5))
    d.image(picture(some[2:], 6)).collect(ten).collect(None)
    # An earlier one put in front is skipped instead of the one given.
    d.image(picture(some[1:])).send(ask).collect(seven).collect(give(some[1]))
    d.image(picture(some)).collect(give(some[1])).collect(give(some[2]))
    # A repeat is the stored octets even then.
    d.image(picture(some, 9)).again(data(give(some[2]))).collect(give(some[3], 9))
    d.image(image(*base)).collect(ten).collect(None)
    # Mirror 7 is given without choosing again.
    d.image(picture(some)).send(ask).image(image(*base)).collect(seven)
    d.collect(ten).collect(None)
    # ... and data come if a later image has them.
    d.image(picture(some)).send(ask).image(image(*base)).collect(seven)
    d.image(picture(some[:1], 7)).collect(give(some[0], 7))
    # Mirror 10 waits: a request is turned away, more readings come first.
    d.send(request(100), NACK).image(picture(some[:2], 7)).collect(give(some[1], 7))
    d.send(request(100), NACK).collect(ten).collect(None)
    # Without the point the data end in mirror 10.
    d.image(picture(some)).send(ask).collect(seven).collect(give(some[0]))
    d.image(image(meter(), point(2, 1))).collect(ten).collect(None)
    # A reset in between drops the rest.
    d.image(picture(some)).send(ask).collect(seven).reset().collect(None)
    # 8 in between gives nothing away.
    d.open().send(ask).collect(seven)
    d.image(b"").run(fixed(0x5B | 0x20 * (1 - d.fcb)), 8).image(picture(some))
    d.gap(0, data(give(some[0])))
    d.fcb ^= 1
    d.collect(give(some[1])).collect(give(some[2])).collect(give(some[3])).collect(ten)
    d.check()

    ask = request(102, rec=53)
    seven, ten = with_cause(ask, 7), with_cause(ask, 10)

    def diary(count):
        return image(*base, *many_events(count))

    d = Drive("events, exchanged", diary(28)).reset().open()
    d.send(ask).collect(seven).collect(message(1, 27, 5, 1, 53, wire_events(0, 27)))
    d.image(diary(60)).collect(message(1, 27, 5, 1, 53, wire_events(27, 54)))
    d.image(diary(56)).collect(message(1, 2, 5, 1, 53, wire_events(54, 56)))
    d.image(diary(59)).collect(message(1, 3, 5, 1, 53, wire_events(56, 59)))
    d.image(diary(10)).collect(ten).collect(None)
    d.check()


# ---- soundness of the image -------------------------------------------------

def images():
    d = Drive("images", None)

    def sound(what, *records, version=1):
        d.image(image(*records, version=version)).gap(1, what=what)

    def unsound(what, *records, version=1):
        d.image(image(*records, version=version)).gap(8, what=what)

    m, p = meter(), point(1, 2)
    later = label_a(1, 1, 1, 0, 30)
    b = label_b(1, 1, 1, 0, 15)
    d.image(SMALL).gap(1, what="the smallest")
    Tally.equal("the smallest has 21 octets", len(SMALL), 21)
    for end in range(21):
        d.image(SMALL[:end]).gap(8, what=f"cut at {end}")
    d.image(SMALL + b"\0").gap(8, what="an octet behind the end")
    unsound("version 0", m, p, version=0)
    unsound("version 2", m, p, version=2)
    unsound("no meter", p)
    unsound("no point", m)
    unsound("two meters", m, m, p)
    unsound("point before meter", p, m)
    unsound("meter behind", m, p, m)
    sound("addresses at the ends", meter(65535), point(1, 0), point(65535, 0))
    unsound("point 0", m, point(0, 0))
    unsound("point 0 and 1", m, point(0, 0), p)
    unsound("equal points", m, p, p)
    unsound("falling points", m, point(2, 0), p)
    sound("points rise by both octets", m, point(0x00FF, 0), point(0x0100, 0))
    sound("eight points", m, *[point(i, i) for i in range(1, 9)])
    unsound("nine points", m, *[point(i, i) for i in range(1, 10)])
    sound("dates", m, p, dates(JAN, later))
    sound("dates without order", m, p, dates(later, JAN))
    unsound("two dates", m, p, dates(JAN, later), dates(JAN, later))
    unsound("first date", m, p, dates(bytes(5), later))
    unsound("second date", m, p, dates(JAN, hx("00 00 00 01 01")))
    unsound("dates before points", m, dates(JAN, later), p)
    unsound("dates behind a reading", m, p, reading(1, 11, JAN), dates(JAN, JAN))
    sound("both records", m, p, reading(1, 11, later), reading(1, 21, JAN))
    for rec in (0, 10, 12, 20, 22, 52):
        unsound(f"reading record {rec}", m, p, reading(1, rec, JAN))
    unsound("reading of no point", m, p, reading(2, 11, JAN))
    unsound("reading of point 0", m, p, reading(0, 11, JAN))
    unsound("reading's label", m, p, reading(1, 11, hx("0F 00 21 01 E4")))
    unsound("equal readings", m, p, reading(1, 11, JAN), reading(1, 11, JAN))
    unsound("equal but for the weekday", m, p, reading(1, 11, JAN), reading(1, 11, hx("0F 00 21 01 01")))
    unsound("SU 1 behind SU 0", m, p, reading(1, 11, JAN), reading(1, 11, summer(JAN)))
    sound("SU 1 before SU 0", m, p, reading(1, 11, summer(JAN)), reading(1, 11, JAN))
    unsound("falling labels", m, p, reading(1, 11, later), reading(1, 11, JAN))
    sound("rising labels", m, p, reading(1, 11, JAN), reading(1, 11, later))
    unsound("falling records", m, p, reading(1, 21, JAN), reading(1, 11, later))
    two = (m, p, point(2, 2))
    sound("points of readings rise", *two, reading(1, 21, later), reading(2, 11, JAN))
    unsound("points of readings fall", *two, reading(2, 11, JAN), reading(1, 21, later))
    wide = (m, point(0x0102, 1), point(0x0201, 1))
    sound("big-endian points", *wide, reading(0x0102, 11, JAN), reading(0x0201, 11, JAN))
    ordered = [label_a(0, 12, 31, 23, 59), label_a(1, 1, 31, 23, 58), label_a(1, 2, 1, 0, 57),
               label_a(1, 2, 2, 0, 56), label_a(1, 2, 2, 1, 55), label_a(1, 2, 2, 1, 56)]
    sound("compared by year first", m, p, *[reading(1, 11, one) for one in ordered])
    for i in range(5):
        swapped = ordered[:i] + [ordered[i + 1], ordered[i]] + ordered[i + 2:]
        unsound(f"labels {i} swapped", m, p, *[reading(1, 11, one) for one in swapped])
    unsound("event before reading", m, p, event(1, 52, 0, 0, b), reading(1, 11, JAN))
    for rec in (52, 53, 54, 55, 128, 129):
        sound(f"event record {rec}", m, p, event(1, rec, 255, 255, b))
    for rec in (0, 11, 21, 51, 56, 103, 127, 130):
        unsound(f"event record {rec}", m, p, event(1, rec, 0, 0, b))
    unsound("event of no point", m, p, event(2, 52, 0, 0, b))
    unsound("event's second", m, p, event(1, 52, 0, 0, label_b(1, 1, 1, 0, 0, 60)))
    unsound("event's millisecond", m, p, event(1, 52, 0, 0, label_b(1, 1, 1, 0, 0, 0, 1000)))
    unsound("event's minute", m, p, event(1, 52, 0, 0, label_b(1, 1, 1, 0, 60)))
    sound("equal events", m, p, event(1, 52, 2, 0, b), event(1, 52, 1, 0, b))
    sound("rising ms", m, p, event(1, 52, 0, 0, label_b(1, 1, 1, 0, 0, 1, 1)),
          event(1, 52, 0, 0, label_b(1, 1, 1, 0, 0, 1, 2)))
    unsound("falling ms", m, p, event(1, 52, 0, 0, label_b(1, 1, 1, 0, 0, 1, 2)),
            event(1, 52, 0, 0, label_b(1, 1, 1, 0, 0, 1, 1)))
    sound("seconds before ms", m, p, event(1, 52, 0, 0, label_b(1, 1, 1, 0, 0, 1, 999)),
          event(1, 52, 0, 0, label_b(1, 1, 1, 0, 0, 2, 0)))
    unsound("falling seconds", m, p, event(1, 52, 0, 0, label_b(1, 1, 1, 0, 0, 2, 0)),
            event(1, 52, 0, 0, label_b(1, 1, 1, 0, 0, 1, 999)))
    sound("minutes before seconds", m, p, event(1, 52, 0, 0, label_b(1, 1, 1, 0, 0, 59, 999)),
          event(1, 52, 0, 0, label_b(1, 1, 1, 0, 1)))
    unsound("falling minutes", m, p, event(1, 52, 0, 0, label_b(1, 1, 1, 0, 1)),
            event(1, 52, 0, 0, label_b(1, 1, 1, 0, 0, 59, 999)))
    unsound("falling event records", m, p, event(1, 53, 0, 0, b), event(1, 52, 0, 0, b))
    sound("event points rise", *two, event(1, 129, 0, 0, b), event(2, 52, 0, 0, b))
    unsound("event points fall", *two, event(2, 52, 0, 0, b), event(1, 129, 0, 0, b))
    # A length that does not fit its kind, one up and one down; unknown kinds.
    whole = [m, p, dates(JAN, JAN), reading(1, 11, JAN), event(1, 52, 0, 0, b)]
    sound("all kinds", *whole)
    for i, one in enumerate(whole):
        body = one[3:]
        for other in (body[:-1], body + b"\0", b""):
            unsound(f"kind {i + 1} of length {1 + len(other)}", *whole[:i],
                    record(i + 1, other), *whole[i + 1:])
        unsound(f"length field of kind {i + 1}", *whole[:i],
                be(len(body), 2) + one[2:], *whole[i + 1:])
        for kind in (0, 6, 255):
            unsound(f"kind {kind}", *whole[:i], record(kind, body), *whole[i + 1:])
    unsound("length 0", m, p, hx("0000"))
    unsound("length past the end", m, p, hx("FFFF 04"))
    full = image(*whole)
    ends = {21, 34, 75, 90}
    for end in range(len(full)):
        d.image(full[:end]).gap(1 if end in ends else 8, what=f"all kinds cut at {end}")
    d.check()

    # The largest: 1,597 readings, the last one read to the end.
    def many(count, behind=b""):
        all_ = [reading(1, 11, label_a(1, 1, 1 + i // 1440, i // 60 % 24, i % 60), [(i, 1)] * 6)
                for i in range(count)]
        return image(m, point(1, 0x12345678), *all_) + behind

    d = Drive("the largest", many(1597))
    Tally.equal("1,597 readings fit", len(many(1597)), 65498)
    d.gap(1).image(many(1598)).gap(8, what="65,539 octets").image(many(1597)).reset().open()
    last = label_a(1, 1, 2, 2, 36)
    ask = request(123, body=b"\1\6" + last + label_a(99, 1, 1, 0, 0))
    d.ask(ask, with_cause(ask, 7),
          message(11, 6, 5, 1, 11, objects(le(1596, 4), 1) + last), with_cause(ask, 10))
    d.image(many(1597, event(1, 52, 0, 0, b) * 2)).gap(1, what="65,528 octets")
    d.image(many(1596, event(1, 52, 0, 0, b) * 5)).gap(1, what="65,532 octets")
    d.check()

    # Exactly 65,535 octets and one above: 65,535 = 1 + 11 + 9 (+13) + 41 r + 15 e.
    def exact(total):
        for used in (21, 34):
            for r in range(60):
                left = total - used - 41 * r
                if left % 15 == 0:
                    return used == 34, r, left // 15
        raise AssertionError

    d = Drive("65,535 octets", None)
    for total, number in ((65534, 1), (65535, 1), (65536, 8), (65537, 8), (65600, 8)):
        dated, r, e = exact(total)
        octets = image(m, p, dates(JAN, JAN) if dated else b"",
                       *[reading(1, 11, label_a(1, 1, 1, 0, i)) for i in range(r)],
                       event(1, 52, 0, 0, b) * e)
        assert len(octets) == total
        d.image(octets).gap(number, what=str(total))
    d.check()


# ---- octets at random: only that nothing breaks -----------------------------

def at_random():
    """Sanitizers watch; every G gives a line and every line has its form."""
    source = random.Random(20010101)
    kinds = list(ROWS)
    pictures = [SMALL, FULL, image(meter(), point(1, 0x12345678), *many_events(60))]
    gaps = 0
    calls = b""
    for _ in range(20000):
        pick = source.random()
        if pick < 0.02:
            octets = bytearray(source.choice(pictures))
            if source.random() < 0.5:
                octets[source.randrange(len(octets))] = source.randrange(256)
            calls += b"I" + be(len(octets), 3) + bytes(octets)
        elif pick < 0.04:
            calls += b"C" + source.choice([CLOCK, bytes(7)])
        elif pick < 0.06:
            calls += b"B" + be(source.choice([0, 260, 261, 300]), 2)
        else:
            row = ROWS[kind := source.choice(kinds)]
            user = message(kind, row[0], row[1], source.choice([1, 1, 1, 2]), row[2], row[3])
            octets = source.choice([fixed(0x40), fixed(0x5B), fixed(0x7B), fixed(0x5B),
                                    fixed(0x7B), variable(0x53, user), variable(0x73, user)])
            if source.random() < 0.03:
                at = source.randrange(len(octets))
                octets = octets[:at] + source.randbytes(source.randrange(3)) + octets[at + 1:]
            calls += b"O" + be(len(octets), 2) + octets + b"G"
            gaps += 1
    lines = run("drive", calls).splitlines()
    Tally.equal("random: lines", len(lines), gaps)
    Tally.equal("random: six parts", {len(line.split(" ")) for line in lines}, {6})
    seen = {line.split(" ")[0] for line in lines}
    Tally.equal("random: answered and refused", seen >= {"0", "3", "8", "9"}, True)
    calls = b"I" + be(len(SMALL), 3) + SMALL + b"E"
    for _ in range(3000):
        octets = source.choice([RESET, COLLECT_0, COLLECT_1, variable(0x73, OPEN_1),
                                source.randbytes(source.randrange(1, 300))])
        wrong = [source.randrange(len(octets))] if source.random() < 0.3 else []
        if source.random() < 0.02:
            calls += b"E"
        calls += b"P" + be(len(octets), 2) + characters(octets, wrong) + b"G"
    seen = {line.split(" ")[0] for line in run("drive", calls).splitlines()}
    Tally.equal("random: eleven bits", seen >= {"0", "2", "3", "7", "10"}, True)
    for _ in range(60):
        run("drive", source.randbytes(200))
        run("print", b"\1" + source.randbytes(200))


run_parts(paper_cases, labels, printing, driving, little_by_little, refusals,
          eleven_bit_calls, parity_bits, wrong_parity, altered_bits, power_on_again,
          eleven_bit_conversation, count_bit,
          messages_accepted, messages_refused, passwords, clock_and_dates, totals,
          object_ranges, ranges_exchanged, diaries, standard_time_in_images,
          standard_time_in_ranges, exchanged, images, at_random)
