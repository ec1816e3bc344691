#!/usr/bin/env python3
"""generate.py SEED COUNT KIND: prints COUNT inputs of the kind (print, drive, eleven, why, lookup, book) drawn from
SEED, one a line in hex.

    tests/generate.py 7 3 drive | sed -n 2p | xxd -r -p | proved/drive

A kind is a face, or `eleven`: conversations over the driving face with a card of the eleven-bit profile; or `why`:
conversations over the driving face, with cards of either profile, that ask `W` now and then. The same seed gives the
same inputs. `random_inputs` is what compare.py uses.
"""

import random
import sys

from books import random_book, random_lookup
from lines import DriveLine, ElevenBitLine, PrintLine, WonderingElevenBitLine, WonderingLine
from meter import UNSOUND, random_meter, random_octets
from programs import FACES
from talk import Centre, ElevenBitCentre, WonderingCentre, WonderingElevenBitCentre, random_clock

# Kinds of random inputs, each with the face that it is for.
KINDS = {face: face for face in FACES} | {"eleven": "drive", "why": "drive"}
RUNS_IN_AN_INPUT = {"print": (100, 400), "drive": (60, 250), "eleven": (60, 250), "why": (60, 250)}
MISCHIEF, UNREST = (0.0, 0.05, 0.3), (0.02, 0.1, 0.3, 0.5)


def conversation(chance, kind, length=None):
    """One input that holds a conversation from power-on, of about so many runs or gaps."""
    if kind == "why":
        return conversation_with_questions(chance, length)
    meter = random_meter(chance)
    clock = random_clock(chance)
    if kind == "print":
        line = PrintLine(chance, meter.octets, clock)
    elif kind == "drive":
        line = DriveLine(chance, meter.octets, clock, mischief=chance.choice(MISCHIEF))
    else:
        line = ElevenBitLine(chance, meter.octets, clock, mischief=chance.choice(MISCHIEF),
                             through_octets=chance.choice((0.0, 0.3, 1.0)))
    centre = (ElevenBitCentre if kind == "eleven" else Centre)(chance, meter, line, unrest=chance.choice(UNREST))
    centre.converse(length or chance.randint(*RUNS_IN_AN_INPUT[kind]))
    return line.octets()


def conversation_with_questions(chance, length=None):
    """The same over the driving face, with `W` between the other calls."""
    meter = random_meter(chance)
    eleven, mischief = chance.random() < 0.3, chance.choice(MISCHIEF)
    line = (WonderingElevenBitLine if eleven else WonderingLine)(chance, meter.octets, random_clock(chance), mischief)
    line.wonder = chance.choice((0.0, 0.05, 0.3))
    centre = (WonderingElevenBitCentre if eleven else WonderingCentre)(chance, meter, line, chance.choice(UNREST))
    centre.converse(length or chance.randint(*RUNS_IN_AN_INPUT["why"]))
    return line.octets()


def faulty_print_input(chance):
    """An input that the printing program ends early on: version, image or cut."""
    whole = conversation(chance, "print")
    way = chance.choice(("version", "image", "changed image", "cut", "cut early"))
    if way == "version":
        return bytes([chance.choice((0, 2, chance.randrange(256)))]) + whole[1:]
    if way == "image":
        image = chance.choice(UNSOUND)[1]
        behind = random_octets(chance, chance.randint(0, 12))
        return b"\x01" + len(image).to_bytes(2, "big") + image + behind
    if way == "changed image":
        at = chance.randrange(3, 3 + int.from_bytes(whole[1:3], "big"))
        return whole[:at] + random_octets(chance, 1) + whole[at + 1:]
    if way == "cut early":
        return whole[:chance.randint(0, 3 + int.from_bytes(whole[1:3], "big") + 12)]
    return whole[:chance.randint(0, len(whole))]


def faulty_drive_input(chance, kind):
    """An input that the driving program ends early on, with cut or call, or gives other meaning to."""
    whole = conversation(chance, kind)
    if chance.random() < 0.5:
        return whole[:chance.randint(0, len(whole))]
    at = chance.randrange(len(whole))
    return whole[:at] + random_octets(chance, 1) + whole[at + 1:]


def random_input(chance, kind):
    if kind == "lookup":
        return random_lookup(chance)
    if kind == "book":
        return random_book(chance)
    if chance.random() < 0.05:
        return faulty_print_input(chance) if kind == "print" else faulty_drive_input(chance, kind)
    return conversation(chance, kind)


def random_inputs(seed, kind):
    """(name, octets) without end. Each input has a seed of its own, so that one can be made again alone."""
    number = 0
    while True:
        name = f"{kind} seed {seed} input {number}"
        yield name, random_input(random.Random(name), kind)
        number += 1


def main(seed, count, kind):
    inputs = random_inputs(seed, kind)
    for _ in range(int(count)):
        print(next(inputs)[1].hex())


if __name__ == "__main__":
    if len(sys.argv) != 4 or sys.argv[3] not in KINDS:
        sys.exit(__doc__)
    main(*sys.argv[1:])
