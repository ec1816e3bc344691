"""The card's two faces, and the driving one in the eleven-bit profile and with questions, as lines that a conversation
is held over: each builds the input of one program."""

from meter import UNSOUND
from wire import LONGEST_RUN, characters


class PrintLine:
    """Input of the printing program: one image and one clock, then runs."""

    can_exchange = False

    def __init__(self, chance, image, clock):
        self.parts = [b"\x01", len(image).to_bytes(2, "big"), image, clock]
        self.gaps = 0

    def run(self, octets):
        self.parts += (len(octets).to_bytes(2, "big"), octets)
        self.gaps += 1

    def octets(self):
        return b"".join(self.parts)


class DriveLine:
    """Input of the driving program. `mischief` is how often a run is given in an unusual way: in pieces, with a
    buffer too short or an unsound image lent in between (the run is then kept), with a gap too many."""

    can_exchange = True

    def __init__(self, chance, image, clock, mischief=0.0):
        self.chance = chance
        self.mischief = mischief
        self.parts = []
        self.gaps = 0
        self.lent_buffer = LONGEST_RUN
        self.lend_image(image)
        self.lend_clock(clock)

    def lend_image(self, image):
        """An image that stays, as against `borrow_image`."""
        self.image = image
        self.borrow_image(image)

    def borrow_image(self, image):
        self.parts += (b"I", len(image).to_bytes(3, "big"), image)

    def lend_clock(self, clock):
        self.parts += (b"C", clock)

    def lend_buffer(self, length):
        self.lent_buffer = length
        self.borrow_buffer(length)

    def borrow_buffer(self, length):
        self.parts += (b"B", length.to_bytes(2, "big"))

    def put(self, octets):
        self.parts += (b"O", len(octets).to_bytes(2, "big"), octets)

    def gap(self):
        self.parts.append(b"G")
        self.gaps += 1

    def question(self, message):
        """Why would this message be refused? Is no gap."""
        self.parts += (b"W", len(message).to_bytes(2, "big"), message)

    def run(self, octets):
        if self.chance is None or self.chance.random() >= self.mischief:
            self.put(octets)
            self.gap()
        else:
            self.run_unusually(octets)

    def run_unusually(self, octets):
        cut = self.chance.randint(0, len(octets))
        self.put(octets[:cut])
        way = self.chance.choice(("pieces", "short buffer", "unsound image", "both", "buffer", "gap too many"))
        if way == "buffer":
            self.lend_buffer(self.chance.choice((261, 262, 299, 300)))
        if way in ("short buffer", "both"):
            self.borrow_buffer(self.chance.choice((0, 6, 260, self.chance.randint(0, 260))))
        if way in ("unsound image", "both"):
            self.borrow_image(self.chance.choice(UNSOUND)[1])
        if way in ("short buffer", "unsound image", "both"):
            self.gap()
            self.borrow_buffer(self.lent_buffer)
            self.borrow_image(self.image)
        self.put(octets[cut:])
        self.gap()
        if way == "gap too many":
            self.gap()

    def octets(self):
        return b"".join(self.parts)


class ElevenBitLine(DriveLine):
    """The same with a card of the eleven-bit profile. A run is octets, whose parity bits are right, or characters.
    `through_octets` is how often the octets are given by `O`, which adds the parity bits, and not by `P`."""

    def __init__(self, chance, image, clock, mischief=0.0, through_octets=0.0):
        super().__init__(chance, image, clock, mischief)
        self.through_octets = through_octets
        self.power_on()

    def power_on(self):
        self.parts.append(b"E")

    def put(self, run):
        if not isinstance(run, bytes):
            self.put_characters(run)
        elif self.chance is not None and self.chance.random() < self.through_octets:
            self.put_octets(run)
        else:
            self.put_characters(characters(run))

    def put_octets(self, octets):
        super().put(octets)

    def put_characters(self, pairs):
        self.parts += (b"P", len(pairs).to_bytes(2, "big"), *map(bytes, pairs))


class Wondering:
    """Of a line of the driving face: asks `W` of the message that is spoken of, now and then in front of octets and of
    a gap, so also inside a run and behind a gap that keeps it. `wonder` is how often."""

    wonder = 0.0
    about = b""

    def question_now_and_then(self):
        if self.chance.random() < self.wonder:
            self.question(self.about)

    def put(self, run):
        self.question_now_and_then()
        super().put(run)

    def gap(self):
        self.question_now_and_then()
        super().gap()


class WonderingLine(Wondering, DriveLine):
    pass


class WonderingElevenBitLine(Wondering, ElevenBitLine):
    pass
