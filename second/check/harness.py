"""Helpers for check.py, why.py and names.py: build octets, run the programs, compare
every line.

Nothing here knows a rule of the card except the shape of frames and messages,
nor one of books except the shape of an entry; what should be answered is written
out by hand in check.py, why.py and names.py.
"""

import os
import subprocess
import sys

FOLDER = sys.argv[1] if len(sys.argv) > 1 else "build-san"

# The programs allocate nothing, so there is nothing to leak, and on some hosts
# the search for leaks takes seconds at the end of every process.
ENVIRONMENT = dict(os.environ, ASAN_OPTIONS="detect_leaks=0")


class Tally:
    checks = 0
    faults = 0

    @classmethod
    def equal(cls, what, got, wanted):
        cls.checks += 1
        if got != wanted:
            cls.faults += 1
            print(f"FAULT {what}\n  wanted {wanted!r}\n  got    {got!r}")


def run_parts(*parts):
    """Runs the parts of a file of tests and ends with what they found."""
    for part in parts:
        before = Tally.checks
        part()
        print(f"{part.__name__}: {Tally.checks - before} checks")
    print(f"{Tally.checks} checks, {Tally.faults} faults")
    sys.exit(Tally.faults != 0)


def hx(text):
    return bytes.fromhex(text)


def le(number, octets):
    return number.to_bytes(octets, "little")


def be(number, octets):
    return number.to_bytes(octets, "big")


# ---- frames -----------------------------------------------------------------

def fixed(control, link=1):
    middle = bytes([control]) + le(link, 2)
    return b"\x10" + middle + bytes([sum(middle) % 256]) + b"\x16"


def variable(control, user, link=1):
    middle = bytes([control]) + le(link, 2) + user
    length = bytes([len(middle)])
    return (b"\x68" + length + length + b"\x68" + middle
            + bytes([sum(middle) % 256]) + b"\x16")


RESET = fixed(0x40)
STATUS = fixed(0x49)
ACK = fixed(0x00)
NACK = fixed(0x01)
NOTHING = fixed(0x09)


def data(user, link=1):
    return variable(0x08, user, link)


# ---- characters of the eleven-bit profile ------------------------------------

def parity(octet):
    """The bit that makes the number of ones even."""
    return bin(octet).count("1") % 2


def character(octet, bit):
    return bytes([octet, bit])


def characters(octets, wrong=()):
    """As `P` takes them; those at the places in `wrong` have the other parity
    bit. A place may be counted from the end."""
    places = {place % len(octets) for place in wrong}
    return b"".join(character(octet, parity(octet) ^ (place in places))
                    for place, octet in enumerate(octets))


# ---- messages and labels ----------------------------------------------------

def message(kind, n, cause, point, record, body=b""):
    return bytes([kind, n, cause]) + le(point, 2) + bytes([record]) + body


def with_cause(user, octet):
    return user[:2] + bytes([octet]) + user[3:]


def label_a(year, month, day, hour, minute):
    return bytes([minute, hour, day, month, year])


def label_b(year, month, day, hour, minute, second=0, ms=0):
    return le(second << 10 | ms, 2) + label_a(year, month, day, hour, minute)


def summer(label):
    """The same date and time with SU 1: bit 8 of the hour, which is the fourth
    octet from the end in both kinds of label."""
    return label[:-4] + bytes([label[-4] | 0x80]) + label[-3:]


# ---- the image --------------------------------------------------------------

def record(kind, body):
    return be(1 + len(body), 2) + bytes([kind]) + body


def meter(link=1, date=0, maker=0, product=0):
    return record(1, be(link, 2) + bytes([date, maker]) + be(product, 4))


def point(address, password):
    return record(2, be(address, 2) + be(password, 4))


def dates(first, second):
    return record(3, first + second)


def reading(address, rec, label, values=None):
    if values is None:
        values = [(0, 0)] * 6
    body = be(address, 2) + bytes([rec]) + label
    for value, quality in values:
        body += value.to_bytes(4, "big", signed=True) + bytes([quality])
    return record(4, body)


def event(address, rec, spa, spq, label):
    return record(5, be(address, 2) + bytes([rec, spa, spq]) + label)


def image(*records, version=1):
    return bytes([version]) + b"".join(records)


SMALL = hx("01 0009 01 0001 00 00 00000000 0007 02 0001 12345678")


# ---- books of names ---------------------------------------------------------

def entry(spa, spq, name, length=None):
    return bytes([spa, spq, len(name) if length is None else length]) + name


def book(*entries, version=1):
    return bytes([version]) + b"".join(entries)


# ---- running the faces ------------------------------------------------------

def outcome(program, octets):
    """Exit status, standard output and standard error."""
    done = subprocess.run([f"{FOLDER}/{program}"], input=octets,
                          stdout=subprocess.PIPE, stderr=subprocess.PIPE,
                          env=ENVIRONMENT)
    return done.returncode, done.stdout, done.stderr.decode(errors="replace")


def run(program, octets):
    status, output, errors = outcome(program, octets)
    Tally.equal(f"{program}: status and standard error", (status, errors), (0, ""))
    return output.decode("ascii")


def check_calls(program, what, calls, lines, end=""):
    """Gives all calls at once. `lines` holds what each line is for and the line
    itself; `end` is what has to stand behind them."""
    got = run(program, calls)
    got_lines = got.splitlines()
    for i, (one, line) in enumerate(lines):
        there = got_lines[i] if i < len(got_lines) else "(no line)"
        Tally.equal(f"{what}, line {i + 1} {one}", there, line)
    wanted = "".join(line + "\n" for _, line in lines) + end
    Tally.equal(f"{what}: all output", got, wanted)


def prints(what, octets, wanted):
    Tally.equal(f"print: {what}", run("print", octets), wanted)


def printing_input(runs, image_octets=SMALL, clock=bytes(7), version=1):
    whole = bytes([version]) + be(len(image_octets), 2) + image_octets + clock
    for octets in runs:
        whole += be(len(octets), 2) + octets
    return whole


class Slow:
    """A face on pipes that stay open, fed as a test likes."""

    def __init__(self, program):
        self.process = subprocess.Popen(
            [f"{FOLDER}/{program}"], stdin=subprocess.PIPE, stdout=subprocess.PIPE,
            env=ENVIRONMENT)

    def feed(self, octets):
        for octet in octets:
            self.process.stdin.write(bytes([octet]))
            self.process.stdin.flush()

    def line(self):
        return self.process.stdout.readline().decode("ascii")

    def ends(self):
        """Waits for the program to end by itself, its input still open."""
        rest = self.process.stdout.read().decode("ascii")
        status = self.process.wait()
        try:
            self.process.stdin.close()
        except BrokenPipeError:
            pass
        return rest, status


class Drive:
    """Writes calls down beside the lines they should give.

    It follows three things so that each expectation can be short: the 300
    octets of the buffer, the count of damaged runs, and the next count bit.
    Octets are given through `O` unless a part says `through = "P"`.
    """

    through = "O"

    def __init__(self, what, image_octets=SMALL):
        self.what = what
        self.calls = b""
        self.lines = []
        self.buffer = bytearray(b"\xAA" * 300)
        self.count = 0
        self.fcb = 0
        self.link = 1
        if image_octets is not None:
            self.image(image_octets)

    def image(self, octets):
        self.calls += b"I" + be(len(octets), 3) + octets
        return self

    def clock(self, octets):
        self.calls += b"C" + octets
        return self

    def lend(self, length):
        self.calls += b"B" + be(length, 2)
        return self

    def octets(self, octets):
        if self.through == "P":
            return self.characters(characters(octets))
        self.calls += b"O" + be(len(octets), 2) + octets
        return self

    def eleven(self):
        """A card at power-on of the eleven-bit profile."""
        self.calls += b"E"
        self.count = 0
        self.fcb = 0
        return self

    def characters(self, pairs):
        self.calls += b"P" + be(len(pairs) // 2, 2) + pairs
        return self

    def marked(self, octets, *wrong, number=10, what=""):
        """A run whose characters at these places have the wrong parity bit."""
        return self.characters(characters(octets, wrong)).gap(number, what=what)

    def why(self, user, number, word="-", cause="-", negative="-", what=""):
        """Asks `W` of a message."""
        self.calls += b"W" + be(len(user), 2) + user
        self.lines.append((what, f"why {number} {word} {cause} {negative}"))
        return self

    def gap(self, number, reply=b"", order="-", order_octets=b"", what=""):
        self.calls += b"G"
        self.buffer[:len(reply)] = reply
        if number in (2, 3, 4, 10):
            self.count = min(self.count + 1, 65535)
        self.lines.append((what, f"{number} {len(reply)} {order} "
                           f"{order_octets.hex().upper() or '-'} {self.count} "
                           f"{self.buffer.hex().upper()}"))
        return self

    def run(self, octets, number, reply=b"", order="-", order_octets=b"", what=""):
        return self.octets(octets).gap(number, reply, order, order_octets, what)

    # Frames with the count bit moved on, as an undisturbed centre sends them.

    def reset(self):
        self.fcb = 0
        return self.run(fixed(0x40, self.link), 0, fixed(0x00, self.link))

    def move(self):
        self.fcb ^= 1
        return 0x20 * self.fcb

    def send(self, user, reply=None, order="-", order_octets=b"", what=""):
        if reply is None:
            reply = fixed(0x00, self.link)
        return self.run(variable(0x53 | self.move(), user, self.link), 0,
                        reply, order, order_octets, what)

    def collect(self, reply, what=""):
        """The next waiting reply's user data; None for 09."""
        whole = fixed(0x09, self.link) if reply is None else data(reply, self.link)
        return self.run(fixed(0x5B | self.move(), self.link), 0, whole, what=what)

    def again(self, reply, what=""):
        return self.run(fixed(0x5B | 0x20 * self.fcb, self.link), 0, reply, what=what)

    def ask(self, user, *replies, order="-", order_octets=b"", what=""):
        """A request, all its waiting replies, and nothing behind them."""
        self.send(user, order=order, order_octets=order_octets, what=what)
        for reply in replies:
            self.collect(reply, what)
        return self.collect(None, what)

    def refuse(self, user, octet, what=""):
        """A request answered by one mirror with this cause octet, no order."""
        return self.ask(user, with_cause(user, octet), what=what or user.hex(" "))

    def open(self, address=1, password=0x12345678):
        request = message(183, 1, 6, address, 0, le(password, 4))
        return self.ask(request, with_cause(request, 7))

    def check(self, end=""):
        check_calls("drive", self.what, self.calls, self.lines, end)


class Lookup:
    """Writes calls of the look-up face down beside the lines they should give."""

    def __init__(self, what):
        self.what = what
        self.calls = b""
        self.lines = []

    def call(self, octets, line, what):
        self.calls += octets
        self.lines.append((what or octets[:40].hex(" "), line))
        return self

    def chosen(self, octets, line="0 0", what=""):
        return self.call(b"C" + be(len(octets), 3) + octets, line, what)

    def italian(self, octets, line="0 0", what=""):
        return self.call(b"I" + be(len(octets), 3) + octets, line, what)

    def look(self, spa, spq, line, what=""):
        return self.call(bytes([ord("L"), spa, spq]), line, what)

    def event(self, spa, octet, line, what=""):
        return self.call(bytes([ord("E"), spa, octet]), line, what)

    def check(self, end=""):
        check_calls("lookup", self.what, self.calls, self.lines, end)
