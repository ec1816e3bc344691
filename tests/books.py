"""Books of names and the inputs of the two programs that deal with them: calls for `lookup`, texts and books for
`book`.

`random_lookup` and `random_book` draw one input; `systematic_names` yields (face, name, octets) by rule. Many books go
into one input of `lookup`, for starting a program costs more than checking a book; an input of `book` holds just one.
"""

import itertools
from typing import NamedTuple

from meter import random_octets
from programs import ROOT

LONGEST_NAME, LONGEST_CALL, LONGEST_TEXT = 40, 1_500_000, 4_000_000
BYTE_ORDER_MARK = b"\xEF\xBB\xBF"


# ---- books ----------------------------------------------------------------------------------------------------------

class Entry(NamedTuple):
    spa: int
    spq: int
    name: bytes
    stated: int | None = None  # the length octet, where it is not the name's length

    @property
    def codes(self):
        return self.spa, self.spq

    def octets(self):
        return bytes([self.spa, self.spq, len(self.name) if self.stated is None else self.stated]) + self.name


def book(entries, version=1):
    return bytes([version]) + b"".join(entry.octets() for entry in entries)


def named(codes, name=b"name"):
    """Entries with these codes, and names that can be told from each other."""
    return [Entry(*pair, (b"%d %d " % pair + name)[:LONGEST_NAME]) for pair in codes]


def random_codes(chance):
    """Distinct code pairs, rising. Of few SPA or of few SPQ, so that neighbours often share one of the two."""
    spas = chance.sample(range(256), chance.choice((1, 2, 5, 40)))
    spqs = chance.sample(range(chance.choice((128, 256))), chance.choice((1, 3, 12, 100)))
    every = list(itertools.product(spas, spqs))
    return sorted(chance.sample(every, min(len(every), chance.choice((0, 1, 2, 3, 5, 8, 13, 40, 120, 300)))))


def random_entries(chance, codes):
    """Some of these codes, with names of any octets."""
    share = chance.choice((0.3, 0.7, 1.0))
    return [Entry(*pair, random_octets(chance, chance.choice((1, 1, 2, 3, 7, 12, 20, 39, 40))))
            for pair in codes if chance.random() < share]


# Ways to damage a book of one entry or more: first those that change its entries, then those that change its octets.

def other_entry(chance, entries, change):
    at = chance.randrange(len(entries))
    return [*entries[:at], change(entries[at]), *entries[at + 1:]]


def name_of_wrong_length(chance, entries):
    length = chance.choice((0, 0, 41, 41, 42, 255))
    return other_entry(chance, entries, lambda entry: entry._replace(name=random_octets(chance, length)))


def wrong_length_octet(chance, entries):
    return other_entry(chance, entries, lambda entry: entry._replace(
        stated=chance.choice((0, 40, 41, 255, len(entry.name) - 1, len(entry.name) + 1)) % 256))


def entries_exchanged(chance, entries):
    one, other = chance.randrange(len(entries)), chance.randrange(len(entries))
    entries = list(entries)
    entries[one], entries[other] = entries[other], entries[one]
    return entries


def entry_twice(chance, entries):
    at = chance.randrange(len(entries))
    return [*entries[:at + 1], entries[at]._replace(name=b"twice"), *entries[at + 1:]]


def codes_changed(chance, entries):
    return other_entry(chance, entries, lambda entry: chance.choice((
        entry._replace(spa=chance.randrange(256)), entry._replace(spq=chance.randrange(256)),
        entry._replace(spa=entry.spq, spq=entry.spa))))


ENTRY_DAMAGES = (name_of_wrong_length, wrong_length_octet, entries_exchanged, entry_twice, codes_changed)


def octet_changed(chance, octets):
    at = chance.randrange(len(octets))
    return octets[:at] + random_octets(chance, 1) + octets[at + 1:]


def octet_put_in(chance, octets):
    at = chance.randint(1, len(octets))
    return octets[:at] + random_octets(chance, 1) + octets[at:]


def octet_taken_out(chance, octets):
    at = chance.randrange(len(octets))
    return octets[:at] + octets[at + 1:]


def cut_short(chance, octets):
    return octets[:chance.randrange(len(octets))]


def other_version(chance, octets):
    return random_octets(chance, 1) + octets[1:]


OCTET_DAMAGES = (octet_changed, octet_put_in, octet_taken_out, cut_short, other_version)


def damaged(chance, entries):
    """By one way or two; the first fault of two is the one to be named."""
    for _ in range(chance.choice((0, 1, 1, 2)) if entries else 0):
        entries = chance.choice(ENTRY_DAMAGES)(chance, entries)
    octets = book(entries)
    return chance.choice(OCTET_DAMAGES)(chance, octets) if chance.random() < 0.4 else octets


# ---- calls of `lookup`, at random -----------------------------------------------------------------------------------

class Calls:
    """Input of the look-up face."""

    def __init__(self):
        self.parts = []

    def lend(self, letter, octets):
        self.parts += (letter, len(octets).to_bytes(3, "big"), octets)

    def chosen(self, octets):
        self.lend(b"C", octets)

    def italian(self, octets):
        self.lend(b"I", octets)

    def look(self, spa, spq):
        self.parts.append(bytes([ord("L"), spa, spq]))

    def event(self, spa, spq, spi):
        self.parts.append(bytes([ord("E"), spa, (spq << 1 | spi) & 255]))

    def ask(self, spa, spq):
        """The same code pair in every way it can be asked for."""
        self.look(spa, spq)
        self.event(spa, spq, 0)
        self.event(spa, spq, 1)

    def octets(self):
        return b"".join(self.parts)


def random_pair(chance, codes):
    """One of these, or one beside it."""
    if not codes or chance.random() < 0.1:
        return chance.randrange(256), chance.randrange(256)
    spa, spq = chance.choice(codes)
    if chance.random() < 0.6:
        return spa, spq
    beside = (((spa + 1) % 256, spq), ((spa - 1) % 256, spq), (spa, (spq + 1) % 256), (spa, (spq - 1) % 256))
    return chance.choice((*beside, (spa, spq ^ 128), (spq, spa)))


def random_calls(chance):
    calls = Calls()
    for _ in range(chance.randint(4, 14)):
        codes = random_codes(chance)
        for lend in chance.sample((calls.chosen, calls.italian), chance.choice((1, 2, 2, 2))):
            entries = random_entries(chance, codes)
            lend(damaged(chance, entries) if chance.random() < 0.25 else book(entries))
        for _ in range(chance.randint(5, 30)):
            spa, spq = random_pair(chance, codes)
            if chance.random() < 0.5:
                calls.look(spa, spq)
            else:
                calls.event(spa, spq, chance.randrange(2))
    return calls.octets()


def random_lookup(chance):
    """Now and then one that ends with `cut` or `call`, or has other meaning from some place on."""
    octets = random_calls(chance)
    if chance.random() >= 0.15:
        return octets
    return chance.choice((cut_short, octet_changed, octet_put_in, octet_taken_out))(chance, octets)


# ---- calls of `lookup`, by rule -------------------------------------------------------------------------------------

THREE = (Entry(5, 7, b"A"), Entry(5, 9, b"B" * LONGEST_NAME), Entry(6, 0, b"CD"))
BORDERS = (0, 1, 2, 127, 128, 255)


def in_either_place(books, asked=()):
    """Each of these as the chosen book beside a sound Italian one, and the other way round."""
    calls = Calls()
    books = list(books)
    sound = book(named(((5, 8), (5, 9), (7, 7))))
    for fixed, varied in ((calls.italian, calls.chosen), (calls.chosen, calls.italian)):
        fixed(sound)
        for octets in books:
            varied(octets)
            for pair in asked:
                calls.look(*pair)
    return calls.octets()


def cut_books():
    whole = book(THREE)
    books = (whole[:at] for at in range(len(whole) + 1))
    yield "cut at every place", in_either_place(books, ((5, 7), (5, 9), (6, 0), (7, 7)))


def every_version():
    books = (book(entries, version) for version in range(256) for entries in ((), THREE))
    yield "every version", in_either_place(books, ((5, 9), (1, 1)))


def every_length():
    """At each place: with the name whole, one octet short, one octet over, and not there at all."""
    for place in range(3):
        books = []
        for length in range(256):
            for there in (length, max(length - 1, 0), length + 1, 0):
                before = (*THREE[:place], THREE[place]._replace(name=b"n" * there, stated=length))
                books += (book(before), book((*before, *THREE[place + 1:])))
        yield f"every length at entry {place + 1}", in_either_place(books)


def every_order():
    """Two entries with every two pairs of some codes, and three of a few in every order."""
    pairs = list(itertools.product(BORDERS, repeat=2))
    books = (book(named(both)) for both in itertools.product(pairs, repeat=2))
    yield "every order of two", in_either_place(books)
    books = (book(named(three)) for three in itertools.permutations(((5, 7), (5, 9), (6, 0), (6, 0), (7, 3)), 3))
    yield "every order of three", in_either_place(books, ((6, 0),))


def every_event():
    """Every SPQ/SPI octet and every SPQ, with all SPQ in a book, every other one, every third, one alone."""
    calls = Calls()
    steps = (1, 2, 3, 256)
    for one, other in itertools.product(steps, repeat=2):
        calls.chosen(book(named(((5, spq) for spq in range(0, 256, one)), b"chosen")))
        calls.italian(book(named(((5, spq) for spq in range(other - 1, 256, other)), b"Italian")))
        for octet in range(256):
            calls.look(5, octet)
            calls.event(5, octet >> 1, octet & 1)
    yield "every event", calls.octets()


def every_pair():
    """Pairs that are in both books, in one or in neither, over all of SPA and some of SPQ."""
    calls = Calls()
    calls.chosen(book(named(((spa, spq) for spa in range(0, 256, 2) for spq in BORDERS), b"chosen")))
    calls.italian(book(named(((spa, spq) for spa in range(0, 256, 3) for spq in BORDERS[1:]), b"Italian")))
    for spa in range(256):
        for spq in BORDERS:
            calls.look(spa, spq)
    yield "every pair", calls.octets()


# Entries that are faulty behind (5, 7); the cut ones can only be the last of a book.
FAULTS = (Entry(5, 8, b""), Entry(5, 8, b"n" * 41), Entry(5, 8, b"n" * 255), Entry(5, 7, b"equal"),
          Entry(4, 9, b"SPA falls"), Entry(5, 6, b"SPQ falls"), Entry(5, 7, b""), Entry(4, 9, b"n" * 41))
CUT_FAULTS = (Entry(5, 8, b"n" * 4, 5), Entry(5, 8, b"n" * 40, 41), Entry(4, 9, b"n" * 254, 255), Entry(5, 7, b"", 1))


def two_faults():
    """Every two of them, next to each other and apart."""
    books = []
    for first, second in itertools.product(FAULTS, FAULTS + CUT_FAULTS):
        for between in ((), named(((9, 9),))):
            for before in ((), THREE[:1], named(((0, 0), (2, 2)))):
                books.append(book((*before, first, *between, second)))
    for last in CUT_FAULTS:
        books += [book((*THREE[:count], last)) for count in range(4)]
        books += [book((*THREE[:count], last))[:-len(last.name) - 1] for count in range(4)]
    yield "two faults", in_either_place(books, ((5, 7),))


def faulty_beside_faulty():
    """Each refusal in the chosen book beside each in the Italian one, and beside sound ones, with the name or not."""
    books = (b"", b"\x02", book(THREE, 2), book(()), book(THREE), book(THREE)[:-1], book((*THREE, *FAULTS[:1])),
             book((*THREE[:2], *FAULTS[1:2])), book((*THREE, *FAULTS[3:4])), book((*THREE, Entry(5, 7, b"again"))))
    calls = Calls()
    calls.ask(5, 7)  # before any book is lent
    for chosen, italian in itertools.product(books, repeat=2):
        calls.chosen(chosen)
        calls.italian(italian)
        for pair in ((5, 7), (6, 0), (5, 8), (0, 0)):
            calls.ask(*pair)
    yield "faulty beside faulty", calls.octets()


def names_changed():
    """The same codes with other names, of other lengths, some of which look like entries."""
    codes = [(spa, spq) for spa in (0, 1, 18, 255) for spq in (0, 1, 4, 127, 255)]
    calls = Calls()
    for name in (b"n", b"\x01" * 40, bytes(39), b"\x12\x04\x01n", b"\xFF" * 3):
        calls.chosen(book(Entry(*pair, name) for pair in codes[::2]))
        calls.italian(book(Entry(*pair, name[::-1]) for pair in codes[::3]))
        for pair in codes:
            calls.ask(*pair)
    yield "names changed, codes kept", calls.octets()


def many_entries():
    """Entry numbers past one octet and past two."""
    every = [Entry(number >> 8, number & 255, b"n") for number in range(65_536)]
    calls = Calls()
    calls.italian(book(()))
    for count in (254, 255, 256, 65_535, 65_536):
        for fault in ((), every[:1], (Entry(255, 255, b"", 1),), (Entry(255, 255, b""),)):
            calls.chosen(book((*every[:count], *fault)))
        calls.chosen(book(every[:count]))
        calls.look(*every[count - 1].codes)
    yield "many entries", calls.octets()


def full_book():
    """Every code pair an event can have, with the longest names."""
    codes = itertools.product(range(256), range(128))
    entries = [entry._replace(name=entry.name.ljust(LONGEST_NAME, b"x")) for entry in named(codes)]
    calls = Calls()
    calls.chosen(book(entries))
    calls.italian(book(entries[::2]))
    for pair in ((0, 0), (255, 127), (255, 128)):
        calls.look(*pair)
    calls.italian(book(entries)[:-1])
    calls.look(0, 0)
    yield "full book", calls.octets()


def small_calls():
    calls = Calls()
    calls.chosen(book(named(((5, 7),), b"")))
    calls.italian(b"\x01")
    calls.look(5, 7)
    calls.event(5, 7, 1)
    return calls.octets()


def calls_cut_and_wrong():
    small = small_calls()
    for at in range(len(small)):
        yield f"cut at {at}", small[:at]
    # A letter that is taken for a call goes on with what follows it, one that is passed over with the call behind it.
    for letter in b"cileGBOD\x00\n \xFF":
        yield f"letter {letter}", small + bytes([letter]) + b"\x00\x00\x01\x01" + small
        yield f"letter {letter} in front of a call", small + bytes([letter]) + small
    for letter, length in ((b"C", LONGEST_CALL + 1), (b"I", LONGEST_CALL + 1), (b"C", 0x170000), (b"I", 0xFFFFFF)):
        yield f"length {length}", small + letter + length.to_bytes(3, "big")
        yield f"length {length} with octets", small + letter + length.to_bytes(3, "big") + small * 3
    longest = Calls()
    longest.chosen(b"\x01" + bytes(LONGEST_CALL - 1))
    yield "longest", longest.octets() + small
    yield "longest, cut", longest.octets()[:-1]


def systematic_lookups():
    for family in (cut_books, every_version, every_length, every_order, every_event, every_pair, two_faults,
                   faulty_beside_faulty, names_changed, many_entries, full_book, calls_cut_and_wrong):
        yield from family()


# ---- texts ----------------------------------------------------------------------------------------------------------

# Characters on both sides of each rule of RFC 3629, and octets that are none.
CHARACTERS = tuple(map(bytes.fromhex, (
    "00", "01", "7F", "C280", "C3A8", "DFBF", "E0A080", "E0BFBF", "E18080", "E28099", "ECBFBF", "ED8080", "ED9FBF",
    "EE8080", "EFBBBF", "EFBFBF", "F0908080", "F0BFBFBF", "F1808080", "F3BFBFBF", "F4808080", "F48FBFBF")))
NO_CHARACTERS = tuple(map(bytes.fromhex, (
    "80", "BF", "C080", "C1BF", "C2", "C27F", "C2C0", "E0A0", "E08080", "E09FBF", "E0C080", "E1", "E17F80", "E1C080",
    "E1807F", "E180C0", "EC80", "EDA080", "EDBFBF", "EF7FBF", "F090", "F08FBFBF", "F0808080", "F0C08080", "F18080",
    "F17F8080", "F1807F80", "F180807F", "F18080C0", "F180C080", "F4908080", "F4BFBFBF", "F5808080", "F888808080", "FE",
    "FF", "C3A8A8")))
NO_NUMBERS = (b"256", b"260", b"999", b"1000", b"00256", b"65537", b"4294967297", b"18446744073709551617", b"-1", b"+1",
              b"1.", b"0x1", b"1a", b"a1", b"/", b":", b"\xC2\xB2", b"1\r", b"\x0B1")
ENDS = (b"\n", b"\r\n")


def random_blanks(chance, least=1):
    return b"".join(chance.choices((b" ", b"\t"), (3, 1), k=chance.choice((least, least, least, least + 1, least + 3))))


def random_number(chance, number):
    return b"0" * chance.choice((0, 0, 0, 1, 2, 30)) + b"%d" % number


def random_text_name(chance, least=1, most=LONGEST_NAME):
    """A name of about so many octets, with blanks and 0D within but no blank at its ends."""
    goal = chance.choice((least, least + 2, least + 9, most, most, chance.randint(least, most)))
    name = b"".join(chance.choices((*CHARACTERS, b"a", b"#", b"7", b"  ", b" ", b"\t", b"\r"), k=goal))[:goal]
    return name.decode("utf8", "ignore").strip(" \t\r").encode().ljust(least, b"x")


def text_line(chance, spa, spq, name):
    return (random_blanks(chance, 0) + random_number(chance, spa) + random_blanks(chance) + random_number(chance, spq)
            + random_blanks(chance) + name + random_blanks(chance, 0))


def random_entry_line(chance, pair):
    return text_line(chance, *pair, random_text_name(chance))


def random_comment(chance):
    return random_blanks(chance, 0) + chance.choice((b"", b"#", b"# 1 2 name", b"#" + random_text_name(chance, 1, 90)))


# Ways to spoil a text: each gives one more line, from a pair that no line has and the lines there are.

def spoiled_utf_8(chance, pair, lines):
    return text_line(chance, *pair, b"a" + chance.choice(NO_CHARACTERS) + chance.choice((b"", b"b", b" ")))


def spoiled_comment(chance, pair, lines):
    return random_blanks(chance, 0) + b"# " + chance.choice(NO_CHARACTERS)


def spoiled_number(chance, pair, lines):
    words = [b"%d" % code for code in pair]
    words[chance.randrange(2)] = chance.choice(NO_NUMBERS)
    return b" ".join((*words, b"name"))


def number_missing(chance, pair, lines):
    return chance.choice((b"%d" % pair[0], b"name", b"%d name" % pair[0], b"%d%d name" % (pair[0], pair[1] + 256)))


def name_missing(chance, pair, lines):
    return text_line(chance, *pair, b"").rstrip() + random_blanks(chance, 0)


def name_too_long(chance, pair, lines):
    return text_line(chance, *pair, random_text_name(chance, LONGEST_NAME + 1, chance.choice((41, 42, 60, 300))))


def no_blank_between(chance, pair, lines):
    return b"%d %dname and more" % pair


def pair_again(chance, pair, lines):
    return chance.choice(lines) if lines else b"x"


def other_mark(chance, pair, lines):
    return BYTE_ORDER_MARK + text_line(chance, *pair, b"name")


def lone_return(chance, pair, lines):
    return b"\r" + chance.choice((b"", b"\r", b"# no comment"))


SPOILS = (spoiled_utf_8, spoiled_comment, spoiled_number, number_missing, name_missing, name_too_long, no_blank_between,
          pair_again, other_mark, lone_return)


def random_text(chance, spoils=0):
    """A text in any order, with comments and all ends of lines, and with so many lines spoiled."""
    codes = random_codes(chance)[:80]
    chance.shuffle(codes)
    spare = codes.pop() if len(codes) > 1 else (77, 77)
    lines = [random_entry_line(chance, pair) for pair in codes]
    entry_lines = list(lines)
    for _ in range(chance.choice((0, 2, len(lines)))):
        lines.insert(chance.randint(0, len(lines)), random_comment(chance))
    for _ in range(spoils):
        lines.insert(chance.randint(0, len(lines)), chance.choice(SPOILS)(chance, spare, entry_lines))
    ends = chance.choice((ENDS[:1], ENDS[1:], ENDS))
    text = b"".join(line + chance.choice(ends) for line in lines)
    mark = BYTE_ORDER_MARK if chance.random() < 0.2 else b""
    return mark + (text.rstrip(b"\n") if chance.random() < 0.2 else text)


def random_book(chance):
    """An input of `book`: a text, right or spoiled, or a book, sound or damaged."""
    way = chance.choice(("text", "text", "spoiled", "spoiled", "twice spoiled", "octet", "book", "damaged"))
    if way == "octet":
        change = chance.choice((octet_changed, octet_put_in, octet_taken_out, cut_short))
        return change(chance, random_text(chance) or b"x")
    if way in ("book", "damaged"):
        entries = random_entries(chance, random_codes(chance))
        return book(entries) if way == "book" else damaged(chance, entries)
    return random_text(chance, ("text", "spoiled", "twice spoiled").index(way))


RIGHT_TEXTS = (
    ("no line has octets", b"\n\r\n\r\n\n"), ("blanks only", b" \t\n\t \r\n "), ("a comment alone", b"#"),
    ("a mark alone", BYTE_ORDER_MARK), ("a return alone", b"\r"), ("a mark and a line", BYTE_ORDER_MARK + b"1 2 name"),
    ("numbers", b"0 0 a\n255 255 b\n000 255 c\n" + b"0" * 300 + b"255 0 d\n10 9 e\n9 10 f\n100 99 g\n"),
    ("sorted by both", b"2 1 a\n1 2 b\n2 0 c\n1 255 d\n128 0 e\n127 255 f\n127 0 g\n0 128 h\n0 127 i\n"),
    ("blanks in front, between, within and behind", b" \t1 \t 2\t\ta \t b \t\n\t3\t4\tc\t\n5 6  d  \r\n"),
    ("comments", b"#1 2 a\n # 1 2 b\n\t#\n1 2 # c\n3 4 d # e\n"),
    ("ends of lines", b"1 1 a\n1 2 b\r\n1 3 c\r\r\n1 4 d\re\n1 5 f \r\n1 6 g\r \n1 7 h\r"),
    ("no end of the last line", b"1 1 a\n1 2 b"),
    ("lengths of names", b"1 1 n\n1 39 %s\n1 40 %s\n2 40 %s \t\n" % (b"n" * 39, b"n" * 40, b"\xC3\xA8" * 20)),
    ("characters", b"".join(b"%d 0 <%s>\n# %s\n" % (at, octets, octets) for at, octets in enumerate(CHARACTERS))),
    ("characters at the ends", b"".join(b"%d 1 %s\n" % (at, octets) for at, octets in enumerate(CHARACTERS))),
)
FAULTY_TEXTS = (
    ("the second of one pair", b"1 2 a\n2 1 b\n# c\n\n1 2 a\n"), ("a pair again with zeros", b"1 2 a\n01 002 b"),
    ("41 octets", b"1 1 " + b"n" * 41), ("41 octets with a blank", b"#\n1 1 " + b"n" * 20 + b" " + b"n" * 20 + b"\r\n"),
    ("42 octets of 21 characters", b"1 1 " + b"\xC3\xA8" * 21), ("256 octets", b"1 1 " + b"n" * 256),
    ("296 octets", b"1 1 " + b"n" * 296), ("no name", b"1 1 a\n1 2 \t\r\n"), ("no name, no end", b"1 2"),
    ("no SPQ", b"1"),
    ("no SPQ but a name", b"1 name"), ("no numbers", b"name\n"), ("two marks", BYTE_ORDER_MARK * 2 + b"1 2 a"),
    ("half a mark", BYTE_ORDER_MARK[:2]), ("a mark in line 2", b"#\n" + BYTE_ORDER_MARK + b"1 2 a"),
    ("a mark behind a blank", b" " + BYTE_ORDER_MARK), ("01 behind a mark", BYTE_ORDER_MARK + b"\x01"),
    ("a return is no blank", b"\r\r\n"), ("two returns at the end", b"1 2 a\n\r\r"),
    ("a comment behind a return", b"\n\n\r# c"),
    ("a form feed is no blank", b"1\x0C2 a"), ("a no-break space is no blank", b"1\xC2\xA02 a"),
    ("not UTF-8 before a number", b"1 2 a\nx\xFF\n"), ("two faults, the first by number", b"256 1 a\n\xFF\n"),
    ("two faults, the first not UTF-8", b"# \xFF\n256 1 a\n"), ("faults in every line", b"x\n" * 5),
    ("a character over two lines", b"1 1 a\n# \xC3\n\xA8\n"), ("version 0", b"\x00"),
    ("version 2", b"\x02" + book(THREE)[1:]),
    ("line 1000", b"1 2 a\n" + b"\r\n" * 998 + b"1 2 b\n"),
)


def small_texts():
    yield from RIGHT_TEXTS
    yield from FAULTY_TEXTS
    for octet in (0x00, 0x09, 0x0A, 0x20, 0x30, 0x7F, 0xFF):
        yield f"one octet, {octet}", bytes([octet])
    for word in NO_NUMBERS:
        yield f"number {word!r}", b"3 4 b\n5 6 c\n" + (word + b" 2 a" if len(word) % 2 else b"1 " + word + b" a")
    # Each in a line that has no other fault.
    for at, octets in enumerate(NO_CHARACTERS):
        places = (b"# %s\n", b"1 2 a%s", b"1 2 a%sb\n", b"\t#a%s\r\n", b"1 2 %s \r\n")
        yield f"not UTF-8, {octets.hex()}", b"\n" * at + places[at % len(places)] % octets


def large_inputs():
    line = b"1 2 name\n"
    yield "every pair, falling", b"".join(b"%d %d n\n" % (at >> 8, at & 255) for at in range(65_535, -1, -1))
    yield "longest text", line + b" " * (LONGEST_TEXT - len(line))
    yield "longest text, the last line faulty", line + b"#" * (LONGEST_TEXT - len(line) - 2) + b"\nx"
    yield "too long", line + b" " * (LONGEST_TEXT + 1 - len(line))
    yield "too long and not UTF-8", b"\xFF" * (LONGEST_TEXT + 1)
    yield "too long by its mark", BYTE_ORDER_MARK + line + b" " * (LONGEST_TEXT - 2 - len(line))
    largest = [Entry(at >> 8, at & 255, b"n" * LONGEST_NAME) for at in range(65_536)]
    yield "largest book", book(largest)
    yield "a book longer than any text", book(largest) + bytes(LONGEST_TEXT)


def small_books():
    """Whole, cut at every place of a small one, and with each fault."""
    sound = book((Entry(1, 2, b"ab"), Entry(1, 3, b" \xFF\n")))
    for at in range(1, len(sound) + 1):
        yield f"book cut at {at}", sound[:at]
    for at, fault in enumerate(FAULTS + CUT_FAULTS):
        yield f"book with fault {at}", book((*THREE, fault))
    yield "book of 256 SPQ", book(named((at >> 7, at % 256) for at in range(0, 512, 3)))
    yield "book of other octets", book(Entry(9, at, bytes([at] * (1 + at % 40))) for at in range(256))


def systematic_names():
    """(face, name, octets), from quick to slow."""
    for name, octets in systematic_lookups():
        yield "lookup", name, octets
    for family in (small_texts, small_books, large_inputs):
        for name, octets in family():
            yield "book", name, octets


def names_little_by_little():
    """Inputs to be delivered in pieces."""
    yield "lookup", "calls in pieces", small_calls() * 20
    yield "book", "text in pieces", b"".join(text for _, text in RIGHT_TEXTS[7:9])
    yield "book", "faulty text in pieces", b"# \n" * 300 + b"x"
    yield "book", "book in pieces", book(THREE)


# ---- the books of the repository ------------------------------------------------------------------------------------

def entries_of(text):
    """The entries of a text that is taken to be right: these are inputs, and not what `book` has to make of it."""
    text = text.removeprefix(BYTE_ORDER_MARK)
    lines = (line.split(None, 2) for line in text.splitlines() if not line.lstrip().startswith(b"#"))
    return sorted(Entry(int(words[0]), int(words[1]), words[2].rstrip()) for words in lines if len(words) == 3)


def repository_books():
    """Each text of the folder `books`, if there is one, and the book of it, asked for all its pairs and some others."""
    for path in sorted((ROOT / "books").glob("*.txt")):
        text = path.read_bytes()
        yield "book", f"books/{path.name}", text
        entries = entries_of(text)
        calls = Calls()
        calls.italian(book(entries[::2]))
        calls.chosen(book(entries))
        for entry in entries:
            calls.ask(*entry.codes)
            calls.look(entry.spa, (entry.spq + 1) % 256)
        yield "lookup", f"books/{path.name}", calls.octets()
