"""Tests of the look-up face and of `book`, written by hand from document 02, #103, and
the README. Usage: names.py FOLDER-OF-THE-PROGRAMS"""

import random

from harness import *

# Three sound entries, one for each place, and the names in hex as look-ups show them.
FIRST, MIDDLE, LAST = entry(5, 7, b"AB"), entry(5, 9, b"C"), entry(6, 0, b"DEF")
SOUND = book(FIRST, MIDDLE, LAST)
NO_NAME = "0 0 0 -"


# ---- a book checked ---------------------------------------------------------

def refusal_1():
    face = Lookup("refusal 1")
    face.chosen(b"", "1 0").italian(b"", "1 0")
    for version in (0, 2, 3, 127, 128, 129, 255):
        face.chosen(book(version=version), "1 0").chosen(book(FIRST, version=version), "1 0")
        face.italian(book(LAST, FIRST, version=version), "1 0", "before every other fault")
    face.chosen(b"\x01", "0 0", "the version octet alone").italian(b"\x01", "0 0")
    face.chosen(SOUND, "0 0").italian(SOUND, "0 0")
    face.check()


def refusal_2():
    """The head cut after 1 and 2 octets, the name before its first octet and by one;
    at each place."""
    face = Lookup("refusal 2")
    for before in ((), (FIRST,), (FIRST, MIDDLE)):
        place = len(before) + 1
        whole = book(*before, entry(9, 9, b"name"))
        for missing in range(1, 7):
            face.chosen(whole[:-missing], f"2 {place}", f"{missing} octets missing at {place}")
        face.chosen(whole[:-7], "0 0", "ends between two entries").chosen(whole, "0 0")
        for length, there in ((1, 0), (40, 39), (41, 40), (41, 0), (255, 254), (255, 0)):
            cut = book(*before, entry(9, 9, b"n" * there, length))
            face.chosen(cut, f"2 {place}", f"length {length}, {there} there, at {place}")
    face.check()


def refusal_3():
    face = Lookup("refusal 3")
    for place in (1, 2, 3):
        for length in (0, 1, 2, 39, 40, 41, 42, 127, 128, 254, 255):
            entries = [FIRST, MIDDLE, LAST]
            entries[place - 1] = entries[place - 1][:2] + bytes([length]) + b"n" * length
            wanted = "0 0" if 1 <= length <= 40 else f"3 {place}"
            face.chosen(book(*entries), wanted, f"length {length} at {place}")
    face.chosen(book(entry(0, 0, b"")), "3 1", "a head alone, of length 0")
    face.chosen(b"\x01\x00\x00\x00\x00", "3 1", "and one octet behind it")
    face.check()


def refusal_4():
    face = Lookup("refusal 4")

    def pair(before, behind, wanted):
        face.chosen(book(entry(*before, b"n"), entry(*behind, b"n")), wanted, f"{before} {behind}")

    for before, behind in (((0, 0), (0, 1)), ((0, 255), (1, 0)), ((5, 9), (6, 2)), ((5, 127), (5, 128)),
                           ((5, 128), (5, 255)), ((127, 0), (128, 0)), ((0, 0), (255, 255)), ((1, 0), (1, 255))):
        pair(before, behind, "0 0")
        pair(behind, before, "4 2")
        pair(before, before, "4 2")
        pair(behind, behind, "4 2")
    pair((6, 2), (5, 9), "4 2")  # falling SPA with rising SPQ
    face.chosen(book(FIRST, MIDDLE, MIDDLE), "4 3").chosen(book(FIRST, FIRST, MIDDLE), "4 2")
    face.chosen(book(MIDDLE, FIRST, LAST), "4 2").chosen(book(FIRST, LAST, MIDDLE), "4 3")
    face.chosen(book(FIRST, LAST, FIRST), "4 3", "compared with the entry before, and with that alone")
    face.chosen(book(LAST, FIRST, MIDDLE), "4 2")
    face.check()


def which_fault():
    """By place first, at one place by number."""
    face = Lookup("which fault")
    short, equal, cut = entry(6, 0, b""), entry(5, 7, b"X"), entry(6, 0, b"n", 2)
    face.chosen(book(FIRST, short, equal), "3 2").chosen(book(FIRST, equal, short), "4 2")
    face.chosen(book(FIRST, short, cut), "3 2").chosen(book(FIRST, equal, cut), "4 2")
    face.chosen(book(short, FIRST, cut), "3 1").chosen(book(short, short, short), "3 1")
    face.chosen(book(FIRST, equal, equal), "4 2").chosen(book(FIRST, MIDDLE, cut), "2 3")
    # At one entry.
    for length in (0, 41, 255):
        there = b"n" * length
        face.chosen(book(FIRST, entry(5, 7, there)), "3 2", f"{length} and equal")
        face.chosen(book(FIRST, entry(1, 1, there)), "3 2", f"{length} and falling")
        if there:
            face.chosen(book(FIRST, entry(1, 1, there[1:], length)), "2 2", f"{length}, falling, and cut")
            face.chosen(book(FIRST, entry(9, 1, there[1:], length)), "2 2", f"{length} and cut")
    face.chosen(book(FIRST, entry(1, 1, b"n", 2)), "2 2", "falling and cut")
    face.chosen(book(FIRST, b"\x01"), "2 2", "falling, and only its SPA there")
    face.chosen(book(FIRST, b"\x01\x01"), "2 2", "falling, and only its codes there")
    # Far behind: the number needs more than one octet, and more than two.
    many = [entry(n >> 8, n & 255, b"n") for n in range(65536)]
    for count in (255, 256, 300, 65535):
        face.chosen(book(*many[:count]), "0 0", f"{count} entries")
        face.chosen(book(*many[:count], many[0]), f"4 {count + 1}")
        face.chosen(book(*many[:count], b"\xFF"), f"2 {count + 1}")
        face.italian(book(*many[:count], entry(255, 255, b"")), f"3 {count + 1}")
    face.chosen(book(*many), "0 0").look(255, 255, "3 2 65536 -")
    face.italian(book(), "0 0").look(255, 255, "0 1 65536 6E").look(0, 0, "0 1 1 6E")
    face.italian(book(*many, entry(255, 255, b"n")), "4 65537")
    face.check()


# ---- look-ups ---------------------------------------------------------------

def which_book():
    italian = book(entry(5, 7, b"it 5 7"), entry(5, 8, b"it 5 8"), entry(200, 127, b"N" * 40))
    face = Lookup("which book")
    face.look(5, 7, "1 1 0 -", "no book lent").chosen(SOUND).look(5, 7, "1 2 0 -", "no Italian book lent")
    face.italian(italian)
    face.look(5, 7, "0 1 1 4142", "in both").look(5, 9, "0 1 2 43", "in the chosen one alone")
    face.look(6, 0, "0 1 3 444546", "the last entry")
    face.look(5, 8, "0 2 2 697420352038", "in the Italian one alone")
    face.look(200, 127, "0 2 3 " + "4E" * 40, "40 octets")
    for spa, spq in ((5, 6), (5, 10), (4, 7), (6, 7), (7, 5), (0, 0), (255, 255), (5, 135), (133, 7), (200, 255)):
        face.look(spa, spq, NO_NAME, f"{spa} {spq} in neither")
    # The two books change places.
    face.chosen(italian).italian(SOUND)
    face.look(5, 7, "0 1 1 697420352037").look(5, 9, "0 2 2 43").look(5, 8, "0 1 2 697420352038")
    # Without entries, both and either.
    face.chosen(book()).look(5, 7, "0 2 1 4142").look(5, 8, NO_NAME)
    face.italian(book()).look(5, 7, NO_NAME)
    face.chosen(SOUND).look(5, 7, "0 1 1 4142")
    face.check()


def which_refusal():
    """Each refusal in either book, whatever is asked for."""
    faulty = (("1 {} 0 -", b"", "1 0"), ("1 {} 0 -", book(FIRST, MIDDLE, LAST, version=2), "1 0"),
              ("2 {} 3 -", SOUND[:-1], "2 3"), ("3 {} 2 -", book(FIRST, entry(5, 9, b"")), "3 2"),
              ("4 {} 3 -", book(FIRST, MIDDLE, MIDDLE), "4 3"))
    asked = ((5, 7), (5, 9), (6, 0), (1, 1))
    face = Lookup("which refusal")
    for line, octets, checked in faulty:
        face.chosen(octets, checked).italian(SOUND)
        for pair in asked:
            face.look(*pair, line.format(1), "the chosen one faulty")
        face.chosen(SOUND).italian(octets, checked)
        for pair in asked:
            face.look(*pair, line.format(2), "the Italian one faulty behind one that has the name")
        face.chosen(book())
        face.look(5, 7, line.format(2), "the Italian one faulty behind one without entries")
        for _, other, other_checked in faulty:
            face.chosen(octets, checked).italian(other, other_checked)
            face.look(5, 7, line.format(1), "both faulty")
    face.check()


def events():
    """SPQ is the upper seven bits, SPI the lowest."""
    chosen = book(entry(5, 0, b"A"), entry(5, 7, b"B"), entry(5, 127, b"C"), entry(5, 128, b"D"), entry(5, 255, b"E"))
    face = Lookup("events").chosen(chosen).italian(book(entry(5, 1, b"F"), entry(5, 64, b"G")))
    for spq, line in ((0, "0 1 1 41"), (7, "0 1 2 42"), (127, "0 1 3 43"), (1, "0 2 1 46"), (64, "0 2 2 47"),
                      (2, NO_NAME), (14, NO_NAME), (63, NO_NAME)):
        face.look(5, spq, line)
        for spi in (0, 1):
            face.event(5, spq << 1 | spi, line, f"SPQ {spq}, SPI {spi}")
            face.event(6, spq << 1 | spi, NO_NAME, "another SPA")
    face.look(5, 128, "0 1 4 44", "an octet over 127").look(5, 255, "0 1 5 45").look(5, 129, NO_NAME)
    # SD1 4.4.2: loss and return of the GPS, SPA 18 and SPQ 4.
    face.chosen(book(entry(18, 4, "perte du GPS".encode())))
    face.event(18, 0x09, "0 1 1 706572746520647520475053").event(18, 0x08, "0 1 1 706572746520647520475053")
    face.italian(b"", "1 0").event(18, 0x09, "1 2 0 -")
    face.check()


def names_changed():
    """Other names, also of other lengths, with the codes kept: the same book and entry."""
    face = Lookup("names changed")
    codes, others = [(1, 1), (1, 2), (3, 0), (200, 9)], [(1, 2), (2, 2), (200, 9), (200, 10)]
    chosen_at = {pair: f"0 1 {place}" for place, pair in enumerate(codes, 1)}
    italian_at = {pair: f"0 2 {place}" for place, pair in enumerate(others, 1)}
    for octets in (b"a", b"zz", b"\x00" * 40, b"\x01\x01\x01\x01", b"\xFF" * 7):
        face.chosen(book(*(entry(*pair, octets) for pair in codes)))
        face.italian(book(*(entry(*pair, octets[::-1]) for pair in others)))
        for pair in {**italian_at, **chosen_at}:
            where = chosen_at.get(pair) or italian_at[pair]
            face.look(*pair, f"{where} {octets.hex().upper()}")
        face.look(1, 0, NO_NAME)
    face.check()


# ---- the look-up face -------------------------------------------------------

def calls_cut():
    """Cut at every place of four calls: the lines of the whole calls, then `cut`."""
    calls = (b"C" + be(len(SOUND), 3) + SOUND, b"I\x00\x00\x01\x01", b"L\x05\x07", b"E\x05\x0E")
    lines = ("0 0\n", "0 0\n", "0 1 1 4142\n", "0 1 1 4142\n")
    whole = b"".join(calls)
    ends = [sum(map(len, calls[:count])) for count in range(5)]
    for at in range(len(whole) + 1):
        done = sum(at >= end for end in ends[1:])
        wanted = "".join(lines[:done]) + ("" if at in ends else "cut\n")
        Tally.equal(f"lookup cut at {at}", run("lookup", whole[:at]), wanted)


def wrong_calls():
    for letter in b"cileGBO\x00\x01\n \xFF":
        # Behind it what would do for a call of this letter, and a call.
        for behind in (b"\x00\x00\x01\x01", b"L\x05\x07"):
            face = Lookup("letters").chosen(SOUND)
            face.calls += bytes([letter]) + behind
            face.check("call\n")
    for name in (b"C", b"I"):
        for length in (1_500_001, 1_500_032, 0x170000, 0x1EE360, 0xFFFFFF):
            Tally.equal("said as soon as the length is read", run("lookup", name + be(length, 3)), "call\n")
            Tally.equal("nothing behind is read", run("lookup", name + be(length, 3) + bytes(100) + b"L\0\0"), "call\n")
        longest = book() + bytes(1_499_999)
        Tally.equal("the longest", run("lookup", name + be(1_500_000, 3) + longest), "3 1\n")
        Tally.equal("the longest, cut", run("lookup", name + be(1_500_000, 3) + longest[1:]), "cut\n")
    Tally.equal("the length cut", run("lookup", b"C\xFF\xFF"), "cut\n")


def little_by_little():
    """Lines come while the input is still open."""
    slow = Slow("lookup")
    slow.feed(b"L\x05\x07")
    Tally.equal("slow lookup", slow.line(), "1 1 0 -\n")
    slow.feed(b"C" + be(len(SOUND), 3) + SOUND)
    Tally.equal("slow lookup", slow.line(), "0 0\n")
    slow.feed(b"I\x16\xE3\x61")
    Tally.equal("slow lookup: as soon as the length is read", slow.ends(), ("call\n", 0))
    slow = Slow("lookup")
    slow.feed(b"x")
    Tally.equal("slow lookup: as soon as the letter is read", slow.ends(), ("call\n", 0))


# ---- text to book -----------------------------------------------------------

def makes(what, octets, wanted):
    Tally.equal(f"book: {what}", outcome("book", octets), (0, wanted, ""))


def refuses(what, octets, where):
    """`where` is what stands up to the colon; the reason is this program's own."""
    status, output, errors = outcome("book", octets)
    Tally.equal(f"book: {what}", (status, output, errors.split(":")[0]), (1, b"", where))
    Tally.equal(f"book: {what}: one line, with a reason",
                (errors.count("\n"), errors.endswith("\n"), len(errors) > len(where) + 3), (1, True, True))


NAME = book(entry(1, 2, b"name"))


def text_lines():
    makes("no octets", b"", b"\x01")
    for octets in (b"\n", b"\r\n", b"\r", b" ", b"\t \t", b" \r", b"\n\n\r\n", b"#", b"# x\n", b"#\n#",
                   b"\t #\xC3\xA8\r\n"):
        makes(f"no entries: {octets!r}", octets, b"\x01")
    for octets in (b"1 2 name\n", b"1 2 name", b"1 2 name\r\n", b"1 2 name\r", b"\n\n1 2 name\n\n",
                   b"# one\n1 2 name\n# two", b"  1 2 name\n", b"\t1\t2\tname\n", b"1   2 \t name\n",
                   b"1 2 name \t \n", b"1 2 name \r\n", b"001 0002 name\n", b"0" * 500 + b"1 " + b"0" * 500 + b"2 name",
                   b"\xEF\xBB\xBF1 2 name\n", b"\xEF\xBB\xBF# \n1 2 name", b"\xEF\xBB\xBF\r\n1 2 name"):
        makes(f"{octets!r}", octets, NAME)
    makes("a mark alone", b"\xEF\xBB\xBF", b"\x01")
    makes("0 and 255", b"0 0 a\n255 255 b\n0 255 c\n255 0 d\n000 127 e\n",
          hx("01 0000 01 61 007F 01 65 00FF 01 63 FF00 01 64 FFFF 01 62"))
    makes("inner blanks", b"1 2  a \t b  c \n", book(entry(1, 2, b"a \t b  c")))
    makes("no comment behind a name", b"1 2 a # b\n", book(entry(1, 2, b"a # b")))
    makes("a name that starts like a comment", b"1 2 #\n", book(entry(1, 2, b"#")))
    makes("a name of digits", b"1 2 3 4\n", book(entry(1, 2, b"3 4")))
    makes("one 0D is dropped", b"1 2 a\r\r\n1 3 b\r\r", book(entry(1, 2, b"a\r"), entry(1, 3, b"b\r")))
    makes("0D within a line", b"1 2 a\rb\n1 3 c\r \n", book(entry(1, 2, b"a\rb"), entry(1, 3, b"c\r")))
    makes("other octets are no blanks", b"1 2 \x0B\x0C\x00\n", book(entry(1, 2, b"\x0B\x0C\x00")))
    makes("a mark further on is a character", b"1 2 \xEF\xBB\xBF\n", book(entry(1, 2, b"\xEF\xBB\xBF")))
    makes("01 further on", b"\n\x31 2 \x01", book(entry(1, 2, b"\x01")))


def text_sorted():
    makes("sorted by SPA", b"9 1 a\n2 1 b\n10 1 c\n", book(entry(2, 1, b"b"), entry(9, 1, b"a"), entry(10, 1, b"c")))
    makes("then by SPQ", b"2 200 a\n2 3 b\n1 255 c\n2 127 d\n",
          book(entry(1, 255, b"c"), entry(2, 3, b"b"), entry(2, 127, b"d"), entry(2, 200, b"a")))
    makes("codes that change places are two", b"1 2 a\n2 1 b\n", book(entry(1, 2, b"a"), entry(2, 1, b"b")))
    refuses("a pair twice", b"1 2 a\n1 3 b\n1 2 c\n", "line 3")
    refuses("a pair twice, the same name", b"1 2 a\n1 2 a", "line 2")
    refuses("a pair twice, with zeros", b"1 2 a\n#\n001 02 b\n", "line 3")
    refuses("a pair three times", b"0 0 a\n0 0 a\n0 0 a\n", "line 2")


def text_names():
    for length in (1, 2, 39, 40):
        name = b"n" * length
        makes(f"{length} octets", b"1 2 " + name, book(entry(1, 2, name)))
        makes(f"{length} octets, blanks not counted", b"1 2 \t " + name + b" \t\r\n", book(entry(1, 2, name)))
    for length in (41, 42, 255, 256, 257, 1000, 65536 + 5):
        refuses(f"{length} octets", b"1 1 x\n1 2 " + b"n" * length, "line 2")
    makes("40 octets in 20 characters", b"1 2 " + b"\xC3\xA8" * 20, book(entry(1, 2, b"\xC3\xA8" * 20)))
    refuses("42 octets in 21 characters", b"1 2 " + b"\xC3\xA8" * 21, "line 1")
    refuses("41 octets with a blank within", b"1 2 " + b"n" * 20 + b" " + b"n" * 20, "line 1")
    for octets in (b"1 2", b"1 2 ", b"1 2\t \t", b"1 2\n", b"1 2 \r\n", b"1 2\r", b"1 2 \n3 4 x"):
        refuses(f"no name: {octets!r}", octets, "line 1")


def text_numbers():
    for word in (b"256", b"257", b"300", b"999", b"1000", b"0256", b"65536", b"65537", b"4294967296", b"4294967297",
                 b"18446744073709551617", b"9" * 100, b"-1", b"+1", b"-0", b"1.", b"1.0", b"1,", b"0x1", b"1a", b"a1",
                 b"a", b"1e1", b"\xC2\xB2", b"/", b":", b"\"1\"", b"\xEF\xBC\x91", b"1\r", b"\x0B1"):
        refuses(f"SPA {word!r}", b"\n" + word + b" 2 name\n", "line 2")
        refuses(f"SPQ {word!r}", b"\n1 " + word + b" name\n", "line 2")
    for octets in (b"1", b"1 ", b"1\n2 name", b"name", b"1 name", b"1  name", b"\r\r\n", b"1;2;name", b"1 2#x",
                   b"x # y"):
        refuses(f"{octets!r}", octets, "line 1")
    refuses("a second mark", b"\xEF\xBB\xBF\xEF\xBB\xBF1 2 name", "line 1")
    refuses("a mark in front of a second line", b"# \n\xEF\xBB\xBF1 2 name", "line 2")
    refuses("blanks, then a mark", b" \xEF\xBB\xBF1 2 name", "line 1")
    refuses("a mark, then 01", b"\xEF\xBB\xBF\x01", "line 1")
    refuses("version 2 is a text", b"\x02" + NAME[1:], "line 1")
    refuses("version 0 is a text", b"\x00", "line 1")


UTF_8 = ("00", "7F", "C280", "DFBF", "E0A080", "E0BFBF", "E18080", "ECBFBF", "ED8080", "ED9FBF", "EE8080", "EFBFBF",
         "F0908080", "F0BFBFBF", "F1808080", "F3BFBFBF", "F4808080", "F48FBFBF", "EFBBBF", "EFBFBE")
NOT_UTF_8 = ("80", "BF", "C0", "C080", "C1BF", "C2", "C27F", "C2C0", "C220", "DF", "E0", "E0A0", "E08080", "E09FBF",
             "E0C080", "E1", "E180", "E17F80", "E1C080", "E1807F", "E180C0", "EC80", "EDA080", "EDBFBF", "ED80", "EE80",
             "EFBF", "EFBB", "F0", "F090", "F09080", "F0808080", "F08FBFBF", "F1", "F18080", "F17F8080", "F1807F80",
             "F180807F", "F18080C0", "F180C080", "F4908080", "F4BFBFBF", "F5808080", "F7BFBFBF", "F888808080",
             "FC8480808080", "FE", "FF", "C3A8A8", "A8C3A8")


def text_utf_8():
    entries, text = [], b"# " + b"".join(map(hx, UTF_8)) + b"\n"
    for place, octets in enumerate(map(hx, UTF_8)):
        entries.append(entry(place, 0, b"<" + octets + b">"))
        text += b"%d 0 <%s>\n" % (place, octets)
    makes("UTF-8", text, book(*entries))
    for octets in map(hx, NOT_UTF_8):
        refuses(f"a name with {octets.hex()}", b"1 1 a\n1 2 <" + octets + b">\n", "line 2")
        refuses(f"a name that ends with {octets.hex()}", b"1 2 " + octets, "line 1")
        refuses(f"a comment with {octets.hex()}", b"#\r\n\r\n  # " + octets + b"\r\n1 2 a\n", "line 3")
    refuses("a character over the line's end", b"# \xC3\n\xA8", "line 1")
    refuses("half a mark", b"\xEF\xBB", "line 1")
    refuses("a mark of UTF-16", b"\xFF\xFE1\x00", "line 1")
    refuses("a line of Latin-1", b"# \xE8\n", "line 1")


def text_first_line():
    """The first faulty line is named, every line counted."""
    faults = (b"\xFF", b"256 1 x", b"1 2", b"1 2 " + b"n" * 41, b"9 9 twice")
    for fault in faults:
        for before in range(4):
            fine = b"# c\n\n9 9 once\r\n \t\r\n" + b"%d 3 x\n" * before % tuple(range(before))
            for behind in (b"",) + faults:
                refuses("the first", fine + fault + b"\n" + behind, f"line {5 + before}")
    refuses("far behind", b"\n" * 70_000 + b"x", "line 70001")


def text_sizes():
    codes = [(spa, spq) for spa in range(256) for spq in range(256)]
    every = book(*(entry(*pair, b"n") for pair in codes))
    makes("every pair, falling", b"".join(b"%d %d n\n" % pair for pair in reversed(codes)), every)
    makes("and back", every, b"".join(b"%d %d n\n" % pair for pair in codes))
    line = b"1 2 name\n"
    makes("4,000,000 octets", line + b"#" * (4_000_000 - len(line)), NAME)
    makes("4,000,000 octets with the mark", b"\xEF\xBB\xBF" + line + b" " * (4_000_000 - 3 - len(line)), NAME)
    for octets in (line + b"#" * (4_000_001 - len(line)), b"\n" * 4_000_001, b"x\xFF" * 2_000_001,
                   b"\xEF\xBB\xBF" + line + b" " * (4_000_001 - 3 - len(line))):
        Tally.equal("4,000,001 octets", outcome("book", octets), (1, b"", "text too long\n"))
    refuses("4,000,000 octets, the last faulty", line + b"\n" * (3_999_999 - len(line)) + b"x", "line 3999992")
    largest = book(*(entry(*pair, b"N" * 40) for pair in codes))
    text = b"".join(b"%d %d %s\n" % (*pair, b"N" * 40) for pair in codes)
    makes("the largest book", largest, text)
    makes("and back", text, largest)
    refuses("a longer book", largest + bytes(2_000_000), "entry 65537")


# ---- book to text -----------------------------------------------------------

def books():
    makes("no entries", b"\x01", b"")
    makes("three entries", SOUND, b"5 7 AB\n5 9 C\n6 0 DEF\n")
    makes("no leading zeros", book(entry(0, 0, b"a"), entry(9, 10, b"b"), entry(100, 255, b"c")),
          b"0 0 a\n9 10 b\n100 255 c\n")
    makes("octets as they stand", book(entry(1, 2, b" \x00\xFF\n# "), entry(1, 3, b"%s")),
          b"1 2  \x00\xFF\n# \n1 3 %s\n")
    for octets, place in ((SOUND[:-1], 3), (SOUND[:3], 1), (SOUND + b"\x07", 4), (book(entry(1, 2, b"")), 1),
                          (book(FIRST, entry(5, 9, b"n" * 41)), 2), (book(FIRST, MIDDLE, MIDDLE), 3),
                          (book(LAST, FIRST), 2), (book(FIRST, LAST, MIDDLE, FIRST), 3), (b"\x01\n", 1),
                          (b"\x01 2 name\n", 1)):
        refuses(f"a faulty book, {octets.hex()}", octets, f"entry {place}")


def there_and_back():
    """Text, book, text: the entry lines, sorted, with single spaces; from then on nothing moves."""
    text = ("\ufeff# names\r\n\r\n20\t001   Chute de tension,  phase 8 \r\n 3 0 Coupure d'alimentation\n"
            "18 1\tDétection d’intrusion\r").encode()
    _, made, _ = outcome("book", text)
    back = ("3 0 Coupure d'alimentation\n18 1 Détection d’intrusion\n"
            "20 1 Chute de tension,  phase 8\n").encode()
    makes("text, book, text", made, back)
    makes("and book again", back, made)


def at_random():
    """Sanitizers watch; a book that is made is sound, and its text makes it again."""
    source = random.Random(20010101)
    alphabet = [b"0", b"1", b"2", b"12 ", b"7 9 ", b" ", b"\t", b"\n", b"\r\n", b"#", b"a", b"\xC3\xA8",
                b"\xEF\xBB\xBF", b"\xE2"]
    weights = [3, 3, 3, 9, 9, 6, 2, 9, 3, 1, 9, 3, 0.1, 0.05]
    made = 0
    for _ in range(150):
        text = b"1 1 a\n" + b"".join(source.choices(alphabet, weights, k=source.randrange(1, 12)))
        status, output, errors = outcome("book", text)
        Tally.equal(f"random text {text!r}: book or refusal", status == 0, errors == "" and output != b"")
        if status == 0:
            made += 1
            Tally.equal("a made book is sound", run("lookup", b"C" + be(len(output), 3) + output), "0 0\n")
            Tally.equal("and its text makes it again", outcome("book", outcome("book", output)[1]), (0, output, ""))
    Tally.equal("some are made, some are not", 10 < made < 140, True)
    calls = b""
    for _ in range(3000):
        octets = source.choice([b"\x01" + source.randbytes(source.randrange(12)), SOUND + source.randbytes(3)])
        calls += source.choice([b"C", b"I"]) + be(len(octets), 3) + octets + b"L" + source.randbytes(2)
    Tally.equal("random books: two lines each", len(run("lookup", calls).splitlines()), 6000)
    for _ in range(60):
        run("lookup", source.choice([b"C", b"I", b"L", b"E"]) + source.randbytes(30))


run_parts(refusal_1, refusal_2, refusal_3, refusal_4, which_fault, which_book, which_refusal, events, names_changed,
          calls_cut, wrong_calls, little_by_little, text_lines, text_sorted, text_names, text_numbers, text_utf_8,
          text_first_line, text_sizes, books, there_and_back, at_random)
