"""What occurred, counted from the output lines of a program: how deep the inputs go."""

from collections import Counter

from programs import COUNTED

FIXED_REPLIES = {0x00: "ACK", 0x01: "NACK", 0x09: "nothing (09)", 0x0B: "status (0B)"}
REPLY_TYPES = (1, 8, 11, 71, 72, 131)
READING_TYPES, OBJECTS, OBJECT_OCTETS = (8, 11), range(1, 7), 6
EVENTS_TYPE, EVENT_OCTETS = 1, 9
REQUEST_TYPES = (100, 102, 103, 122, 123, 181, 183, 185, 186, 187)
CAUSES = ("7", "7 P/N", "10", "13", "14", "15", "16", "17", "18")
NUMBERS = tuple(map(str, range(11)))
# Of questions, as they are printed: the words in the paper's order, and the numbers that have no word.
WHY_WORDS = ("marked", "type", "session", "point", "other", "shape", "record", "objects", "reading-label",
             "reading-range", "no-reading", "event-label", "event-range", "no-event", "clock", "no-dates", "time",
             "password", "accepted")
WHY_REFUSALS = ("1", "2")
FAULTS = ("version", "image", "cut", "call")
DATA, P_N, CAUSE_BITS = 5, 0x40, 0x3F
# Of books and look-ups, as they are printed.
SOUND, BOOK_REFUSALS = "0", ("1", "2", "3", "4")
NEITHER, CHOSEN, ITALIAN = "0", "1", "2"


def reply_of_line(face, fields):
    """The reply's octets of a line that was split at spaces."""
    if face == "print":
        return b"" if fields[3] == "-" else bytes.fromhex("".join(fields[3:]))
    return bytes.fromhex(fields[5])[:int(fields[1])]


def order_of_line(face, fields):
    return fields[2]


def number_of_line(face, fields):
    return fields[1] if face == "print" else fields[0]


def hours_of_labels(reply):
    """The hour octets of the labels that a type 1, 8 or 11 carries, each the fourth octet from its label's end."""
    if reply[7] == EVENTS_TYPE:
        return reply[13 + EVENT_OCTETS - 4:-2:EVENT_OCTETS]
    return reply[-6:-5] if reply[7] in READING_TYPES else b""


class CardCoverage:
    """Counters of `print` and `drive` together, and of each for result numbers and faults."""

    def __init__(self):
        self.numbers = Counter()    # by face and number, or face and fault word
        self.orders = Counter()
        self.replies = Counter()    # fixed replies by name, data replies by type
        self.objects = Counter()    # of readings, by type, first and last object
        self.labels = Counter()     # of readings and events, by type and SU
        self.changed = 0            # type 1 in which SU changes
        self.mirrors = Counter()    # by request type and cause
        self.questions = Counter()  # by word, or number of a refusal
        self.most_octets = 0

    def note_line(self, face, fields):
        """True for a run or a gap, false for a question or a fault word."""
        if fields[0] == "why":
            self.questions[fields[1] if fields[1] in WHY_REFUSALS else fields[2]] += 1
            return False
        if len(fields) < 4:
            self.numbers[face, fields[0]] += 1
            return False
        self.numbers[face, number_of_line(face, fields)] += 1
        self.orders[order_of_line(face, fields)] += 1
        reply = reply_of_line(face, fields)
        if reply:
            self.note_reply(reply)
        return True

    def note_reply(self, reply):
        self.most_octets = max(self.most_octets, len(reply))
        if reply[0] == 0x10:
            self.replies[FIXED_REPLIES.get(reply[1], "other")] += 1
        elif reply[9] & CAUSE_BITS == DATA:
            self.replies[reply[7]] += 1
            last = 13 + OBJECT_OCTETS * (reply[8] - 1)
            if reply[7] in READING_TYPES and last < len(reply):
                self.objects[reply[7], reply[13], reply[last]] += 1
            summers = [hour >> 7 for hour in hours_of_labels(reply)]
            for summer in summers:
                self.labels[reply[7], summer] += 1
            self.changed += len(set(summers)) > 1
        else:
            cause = str(reply[9] & CAUSE_BITS) + (" P/N" if reply[9] & P_N else "")
            self.mirrors[reply[7] if reply[7] in REQUEST_TYPES else "other", cause] += 1

    def table(self):
        rows = [f"longest reply {self.most_octets} octets", "", "| result | print | drive |", "|---|---|---|"]
        for number in (*NUMBERS, *FAULTS):
            rows.append(f"| {number} | {self.numbers['print', number]} | {self.numbers['drive', number]} |")
        rows += ["", "| reply | times |", "|---|---|"]
        for reply in (*FIXED_REPLIES.values(), *REPLY_TYPES):
            rows.append(f"| {reply if isinstance(reply, str) else f'type {reply}'} | {self.replies[reply]} |")
        for order in ("clock", "dates"):
            rows.append(f"| order {order} | {self.orders[order]} |")
        rows += ["", "| labels of | SU 0 | SU 1 |", "|---|---|---|"]
        for kind in (EVENTS_TYPE, *READING_TYPES):
            rows.append(f"| type {kind} | {self.labels[kind, 0]} | {self.labels[kind, 1]} |")
        rows.append(f"| type 1 with both | {self.changed} | |")
        for kind in READING_TYPES:
            rows += ["", f"| type {kind} from, to | " + " | ".join(map(str, OBJECTS)) + " |", "|---" * (len(OBJECTS) + 1) + "|"]
            for first in OBJECTS:
                rows.append(f"| {first} | " + " | ".join(str(self.objects[kind, first, last] or "") for last in OBJECTS) + " |")
        rows += ["", "| mirror of | " + " | ".join(CAUSES) + " |", "|---" * (len(CAUSES) + 1) + "|"]
        for kind in (*REQUEST_TYPES, "other"):
            rows.append(f"| {kind} | " + " | ".join(str(self.mirrors[kind, cause] or "") for cause in CAUSES) + " |")
        rows += ["", f"{self.questions.total()} questions", "", "| question | times |", "|---|---|"]
        for word in WHY_WORDS:
            rows.append(f"| {word} | {self.questions[word]} |")
        for number in WHY_REFUSALS:
            rows.append(f"| refusal {number} | {self.questions[number]} |")
        return "\n".join(rows)


class NamesCoverage:
    """Counters of `lookup` and `book`."""

    def __init__(self):
        self.checks = Counter()       # by number
        self.refusals = Counter()     # of look-ups, by number and book
        self.found = Counter()        # of look-ups that are not refused, by book
        self.faults = Counter()       # by word
        self.conversions = Counter()  # by what was given, and accepted or refused

    def note_line(self, fields):
        """True for a check or a look-up, false for a fault word."""
        if len(fields) == 1:
            self.faults[fields[0]] += 1
            return False
        number, book = fields[:2]
        if len(fields) == 2:
            self.checks[number] += 1
        elif number == SOUND:
            self.found[book] += 1
        else:
            self.refusals[number, book] += 1
        return True

    def note_conversion(self, octets, outcome):
        given = "book" if octets[:1] == b"\x01" else "text"
        self.conversions[given, "refused" if outcome.complaint else "accepted"] += 1

    def table(self):
        rows = ["| book | checked | chosen, in a look-up | Italian, in a look-up |", "|---|---|---|---|",
                f"| sound | {self.checks[SOUND]} | | |"]
        for number in BOOK_REFUSALS:
            rows.append(f"| refusal {number} | {self.checks[number]} | {self.refusals[number, CHOSEN]} |"
                        f" {self.refusals[number, ITALIAN]} |")
        rows += ["", "| look-up | times |", "|---|---|"]
        for what, book in (("name from the chosen book", CHOSEN), ("name from the Italian book", ITALIAN),
                           ("no name", NEITHER)):
            rows.append(f"| {what} | {self.found[book]} |")
        for fault in ("cut", "call"):
            rows.append(f"| {fault} | {self.faults[fault]} |")
        rows += ["", "| conversion of a | accepted | refused |", "|---|---|---|"]
        for given in ("text", "book"):
            rows.append(f"| {given} | {self.conversions[given, 'accepted']} | {self.conversions[given, 'refused']} |")
        return "\n".join(rows)


class Coverage:
    """What occurred over all faces."""

    def __init__(self):
        self.inputs = Counter()    # by face
        self.compared = Counter()  # by face: runs, gaps, calls, conversions
        self.card = CardCoverage()
        self.names = NamesCoverage()

    def note(self, octets, outcome):
        face = outcome.face
        self.inputs[face] += 1
        if face == "book":
            self.names.note_conversion(octets, outcome)
            self.compared[face] += 1
            return
        for line in outcome.output.decode("ascii", "replace").splitlines():
            fields = line.split()
            whole = self.names.note_line(fields) if face == "lookup" else self.card.note_line(face, fields)
            self.compared[face] += whole

    def compared_so_far(self):
        return ", ".join(f"{self.compared[face]} {counted}" for face, counted in COUNTED.items())

    def table(self):
        inputs = ", ".join(f"{self.inputs[face]} {face}" for face in COUNTED)
        return f"inputs: {inputs}; compared: {self.compared_so_far()}; {self.card.table()}\n\n{self.names.table()}"
