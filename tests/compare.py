#!/usr/bin/env python3
"""compare.py [FIRST SECOND] [--seed S] [--print N] [--drive N] [--eleven N] [--why N] [--lookup N] [--book N]
           [--fixed] [--only TEXT]

Gives the same inputs to the programs `print`, `drive`, `lookup` and `book` of two folders and compares what they write,
octet for octet; of `book` also what it writes on standard error, up to the first colon.
Without folders: the proved programs and the second program, both built.

    --fixed      the fixed set: every systematic input (systematic.py, eleven.py, why.py, books.py) and random ones of
                 fixed seeds
    --only TEXT  of the fixed set the inputs that have this in their name: `eleven` for those of eleven.py and the
                 conversations with a card of the eleven-bit profile, `why` for all with questions
    --print N    conversations from seed S until N runs have been printed by each program
    --drive N    the same until N gaps have been driven
    --eleven N   the same with cards of the eleven-bit profile
    --why N      the same with cards of either profile and questions between the gaps, which are not counted
    --lookup N   books and look-ups from seed S until N calls have been answered by each program
    --book N     N texts and books from seed S
    --seed S     the seed of these, 1 if not given

Ends at the first difference: status 1, the input in a file `difference-FACE.bin`, the run, gap, call or line and both
lines shown.
"""

import argparse
import itertools
import sys
import time

from books import names_little_by_little, repository_books, systematic_names
from coverage import Coverage
from eleven import eleven_bit_inputs, eleven_bits_little_by_little
from generate import KINDS, random_inputs
from programs import PROVED, SECOND, difference, run_little_by_little, run_program
from systematic import little_by_little, systematic_inputs
from why import why_inputs, why_little_by_little

# Random inputs in the fixed set: some before the systematic inputs, for most faults show at once, and the rest behind
# them. An input has about 270 runs or 190 gaps.
EARLY_INPUTS = {"print": 12, "drive": 12, "lookup": 24, "book": 110, "eleven": 12, "why": 12}
LATER_INPUTS = {"print": 780, "drive": 290, "eleven": 40, "why": 40}


def drawn(seed, counts):
    for kind, count in counts.items():
        for name, octets in itertools.islice(random_inputs(seed, kind), count):
            yield KINDS[kind], name, octets, run_program


def fixed_set():
    """(face, name, octets, way to run) of every input of the fixed set, in its order. The repository's own books are
    the last, so that no count of docs/SLIPS.md moves with them."""
    yield from drawn("early", EARLY_INPUTS)
    for face, name, octets in itertools.chain(why_inputs(), eleven_bit_inputs(), systematic_names(),
                                              systematic_inputs()):
        yield face, name, octets, run_program
    for face, name, octets in itertools.chain(names_little_by_little(), little_by_little(),
                                              eleven_bits_little_by_little(), why_little_by_little()):
        yield face, name, octets, run_little_by_little
    yield from drawn("fixed", LATER_INPUTS)
    for face, name, octets in repository_books():
        yield face, name, octets, run_program


class Comparison:
    """Two folders and what has been compared of them."""

    def __init__(self, first, second):
        self.first = first
        self.second = second
        self.coverage = Coverage()

    def compare(self, face, name, octets, run=run_program):
        """True if the programs agree on this input."""
        first, second = run(self.first, face, octets), run(self.second, face, octets)
        found = difference(first, second)
        if found:
            report(face, name, octets, found)
        else:
            # Only now: a program that is wrong may write lines that cannot be taken apart.
            self.coverage.note(octets, first)
        return found is None

    def compare_drawn(self, seed, kind, count):
        """Random inputs until so many runs, gaps, calls or conversions have been compared."""
        face = KINDS[kind]
        goal = self.coverage.compared[face] + count
        for name, octets in random_inputs(seed, kind):
            if self.coverage.compared[face] >= goal:
                return True
            if not self.compare(face, name, octets):
                return False

    def compare_fixed(self, only):
        return all(self.compare(*given) for given in fixed_set() if only in given[1])


def report(face, name, octets, found):
    path = f"difference-{face}.bin"
    with open(path, "wb") as file:
        file.write(octets)
    print(f"{face}, {name} (saved to {path}, {len(octets)} octets): {found.text()}")


def arguments():
    parser = argparse.ArgumentParser(description=__doc__, formatter_class=argparse.RawDescriptionHelpFormatter)
    parser.add_argument("first", nargs="?", default=PROVED)
    parser.add_argument("second", nargs="?", default=SECOND)
    parser.add_argument("--seed", default="1")
    for kind in KINDS:
        parser.add_argument(f"--{kind}", type=int, default=0, metavar="N")
    parser.add_argument("--fixed", action="store_true")
    parser.add_argument("--only", default="", metavar="TEXT")
    return parser.parse_args()


def main():
    wanted = arguments()
    comparison = Comparison(wanted.first, wanted.second)
    begun = time.time()
    agree = not wanted.fixed or comparison.compare_fixed(wanted.only)
    for kind in KINDS:
        agree = agree and comparison.compare_drawn(wanted.seed, kind, getattr(wanted, kind))
    print(comparison.coverage.table())
    print(f"\n{time.time() - begun:.0f} s; " + ("no difference" if agree else "they differ"))
    return 0 if agree else 1


if __name__ == "__main__":
    sys.exit(main())
