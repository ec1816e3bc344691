"""Runs the programs of a folder and compares their outputs."""

import os
import subprocess
import tempfile
import time
from pathlib import Path

ROOT = Path(__file__).resolve().parent.parent
# The folders of programs that are compared where none are named.
PROVED, SECOND = ROOT / "proved", ROOT / "second" / "build"

SECONDS_FOR_ONE_INPUT = 120
LONGEST_SHOWN = 2000  # octets of a line; a book may be one line of megabytes
NOT_ENDED = f"not ended after {SECONDS_FOR_ONE_INPUT} seconds"
# Each program, and what is counted of it: lines, but of `book`, whose output is not made of lines, the inputs. An
# answer to `W` is a line of `drive`, too.
COUNTED = {"print": "runs", "drive": "gaps", "lookup": "calls", "book": "conversions"}
FACES = tuple(COUNTED)
# Whose standard error is compared, too.
COMPLAINING = ("book",)


class Outcome:
    """What one program made of one input."""

    def __init__(self, face, output, errors, ending):
        self.face = face
        self.output = output
        self.complaint = place_of(errors)
        self.ending = ending  # "", or why the program did not end by itself

    def lines(self):
        """The output's lines; octets that are no ASCII count one by one."""
        lines = self.output.decode("latin-1").split("\n")
        return [*lines, f"standard error: {self.complaint}"] if self.complaint else lines

    def count(self):
        return counted(self.face, self.output.count(b"\n"))


def counted(face, lines):
    """How much is compared where so many lines of output are."""
    return 1 if face == "book" else lines


def place_of(errors):
    """Of standard error the text up to the first colon: the reason behind it is left to the programs."""
    return errors.decode("latin-1").split(":")[0]


def ending_of(code):
    # Other exit statuses are left to the programs: the paper asks for none.
    return f"ended by signal {-code}" if code < 0 else ""


def run_program(folder, face, octets):
    """Input and output are files: a pipe would wake this side up for every line."""
    with tempfile.TemporaryFile() as given, tempfile.TemporaryFile() as taken, tempfile.TemporaryFile() as errors:
        given.write(octets)
        given.seek(0)
        process = subprocess.Popen([os.path.join(folder, face)], stdin=given, stdout=taken,
                                   stderr=errors if face in COMPLAINING else None)
        try:
            ending = ending_of(process.wait(SECONDS_FOR_ONE_INPUT))
        except subprocess.TimeoutExpired:
            process.kill()
            process.wait()
            ending = NOT_ENDED
        taken.seek(0)
        errors.seek(0)
        return Outcome(face, taken.read(), errors.read(), ending)


def run_little_by_little(folder, face, octets, piece=3):
    """The same through a pipe that delivers a few octets at a time."""
    process = subprocess.Popen([os.path.join(folder, face)], stdin=subprocess.PIPE, stdout=subprocess.PIPE,
                               stderr=subprocess.PIPE if face in COMPLAINING else None, bufsize=0)
    for at in range(0, len(octets), piece):
        try:
            process.stdin.write(octets[at:at + piece])
        except BrokenPipeError:
            break  # the program has read enough
        time.sleep(0.0002)
    try:
        output, errors = process.communicate(timeout=SECONDS_FOR_ONE_INPUT)
        ending = ending_of(process.returncode)
    except subprocess.TimeoutExpired:
        process.kill()
        output, errors = process.communicate()
        ending = NOT_ENDED
    return Outcome(face, output, errors or b"", ending)


class Difference:
    """The first place where two outcomes part."""

    def __init__(self, first, second):
        self.face = first.face
        ours, theirs = first.lines(), second.lines()
        shared = min(len(ours), len(theirs))
        self.at = next((at for at in range(shared) if ours[at] != theirs[at]), shared)
        self.first_line = self.describe(ours, first)
        self.second_line = self.describe(theirs, second)

    def describe(self, lines, outcome):
        line = lines[self.at] if self.at < len(lines) else "(no line)"
        shown = line[:LONGEST_SHOWN].encode("unicode_escape").decode("ascii")
        return f"{shown or '(end of output)'}{'  ' + outcome.ending if outcome.ending else ''}"

    def count(self):
        """How much was compared, the place that differs with it."""
        return counted(self.face, self.at + 1)

    def text(self):
        unit = "line" if self.face in ("book", "drive") else COUNTED[self.face].removesuffix("s")
        return f"{unit} {self.at + 1} differs\nfirst:  {self.first_line}\nsecond: {self.second_line}"


def difference(first, second):
    """None where both programs did the same. One that did not end by itself is never right."""
    same = first.output == second.output and first.complaint == second.complaint
    if same and not first.ending and not second.ending:
        return None
    return Difference(first, second)
