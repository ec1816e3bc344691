#!/usr/bin/env python3
"""slips.py [NAME or SECTION ...]: do the comparison's inputs notice small slips?

Each entry of slips/entries.txt is put into a copy of the second program's sources, which is built with `make` and
compared with the right program on the inputs of the fixed set, in their order, until it is noticed. The table goes to
docs/SLIPS.md, with a sum over all that its rows rest on; with names or sections only these slips are tried, only their
rows are replaced, and the sum stays. Status 1 if a slip is not noticed.
"""

import hashlib
import os
import shutil
import subprocess
import sys
import tempfile
import time
from pathlib import Path

from compare import fixed_set
from programs import COUNTED, FACES, ROOT, difference

SOURCE = ROOT / "second"
ENTRIES = ROOT / "tests" / "slips" / "entries.txt"
TABLE = ROOT / "docs" / "SLIPS.md"
INPUTS = ("books", "compare", "eleven", "generate", "lines", "meter", "systematic", "talk", "why", "wire")


def rests_on():
    """The line that says what the rows rest on: a sum over the second program, the inputs and the slips."""
    files = [*SOURCE.glob("*.[ch]"), *(ROOT / "tests" / f"{name}.py" for name in INPUTS), ENTRIES]
    together = hashlib.sha256()
    for file in sorted(files):
        together.update(f"{file.name} {hashlib.sha256(file.read_bytes()).hexdigest()}\n".encode())
    return f"Second program, inputs and slips: {together.hexdigest()[:16]}."


class Slip:
    def __init__(self, name):
        self.name = name
        self.section = self.file = ""
        self.old, self.new = [], []

    def read_line(self, line):
        if line.startswith("-"):
            self.old.append(line[2:])
        elif line.startswith("+"):
            self.new.append(line[2:])
        elif line.strip():
            self.section, self.file = (part.strip() for part in line.split("|"))

    def apply(self, source):
        path = Path(source) / self.file
        text, old = path.read_text(), "\n".join(self.old)
        if text.count(old) != 1:
            raise ValueError(f"{self.name}: the old text occurs {text.count(old)} times in {self.file}")
        path.write_text(text.replace(old, "\n".join(self.new)))


def read_slips():
    slips = []
    for line in ENTRIES.read_text().splitlines():
        if line.startswith("== "):
            slips.append(Slip(line[3:].strip()))
        elif slips and not line.startswith("#"):
            slips[-1].read_line(line)
    names = [slip.name for slip in slips]
    if len(set(names)) != len(names):
        raise ValueError("a name is given twice: " + ", ".join(name for name in set(names) if names.count(name) > 1))
    return slips


def make(source, what):
    made = subprocess.run(["make", "-s"], cwd=source, capture_output=True, text=True)
    if made.returncode != 0:
        sys.exit(f"{what} does not build:\n{made.stderr}")
    return os.path.join(source, "build")


def build_right(target):
    """A copy of the sources, built; returns the folder of its programs."""
    shutil.copytree(SOURCE, target, ignore=shutil.ignore_patterns("build", "build-san", "check"))
    return make(target, "the right program")


def build_slip(right, target, slip):
    """A copy of the right sources and programs with the slip, in which `make` has only those to build that have it."""
    shutil.copytree(os.path.dirname(right), target)
    slip.apply(target)
    return make(target, slip.name)


def program_octets(folder, face):
    return Path(folder, face).read_bytes()


class RightAnswers:
    """The right program's outcomes, each worked out once and kept for all slips."""

    def __init__(self, folder):
        self.folder = folder
        self.inputs = fixed_set()
        self.known = []

    def __iter__(self):
        """(face, name, octets, way to run, outcome) of the fixed set, in order."""
        at = 0
        while True:
            if at == len(self.known):
                following = next(self.inputs, None)
                if following is None:
                    return
                face, name, octets, run = following
                self.known.append((face, name, octets, run, run(self.folder, face, octets)))
            yield self.known[at]
            at += 1


class Finding:
    """What became of a slip: by which input it was noticed, after how many runs, gaps, calls and conversions."""

    def __init__(self, slip):
        self.slip = slip
        self.compared = dict.fromkeys(FACES, 0)
        self.noticed_by = None

    def try_inputs(self, folder, answers):
        changed = {face for face in FACES if program_octets(folder, face) != program_octets(answers.folder, face)}
        for face, name, octets, run, right in answers:
            # A program that is the right one, octet for octet, need not be run.
            found = difference(right, run(folder, face, octets)) if face in changed else None
            if found:
                self.compared[face] += found.count()
                self.noticed_by = f"{face}, {name}"
                return
            self.compared[face] += right.count()

    def row(self):
        after = ", ".join(f"{self.compared[face]} {counted}" for face, counted in COUNTED.items())
        if self.noticed_by is None:
            return f"| {self.slip.name} | {self.slip.section} | **not noticed** after {after} | |"
        return f"| {self.slip.name} | {self.slip.section} | {after} | {self.noticed_by} |"


def try_slip(slip, answers):
    finding = Finding(slip)
    with tempfile.TemporaryDirectory() as folder:
        finding.try_inputs(build_slip(answers.folder, os.path.join(folder, "slip"), slip), answers)
    return finding


def known_rows():
    """The rows of the table by slip."""
    if not TABLE.exists():
        return {}
    rows = [line for line in TABLE.read_text().splitlines() if line.startswith("| ")]
    return {row.split(" | ")[0][2:]: row for row in rows}


def known_sum():
    found = [line for line in TABLE.read_text().splitlines() if line.startswith("Second program, ")] if TABLE.exists() else []
    return found[0] if found else "Second program, inputs and slips: never tried together."


def write_table(slips, findings):
    by_name = known_rows() | {finding.slip.name: finding.row() for finding in findings}
    whole = len(findings) == len(slips)
    rows = [by_name[slip.name] for slip in slips if slip.name in by_name]
    missed = sum("**not noticed**" in row for row in rows)
    text = [
        "# Slips", "",
        "How much the comparison notices. Written by `tests/slips.py`: each slip is put into the second program alone, and",
        "the fixed set is given to both until an output differs. Runs (of `print`), gaps (of `drive`), calls (of `lookup`) and",
        "conversions (of `book`) are those compared until then, in the order of the fixed set: first a dozen conversations",
        "with the card over each of its faces, random inputs of `lookup` and `book`, a dozen conversations with cards of the",
        "eleven-bit profile and a dozen with questions, then the systematic inputs, then the other conversations. A line",
        "`version`, `image`, `cut`, `call` or `why` counts as one, too. A program that a slip leaves as it was, octet for",
        "octet, is not run again.", "",
        "`./test` sees that nothing that the rows rest on has changed since they were written; the sum below is over it.", "",
        f"{len(rows)} slips, {len(rows) - missed} noticed.", "",
        rests_on() if whole else known_sum(), "",
        "| slip | section | noticed after | by |", "|---|---|---|---|"]
    TABLE.write_text("\n".join(text + rows) + "\n")


def main(wanted):
    slips = read_slips()
    findings, begun = [], time.time()
    with tempfile.TemporaryDirectory() as folder:
        answers = RightAnswers(build_right(os.path.join(folder, "right")))
        for slip in slips:
            if not wanted or slip.name in wanted or slip.section in wanted:
                findings.append(try_slip(slip, answers))
                print(f"{time.time() - begun:4.0f} s {findings[-1].row()}", flush=True)
    write_table(slips, findings)
    missed = [finding.slip.name for finding in findings if finding.noticed_by is None]
    print(f"{len(findings)} slips, {len(findings) - len(missed)} noticed; not noticed: {', '.join(missed) or 'none'}")
    return 1 if missed else 0


if __name__ == "__main__":
    sys.exit(main(sys.argv[1:]))
