#!/usr/bin/env python3
"""edits.py [CRATE or CRATE/NAME ...], or edits.py --log FILE: is each wrong version refused, and because a fact fails?

A wrong version is a file crates/CRATE/must-fail/NAME.edit in the form of `rt must-fail`, with a line more:

    # what is wrong with it, in words
    call: the public call whose promise it breaks
    file: src/lib.rt
    old: a text that the file has once
    new: what stands there instead

Each is put into a copy of its crate, and the prover has to refuse the copy: `rt ci` sees to it, and `rt must-fail`, which begins with
what `rt check` kept. Here what they print of each refusal is read as well: a proof that no longer fits the code (a name that is gone, an
equation that a rewrite looks for in vain), a limit of the prover and an edit that does not apply show nothing of the promise, and count as
failures. With --log nothing is tried, and FILE is what `rt ci` or `rt must-fail` has printed; an edit that it does not tell of fails, too.

Its last line is 'N refused, M failed'; status 1 if one failed.
"""

import collections
import re
import subprocess
import sys
from pathlib import Path

from programs import ROOT

CRATES = ROOT / "crates"

# What is printed of a refusal where a fact fails. The first pattern that fits decides; anything else shows nothing of the edit.
KINDS = (
    ("numbers at which the goal fails", r"`omega`: the (goal|part) .*does not follow"),
    ("two sides that differ", r"the two (types|sides) (first |only )?differ|give a proof of that as the last argument|: expected type"),
    ("two sides that the known equations do not join", r"list the missing equation with its arguments"),
    ("values at which the goal fails", r"it is not proved that .*; the facts known there allow values"),
    ("no proof is found", r"`search`: no proof of|`search` does not close"),
)
TOLD = re.compile(r"rt: must-fail (\w+)/([\w.-]+)\.edit: (.*)")
REFUSED = "refused, as it must be"


class Edit:
    def __init__(self, path):
        self.crate, self.name = path.parent.parent.name, path.stem
        self.label = f"{self.crate}/{self.name}"
        self.says, self.call = "", ""
        for line in path.read_text(encoding="utf8").splitlines():
            word, _, rest = line.partition(" ")
            if word == "#":
                self.says = self.says or rest
            elif word == "call:":
                self.call = rest


def read_edits(wanted=()):
    edits = [Edit(path) for path in sorted(CRATES.glob("*/must-fail/*.edit"))]
    return [edit for edit in edits if not wanted or edit.crate in wanted or edit.label in wanted]


def judged(told):
    """What is at fault with an edit, or nothing; then where it is refused, and what the refusal says."""
    if told is None:
        return "nothing is told of it", "", ""
    if not told.startswith(f"{REFUSED}: "):
        return told, "", ""
    error = told.removeprefix(f"{REFUSED}: ")
    where = re.match(r"(?:note: )?(?:\./)?(\S+?):\d+:\d+: ", error)
    name = re.search(r"error: `([^`]+)`|\(`([^`]+)`\)", error)
    place = ", ".join(filter(None, (where and where.group(1), name and (name.group(1) or name.group(2)))))
    for kind, pattern in KINDS:
        if re.search(pattern, error):
            return "", place, kind
    return f"refused, and not because a fact fails: {error}", place, ""


def tried(edits):
    """The lines that `rt must-fail` prints of these edits' crates."""
    crates = sorted({edit.crate for edit in edits})
    with subprocess.Popen(["rt", "must-fail", *crates], cwd=ROOT, stdout=subprocess.PIPE, text=True, errors="replace") as run:
        yield from run.stdout


def main(words):
    if words[:1] == ["--log"]:
        edits, lines = read_edits(), Path(words[1]).read_text(encoding="utf8", errors="replace").splitlines()
    else:
        edits = read_edits(words)
        lines = tried(edits)
    told = {f"{found.group(1)}/{found.group(2)}": found.group(3) for line in lines if (found := TOLD.match(line))}
    failed, kinds = 0, collections.Counter()
    for edit in edits:
        fault, where, kind = judged(told.get(edit.label))
        if fault:
            failed += 1
            print(f"edits: {edit.label}: FAILED: {fault}")
        else:
            kinds[kind] += 1
            print(f"edits: {edit.label}: refused at {where}: {kind}")
    for kind, many in kinds.most_common():
        print(f"edits: {many:4} {kind}")
    print(f"{len(edits) - failed} refused, {failed} failed")
    return 1 if failed else 0


if __name__ == "__main__":
    if sys.argv[1:2] == ["--log"] and len(sys.argv) != 3:
        sys.exit(__doc__)
    sys.exit(main(sys.argv[1:]))
