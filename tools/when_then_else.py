#!/usr/bin/env python3
"""when_then_else.py [ROOT]: the repository's choice by a test is written `when t then a else b`, once, behind snake_names.py.

Today's library has an operator `if◌then◌else◌` of its own, at another precedence and for small types alone, and the gate refuses another
thing under that name. So `octets.specs.Choice` calls its operator `when◌then◌else◌`; its clauses and how it binds stay as they are. Turned
are the code of the .antt files, the clauses and ghost lines of the .rt files, and the edits of specs/ and proofs/.
"""

import re
import sys
from pathlib import Path

ANTT = re.compile(r"(?<![\w.\-'◌])if (?=\S)")
CLAUSE = re.compile(r"(?<![\w.\-'◌])if (?=[^{]*\bthen\b[^{]*\belse\b)")


def turned(text, kind):
    file, out = "", []
    for line in text.split("\n"):
        if kind == ".edit" and line.startswith("file: "):
            file = line
        if kind == ".antt" or kind == ".edit" and re.match(r"(old|new): ", line) and file.endswith(".antt"):
            code, mark, comment = re.match(r"((?:(?!(?:^|(?<=\s))--(?=\s|$)).)*)((?:--)?)(.*)$", line).groups()
            line = ANTT.sub("when ", code.replace("if◌then◌else◌", "when◌then◌else◌")) + mark + comment
        elif not line.lstrip().startswith("//"):
            line = CLAUSE.sub("when ", line.replace("if◌then◌else◌", "when◌then◌else◌"))
        out.append(line)
    return "\n".join(out)


def main():
    root = Path(sys.argv[1]) if len(sys.argv) > 1 else Path(__file__).resolve().parent.parent
    changed = 0
    for path in sorted(p for p in (root / "crates").rglob("*") if p.suffix in (".antt", ".rt", ".edit") and "out" not in p.relative_to(root).parts):
        text = path.read_text(encoding="utf8")
        new = turned(text, path.suffix)
        if new != text:
            path.write_text(new, encoding="utf8")
            changed += 1
    print(f"{changed} files changed")


main()
