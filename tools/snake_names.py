#!/usr/bin/env python3
"""snake_names.py [--check] [ROOT]: brings this repository's own definitions and lemmas to snake case, once, behind the kit's port.py.

A name is the repository's own where one of its modules declares it: a definition, a lemma, a field, a constructor, a name behind `as`
or a local definition, in specs/ or in the lemma files of proofs/. In such names a dash becomes an underscore, and `camelCase` becomes
`camel_case`; types and modules stay as they are. Where two names would fall together, TABLE says what each becomes.

Names turn in the .antt files, in the ghost lines and the clauses of the .rt files, and in the code spans of comments. Functions of src/,
strings, what a file imports from the kit and what the prover makes (behind `goal.` and `tie.`) keep their spelling. --check writes nothing, and lists the names of one
file that would fall together.
"""

import re
import sys
from pathlib import Path

WORD = re.compile(r'[^\s(){}.;,@"«»]+')
QUIET = re.compile(r'"(?:[^"\\\n]|\\.)*"')
KEYWORDS = r"(?:(?:abbrev|unfoldable|opaque|pub|ghost)\s+)*"
DECLARED = re.compile(r"(?m)^\s*" + KEYWORDS + r"([^\s(){}.;,@\"«»:]+)(?:\s+\{[^{}\n]*\})*(?:\s+\([^()\n]*\))*\s+:(?=\s|$)")
GROUPED = re.compile(r"(?m)^\s*" + KEYWORDS + r"((?:[^\s(){}.;,@\"«»:]+\s+)+[^\s(){}.;,@\"«»:]+)\s+:(?=\s|$)")
RENAMED = re.compile(r'(?<![^\s{,])[^\s(){};,@"«»]+ as ([^\s(){}.;,@"«»]+)')
CAMEL = re.compile(r"(?<=[a-z0-9])[A-Z]|(?<=[A-Z])[A-Z](?=[a-z])")
MADE = ("goal", "tie")
OWN = r"Rattle\.(?!std\b|core\b|libc\b|io\b|os\b)"

# Lemmas whose snake case the file already has for a definition: these, in that file alone.
IN_FILE = {
    "crates/address/proofs/Address.antt": {"same_point": "same_point_law"},
    "crates/names/proofs/Places.antt": {"same_code": "same_code_law"},
    "crates/names/proofs/Books.antt": {"last_code": "last_code_law"},
    "crates/profile/proofs/Altered.antt": {"same_bits": "same_bits_law"},
}


def snake(name):
    if not re.match(r"[^\W\d_]", name) and "◌" not in name:
        return name
    if name[0].isupper():
        return name
    return CAMEL.sub(lambda m: "_" + m.group().lower(), name).replace("-", "_")


def antt_files(root):
    return sorted(p for p in (root / "crates").glob("*/*/**/*.antt") if p.parts[-3] != "out" and "/out/" not in str(p))


def own_files(root):
    """The definitions and the lemma files: those that are no function's proof."""
    for p in antt_files(root):
        if p.name not in ("Proof.antt", "Invariants.antt", "Answers.antt", "Lib.antt"):
            yield p


def declared(root):
    names = set()
    for p in own_files(root):
        text = re.sub(r"(?m)(^|\s)--[^\n]*", r"\1", p.read_text(encoding="utf8"))
        names.update(DECLARED.findall(text))
        names.update(RENAMED.findall(text))
        for group in GROUPED.findall(text):
            names.update(group.split())
    for p in antt_files(root):
        names.update(RENAMED.findall(p.read_text(encoding="utf8")))
    return names


def rows(root):
    """What each name becomes. A dashed name that falls together with one that has no dash, a definition, gets `_law` behind it."""
    names = declared(root)
    plain = {snake(name) for name in names if "-" not in name}
    found = {}
    for name in names:
        new = snake(name)
        if "-" in name and new in plain:
            new += "_law"
        if new != name:
            found[name] = new
    return found


def here(path, text, table):
    """The table of one file: a name for a function's call, behind `Reads as`, gets `_call` where the file has a definition of that name."""
    own = dict(table)
    own.update(IN_FILE.get(path, {}))
    for module, items in re.findall(r"(?m)\buse ([^\s;{]+)\.\{([^}]*)\}", text):
        if not re.match(OWN, module):
            for item in items.split(","):
                own[item.split(" as ")[0].strip()] = item.split(" as ")[0].strip()
    aliases = re.findall(r"(?m)^use Rattle\.\S+\.Reads as (\S+)$", text)
    rest = re.sub(r"(?m)^use Rattle\.\S+\.Reads as \S+$", "", re.sub(r"Rattle(\.\w+)+\.", "", text))
    words = {own.get(word, snake(word) if CAMEL.search(word) else word) for word in WORD.findall(rest) if word not in aliases}
    for alias in aliases:
        own[alias] = snake(alias) + ("_call" if snake(alias) in words else "")
    return own


def turn_words(text, table):
    """Every word of code that the table has, but for those behind a head of what the prover makes."""

    def one(m):
        word = m.group()
        before = text[: m.start()]
        if before.endswith(tuple(head + "." for head in MADE)):
            return word
        new = table.get(word)
        if new is None and CAMEL.search(word) and word[0].islower():
            new = snake(word)
        return new or word

    quiet = [(m.start(), m.end()) for m in QUIET.finditer(text)]

    def guarded(m):
        if any(a <= m.start() < b for a, b in quiet):
            return m.group()
        return one(m)

    return WORD.sub(guarded, text)


SPAN = re.compile(r"`[^`\n]+`")


def turn_antt(text, table):
    out = []
    for line in text.split("\n"):
        code, mark, comment = re.match(r"((?:(?!(?:^|(?<=\s))--(?=\s|$)).)*)((?:--)?)(.*)$", line).groups()
        comment = SPAN.sub(lambda m: turn_words(m.group().strip("`"), table).join("``"), comment)
        out.append(turn_words(code, table) + mark + comment)
    return "\n".join(out)


CLAUSE = re.compile(r"\b(?:requires|ensures|ghost|decreases|invariant)\b(?! use)[^\n{]*\{")


def clauses(text):
    """The stretches of a .rt file that are ghost: `ghost use` items, and the braces behind requires, ensures and ghost."""
    for m in re.finditer(r"ghost\s+use\b[^;]*;", text):
        yield m.start(), m.end()
    for m in CLAUSE.finditer(text):
        line = text.rfind("\n", 0, m.start()) + 1
        if "//" in text[line : m.start()]:
            continue
        depth, i = 1, m.end()
        while depth and i < len(text):
            depth += {"{": 1, "}": -1}.get(text[i], 0)
            i += 1
        yield m.end(), i - 1


def turn_rt(text, table):
    out, at = [], 0
    for a, b in sorted(clauses(text)):
        if a < at:
            continue
        out += [text[at:a], turn_words(text[a:b], table)]
        at = b
    return "".join(out) + text[at:]


def main():
    check = "--check" in sys.argv
    rest = [a for a in sys.argv[1:] if a != "--check"]
    root = Path(rest[0]) if rest else Path(__file__).resolve().parent.parent
    table = rows(root)
    changed = 0
    for p in antt_files(root) + sorted((root / "crates").glob("*/src/**/*.rt")):
        text = p.read_text(encoding="utf8")
        own = here(str(p.relative_to(root)), text, table)
        new = turn_antt(text, own) if p.suffix == ".antt" else turn_rt(text, own)
        if check:
            bare = re.sub(r"(?m)(^|\s)--[^\n]*", r"\1", text) if p.suffix == ".antt" else " ".join(text[a:b] for a, b in clauses(text))
            there = {}
            for word in WORD.findall(QUIET.sub("", bare)):
                there.setdefault(turn_words(word, own), set()).add(word)
            for word, olds in sorted(there.items()):
                if len(olds) > 1:
                    print(f"{p.relative_to(root)}: {word}: {', '.join(sorted(olds))}")
        elif new != text:
            p.write_text(new, encoding="utf8")
            changed += 1
    print(f"{len(table)} names, {changed} files changed")


main()
