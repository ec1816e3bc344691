#!/usr/bin/env python3
"""landing.py NOTE BEFORE AFTER [--prove]: what a landing moved, from two commits of this repository.

Compares the definitions of crates/*/specs, the structs, enums and promises of crates/*/src, and the theorems and the functions' proofs of crates/*/proofs,
name by name, and writes into docs/landings/NOTE.md, between the two marks that stand there, how many stayed and which moved. With --prove both
commits are proved from nothing, one after the other, in clones of their own, and the times are written too; without it those that stand there stay.
What is compared is text without comments and layout: a definition is its type and its lines, a promise is a function's head with its contract,
a theorem its type and that of the modules around it, and a proof what stands below; a function's proof is all that its folder has. Imports are not compared.
Commits of the older Rattle are read, too, but `--prove` needs its kit.
"""

import re
import resource
import subprocess
import sys
import tempfile
import time
from pathlib import Path

from sources import body_at, functions

ROOT = Path(__file__).resolve().parent.parent
BEGIN, END = "<!--moved-->", "<!---->"
TIMES, PROVING = "| `rt ", ("rt", "ci", "--anew")
HEAD = re.compile(r" *(?:pub |abbrev |unfoldable )*(record |data )?([^\s(){}:]+) ")


def git(*words):
    return subprocess.run(("git", "-C", ROOT, *words), check=True, capture_output=True, text=True).stdout


def files_of(commit):
    """Path and text of each source file below crates/."""
    for path in git("ls-tree", "-r", "--name-only", commit, "crates").splitlines():
        if path.endswith((".antt", ".rt")) and not path.endswith("/Lib.antt"):
            yield path, git("show", f"{commit}:{path}")


def plain(lines):
    """Text without comments, imports, blank lines and layout."""
    kept = (line.strip() for line in lines)
    return " ".join(line for line in kept if line and not line.startswith(("--", "//", "use ", "ghost use ")))


def indent_of(line):
    return len(line) - len(line.lstrip())


def head_of(line):
    """The name that a line declares: one with a colon outside of brackets, before any equals sign; or a record's or a data type's."""
    found, deep = HEAD.match(line), 0
    if found and not found.group(1):
        for at, sign in enumerate(line):
            deep += (sign in "({") - (sign in ")}")
            if deep == 0 and sign in ":=" and line[at - 1] == " ":
                return found.group(2) if sign == ":" else None
        return None
    return found.group(2) if found else None


def declarations(text):
    """(name, type with the modules around it, what stands below) of each declaration of a logic file."""
    lines = [line for line in text.splitlines() if line.strip() and not line.strip().startswith(("--", "use ", "infix"))]
    around, at = [], 0
    while at < len(lines):
        line, start = lines[at], at
        depth = indent_of(line)
        around = [(deep, head) for deep, head in around if deep < depth]
        at += 1
        if line.lstrip().startswith("module _"):
            while at < len(lines) and not lines[at - 1].rstrip().endswith("where"):
                at += 1
            around.append((depth, plain(lines[start:at])))
            continue
        name, body = head_of(line), None
        if not name:
            continue
        while at < len(lines):
            if indent_of(lines[at]) < depth or (indent_of(lines[at]) == depth and (head_of(lines[at]) or lines[at].lstrip().startswith("module _"))):
                break
            if body is None and indent_of(lines[at]) == depth:
                body = at
            at += 1
        body = body or at
        context = [head for _, head in around]
        yield name, plain(context + lines[start:body]), plain(lines[body:at])


def promises(text):
    """(name, head with contract) of each function of a source file."""
    lines = text.splitlines()
    for name, at, _ in functions(lines):
        yield name, plain(lines[at:body_at(lines, at) + 1])


def types(text):
    """(name, text) of each struct and enum of a source file."""
    for found in re.finditer(r"^pub (?:struct|enum) (\w+)(?:\(.*?\);| \{.*?^\})", text, re.M | re.S):
        yield found.group(1), plain(found.group(0).splitlines())


def read(commit):
    """Of a commit: kind, crate and name to what is compared."""
    said = {kind: {} for kind in KINDS}
    for path, text in files_of(commit):
        crate, part, rest = path.split("/", 3)[1:]
        if part == "src":
            module = "" if rest in ("lib.rt", "main.rt") else rest[:-3] + "::"
            for name, head in promises(text):
                said["promises"][crate, module + name] = (head, "")
            for name, whole in types(text):
                said["structs and enums"][crate, module + name] = (whole, "")
        elif part == "specs":
            for name, head, body in declarations(text):
                said["definitions"][crate, f"{rest[:-5]}.{name}"] = (head + body, "")
        elif rest.endswith(OF_A_FUNCTION):
            function = rest.rpartition("/")[0].replace("/", "::")
            others = said["functions' proofs"].get((crate, function), ("", ""))[1]
            said["functions' proofs"][crate, function] = ("", f"{others} {plain(text.splitlines())}".strip())
        else:
            for name, head, body in declarations(text):
                said["theorems"][crate, f"{rest[:-5]}.{name}"] = (head, body)
    return said


OF_A_FUNCTION = ("/Answers.antt", "/Invariants.antt", "/Proof.antt")
KINDS = ("definitions", "structs and enums", "promises", "theorems", "functions' proofs")


def named(names):
    """Names by crate, as one line."""
    crates = {}
    for crate, name in sorted(names):
        crates.setdefault(crate, []).append(f"`{name}`")
    return "; ".join(f"{crate}: {', '.join(of)}" for crate, of in crates.items()) or "none"


def moved(before, after):
    """The tables: how many stayed, and the names of those that did not."""
    old, new = read(before), read(after)
    rows, lists = [], []
    for kind in KINDS:
        a, b = old[kind], new[kind]
        both = a.keys() & b.keys()
        changed = {name for name in both if a[name][0] != b[name][0]}
        again = {name for name in both - changed if a[name][1] != b[name][1]}
        rows.append(f"| {kind} | {len(both - changed - again)} | {len(changed)} | {len(again) or ''} | {len(b.keys() - a.keys())} | {len(a.keys() - b.keys())} |")
        lists += [f"- {kind}, changed: {named(changed)}"] if changed else []
        lists += [f"- {kind}, proved otherwise: {named(again)}"] if again else []
        lists += [f"- {kind}, new: {named(b.keys() - a.keys())}", f"- {kind}, gone: {named(a.keys() - b.keys())}"]
    crates = {path.split("/")[1] for path in git("diff", "--name-only", before, after, "--", "crates").splitlines()}
    every = {path.split("/")[1] for path in git("ls-tree", "-r", "--name-only", after, "crates").splitlines()}
    lists.append(f"- crates of which no file changed: {', '.join(f'`{crate}`' for crate in sorted(every - crates))}")
    return ["| | stayed | changed | proved otherwise | new | gone |", "|---|---|---|---|---|---|", *rows, "", *lists]


def proving_time(commit):
    """Seconds, and seconds of processor, that `rt ci --anew` takes in a clone of its own: every proof and edit from nothing, and the programs."""
    with tempfile.TemporaryDirectory() as folder:
        subprocess.run(("git", "clone", "-q", ROOT, folder), check=True)
        subprocess.run(("git", "-C", folder, "checkout", "-q", commit), check=True)
        used, began = resource.getrusage(resource.RUSAGE_CHILDREN), time.monotonic()
        done = subprocess.run(PROVING, cwd=folder, capture_output=True, text=True)
        took, now = time.monotonic() - began, resource.getrusage(resource.RUSAGE_CHILDREN)
    if done.returncode != 0:
        sys.exit(f"landing: {commit} is not proved:\n{done.stdout[-2000:]}{done.stderr[-2000:]}")
    return f"{took:.0f} s, {now.ru_utime + now.ru_stime - used.ru_utime - used.ru_stime:.0f} s of processor"


def main(note, before, after, *words):
    before, after = (git("rev-parse", "--short", commit).strip() for commit in (before, after))
    path = ROOT / "docs" / "landings" / f"{note}.md"
    text = path.read_text(encoding="utf8")
    head, mark, rest = text.partition(BEGIN)
    old, end, tail = rest.partition(END)
    if not mark or not end:
        sys.exit(f"landing: {path} has no {BEGIN} .. {END}")
    if words == ("--prove",):
        times = f"| `{' '.join(PROVING)}` of {before} and of {after} | {proving_time(before)} | {proving_time(after)} |"
    else:
        times = next((line for line in old.splitlines() if line.startswith(TIMES)), f"| `{' '.join(PROVING)}` | not measured | not measured |")
    lines = [f"From {before} to {after}:", "", *moved(before, after), "", "| | before | after |", "|---|---|---|", times]
    path.write_text(head + BEGIN + "\n\n" + "\n".join(lines) + "\n\n" + END + tail, encoding="utf8")


if __name__ == "__main__":
    if len(sys.argv) < 4:
        sys.exit(__doc__)
    main(*sys.argv[1:])
