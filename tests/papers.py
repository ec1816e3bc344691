#!/usr/bin/env python3
"""papers.py [--check]: what the documents count and list is written from the sources, or with --check compared with them.

- docs/CONTRACTS.md: the column "Ruled out". A theorem of crates/CRATE/proofs/RuledOut.antt is listed by the comment above it, beside
  the call whose contract it is about; an edit of crates/CRATE/must-fail by its first line, in italics, beside the call that it names.
- docs/READING.md: the lines of the files in its tables, and the figures that stand between `<!--NAME-->` and `<!---->`. A file of the table
  of what has to be believed uses no other definitions than those of that table; nor do the contracts of the card.
- docs/SLIPS.md is written by slips.py; here it is seen that nothing that its rows rest on has changed since.
- docs/WHY.md: the table of the rules, from the words of explain, the names of why, and the causes of rules.
- README.md and docs/WHY.md: explain's examples are those that are run.

It is an error if a public call has no row, a row no call, a call with a contract fewer than two wrong answers, an edit a call that
is not there, a crate that hands another one's calls to C a promise of its own, or a file of definitions no place in docs/READING.md.
Status 1 then, and with --check if a document is not current.
"""

import re
import sys

from edits import read_edits
from programs import ROOT
from slips import TABLE as SLIPS, rests_on
from sources import clauses, functions, impls

CRATES, CONTRACTS, READING = ROOT / "crates", ROOT / "docs" / "CONTRACTS.md", ROOT / "docs" / "READING.md"
README, WHY, STORED = ROOT / "README.md", ROOT / "docs" / "WHY.md", CRATES / "explain"
EXAMPLES = ((README, ("explain.txt", "active-energy.txt", "autumn-hour.txt", "event-names.txt", "eleven-bits.txt", "why.txt")), (WHY, ("no-session.txt",)))
WORKED_OUT = ("fields/specs/working/Key", "fields/specs/working/Standing", "image/specs/working/Keys", "choice/specs/working/Keys",
              "link/specs/working/Counting", "faults/specs/working/Walking", "names/specs/working/Pass")
PROGRAMS = ("input", "stream", "printing", "turns", "driving")
BESIDES = "## What is said besides"
SAYS_NOTHING = ("Unit {0}", "⊤")
EXPORTS = {"collector_c": "collector"}


class Call:
    """A public function, and the wrong answers that are tried against its contract."""

    def __init__(self, crate, name, ensured):
        self.crate, self.name, self.ensured = crate, name, ensured
        self.has_contract = any(says not in SAYS_NOTHING for says in ensured)
        self.theorems, self.edits = [], []

    def ruled_out(self):
        return "; ".join(self.theorems + [f"*{says}*" for says in self.edits])


def calls_of(crate):
    """The public functions of a crate's source, by name."""
    calls = {}
    for file in sorted((CRATES / crate / "src").glob("*.rt")):
        lines = file.read_text(encoding="utf8").splitlines()
        for name, at, public in functions(lines):
            if public:
                calls[name] = Call(crate, name, clauses(lines, at, "ensures"))
    return calls


def see_exports(crate, calls, errors):
    """A crate that hands calls of another one to C promises of each what that one does; so its calls are listed there alone."""
    for call in calls_of(crate).values():
        if call.name not in calls or call.ensured != calls[call.name].ensured:
            errors.append(f"{crate}: {call.name} promises something else than the call of {EXPORTS[crate]}")


def commented(text):
    """(comment, name, type) of each declaration that has a comment of one line above it; its type ends where its lines begin."""
    lines = text.splitlines()
    for at, line in enumerate(lines[:-1]):
        found = re.match(r"(\S+) :", lines[at + 1].strip())
        if line.strip().startswith("-- ") and found:
            name, of = found.group(1), [lines[at + 1]]
            for more in lines[at + 2:]:
                if more.strip().startswith((f"{name} ", "unfolding ")):
                    break
                of.append(more)
            yield line.strip()[3:], name, "\n".join(of)


def read_theorems(crate, calls, errors):
    file = CRATES / crate / "proofs" / "RuledOut.antt"
    if not file.exists():
        return
    text = file.read_text(encoding="utf8")
    owners = {}
    for source_file in sorted((CRATES / crate / "src").glob("*.rt")):
        owners.update((proved, of) for of, proved in impls(source_file.read_text(encoding="utf8").splitlines()))
    functions = {}
    for path, alias in re.findall(r"^use \S+?\.proofs\.(\S+)\.Reads as (\S+)$", text, re.M):
        owner, dot, name = path.rpartition(".")
        functions[alias] = f"{owners.get(owner, owner)}::{name}" if dot else name
    for says, name, of in commented(text):
        if found := re.search(r"RuledOut.*?\(([\w-]+)\.Post", of, re.S):
            call = calls.get(functions.get(found.group(1)))
            if call:
                call.theorems.append(says)
            else:
                errors.append(f"{crate}: the theorem {name} is about no public call")
    listed = sum(len(call.theorems) for call in calls.values())
    stated = len(re.findall(r"RuledOut(?:With)? .*?\.Post", text))
    if listed != stated:
        errors.append(f"{crate}: {stated} theorems in RuledOut.antt, and {listed} with a comment that can be listed")


def read_calls(errors):
    """All crates' public calls with what is tried against them."""
    every = {}
    for folder in sorted(CRATES.iterdir()):
        if folder.name not in EXPORTS:
            every[folder.name] = calls_of(folder.name)
            read_theorems(folder.name, every[folder.name], errors)
    for crate, of in EXPORTS.items():
        see_exports(crate, every[of], errors)
    for edit in read_edits():
        call = every.get(edit.crate, {}).get(edit.call)
        if call:
            call.edits.append(edit.says)
        else:
            errors.append(f"{edit.label}: no public call '{edit.call}'")
    for calls in every.values():
        for call in calls.values():
            tried = len(call.theorems) + len(call.edits)
            if call.has_contract and tried < 2:
                errors.append(f"{call.crate}: {call.name}: {tried} wrong answers tried, and two are asked for")
    return every


def contracts(text, every, errors):
    """docs/CONTRACTS.md with its column "Ruled out" written anew."""
    crate, rows, out = "", set(), []
    for line in text.splitlines():
        if found := re.match(r"## `(\w+)`", line):
            crate = found.group(1)
        found = re.match(r"(\| `([\w:]+)\(.*?\)` \| .*?) \|(?: .*)? ?\|$", line) if crate else None
        if found:
            call = every[crate].get(found.group(2))
            if not call:
                errors.append(f"docs/CONTRACTS.md: {crate} has no public call '{found.group(2)}'")
                continue
            rows.add((crate, call.name))
            line = f"{found.group(1)} | {call.ruled_out()} |"
        out.append(line)
    for crate, calls in every.items():
        for name in calls:
            if (crate, name) not in rows:
                errors.append(f"docs/CONTRACTS.md: no row for {crate}: {name}")
    return "\n".join(out) + "\n"


def lines_in(files):
    return sum(len(file.read_text(encoding="utf8").splitlines()) for file in files)


def definitions_in(files):
    """The lines of files without comments, imports and blank lines."""
    lines = (line.strip() for file in files for line in file.read_text(encoding="utf8").splitlines())
    return sum(1 for line in lines if line and not line.startswith(("--", "use ", "pub mod ")))


def used_by(file):
    """The files of definitions that a file imports names of."""
    text = file.read_text(encoding="utf8")
    used = re.findall(r"^(?:ghost )?use Rattle\.(\w+)\.specs\.(?!declared\.)(\w+)", text, re.M)
    return {f"{crate}/specs/{module}" for crate, module in used if (CRATES / crate).is_dir()}


def see_closed(believed, specs, errors):
    """What has to be believed stands in files that use no others, and the card's contracts speak of these alone."""
    for file in [specs[name] for name in believed] + sorted((CRATES / "card" / "src").glob("*.rt")):
        for name in sorted(used_by(file) - set(believed)):
            errors.append(f"docs/READING.md: {file.relative_to(ROOT)} uses {name}, which is not among what has to be believed")


def reading(text, every, errors):
    """docs/READING.md with its figures written anew."""
    specs = {str(file.relative_to(CRATES).with_suffix("")): file for file in sorted(CRATES.glob("*/specs/**/*.antt"))
             if file.stem not in ("Lib", "working")}
    def row(found):
        name = found.group(1)
        if name not in specs:
            errors.append(f"docs/READING.md: no file {name}")
            return found.group(0)
        return f"| `{name}` | {lines_in([specs[name]])} |"

    text = re.sub(r"^\| `(\w+/specs/[\w/]+)` \| [\d,]+ \|", row, text, flags=re.M)
    believed = [name for name in re.findall(r"^\| `(\w+/specs/[\w/]+)` \|", text.partition(BESIDES)[0], flags=re.M) if name in specs]
    see_closed(believed, specs, errors)
    for name in specs:
        if name not in text and name.rpartition("/")[0] + "`" not in text:
            errors.append(f"docs/READING.md: {name} is named nowhere")
    calls = [call for calls in every.values() for call in calls.values()]
    figures = {
        "specs": lines_in(CRATES.glob("*/specs/**/*.antt")),
        "src": lines_in(CRATES.glob("*/src/*.rt")),
        "proofs": lines_in(CRATES.glob("*/proofs/**/*.antt")),
        "listed": lines_in(specs[name] for name in believed),
        "believed": definitions_in(specs[name] for name in believed),
        "worked": lines_in(specs[name] for name in WORKED_OUT),
        "programs": lines_in(file for name, file in specs.items() if name.startswith(PROGRAMS)),
        "theorems": sum(len(call.theorems) for call in calls),
        "edits": sum(len(call.edits) for call in calls),
    }

    def figure(found):
        name = found.group(1)
        if name not in figures:
            errors.append(f"docs/READING.md: no figure '{name}'")
            return found.group(0)
        return f"<!--{name}-->{figures[name]:,}<!---->"

    return re.sub(r"<!--(\w+)-->[\d,]*<!---->", figure, text)


def source(crate, file):
    return (CRATES / crate / "src" / file).read_text(encoding="utf8")


def spoken(function):
    """What a function of explain's words says of each rule."""
    body = source("explain", "words.rt").partition(f"fn {function}(")[2].partition("\n}\n")[0]
    return dict(re.findall(r'Rule::(\w+) => \{?\s*"(.*)"', body))


def by_rule(crate, function):
    """What a function of a crate answers to each rule, arm by arm; `_` stands for all others."""
    body = source(crate, "lib.rt").partition(f"fn {function}(")[2].partition("\n}\n")[0].partition("fn ")[0]
    arms = re.findall(r"^ *((?:\| )?(?:Rule::\w+(?:\s*\| )?)+|_) =>\s*([^,]+),$", body, re.M)
    return {rule: answer for rules, answer in arms for rule in re.findall(r"Rule::(\w+)|_", rules) or ["_"]}


def rule_words():
    """The word of each rule."""
    return {rule: word.removeprefix('b"').removesuffix('"') for rule, word in by_rule("why", "word").items()}


def refusal(rule):
    """The cause and the P/N of the mirror that a rule gives; an accepted message is not refused."""
    if rule == "Accepted":
        return "-", "-"
    one = re.search(r"fn pn\(self\).*?matches!\(self, (.*?)\)", source("rules", "lib.rt"), re.S).group(1)
    return by_rule("rules", "cause")[rule], "1" if rule in re.findall(r"Rule::(\w+)", one) else "0"


def why(text, _, errors):
    """docs/WHY.md with its table of the rules written anew."""
    places, names, words, looks = by_rule("why", "place"), spoken("name_of"), rule_words(), spoken("look_at")
    if not len(places) == len(names) == len(words) == len(looks):
        errors.append(f"docs/WHY.md: {len(places)} rules, {len(names)} names, {len(words)} words, {len(looks)} texts on what to look at")
        return text
    rows = ["| No. | Rule | Word | Cause | P/N | What to look at |", "|---|---|---|---|---|---|"]
    for rule, place in sorted(places.items(), key=lambda pair: int(pair[1])):
        cause, pn = refusal(rule)
        rows.append(f"| {place} | {names[rule]} | `{words[rule]}` | {cause} | {pn} | {looks[rule] or '-'} |")
    written, tables = re.subn(r"<!--rules-->.*?<!---->", lambda _: "\n".join(["<!--rules-->", *rows, "<!---->"]), text, flags=re.S)
    if tables != 1:
        errors.append(f"docs/WHY.md: {tables} tables of rules")
    return written


def see_examples(page, names, errors):
    """A page shows examples of explain and what is written for them. Each stands in the program's stored input between two empty lines, and what is
    written for it in the stored output, behind as many empty lines."""
    shown = page.read_text(encoding="utf8")
    given, written = ((STORED / name).read_text(encoding="utf8").split("\n\n") for name in ("stdin", "stdout"))
    for name in names:
        example = (ROOT / "examples" / name).read_text(encoding="utf8")
        if example.removesuffix("\n") not in given:
            errors.append(f"crates/explain/stdin does not have examples/{name} between two empty lines")
            continue
        for text in (example, written[given.index(example.removesuffix("\n"))]):
            if "".join(f"    {line}\n" for line in text.splitlines()) not in shown:
                errors.append(f"{page.name} does not show examples/{name} with what is written for it")


def main(words):
    errors = []
    every = read_calls(errors)
    for page, names in EXAMPLES:
        see_examples(page, names, errors)
    for path, written in ((CONTRACTS, contracts), (READING, reading), (WHY, why)):
        old = path.read_text(encoding="utf8")
        new = written(old, every, errors)
        if words == ["--check"]:
            if new != old:
                errors.append(f"docs/{path.name} is not current: run tests/papers.py")
        elif not errors:
            path.write_text(new, encoding="utf8")
    if rests_on() not in SLIPS.read_text(encoding="utf8"):
        errors.append("docs/SLIPS.md is not current: run tests/slips.py")
    for error in errors:
        print(f"papers: {error}")
    print(f"papers: {'not in order' if errors else 'in order'}")
    return 1 if errors else 0


if __name__ == "__main__":
    sys.exit(main(sys.argv[1:]))
