"""The functions of a Rattle source file: what papers.py and landing.py read off it."""

import re

# How a clause of a contract begins; several have a name each: `ensures kept { .. }`.
CLAUSE = re.compile(r"\b(requires|ensures|decreases)\*?(?: \w+)? \{")


# The head of an impl of a trait: the trait, its parameters, and the type.
IMPL = re.compile(r"impl(?:<[^>]*>)? (\w+)(?:<([^>]*)>)? for (\w+)(?:<[^>]*>)? \{")


def is_public(lines, trait, of):
    """Whether an impl of a trait for a type hands its methods out: of a public trait of these lines, of `From` where errors are made of others, which `?` does, and of
    `Iterator` for a public type."""
    if trait == "Iterator":
        return any(re.match(rf"pub struct {of}\b", line) for line in lines)
    return any(re.match(rf"pub trait {trait}\b", line) for line in lines) or trait == "From" and any("ghost from_gives" in line for line in lines)


def impls(lines):
    """(type, the name under which its proofs stand) of each impl that hands its methods out: `u16` and `U16Number2`."""
    for line in lines:
        if (found := IMPL.match(line)) and is_public(lines, found.group(1), found.group(3)):
            trait, parameters, of = found.groups()
            yield of, of[0].upper() + of[1:] + trait + re.sub(r"\W", "", parameters or "")


def functions(lines):
    """(name, line number from 0, whether it is public) of each function; a method is `Type::name`, and one of an impl that hands its methods out is public."""
    owner, public = "", False
    for at, line in enumerate(lines):
        if found := IMPL.match(line):
            owner, public = found.group(3) + "::", is_public(lines, found.group(1), found.group(3))
        elif found := re.match(r"impl(?:<.*?>)? (\w+)(?:<.*>)? \{", line):
            owner = found.group(1) + "::"
        elif line == "}":
            owner, public = "", False
        elif found := re.match(r"\s*(pub )?(?:pub\(crate\) )?(?:extern \"C\" )?fn (\w+)", line):
            yield owner + found.group(2), at, public or bool(found.group(1))


def body_at(lines, at):
    """The number of the line in which the body of a function opens, whose head begins at a line. Between the two stands its contract."""
    indent = re.match(r"\s*", lines[at]).group()
    while not re.match(rf"{indent}(?:\S.*)?(?:\{{|\{{\}}|;)$", lines[at]) or CLAUSE.search(lines[at]):
        at += 1
    return at


def clauses(lines, at, kind):
    """What the clauses of a kind say of the function whose head begins at a line: `ensures { result ≡ 1 }` says `result ≡ 1`."""
    contract = " ".join(line.strip() for line in lines[at:body_at(lines, at)])
    heads = list(CLAUSE.finditer(contract))
    ends = [head.start() for head in heads[1:]] + [len(contract)]
    return [contract[head.end():end].strip().removesuffix("}").strip() for head, end in zip(heads, ends) if head.group(1) == kind]
