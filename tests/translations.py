#!/usr/bin/env python3
"""translations.py: are the texts in books/ right, by the proved programs?

Of each text: `book` makes a book of it, the proved check says that it is sound (`lookup`), `book` makes of that book the text's own
lines again, sorted, and every code of SD1 4.4.2 is shown with the name that its line has, from the chosen book; from the Italian one
where the chosen one has no entries. Status 1 if anything differs, or if one of the six languages has no text.
"""

import subprocess
import sys

from programs import PROVED, ROOT

BOOKS = ROOT / "books"
LANGUAGES = ("it", "en", "de", "fr", "es", "sl")
# SD1 4.4.2; of the maker's, SPA 19, one example
CODES = ((1, 1), (1, 2), (3, 0), (7, 2), (7, 9), (7, 11), (15, 0), (16, 0), (18, 1), (18, 2), (18, 3), (18, 4), (19, 0),
         (20, 1), (20, 2), (20, 4))


def run(program, octets):
    done = subprocess.run([PROVED / program], input=octets, capture_output=True)
    if done.returncode != 0 or done.stderr:
        raise ValueError(f"{program}: status {done.returncode}, {done.stderr.decode('utf8', 'replace').strip()}")
    return done.stdout


def entry_lines(text):
    """The lines of a text that are entries, each with single spaces, sorted by code."""
    entries = (line.split(maxsplit=2) for line in text.splitlines() if line.strip() and not line.lstrip().startswith("#"))
    named = sorted((int(spa), int(spq), name.strip()) for spa, spq, name in entries)
    return [f"{spa} {spq} {name}\n" for spa, spq, name in named]


def lend(letter, book):
    return letter + len(book).to_bytes(3, "big") + book


def shown(chosen, italian):
    """What is shown for each code of SD1, with SPI 1, behind the two checks."""
    events = b"".join(bytes([ord("E"), spa, 2 * spq + 1]) for spa, spq in CODES)
    return run("lookup", lend(b"C", chosen) + lend(b"I", italian) + events).decode("ascii").splitlines()


def expected(lines, book):
    """The checks of two sound books, and for each code its entry's number and name."""
    codes = [tuple(map(int, line.split(" ", 2)[:2])) for line in lines]
    names = [line.split(" ", 2)[2].rstrip("\n").encode("utf8").hex().upper() for line in lines]
    missing = [f"{spa}/{spq}" for spa, spq in CODES if (spa, spq) not in codes]
    if missing:
        raise ValueError(f"no name for {', '.join(missing)}")
    return ["0 0", "0 0", *(f"0 {book} {codes.index(code) + 1} {names[codes.index(code)]}" for code in CODES)]


def see(language):
    text = (BOOKS / f"{language}.txt").read_bytes()
    lines, book = entry_lines(text.decode("utf8")), run("book", text)
    if run("book", book).decode("utf8") != "".join(lines):
        raise ValueError("text, book and text again are not the sorted lines")
    if shown(book, b"\x01") != expected(lines, 1) or shown(b"\x01", book) != expected(lines, 2):
        raise ValueError("a code of SD1 is not shown with its name")
    return len(lines)


def main():
    failed = False
    for language in sorted({*LANGUAGES, *(path.stem for path in BOOKS.glob("*.txt"))}):
        try:
            print(f"translations: {language}: {see(language)} names")
        except (ValueError, OSError) as problem:
            failed = True
            print(f"translations: {language}: {problem}")
    return 1 if failed else 0


if __name__ == "__main__":
    sys.exit(main())
