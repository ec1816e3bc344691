"""Builds the proved programs and the second program's for timing, and runs them. What bench/speed, bench/names, bench/characters and bench/why share."""

import os
import platform
import shutil
import subprocess
import sys
import time
from pathlib import Path

ROOT = Path(__file__).resolve().parent.parent
BUILT = ROOT / "made" / "bench"


def command(words, **more):
    done = subprocess.run(words, capture_output=True, text=True, **more)
    if done.returncode != 0:
        sys.exit(f"bench: {' '.join(map(str, words))} failed:\n{done.stdout[-2000:]}{done.stderr[-2000:]}")


def compiler():
    found = shutil.which("gcc") or shutil.which("cc")
    return found or sys.exit("bench: no C compiler is found (looked for gcc and cc).")


def build_proved(program):
    """`rt run` leaves the program in its crate's out/; it is run on nothing."""
    if not shutil.which("rt"):
        sys.exit("bench: the Rattle kit is missing: no command 'rt' is found.")
    print(f"bench: proving and building '{program}' (minutes, the first time)", file=sys.stderr)
    command(["rt", "run"], cwd=ROOT / "crates" / program, stdin=subprocess.DEVNULL)
    BUILT.mkdir(parents=True, exist_ok=True)


def proved(program):
    """The words that run a proved program."""
    return [ROOT / "crates" / program / "out" / program]


def build_second(program, parts):
    """The second program of this name, file by file and optimised as a whole."""
    sources = [ROOT / "second" / f"{part}.c" for part in (program, *parts)]
    command([compiler(), "-std=c11", "-O2", "-o", BUILT / f"second-{program}", *sources])
    command([compiler(), "-std=c11", "-O2", "-flto", "-o", BUILT / f"second-{program}-whole", *sources])


def second(program):
    return [BUILT / f"second-{program}"]


def second_as_a_whole(program):
    return [BUILT / f"second-{program}-whole"]


def seconds(words, given=os.devnull):
    with open(given, "rb") as octets:
        begun = time.perf_counter()
        status = subprocess.run(words, stdin=octets, stdout=subprocess.DEVNULL).returncode
        ended = time.perf_counter()
    return ended - begun if status == 0 else sys.exit(f"bench: {words[0]} ended with status {status}")


def processor():
    for line in Path("/proc/cpuinfo").read_text().splitlines():
        if line.startswith("model name"):
            return line.split(":")[1].strip()
    return platform.machine()
