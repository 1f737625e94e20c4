#!/usr/bin/env python3
"""calls.py [ROUNDS]: times calls by crates/bench, ten million by default, and the same trees by the JDK.

It proves and builds crates/bench if that was not done (`rt run`), and prints nanoseconds per call, the least of several runs: by
`run` on a prepared tree, by `eval` on a plain handle, by `Machine::step`, and by `java.lang.invoke`, an exact call of a handle
that is not a constant, through a spreader, with boxed arguments. The sums of all answers have to be the same. Then it prints a
million calls through a machine with a flush after each 1,000, with the peak of memory, and the targets. If `java` is not on the
path, it says so, and leaves its column empty."""
import os, re, shutil, subprocess, sys
from pathlib import Path

HERE = Path(__file__).resolve().parent
CRATE = HERE.parent / "crates/bench"
PROGRAM = CRATE / "out/bench"
ROUNDS = int(sys.argv[1]) if sys.argv[1:] else 10_000_000
RUNS = 7
# the calls of crates/bench/stdin by their places: the word of Calls.java, and the row's name
SUBJECTS = [
    ("f1", "`f(1)` of the first example"),
    ("f2", "`f(2)`"),
    ("operation", "one operation, `ineg`"),
    ("constant", "a constant"),
    ("concat", "`concat` of two texts of two bytes"),
    ("eleven", "every combinator, `eleven`"),
    ("twice", "every combinator, `abab`"),
    ("negative", "every combinator, `negative`"),
    ("greet", "every combinator, `hello, ab`"),
    ("one-site", "a site that invokes one of `ineg`"),
    ("two-sites", "the same through two sites"),
    ("three-sites", "the same through three sites"),
]
# the call of the site that has a link
LINKED = 12
TARGETS = {("f1", "run"): 16, ("concat", "run"): 75, ("f1", "step"): 60}
LINE = re.compile(r"answers (\d+), steps \d+, (\d+) ns")


def build():
    """Proves and builds the program, if need be."""
    subprocess.run(["rt", "run"], cwd=CRATE, check=True, stdout=sys.stderr)


def told(words, given=subprocess.DEVNULL):
    """What a program prints, and the most kilobytes that it held."""
    child = subprocess.Popen(words, stdin=given, stdout=subprocess.PIPE, encoding="utf-8")
    said = child.stdout.read()
    _, status, used = os.wait4(child.pid, 0)
    child.returncode = os.waitstatus_to_exitcode(status)
    if child.returncode:
        sys.exit(f"{' '.join(map(str, words))}: status {child.returncode}")
    return said, used.ru_maxrss


def call(way, place, rounds):
    """One run of the program."""
    with open(CRATE / "stdin", encoding="utf-8") as script:
        return told([PROGRAM, "call", way, str(place), str(rounds)], script)


def timed(way, place, rounds):
    """The sum of the answers, the least nanoseconds per call, and the most kilobytes."""
    runs = [call(way, place, rounds) for _ in range(RUNS)]
    lines = [LINE.search(said) for said, _ in runs]
    return int(lines[0][1]), min(int(line[2]) for line in lines) / rounds, max(memory for _, memory in runs)


def by_java(subject):
    """The same of the JDK, or None."""
    if not shutil.which("java"):
        return None
    total, took = told(["java", HERE / "Calls.java", subject, str(ROUNDS), str(RUNS)])[0].split()
    return int(total), int(took) / ROUNDS


def row(place, subject):
    """The figures of a subject, by way, all of which have the same sum."""
    found = {way: timed(way, place, ROUNDS)[:2] for way in ("run", "eval", "step")}
    jdk = by_java(subject)
    if jdk:
        found["JDK"] = jdk
    sums = {total for total, _ in found.values()}
    if len(sums) != 1:
        sys.exit(f"{subject}: the answers differ, {found}")
    return {way: took for way, (_, took) in found.items()}


def main():
    build()
    if not shutil.which("java"):
        print("java is not on the path: the JDK is left out\n")
    print("| Call | `run` | `eval` | `Machine::step` | JDK | `run` to JDK |\n|---|---|---|---|---|---|")
    rows = {}
    for place, (subject, name) in enumerate(SUBJECTS):
        rows[subject] = it = row(place, subject)
        cells = [f"{it[way]:.1f}" for way in ("run", "eval", "step")]
        cells += [f"{it['JDK']:.1f}", f"{it['run'] / it['JDK']:.1f}"] if "JDK" in it else ["", ""]
        print(f"| {name} | {' | '.join(cells)} |", flush=True)
    _, took, memory = timed("flush", LINKED, 1_000_000)
    print(f"\na million calls of f(1) with a flush after each 1,000: {took:.1f} ms, at most {memory / 1024:.0f} MiB")
    for (subject, way), target in TARGETS.items():
        took = rows[subject][way]
        print(f"{subject} by {way}: {took:.1f} ns, target {target}: {'met' if took <= target else 'missed'}")


main()
