#!/usr/bin/env python3
"""c_dispatch.py [PREFIX..]: times sends from C through a site that tests the receiver's class, beside an inline cache by hand.

Each PREFIX is where tools/build_c put a library, out/c where none is named; of several, each is timed in turn with the others.
For 4 and for 56 classes it prints the nanoseconds of a send by `mhlink_call`, whose arguments are tested, and by the cache that
dispatch.c writes out, the least of several runs of two million, and their ratio."""
import re, subprocess, sys, tempfile
from pathlib import Path

HERE = Path(__file__).resolve().parent
RUNS, CLASSES = 7, (4, 56)
FLAGS = ["-std=c11", "-D_POSIX_C_SOURCE=200809L", "-O2"]


def said(*words):
    return subprocess.run([str(word) for word in words], check=True, stdout=subprocess.PIPE, encoding="utf-8").stdout


def program_over(prefix, folder):
    """The program over the library of a prefix."""
    program = Path(tempfile.mkdtemp(dir=folder)) / "dispatch"
    said("cc", *FLAGS, f"-I{prefix}/include", HERE / "dispatch.c", prefix / "lib/libmhlink.a", "-o", program)
    return program


def timed(program, classes):
    """The nanoseconds of a send by a call and by hand."""
    found = re.search(r"call ([\d.]+) ns, by hand ([\d.]+) ns", said(program, classes, "timed"))
    return float(found[1]), float(found[2])


def main():
    prefixes = [Path(it).resolve() for it in sys.argv[1:] or [HERE.parent / "out/c"]]
    print("| Library | Classes | mhlink_call | by hand | ratio |")
    print("|---|---|---|---|---|")
    with tempfile.TemporaryDirectory(prefix="mhlink-c-") as folder:
        programs = [program_over(prefix, folder) for prefix in prefixes]
        for classes in CLASSES:
            runs = [[timed(program, classes) for program in programs] for _ in range(RUNS)]
            for prefix, its in zip(prefixes, zip(*runs)):
                call, hand = (min(times) for times in zip(*its))
                print(f"| {prefix} | {classes} | {call:.1f} | {hand:.1f} | {call / hand:.1f} |")
    return 0


if __name__ == "__main__":
    sys.exit(main())
