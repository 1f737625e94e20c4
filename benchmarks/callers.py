#!/usr/bin/env python3
"""callers.py [PREFIX]: times calls of f(1) from C in 1, 2 and 4 threads, alone and beside 1,000 changes a second.

PREFIX is where tools/build_c put the library, out/c where none is named. In one run stand the calls through callers of one desk,
which look at what is shown, and those through one machine with a lock round it (callers.c). It prints the nanoseconds that a call
takes a thread, the least of several runs of each, taken in turn, and the changes a second that were made beside."""
import subprocess, sys, tempfile
from pathlib import Path

HERE = Path(__file__).resolve().parent
RUNS, SECONDS, RATES, THREADS, HOW = 5, 1.5, (0, 1_000), (1, 2, 4), ("callers", "locked")
FLAGS = ["-std=c11", "-D_POSIX_C_SOURCE=200809L", "-O2", "-pthread"]


def said(*words):
    return subprocess.run([str(word) for word in words], check=True, stdout=subprocess.PIPE, encoding="utf-8").stdout


def timed(program, how, threads, rate):
    """The nanoseconds of a call and the changes a second."""
    words = said(program, how, threads, rate, SECONDS).split()
    told = dict(zip(words[::2], map(int, words[1::2])))
    return told["nanoseconds"] / told["calls"], told["changes"] / SECONDS


def built(prefix, folder):
    """Compiles callers.c into a folder."""
    program = Path(folder) / "callers"
    said("cc", *FLAGS, f"-I{prefix}/include", HERE / "callers.c", prefix / "lib/libmhlink.a", "-o", program)
    return program


def main():
    prefix = Path(sys.argv[1]).resolve() if sys.argv[1:] else HERE.parent / "out/c"
    print("| Threads | Changes a second | callers | made | locked machine | made |\n|---|---|---|---|---|---|")
    with tempfile.TemporaryDirectory(prefix="mhlink-c-") as folder:
        program = built(prefix, folder)
        for rate in RATES:
            for threads in THREADS:
                runs = [[timed(program, how, threads, rate) for how in HOW] for _ in range(RUNS)]
                cells = [min(its) for its in zip(*runs)]
                print(f"| {threads} | {rate or 'none'} | " + " | ".join(f"{ns:.1f} | {made:.0f}" for ns, made in cells) + " |", flush=True)
    return 0


if __name__ == "__main__":
    sys.exit(main())
