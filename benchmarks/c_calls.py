#!/usr/bin/env python3
"""c_calls.py [PREFIX]: times ten million calls of f(1) from C through one machine, and `run` of the same tree by crates/bench.

PREFIX is where tools/build_c put the library, out/c where none is named. It prints nanoseconds a call, the least of several runs
of each, taken in turn: examples/c/many_calls.c makes a value, calls `mhlink_call`, whose arguments are tested and whose hit is
counted, and flushes after each hundred thousand; `run` evaluates a prepared tree. Last stands what a call takes more, with the
target."""
import re, subprocess, sys, tempfile
from pathlib import Path

ROOT = Path(__file__).resolve().parent.parent
CRATE = ROOT / "crates/bench"
RUNS, CALLS, TARGET = 7, 10_000_000, 10


def said(*words, given=subprocess.DEVNULL):
    return subprocess.run([str(word) for word in words], check=True, stdin=given, stdout=subprocess.PIPE, encoding="utf-8").stdout


def run_once(bench):
    """The nanoseconds per call of one run of f(1), the first call of the script."""
    with open(CRATE / "stdin", encoding="utf-8") as script:
        told = said(bench, "call", "run", 0, CALLS, given=script)
    return int(re.search(r"(\d+) ns$", told.strip())[1]) / CALLS


def main():
    prefix = Path(sys.argv[1]).resolve() if sys.argv[1:] else ROOT / "out/c"
    bench = CRATE / "out/bench"
    if not bench.is_file():
        subprocess.run(["rt", "run"], cwd=CRATE, check=True, stdout=sys.stderr)
    with tempfile.TemporaryDirectory(prefix="mhlink-c-") as folder:
        program = Path(folder) / "many_calls"
        flags = ["-std=c11", "-D_POSIX_C_SOURCE=200809L", "-O2", f"-I{prefix}/include"]
        said("cc", *flags, ROOT / "examples/c/many_calls.c", prefix / "lib/libmhlink.a", "-o", program)
        called, ran = [], []
        for _ in range(RUNS):
            called.append(float(re.search(r"([\d.]+) ns a call", said(program, "timed"))[1]))
            ran.append(run_once(bench))
    print(f"mhlink_call of f(1): {min(called):.1f} ns; run of f(1): {min(ran):.1f} ns")
    print(f"more: {min(called) - min(ran):.1f} ns; target: at most {TARGET}")
    return 0


if __name__ == "__main__":
    sys.exit(main())
