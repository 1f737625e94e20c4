#!/usr/bin/env python3
"""live.py [PREFIX] [RUNS]: times calls of a site by several threads, alone and while one more thread retargets it 1,000 times a second.

PREFIX is where tools/build_c put the library (default: out/c). The threads call f(1) of the README's first example, which takes six
steps and hits a link: through callers of the library for C (callers.c), by 1, 2 and 4 threads, and by `java.lang.invoke` by four,
once through a MutableCallSite with `syncAll` after each retargeting and once through a VolatileCallSite (LiveCalls.java). It prints
the nanoseconds per call of a thread, the least of the runs, and the retargetings per second, and then how many times the nanoseconds
of the faster call site a caller takes. If `java` is not on the path, it says so, and leaves its rows out. stress.py times running
threads of `mhlink stress`."""
import shutil, sys, tempfile
from pathlib import Path
from callers import built, said, timed

HERE = Path(__file__).resolve().parent
SECONDS_OF_JAVA, RATES, KINDS = 3, (0, 1_000), ("mutable", "volatile")


def by_java(kind, rate):
    """The nanoseconds of a call and the retargetings a second of the JDK."""
    words = said("java", HERE / "LiveCalls.java", kind, 4, rate, SECONDS_OF_JAVA).split()
    told = dict(zip(words[::2], map(int, words[1::2])))
    made = told["retargetings"] / told["lasting"] * 1e9 if told["retargetings"] else 0
    return told["nanoseconds"] / told["calls"], made


def row(name, threads, rate, runs):
    """Prints the row of the fastest run, and returns its nanoseconds per call."""
    took, made = min(runs)
    print(f"| {name} | {threads} | {rate or 'none'} | {took:.1f} | {made:,.0f} |", flush=True)
    return took


def main(words):
    prefix = Path(words[0]).resolve() if words else HERE.parent / "out/c"
    runs = int(words[1]) if words[1:] else 5
    print("| | Threads | Retargetings a second | ns a call | made |\n|---|---|---|---|---|")
    with tempfile.TemporaryDirectory(prefix="mhlink-c-") as folder:
        program = built(prefix, folder)
        ours = {
            (threads, rate): row("callers", threads, rate, [timed(program, "callers", threads, rate) for _ in range(runs)])
            for threads in (1, 2, 4)
            for rate in RATES
        }
    if not shutil.which("java"):
        sys.exit("\njava is not on the path: the JDK is left out")
    jdk = {(rate, kind): row(f"JDK, {kind}", 4, rate, [by_java(kind, rate) for _ in range(runs)]) for rate in RATES for kind in KINDS}
    for rate in RATES:
        ratio = ours[4, rate] / min(jdk[rate, kind] for kind in KINDS)
        print(f"\n4 threads, {rate or 'no'} retargetings a second: {ratio:.1f} times the JDK's nanoseconds a call")


if __name__ == "__main__":
    main(sys.argv[1:])
