#!/usr/bin/env python3
"""stress.py: times `mhlink stress` with 1, 2 and 4 workers that each make a thousand calls and flush, again and again, and prints for
each number of workers the processor's nanoseconds and those by the clock for each call of a worker, the least of the runs. The
workers call f(1) of the README's first example, which takes six steps and hits a link, alone or, with `beside`, next to one thread
that retargets another site, makes snapshots, plans them and installs the plans, as often as a script has room for.

usage: stress.py [beside] [ROUNDS] [RUNS]"""
import json, resource, subprocess, sys, time
from pathlib import Path

ROOT = Path(__file__).resolve().parent.parent
PROGRAM = ROOT / "crates" / "mhlink" / "out" / "mhlink"
CALLS = 1000


def script(workers, beside):
    """Calls of each worker, and, beside them, changes."""
    example = json.loads((ROOT / "examples" / "stress-calls.json").read_text(encoding="utf-8"))["definition"]
    example["sites"].append({"name": "g", "type": "(int)int", "target": ["op", "ineg"]})
    events = [["call", worker, "f", [1]] for worker in range(workers) for _ in range(CALLS)]
    for number in range(1, 1001 if beside else 1):
        events += [["target", "g", ["op", "ineg"]]] * 8 + [["snapshot"], ["plan", number], ["install", number]]
    return json.dumps({"definition": example, "workers": workers, "events": events}, separators=(",", ":")).encode()


def nanoseconds(workers, text, rounds):
    """The processor time, and the time by the clock, of one start for each call of a worker."""
    before, began = resource.getrusage(resource.RUSAGE_CHILDREN), time.perf_counter()
    said = subprocess.run([PROGRAM, "stress", "--rounds", str(rounds)], input=text, stdout=subprocess.PIPE, check=True).stdout
    clock, after = time.perf_counter() - began, resource.getrusage(resource.RUSAGE_CHILDREN)
    if said.split()[2] != str(workers * CALLS * rounds).encode():
        sys.exit(f"calls were refused: {said.decode()}")
    calls = CALLS * rounds
    return (after.ru_utime - before.ru_utime + after.ru_stime - before.ru_stime) / workers / calls * 1e9, clock / calls * 1e9


def main(words):
    beside = "beside" in words
    rounds, runs = [*map(int, (it for it in words if it != "beside")), 5000, 5][:2] if any(it != "beside" for it in words) else (5000, 5)
    for workers in (1, 2, 4):
        text = script(workers, beside)
        taken = [nanoseconds(workers, text, rounds) for _ in range(runs)]
        print(f"{workers} workers: {min(it[0] for it in taken):.1f} ns of processor, {min(it[1] for it in taken):.1f} ns by the clock, a call")


if __name__ == "__main__":
    main(sys.argv[1:])
