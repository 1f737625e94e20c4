#!/usr/bin/env python3
"""hostile.py [NAME..]: runs `mhlink run` on scripts of at most a mebibyte that ask for as much as they can, each on one
processor, and prints the time of the processor and the peak of memory of each. At most 2 s and 256 MB are wanted, and the
status and the last line that follow from the script. `hostile.py --print NAME` prints a script. The last line is
'N passed, M failed'."""
import json, os, subprocess, sys, tempfile
from pathlib import Path
from typing import NamedTuple

PROGRAM = Path(__file__).resolve().parent.parent / "crates/mhlink/out/mhlink"
LONGEST, MOST_SECONDS, MOST_BYTES = 1 << 20, 2.0, 256_000_000
LINKS, NEEDS = 4, 8


class Script(NamedTuple):
    """A script, the status of its run, and the beginning of the last line that it writes on either stream."""

    definition: dict
    workers: int
    events: list
    status: int
    last: str

    def text(self):
        whole = {"definition": self.definition, "workers": self.workers, "events": self.events}
        return json.dumps(whole, separators=(",", ":")).encode()


def doubled(leaf, levels):
    """Shared trees of which each has the one before twice."""
    halves = [[f"s{k}", ["return", ["ref", f"s{k - 1}"], ["ref", f"s{k - 1}"]]] for k in range(1, levels + 1)]
    return [["s0", leaf], *halves]


def points(count, cost):
    return [{"name": f"p{it:x}", "cost": cost} for it in range(count)]


def sites(count, target, needs):
    """Sites of four links, whose needs are those of their numbers."""

    def links(site):
        return [{"when": key, "weight": 1, "needs": needs(LINKS * site + key)} for key in range(LINKS)]

    return [{"name": f"f{it:x}", "type": "(int)int", "key": 0, "target": target, "links": links(it)} for it in range(count)]


def hits(count):
    """A hit of each link, flushed."""
    return [["call", 0, f"f{site:x}", [key]] for site in range(count) for key in range(LINKS)] + [["flush", 0]]


def installed(leaf, levels, needs):
    """1,024 sites of four links over one shared tree of 2,047 nodes, whose caches are installed twenty times."""
    declared = sites(1024, ["ref", f"s{levels}"], lambda link: needs)
    definition = {"version": 1, "points": points(1, 0), "shared": doubled(leaf, levels), "sites": declared}
    events = hits(1024) + [["snapshot"], ["plan", 1]] + [["install", 1]] * 20
    return Script(definition, 1, events, 0, "install 1 linked 1024 skipped 0")


def installations():
    """No link needs a point, so each specialised tree is the shared one."""
    return installed(["op", "ineg"], 10, [])


def specialisations():
    """Each specialised tree differs from the shared one at all its leaves."""
    return installed(["point", "p0", ["op", "ineg"], ["op", "ineg"]], 9, ["p0"])


def eight_needs(link):
    """Eight points, so that each point is needed by 32 links."""
    return [f"p{it:x}" for it in sorted((link // 4 * 8 + 131 * place) % 1024 for place in range(NEEDS))]


def plans():
    """Each plan is of 4,096 links, of which each gains as much as a thirty-second of its points cost."""
    definition = {"version": 1, "points": points(1024, 4), "sites": sites(1024, ["op", "ineg"], eight_needs)}
    events = hits(1024) + [["snapshot"]] * 1024 + [["plan", it] for it in range(1, 1025)]
    return Script(definition, 1, events, 0, "plan 1024 snapshot 1024 links - points - value 0 flow 4096")


def flushes():
    declared = sites(1024, ["op", "ineg"], lambda link: [])
    events = [["flush", it % 64] for it in range(64 * 300)]
    return Script({"version": 1, "points": [], "sites": declared}, 64, events, 0, "ok")


def many_points():
    return Script({"version": 1, "points": points(40_000, 1), "sites": []}, 1, [], 1, "fault 8 Definition 2 at 0")


def unknown_names():
    names = [f"n{it}" for it in range(100_000)]
    return Script({"version": 1, "points": [], "sites": []}, 1, [["invalidate", names]], 0, "refused 4 NoPoint")


def long_texts():
    joined = ["insert", ["op", "concat"], 0, ["x" * 60_000]]
    site = {"name": "f", "type": "(String)String", "target": joined}
    events = [["call", 0, "f", ["y"]]] * 150
    return Script({"version": 1, "points": [], "sites": [site]}, 1, events, 0, f'String "{"x" * 60_000}y"')


def largest():
    """The most points, sites and links of version 2: all are hit, planned and installed."""
    definition = {"version": 2, "points": points(4096, 0), "sites": sites(4096, ["op", "ineg"], lambda link: [])}
    called = [["call", 0, f"f{site:x}", [0]] for site in range(4096)]
    events = [*called, ["flush", 0], ["snapshot"], ["plan", 1], ["install", 1]]
    return Script(definition, 64, events, 0, "install 1 linked 4096 skipped 0")


SCRIPTS = {
    "installations": installations,
    "specialisations": specialisations,
    "plans": plans,
    "flushes": flushes,
    "points": many_points,
    "names": unknown_names,
    "texts": long_texts,
    "largest": largest,
}


def last_line(file, chunk=1 << 17):
    """The last line of a file."""
    file.seek(max(0, os.fstat(file.fileno()).st_size - chunk))
    return (file.read().decode().splitlines() or [""])[-1]


def measured(text):
    """The status of a run on one processor, its seconds of the processor, its peak of memory in bytes, and the last line
    that it wrote on either stream."""
    with tempfile.TemporaryFile() as script, tempfile.TemporaryFile() as out:
        script.write(text)
        script.seek(0)
        how = {"stdin": script, "stdout": out, "stderr": out, "preexec_fn": lambda: os.sched_setaffinity(0, {0})}
        with subprocess.Popen([PROGRAM, "run"], **how) as run:
            _, status, used = os.wait4(run.pid, 0)
            run.returncode = os.waitstatus_to_exitcode(status)
        return run.returncode, used.ru_utime + used.ru_stime, used.ru_maxrss * 1024, last_line(out)


def holds(name):
    """Runs a script, prints its row, and answers whether it stays within its limits and ends as wanted."""
    script = SCRIPTS[name]()
    text = script.text()
    status, seconds, peak, last = measured(text)
    print(f"| `{name}` | {len(text):,} | {seconds * 1000:,.0f} ms | {peak / 1e6:,.0f} MB |")
    if (status, last[: len(script.last)]) != (script.status, script.last):
        print(f"failed: {name}: status {status}, {last[:100]}")
        return False
    return len(text) <= LONGEST and seconds <= MOST_SECONDS and peak <= MOST_BYTES


def main(words):
    if words[:1] == ["--print"]:
        sys.stdout.buffer.write(SCRIPTS[words[1]]().text())
        return 0
    print("| Script | Bytes | Time | Memory |\n|---|---|---|---|")
    rows = [holds(name) for name in words or SCRIPTS]
    print(f"{sum(rows)} passed, {len(rows) - sum(rows)} failed")
    return 0 if all(rows) else 1


if __name__ == "__main__":
    sys.exit(main(sys.argv[1:]))
