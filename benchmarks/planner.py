#!/usr/bin/env python3
"""planner.py [--large] [PROGRAM [BENCH]]: times `mhlink plan`, and its greatest flow alone beside LEMON's, on the largest problems.

PROGRAM is ../mhlink where none is named, and BENCH is what `rt run` builds in ../crates/bench. LEMON's flow wants
g++ and LEMON (Debian's liblemon-dev); without them its column is empty. For each problem it prints the phases of the flow,
part by part and over the whole, and in milliseconds, the least of several runs: the whole of `mhlink plan` on one worker, on
two and on four; the reading of its input, which is `mhlink check` on the same problem with no plan beside it; planning, which
is the difference of the first and this; `max_flow` on the whole problem, read before, which is a run of BENCH less one
that finds no flow; and LEMON's Preflow over a network that was built before. The last two are what they took of a processor,
all others are by the clock. All have to find flows of the same value. Numbers are drawn from a fixed seed, so the problems are
always the same: as large as version 1 lets them be, with charges too, and as large as version 2 does.

A second table has problems past these limits: profiles that VMs logged (../examples/profiles), and made ones of 2^20 links. It
has what a plan, `max_flow` and LEMON's Preflow took of a processor, the least of several runs, LEMON's time over that of
`max_flow`, the most memory that BENCH had while it made the plan and that LEMON's program had, both with the problem that
they read, and the ratio of these (what starts them has 14 MiB itself, which count). Where LEMON takes longer than LIMIT it is
stopped, and its columns are empty. With --large only this table is made, and PROGRAM is not run.
"""
import json, lzma, random, resource, subprocess, sys, tempfile, time
from pathlib import Path

HERE = Path(__file__).resolve().parent
LINKS, POINTS = 4096, 1024
LARGEST = 16384, 4096
RUNS = 9
# how many links a run of BENCH goes over: fifty flows of 4,096 links, twelve of 16,384
ALL_LINKS = 204800
# the most links of any problem, and after how many seconds by the clock a program is stopped on such a one
MOST = 2**20
LIMIT = 200


def problem(gains, costs, needs):
    links = [{"gain": gain, "needs": sorted(set(points))} for gain, points in zip(gains, needs)]
    return {"version": 2 if len(links) > LINKS or len(costs) > POINTS else 1, "costs": costs, "links": links}


def charged(most, given):
    """The same problem, in which each link has a charge of its own."""
    draw = random.Random(most)
    return given | {"version": 2, "links": [link | {"charge": draw.randint(0, most)} for link in given["links"]]}


def uniform(gain, cost, seed, links=LINKS, points=POINTS):
    """Each link needs up to eight points drawn from all."""
    draw = random.Random(seed)
    needs = [draw.sample(range(points), draw.randint(1, 8)) for _ in range(links)]
    return problem([draw.randint(1, gain) for _ in needs], [draw.randint(1, cost) for _ in range(points)], needs)


def blocks(cost, links=LINKS, points=POINTS):
    """Link i needs point i div 4, so there are as many parts as points."""
    return problem([3] * links, [cost] * points, [[link // 4] for link in range(links)])


def chain(seed, links=LINKS, points=POINTS):
    """Each link needs two neighbouring points, so that paths are long."""
    draw = random.Random(seed)
    needs = [[link % (points - 1), link % (points - 1) + 1] for link in range(links)]
    return problem([draw.randint(1, 99) for _ in needs], [draw.randint(1, 400) for _ in range(points)], needs)


def staircase(links=LINKS, points=POINTS):
    """Point p costs more than the points before it, and each link needs a run of eight of them."""
    needs = [range(link % (points - 8), link % (points - 8) + 8) for link in range(links)]
    return problem([link % 97 + 1 for link in range(links)], [point // 4 + 1 for point in range(points)], needs)


def apart(size):
    """Chains of `size` points each, with no point in common."""
    draw = random.Random(size)
    starts = [link * 7919 % (POINTS // size) * size + link % (size - 1) for link in range(LINKS)]
    gains = [draw.randint(1, 99) for _ in starts]
    return problem(gains, [draw.randint(1, 400) for _ in range(POINTS)], [[start, start + 1] for start in starts])


PROBLEMS = {
    "up to eight needs, cheap points": uniform(100, 100, 1),
    "up to eight needs, even": uniform(100, 1000, 2),
    "up to eight needs, large numbers": uniform(2**40, 2**42, 3),
    "i div 4, cost 11": blocks(11),
    "i div 4, cost 13": blocks(13),
    "one long chain": chain(4),
    "staircase": staircase(),
    "64 chains apart": apart(16),
    "8 chains apart": apart(128),
    "up to eight needs, cheap points, charges to 30": charged(30, uniform(100, 100, 1)),
    "up to eight needs, cheap points, charges to 60": charged(60, uniform(100, 100, 1)),
    "up to eight needs, even, charges to 60": charged(60, uniform(100, 1000, 2)),
    "one long chain, charges to 40": charged(40, chain(4)),
    "largest, i div 4, cost 11": blocks(11, *LARGEST),
    "largest, up to eight needs, even": uniform(100, 1000, 5, *LARGEST),
    "largest, up to eight needs, even, charges to 60": charged(60, uniform(100, 1000, 5, *LARGEST)),
    "largest, up to eight needs, large numbers": uniform(2**40, 2**42, 6, *LARGEST),
    "largest, one long chain": chain(7, *LARGEST),
    "largest, one long chain, charges to 40": charged(40, chain(7, *LARGEST)),
    "largest, staircase": staircase(*LARGEST),
}


def profile(name):
    """A profile as a problem: its points and links in the order of its lines."""
    costs, places, links = [], {}, []
    with lzma.open(HERE.parent / f"examples/profiles/{name}.jsonl.xz", "rt", encoding="utf-8") as lines:
        for line in map(json.loads, lines):
            if "point" in line:
                places[line["point"]] = len(costs)
                costs.append(line["cost"])
            else:
                links.append({"gain": line["gain"], "needs": sorted(places[it] for it in line["needs"])})
    return {"costs": costs, "links": links}


def made(draw, needs, points):
    """A problem of these needs: one gain of ten is large, costs are of the size of gains, and each link has a charge."""
    gains = [draw.randint(0, 1000 if draw.random() < 0.9 else 100000) for _ in needs]
    links = [{"gain": gain, "needs": its, "charge": draw.randint(0, 50)} for gain, its in zip(gains, needs)]
    return {"costs": [draw.randint(0, 4000) for _ in range(points)], "links": links}


def popular(points=200000):
    """Half of all needs are of a hundred points, as in profiles."""
    draw = random.Random(8)
    bounds = [[100 if draw.random() < 0.5 else points for _ in range(draw.randint(1, 7))] for _ in range(MOST)]
    return made(draw, [sorted({draw.randrange(bound) for bound in its}) for its in bounds], points)


def shuffled_chain():
    """One long chain, whose links come in any order."""
    draw = random.Random(9)
    needs = [[point, point + 1] for point in range(MOST - 1)]
    draw.shuffle(needs)
    return made(draw, needs, MOST)


def dust():
    """Each point has a link of its own: as many parts as points."""
    return made(random.Random(10), [[point] for point in range(MOST)], MOST)


LARGE = {
    "javadoc of JDK 17, compiled methods": lambda: profile("javadoc17.nmethod"),
    "javadoc of JDK 17, call sites": lambda: profile("javadoc17.site"),
    "the TypeScript compiler, functions": lambda: profile("tsc.function"),
    "popular points": popular,
    "one long chain in any order": shuffled_chain,
    "each point apart": dust,
}


def taken():
    """The seconds that the programs which have ended took of processors."""
    used = resource.getrusage(resource.RUSAGE_CHILDREN)
    return used.ru_utime + used.ru_stime


def least(words, text, clock=time.perf_counter):
    """The least milliseconds of several runs, and what the last one printed."""
    best, said = float("inf"), b""
    for _ in range(RUNS):
        start = clock()
        said = subprocess.run(words, input=text, stdout=subprocess.PIPE, stderr=subprocess.DEVNULL, check=False).stdout
        best = min(best, clock() - start)
    return best * 1000, said.decode()


def numbers(given):
    links, costs = given["links"], given["costs"]
    yield f"{len(links)} {len(costs)}"
    yield " ".join(str(link["gain"]) for link in links)
    yield " ".join(str(link.get("charge", 0)) for link in links)
    yield " ".join(map(str, costs))
    for link in links:
        yield " ".join(map(str, [len(link["needs"]), *link["needs"]]))


def flow_alone(program, given):
    """The milliseconds of one `max_flow` without its reading, the value of the flow, and its phases."""
    often, text = ALL_LINKS // len(given["links"]), "\n".join(numbers(given))
    (none, _), (some, said) = (least([program, "solve", "flow", str(rounds)], text.encode(), taken) for rounds in (0, often))
    _, value, _, phases = said.split()
    return (some - none) / often, value, phases


def used(words, text):
    """The seconds of a processor that a program took, its most memory in MiB, and what it printed; None where it was stopped."""
    command = [sys.executable, str(HERE / "used.py"), str(LIMIT), *words]
    return json.loads(subprocess.run(command, input=text, stdout=subprocess.PIPE, check=True).stdout)


def done_alone(program, word, text, often, runs):
    """The milliseconds of one work of BENCH without its reading, its most memory in MiB, and what it printed."""
    none = min(used([program, "solve", word, "0"], text)[0] for _ in range(runs))
    some = [used([program, "solve", word, str(often)], text) for _ in range(runs)]
    return (min(it[0] for it in some) - none) * 1000 / often, max(it[1] for it in some), some[0][2]


def large_row(name, given, bench, lemon):
    """A row of the second table."""
    links, needs = len(given["links"]), sum(len(link["needs"]) for link in given["links"])
    text, often = "\n".join(numbers(given)).encode(), max(1, ALL_LINKS // links)
    runs, turns = (RUNS, "7") if often > 1 else (3, "1")
    plan, memory, _ = done_alone(bench, "plan", text, often, runs)
    flow, _, said = done_alone(bench, "flow", text, often, runs)
    beside = used([lemon, turns], text) if lemon else None
    row = f"| {name} | {links:,} | {len(given['costs']):,} | {needs:,} | {plan:.2f} | {flow:.2f} | "
    if beside is None:
        return row + f"- | - | {memory:.0f} | - | - |"
    found, seconds = beside[2].split()
    assert found == said.split()[1], f"{name}: LEMON's flow is {found}, and max_flow says {said}"
    took = float(seconds) * 1000
    return row + f"{took:.2f} | {took / flow:.1f} | {memory:.0f} | {beside[1]:.0f} | {beside[1] / memory:.1f} |"


def large_table(bench, lemon):
    print("| Problem | links | points | needs | plan | max_flow | LEMON | LEMON / max_flow | MiB | LEMON's MiB | ratio |")
    print("|---|---|---|---|---|---|---|---|---|---|---|")
    for name, problem_of in LARGE.items():
        print(large_row(name, problem_of(), bench, lemon), flush=True)


def lemon_in(room):
    """LEMON's program, built into a folder, or None where there is no LEMON."""
    lemon = f"{room}/lemon_flow"
    built = subprocess.run(["g++", "-O2", "-o", lemon, str(HERE / "lemon_flow.cpp")], stderr=subprocess.PIPE, check=False)
    if built.returncode:
        print("no LEMON is installed (Debian's liblemon-dev): its column is empty", file=sys.stderr)
    return None if built.returncode else lemon


def first_row(program, bench, lemon, name, given):
    """A row of the first table."""
    text = json.dumps(given, separators=(",", ":")).encode()
    whole, said = least([program, "plan", "--phases"], text)
    two, four = (least([program, "plan", "--workers", str(count)], text)[0] for count in (2, 4))
    reading, _ = least([program, "check"], b'{"problem":' + text + b"}")
    alone, value, rounds = flow_alone(bench, given)
    plan, phases = said.splitlines()
    assert plan.endswith(f" flow {value}"), f"{name}: max_flow gives {value}, and the plan is {plan[-60:]}"
    beside = "-"
    if lemon:
        found, seconds = least([lemon], "\n".join(numbers(given)).encode())[1].split()
        assert found == value, f"{name}: LEMON's flow is {found}, and max_flow gives {value}"
        beside = f"{float(seconds) * 1000:.2f}"
    _, count, _, bound = phases.split()
    row = f"{whole:.1f} | {two:.1f} | {four:.1f} | {reading:.1f} | {whole - reading:.1f} | {rounds} | {alone:.2f} | {beside}"
    return f"| {name} | {count} | {bound} | {row} |"


def first_table(program, bench, lemon):
    print("| Problem | phases | bound | plan | 2 workers | 4 workers | reading | planning | phases of the whole | max_flow | LEMON |")
    print("|---|---|---|---|---|---|---|---|---|---|---|")
    for name, given in PROBLEMS.items():
        print(first_row(program, bench, lemon, name, given), flush=True)
    print()


def main():
    words = [it for it in sys.argv[1:] if it != "--large"]
    program = words[0] if words else str(HERE.parent / "mhlink")
    bench = words[1] if len(words) > 1 else str(HERE.parent / "crates/bench/out/bench")
    if not Path(bench).is_file():
        sys.exit(f"{bench} is not built: run `rt run` in crates/bench")
    with tempfile.TemporaryDirectory() as room:
        lemon = lemon_in(room)
        if "--large" not in sys.argv[1:]:
            first_table(program, bench, lemon)
        large_table(bench, lemon)


if __name__ == "__main__":
    main()
