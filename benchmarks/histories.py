#!/usr/bin/env python3
"""Prints a script with a long history: `calls N` has N calls with a flush after each 1,000; `snapshots N` has N snapshots over
4,096 links of eight needs each and 1,024 points; `offer` has the same links, a hit of each, and an offered plan with 32,768 rows
of flow; `plan` asks for that plan instead; `install N` has points that cost less, so that all links are chosen, and installs this
plan N times: 1,024 sites with a cache of four links each. `chain N` installs four links of
eight needs each N times over a tree of 4,095 nodes, of which each is new in each specialised tree. `cached N` has N calls of a site whose plan is installed, and `uncached N`
the same calls without. At most a megabyte each, so at most some 47,000 calls."""
import json, pathlib, sys

POINTS, SITES, LINKS, NEEDS = 1024, 1024, 4, 8


def small(count):
    """One site with a link, called by one worker."""
    site = {"name": "f", "type": "(int)int", "key": 0, "target": ["op", "ineg"], "links": [{"when": 1, "weight": 1, "needs": []}]}
    events = []
    for call in range(count):
        events.append(["call", 0, "f", [1]])
        if call % 1000 == 999:
            events.append(["flush", 0])
    return {"version": 1, "points": [], "sites": [site]}, events


def needs_of(link):
    """Eight points, so that each point is needed by 32 links."""
    return sorted((link // 4 * 8 + 131 * place) % POINTS for place in range(NEEDS))


def large(cost=40):
    points = [{"name": f"p{point}", "cost": cost} for point in range(POINTS)]
    sites = []
    for site in range(SITES):
        links = [{"when": key, "weight": 8, "needs": [f"p{it}" for it in needs_of(LINKS * site + key)]} for key in range(LINKS)]
        sites.append({"name": f"f{site}", "type": "(int)int", "key": 0, "target": ["op", "ineg"], "links": links})
    return {"version": 1, "points": points, "sites": sites}


def hits():
    return [["call", 0, f"f{site}", [key]] for site in range(SITES) for key in range(LINKS)] + [["flush", 0], ["snapshot"]]


def full_flow():
    """Each link gains 8, and sends 1 to each of its needs: what is left of all gains is 0."""
    return {"links": [], "points": [], "value": 0, "flow": [[link, point, 1] for link in range(SITES * LINKS) for point in needs_of(link)]}


def cached(count, installed):
    """The site of two links of examples/counted-calls.json: its links are hit, planned, and installed or not; then its calls."""
    example = json.loads((pathlib.Path(__file__).parent.parent / "examples" / "counted-calls.json").read_text())
    hits = [["call", 0, "f", [1]]] * 3 + [["call", 0, "f", [2]]] * 9
    plan = [["flush", 0], ["snapshot"], ["plan", 1], ["install", 1] if installed else ["snapshot"]]
    return example["definition"], hits + plan + [["call", 0, "f", [1 + call % 2]] for call in range(count)]


def chain(count):
    """Eleven levels of two halves each, and at their ends a point that all links need."""
    tree = ["point", "p0", ["op", "ineg"], ["op", "ineg"]]
    for _ in range(10):
        tree = ["return", tree, tree]
    points = [{"name": f"p{point}", "cost": 0} for point in range(NEEDS)]
    links = [{"when": key, "weight": 1, "needs": [it["name"] for it in points]} for key in range(LINKS)]
    site = {"name": "f", "type": "(int)int", "key": 0, "target": tree, "links": links}
    events = [["call", 0, "f", [key]] for key in range(LINKS)] + [["flush", 0], ["snapshot"], ["plan", 1]]
    return {"version": 1, "points": points, "sites": [site]}, events + [["install", 1]] * count


def history(what, count):
    if what == "chain":
        return chain(count)
    if what in ("cached", "uncached"):
        return cached(count, what == "cached")
    if what == "calls":
        return small(count)
    if what == "snapshots":
        return large(), [["snapshot"]] * count
    if what == "install":
        return large(1), hits() + [["plan", 1]] + [["install", 1]] * count
    return large(), hits() + [["offer", 1, full_flow()] if what == "offer" else ["plan", 1]]


what = sys.argv[1] if sys.argv[1:] else "calls"
definition, events = history(what, int(sys.argv[2]) if sys.argv[2:] else 1000)
print(json.dumps({"definition": definition, "workers": 1, "events": events}, separators=(",", ":")), end="")
