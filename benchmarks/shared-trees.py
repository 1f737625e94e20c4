#!/usr/bin/env python3
"""Prints a script whose trees share their parts: `one` has 100 trees over one of 65,535 nodes, in some 6 KB; `sites` has
1,024 sites of 51 wrappers each round one tree of 2,047 nodes, in some 800 KB; `names` has as many trees over one of
131,071 nodes as go into a megabyte. With copies in place of shared parts they take gigabytes."""
import json, sys

LIMIT = 1 << 20


def doubled(depth):
    """Shared trees s1 to s`depth`, of which the last has 2^depth - 1 nodes."""
    return [["s1", ["op", "ineg"]]] + [[f"s{k}", ["return", ["ref", f"s{k - 1}"], ["ref", f"s{k - 1}"]]] for k in range(2, depth + 1)]


def over(name):
    return ["return", ["ref", name], ["op", "ineg"]]


def wrapped(tree, count):
    for _ in range(count):
        tree = ["drop", tree, 0, []]
    return tree


def script(shared, sites, events):
    site = lambda name, target: {"name": name, "type": "(int)int", "target": target}
    definition = {"version": 1, "points": [], "shared": shared, "sites": [site(*it) for it in sites]}
    return json.dumps({"definition": definition, "workers": 1, "events": events}, separators=(",", ":"))


def one():
    return script(doubled(16) + [[f"t{k}", over("s16")] for k in range(100)], [("f", ["op", "ineg"])], [["call", 0, "f", [1]]])


def sites():
    return script(doubled(11), [(f"f{k}", wrapped(["ref", "s11"], 51)) for k in range(1024)], [["call", 0, "f0", [1]]])


def names():
    base = doubled(17)
    text = lambda count: script(base + [[f"t{k}", over("s17")] for k in range(count)], [("f", ["op", "ineg"])], [["call", 0, "f", [1]]])
    count = (LIMIT - len(text(0))) // 51
    while len(text(count)) > LIMIT:
        count -= 100
    return text(count)


print({"one": one, "sites": sites, "names": names}[sys.argv[1] if sys.argv[1:] else "one"](), end="")
