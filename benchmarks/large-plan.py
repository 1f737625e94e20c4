#!/usr/bin/env python3
"""Prints a problem as large as one may be with its best plan: 4,096 links of eight needs, 1,024 points, 32,768 rows.

Link j needs the eight points of its block of 32 links. Its gain is what the flow carries away from it, and the cost of a
point is what the flow carries into it, so the plan takes all links, and its value is 0. Every number follows from the
numbers of links and points, so the text is always the same. It goes to `mhlink check`, which answers `accepted`.
"""
import json

LINKS, POINTS, NEEDS = 4096, 1024, 8


def needs(link):
    block = link // (LINKS * NEEDS // POINTS) * NEEDS
    return range(block, block + NEEDS)


def amount(link, point):
    return 1 + (link * 7 + point * 3) % 5


def main():
    flow = [[link, point, amount(link, point)] for link in range(LINKS) for point in needs(link)]
    gains, costs = [0] * LINKS, [0] * POINTS
    for link, point, carried in flow:
        gains[link] += carried
        costs[point] += carried
    links = [{"gain": gains[link], "needs": list(needs(link))} for link in range(LINKS)]
    plan = {"links": list(range(LINKS)), "points": list(range(POINTS)), "value": 0, "flow": flow}
    problem = {"version": 1, "costs": costs, "links": links}
    print(json.dumps({"problem": problem, "plan": plan}, separators=(",", ":")))


main()
