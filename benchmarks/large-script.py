#!/usr/bin/env python3
"""Prints a script as large as one may be: 1,024 points, 1,024 sites with four links of eight needs each, 4,000 calls.

With --expect it prints the lines that `mhlink run` answers with. Every number follows from the numbers of points,
sites and calls, so the text is always the same.
"""
import json
import sys

COUNT = 1024
CALLS = 4000


def name(point):
    return "p%d" % (point % COUNT)


def site(number):
    """`(int)int`: 100 at the first key, one more elsewhere, and negated where the point is invalid."""
    key = number % 7
    target = ["point", name(number),
              ["guard", ["insert", ["op", "ieq"], 1, [key]],
               ["drop", ["const", "int", 100], 0, ["int"]],
               ["insert", ["op", "iadd"], 1, [1]]],
              ["op", "ineg"]]
    links = [{"when": key + index, "weight": number + index, "needs": [name(number + 97 * need) for need in range(8)]}
             for index in range(4)]
    return {"name": "s%d" % number, "type": "(int)int", "key": 0, "target": target, "links": links}


def call(number):
    return ["call", number % 4, "s%d" % (number * 5 % COUNT), [number % 9]]


def answer(event):
    key, argument = int(event[2][1:]) % 7, event[3][0]
    return "int %d" % (100 if argument == key else argument + 1)


def main():
    events = [call(number) for number in range(CALLS)]
    if sys.argv[1:] == ["--expect"]:
        print("\n".join(answer(event) for event in events))
        return
    points = [{"name": name(point), "cost": point} for point in range(COUNT)]
    definition = {"version": 1, "points": points, "sites": [site(number) for number in range(COUNT)]}
    print(json.dumps({"definition": definition, "workers": 4, "events": events}, separators=(",", ":")))


main()
