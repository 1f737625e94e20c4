#!/usr/bin/env python3
"""first_calls.py: does what examples/c/first_calls.c does, by the module bindings/python/mhlink.py, and prints the same lines."""
import sys
from pathlib import Path

sys.path.insert(0, str(Path(__file__).resolve().parents[2] / "bindings/python"))
from mhlink import Machine

DEFINITION = {
    "version": 2,
    "points": [{"name": "a", "cost": 5}],
    "sites": [
        {"name": "f", "type": "(int)int", "key": 0,
         "target": ["point", "a",
                    ["guard", ["insert", ["op", "ieq"], 1, [1]], ["drop", ["const", "int", 100], 0, ["int"]],
                     ["insert", ["op", "iadd"], 1, [1]]],
                    ["op", "ineg"]],
         "links": [{"when": 1, "weight": 3, "needs": ["a"]}]},
        {"name": "g", "type": "(int)int", "level": 1,
         "target": ["return", ["invoke", "f"], ["op", "ineg"]], "links": []},
    ],
}
ONE_LESS = ["insert", ["op", "isub"], 1, [1]]


def main():
    with Machine(DEFINITION) as machine:
        f, g, a = machine.site("f"), machine.site("g"), machine.point("a")
        for argument in (1, 1, 2):
            print(f"f({argument}): {machine.call(f, argument).value}")
        machine.flush()
        print("flush: ok")
        snapshot = machine.snapshot()
        print(f"snapshot: {snapshot}")
        plan = machine.plan(snapshot)
        print(f"publish: plan {plan}")
        print(f"install: linked {machine.install(plan)}")
        for argument in (1, 2):
            print(f"f({argument}): {machine.call(f, argument).value}")
        machine.invalidate([a])
        print("invalidate a: ok")
        print(f"f(1): {machine.call(f, 1).value}")
        machine.target(f, ONE_LESS)
        print("target f: ok")
        print(f"f(1): {machine.call(f, 1).value}")
        print(f"g(3): {machine.call(g, 3).value}")


if __name__ == "__main__":
    main()
