#!/usr/bin/env python3
"""many-names.py [VERSION]: prints a script of 4,096 points and 4,096 sites, the most of version 2, and no event. As one of
version 1 it is refused (`fault 8 Definition 2 at 0`) once it is read and before any name is compared, so the difference
is what the names and the opening of the machine take."""
import json, sys

COUNT = 4096


def point(number):
    return {"name": f"point_number_{number:06}", "cost": 1}


def site(number):
    return {"name": f"site_number_{number:06}", "type": "()int", "target": ["const", "int", 1]}


def main(version):
    parts = {"points": [point(it) for it in range(COUNT)], "sites": [site(it) for it in range(COUNT)]}
    script = {"definition": {"version": version, **parts}, "workers": 1, "events": []}
    print(json.dumps(script, separators=(",", ":")))


main(int(sys.argv[1]) if len(sys.argv) > 1 else 2)
