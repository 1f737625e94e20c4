#!/usr/bin/env python3
"""used.py SECONDS PROGRAM [WORD..]: runs a program on its own standard input, and prints as JSON the seconds of a processor that
it took, the most memory that it had, in MiB, and what it printed; or null, where it was stopped after so many seconds by the
clock. It is a program of its own since the most memory of a process counts that of the process which started it."""
import json, resource, subprocess, sys


def main():
    try:
        done = subprocess.run(sys.argv[2:], stdout=subprocess.PIPE, timeout=int(sys.argv[1]), check=True)
    except subprocess.TimeoutExpired:
        print("null")
        return
    usage = resource.getrusage(resource.RUSAGE_CHILDREN)
    print(json.dumps([usage.ru_utime + usage.ru_stime, usage.ru_maxrss / 1024, done.stdout.decode()]))


if __name__ == "__main__":
    main()
