#!/usr/bin/env python3
"""c_renewals.py [PREFIX]: times renewals of machines of 100, 1,000 and 4,096 sites from C, beside closing and opening them.

PREFIX is where tools/build_c put the library, out/c where none is named. It prints milliseconds, the least of several runs of
renewals.c."""
import re, subprocess, sys, tempfile
from pathlib import Path

HERE = Path(__file__).resolve().parent
SITES = (100, 1000, 4096)


def said(*words):
    return subprocess.run([str(word) for word in words], check=True, stdout=subprocess.PIPE, encoding="utf-8").stdout


def main():
    prefix = Path(sys.argv[1]).resolve() if sys.argv[1:] else HERE.parent / "out/c"
    print("| Sites | renewal | closed and opened | ratio |")
    print("|---|---|---|---|")
    with tempfile.TemporaryDirectory(prefix="mhlink-c-") as folder:
        program = Path(folder) / "renewals"
        flags = ["-std=c11", "-D_POSIX_C_SOURCE=200809L", "-O2", f"-I{prefix}/include"]
        said("cc", *flags, HERE / "renewals.c", prefix / "lib/libmhlink.a", "-o", program)
        for sites in SITES:
            renewed, opened = map(float, re.search(r"renewed ([\d.]+) ms, closed and opened ([\d.]+)", said(program, sites)).groups())
            print(f"| {sites:,} | {renewed:.2f} ms | {opened:.2f} ms | {opened / renewed:.1f} |")
    return 0


if __name__ == "__main__":
    sys.exit(main())
