#!/usr/bin/env python3
"""Where the programs of this repository are: programs.py PROGRAM prints the path of one.

It is the proved one where that is built, and else one that is compiled without a proof, optimized, at the first time (unproved.py).
"""
import os
import sys

import unproved


def path_of(name):
    """The path of a program; the script ends where it can't be had."""
    built = f"{unproved.TOP}/crates/{name}/out/{name}"
    path = built if os.access(built, os.X_OK) else unproved.program_of(name)
    return path or sys.exit(f"{name} is not built, and can't be compiled")


if __name__ == "__main__":
    unproved.children.end_on_signals()
    if len(sys.argv) != 2 or not os.path.isfile(f"{unproved.TOP}/crates/{sys.argv[1]}/src/main.rt"):
        sys.exit("usage: tools/programs.py PROGRAM")
    print(path_of(sys.argv[1]))
