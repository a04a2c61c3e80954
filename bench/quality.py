#!/usr/bin/env python3
"""How good and how fast `alloc` is: quality.py [NODES] [FOLDER..].

Runs the program on the functions of folders (the examples, the kernels and those of functions.py where none is named), and prints for
each its cost, bound, the cost of keeping each name in a frame slot, nodes of the tree and milliseconds, and for each group the geometric
means of cost over bound and of cost over that of the frame slots, how many meet their bound, and the mean and the greatest time. Run it by
hand; the gate does not run it.
"""
import re
import subprocess
import sys
import time

import functions

BINARY = functions.program("unison")


def report(text, nodes):
    """The fields of a report, and how long the run took."""
    start = time.monotonic()
    ran = subprocess.run([BINARY, "alloc", "--nodes", str(nodes)], input=text, capture_output=True, text=True, check=False)
    took = 1000 * (time.monotonic() - start)
    if ran.returncode:
        return None, took
    return {it: int(re.search(rf"^{it} (\d+)$", ran.stdout, re.M)[1]) for it in ("cost", "bound", "tree")}, took


def told(group, rows):
    bound, slots, times = [it[0] for it in rows], [it[1] for it in rows], [it[2] for it in rows]
    print(f"{group}: {len(rows)} functions, cost/bound {functions.mean(bound):.4f}, {sum(it == 1 for it in bound)} meet the bound, "
          f"cost/slots {functions.mean(slots):.3f}, ms mean {sum(times) / len(times):.1f}, greatest {max(times):.1f}")


def main():
    nodes = int(sys.argv[1]) if len(sys.argv) > 1 else 2000
    groups = {}
    for group, name, text in functions.read(sys.argv[2:]):
        found, took = report(text, nodes)
        if found is None:
            continue
        slots = report(text, 1)[0]["cost"]
        print(f"{name:20} cost {found['cost']:>9} bound {found['bound']:>9} slots {slots:>9} "
              f"nodes {found['tree']:>6} ms {took:8.1f}", flush=True)
        groups.setdefault(group, []).append((found["cost"] / found["bound"], found["cost"] / slots, took))
    for group, rows in groups.items():
        told(group, rows)


main()
