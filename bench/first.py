#!/usr/bin/env python3
"""How good and how fast the first solution is: first.py [TRIALS] [FOLDER..].

Runs `inspect first` on the functions of folders (the examples, the kernels and those of functions.py where none is named), and prints for
each what the first solution costs, the root's bound, the cost of keeping each name in a frame slot, and the milliseconds of the first
solution alone; and for each group the geometric means of cost over bound and of cost over that of the frame slots, how many meet the bound,
the mean and the greatest time, and how many functions had none or one that was refused. Run it by hand.
"""
import re
import subprocess
import sys

import functions

BINARY = functions.program("inspect")


def first(text, trials):
    """The lines of `inspect first` as numbers; none for a text that is no function."""
    ran = subprocess.run([BINARY, "first", str(trials)], input=text, capture_output=True, text=True, check=False)
    return {name: int(number or 0) for name, number in re.findall(r"^(\w+)(?: +(\d+))?", ran.stdout, re.M)}


def told(group, rows):
    found = [it for it in rows if "first" in it]
    bound = [it["first"] / it["bound"] for it in found]
    slots = [it["first"] / it["slots"] for it in found]
    times = [it["time"] / 1e6 for it in found] or [0]
    print(f"{group}: {len(rows)} functions, cost/bound {functions.mean(bound):.4f}, {sum(it == 1 for it in bound)} meet the bound, "
          f"cost/slots {functions.mean(slots):.4f}, ms mean {sum(times) / len(times):.1f}, greatest {max(times):.1f}, "
          f"none {sum('none' in it for it in rows)}, refused {sum('refused' in it for it in rows)}")


def main():
    trials = int(sys.argv[1]) if len(sys.argv) > 1 else 1000
    groups = {}
    for group, name, text in functions.read(sys.argv[2:]):
        row = first(text, trials)
        if row:
            cost = row.get("first", "none" if "none" in row else "refused")
            took = row.get("time", 0) / 1e6
            print(f"{name:20} first {cost:>9} bound {row['bound']:>9} slots {row['slots']:>9} ms {took:8.1f}", flush=True)
            groups.setdefault(group, []).append(row)
    for group, rows in groups.items():
        told(group, rows)


main()
