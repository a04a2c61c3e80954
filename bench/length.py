#!/usr/bin/env python3
"""How often the propagator of a block's length runs, and what its counts take: length.py [NODES] [FILE..].

Runs `alloc` under valgrind's callgrind on functions (the examples where none is named), and prints for each how many decisions were made,
how many runs of Length there were for each of them, the rounds from the root with them, thousands of instructions that a run takes for its
counts over intervals, and their share of all instructions. A run counts each resource of packets in turn until there is no room, so its
first count is the place in the code from which most counts are asked for. Under callgrind the program takes some fifty times as long. Run
it by hand; the gate does not run it. Where the program is built, the compiler may have left no functions of these names in it: UNISON
names another one, and `tools/unproved.py unison` prints one that has them.
"""
import glob
import os
import re
import subprocess
import sys
import tempfile

import functions

TOP = os.path.dirname(os.path.dirname(os.path.realpath(__file__)))
BINARY = os.environ.get("UNISON") or functions.program("unison")
DECISION, COUNT = "run_child", "un_length::crowd::fits"


def calls_in(profile):
    """For each function and each place from which it is called: how often, and the instructions in it and what it calls. And the
    instructions of the whole."""
    names, calls, callee, total = {}, {}, "", 0
    with open(profile, encoding="utf-8") as lines:
        for line in lines:
            if found := re.match(r"c?fn=\((\d+)\)(?: (.*))?", line):
                if found[2]:
                    names[found[1]] = found[2].strip()
                callee = names[found[1]]
            elif found := re.match(r"calls=(\d+)", line):
                place, _, cost = next(lines).split()
                count, sum_so_far = calls.get((callee, place), (0, 0))
                calls[callee, place] = (count + int(found[1]), sum_so_far + int(cost))
            elif found := re.match(r"(?:summary|totals): (\d+)", line):
                total = int(found[1])
    return calls, total


def calls_of(calls, part):
    """The calls of the functions whose names have this part, a pair of count and cost for each place."""
    return [it for (name, _), it in calls.items() if part in name]


def profile_of(file, nodes):
    """The calls of a run of `alloc` on a function."""
    with tempfile.NamedTemporaryFile(suffix=".callgrind") as profile, open(file, encoding="utf-8") as text:
        words = ["valgrind", "--tool=callgrind", "--dump-instr=yes", "--compress-pos=no", f"--callgrind-out-file={profile.name}"]
        words += [BINARY, "alloc", "--nodes", str(nodes)]
        subprocess.run(words, stdin=text, stdout=subprocess.DEVNULL, stderr=subprocess.DEVNULL, check=False)
        return calls_in(profile.name)


def main():
    nodes = int(sys.argv[1]) if len(sys.argv) > 1 else 21
    for file in sys.argv[2:] or sorted(glob.glob(f"{TOP}/examples/*.uni")):
        calls, total = profile_of(file, nodes)
        decisions = sum(count for count, _ in calls_of(calls, DECISION))
        counts = calls_of(calls, COUNT)
        runs, cost = max((count for count, _ in counts), default=0), sum(cost for _, cost in counts)
        name = os.path.basename(file).removesuffix(".uni")
        print(f"{name:12} decisions {decisions:>7} runs a decision {runs / max(decisions, 1):6.2f} "
              f"instructions a run {cost / max(runs, 1) / 1000:8.1f}k share {cost / max(total, 1):6.1%}", flush=True)


main()
