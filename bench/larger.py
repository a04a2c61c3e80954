#!/usr/bin/env python3
"""How `alloc` and `check` grow: larger.py [--write FOLDER | PROGRAM [NAME..]].

Functions of 80, 200 and 400 operations in 1, 16 and 64 blocks, with calls and without, some of one pattern and some drawn, blocks in which
80, 90 and 110 names cross a call, and a block of 80 calls with six arguments each. For each it prints, of the program (PROGRAM, or the
built one, or one that is compiled without a proof), the cost with 3 nodes and with 2,000, the bound, and seconds of the processor and megabytes at most: `alloc` with 3
nodes, with 2,000, and `check` of the latter's report. --write writes the functions into a folder. The gate does not run it.
"""
import dataclasses
import os
import re
import subprocess
import sys

import functions

TOP = os.path.dirname(os.path.dirname(os.path.realpath(__file__)))
SIZES = [(80, 1), (200, 1), (400, 1), (80, 16), (200, 16), (400, 16), (200, 64), (400, 64)]
DRAWN = functions.Mix("larger ", [1], [0], [110], [1, 10, 100, 1000], 12, 0.2, 0.12, 0.06, 0.06, 0.06, 0, 0.7)


def pattern(operations, blocks, calls):
    """A fifth calls, or none; each block between the first and the last branches back to itself."""
    first = "%a = call h %a, %b" if calls else "%a = xor %a, %b"
    kinds = [first, "%c{0} = add %a, %b", "%b = load %b, #{1}", "store %a, #{1}, %b", "$p = cmpgt %b, %a"]
    lines, last = ["func f %a %b"], -1
    for place in range(operations):
        block = place * blocks // operations
        if block != last:
            if last > 0:
                lines.append(f"  if $p jump b{last}")
            lines.append(f"block b{block} freq {1 + 7 * block}")
            last = block
        lines.append("  $p = cmpgt %a, %b" if place == 0 else "  " + kinds[place % 5].format(place % 7, 4 * (place % 16)))
    return "\n".join([*lines, "  ret %a", ""])


def crossing(names):
    """So many names that are made before a call and summed behind it."""
    lines = ["func f %a", "block e freq 1"] + [f"  %n{k} = addi %a, #{k}" for k in range(names)] + ["  %s = call h %a"]
    return "\n".join([*lines, *(f"  %s = add %s, %n{k}" for k in range(names)), "  ret %s", ""])


def arguments(calls):
    """So many calls of six arguments."""
    call = "  %a = call h %a, %b, %c, %d, %e, %g"
    return "\n".join(["func f %a %b %c %d %e %g", "block e freq 1", *[call] * calls, "  ret %a", ""])


def texts():
    made = {f"pattern-{operations}-{blocks}{'-calls' if calls else ''}": pattern(operations, blocks, calls)
            for operations, blocks in SIZES for calls in (False, True)}
    for operations, blocks in SIZES:
        for share in (0, 0.1):
            mix = dataclasses.replace(DRAWN, blocks=[blocks], calls=[share])
            made[f"drawn-{operations}-{blocks}{'-calls' if share else ''}"] = functions.made(operations, 0, mix)
    made |= {f"crossing-{names}": crossing(names) for names in (80, 90, 110)}
    return made | {"arguments-80": arguments(80)}


def run(words, text):
    """What a run prints, how many seconds of the processor it took, and how many megabytes at most."""
    child = subprocess.run(["/usr/bin/env", "python3", "-c", MEASURE, *words], input=text, capture_output=True, text=True, check=False)
    seconds, megabytes = child.stderr.split("\n")[-2].split()
    return child.stdout, float(seconds), float(megabytes)


# What a child runs: a program of its own, so that its peak is not that of another run.
MEASURE = """
import resource, subprocess, sys
subprocess.run(sys.argv[1:], check=False)
used = resource.getrusage(resource.RUSAGE_CHILDREN)
print(f"{used.ru_utime + used.ru_stime:.3f} {used.ru_maxrss / 1024:.1f}", file=sys.stderr)
"""


def number(field, report):
    found = re.search(rf"^{field} (\d+)$", report, re.M)
    return int(found[1]) if found else -1


def main():
    if sys.argv[1:2] == ["--write"]:
        os.makedirs(sys.argv[2], exist_ok=True)
        for name, text in texts().items():
            with open(f"{sys.argv[2]}/{name}.uni", "w", encoding="utf-8") as file:
                file.write(text)
        return
    program = sys.argv[1] if len(sys.argv) > 1 else functions.program("unison")
    print(f"{'':24} {'first':>9} {'cost':>9} {'bound':>9} {'nodes':>6}  "
          f"{'s, 3':>7} {'s, 2000':>8} {'s, check':>8} {'MB':>6} {'MB check':>8}")
    for name, text in texts().items():
        if len(sys.argv) > 2 and name not in sys.argv[2:]:
            continue
        first, fast, _ = run([program, "alloc", "--nodes", "3"], text)
        report, full, room = run([program, "alloc"], text)
        verdict, checked, check_room = run([program, "check"], f"{text}---\n{report}")
        print(f"{name:24} {number('cost', first):9} {number('cost', report):9} {number('bound', report):9} {number('tree', report):6}  "
              f"{fast:7.2f} {full:8.2f} {checked:8.2f} {room:6.1f} {check_room:8.1f}  {verdict.strip()}", flush=True)


main()
