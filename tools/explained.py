#!/usr/bin/env python3
"""For how many blocks `explain` names a cause, and how wide drawings are: explained.py [FILE..].

Each FILE.uni (without files: the examples and kernels) is explained and drawn with the report of `alloc`. Printed are the blocks of which it
is not said what asks for their length, and drawings of more than 200 columns; and at the end how many blocks there are, of how many the
length is what is asked for in any code, with the copies of the code at hand, and with its registers, how many are longer and in code that
the search proved to be cheapest, and how many nothing holds.
"""
import glob
import os
import subprocess
import sys

import programs

WIDEST = 200
KINDS = {
    "in any code": "\n  its length is what ",
    "with its copies": "with its saves, reloads and moves its length is what ",
    "with its registers": "with its registers its length is what ",
    "proved by the search": "the search proved that no code costs less, so that",
    "without a cause": "",
}
NAMED = list(KINDS)[:3]


def run(program, words, text):
    return subprocess.run([program, *words], input=text, capture_output=True, text=True, check=False)


def joined(*texts):
    return "---\n".join(it if it.endswith("\n") else it + "\n" for it in texts)


def main():
    unison, inspect = programs.path_of("unison"), programs.path_of("inspect")
    folders = [f"{programs.unproved.TOP}/{it}/*.uni" for it in ("examples", "kernels")]
    count, widest, functions = dict.fromkeys(KINDS, 0), (0, ""), 0
    for file in sys.argv[1:] or [it for folder in folders for it in sorted(glob.glob(folder))]:
        name = os.path.basename(file)
        with open(file, encoding="utf-8") as source:
            text = source.read()
        report = run(unison, ["alloc"], text)
        if report.returncode:
            print(f"{name}: alloc ends with {report.returncode}")
            continue
        functions += 1
        both = joined(text, report.stdout)
        for block in ("\n" + run(inspect, ["explain"], both).stdout).split("\nblock ")[1:]:
            kind = next(kind for kind, words in KINDS.items() if words in block)
            count[kind] += 1
            if kind not in NAMED:
                print(f"{name}: {kind}: block {block.splitlines()[0]}", flush=True)
        width = max(len(line) for line in run(inspect, ["draw"], both).stdout.split("\n"))
        if width > WIDEST:
            print(f"{name}: its drawing has {width} columns")
        widest = max(widest, (width, name))
    blocks, named = sum(count.values()), sum(count[it] for it in NAMED)
    print(f"{functions} functions, {blocks} blocks, {named} with a cause ({100 * named / max(blocks, 1):.1f} of 100): "
          + ", ".join(f"{number} {kind}" for kind, number in count.items()))
    print(f"the widest drawing has {widest[0]} columns, {widest[1]}")


main()
