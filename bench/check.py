#!/usr/bin/env python3
"""How long `check` takes beside `alloc`: check.py [PROGRAM] [NODES] [FUNCTIONS].

For the examples and for functions that functions.py writes (FUNCTIONS of each kind, 12 without it; 0 for the examples alone): the report
that `alloc` prints with NODES nodes (2,000 without it) is checked. A line each has the nodes of its tree, the milliseconds of the
processor for `alloc` and for `check`, the best of three runs, and their ratio; then come sums and the greatest ratio. Then trees that no
search made, with the megabytes that the check takes: a path of 819 branches, and a balanced tree of 199,999 nodes. Without PROGRAM it is
the built one, or one that is compiled without a proof. The gate does not run it.
"""
import glob
import os
import subprocess
import sys
import tempfile

import functions

TOP = os.path.dirname(os.path.dirname(os.path.realpath(__file__)))
SMALLEST = "func f\nblock e freq 1\n  ret\n"
# The cycles of the first copies of the saved values, each from 0 to 63.
CYCLES = range(14, 51, 3)


def run(program, words, text):
    """The status, the output, the seconds of the processor and the megabytes of a run."""
    with tempfile.TemporaryFile() as given, tempfile.TemporaryFile() as out:
        given.write(text)
        given.seek(0)
        pid = subprocess.Popen([program, *words], stdin=given, stdout=out, stderr=subprocess.DEVNULL)
        _, status, used = os.wait4(pid.pid, 0)
        out.seek(0)
        return os.waitstatus_to_exitcode(status), out.read(), used.ru_utime + used.ru_stime, used.ru_maxrss / 1024


def best(program, words, text):
    """The same of the quickest of three runs."""
    return min((run(program, words, text) for _ in range(3)), key=lambda it: it[2])


def joined(function, report):
    return function + (b"" if function.endswith(b"\n") else b"\n") + b"---\n" + report


def compared(program, nodes, files):
    total, most = [0.0, 0.0], (0.0, "")
    print(f"{'function':24} {'nodes':>6} {'alloc ms':>9} {'check ms':>9} {'ratio':>6}")
    for file in files:
        name = os.path.basename(file)[:-4]
        with open(file, "rb") as text:
            function = text.read()
        status, report, made, _ = best(program, ["alloc", "--nodes", str(nodes)], function)
        if status not in (0, 1, 2):
            continue
        told, line, checked, _ = best(program, ["check"], joined(function, report))
        if told != 0:
            sys.exit(f"{name}: {line.decode()}")
        tree = report.decode().split("\ntree ")[1].split("\n")[0]
        print(f"{name:24} {tree:>6} {1000 * made:9.1f} {1000 * checked:9.1f} {checked / made:6.2f}", flush=True)
        total[0] += made
        total[1] += checked
        most = max(most, (checked / made, name))
    made, checked = total
    print(f"sum: alloc {1000 * made:.1f} ms, check {1000 * checked:.1f} ms, ratio {checked / made:.2f}; most {most[0]:.2f}, {most[1]}")


def path():
    """Branches on the last value but one, then but two, of one cycle after another."""
    branches = [f"B {var} {val}" for var in CYCLES for val in range(62, -1, -1)]
    return branches + ["O"] * (len(branches) + 1)


def balanced(leaves, var=0, low=0, high=63):
    """A tree of so many open leaves that halves the values of one cycle after another."""
    if leaves == 1:
        return ["O"]
    if low == high:
        return balanced(leaves, var + 1)
    half = (low + high) // 2
    left = balanced(leaves // 2, var, low, half)
    return [f"B {CYCLES[var]} {half}", *left, *balanced(leaves - leaves // 2, var, half + 1, high)]


def spent(tree):
    """A report of the smallest function with this tree."""
    count = len(tree)
    head = ["unison 3", "function f", f"model regs all slots 256 nodes {count}", "answer spent", f"tree {count}"]
    return "\n".join([*head, *tree, "end", ""]).encode()


def main():
    words = sys.argv[1:]
    program = os.path.realpath(words[0]) if words else functions.program("unison")
    nodes = int(words[1]) if len(words) > 1 else 2000
    count = int(words[2]) if len(words) > 2 else 12
    files = sorted(glob.glob(f"{TOP}/examples/*.uni"))
    with tempfile.TemporaryDirectory() as folder:
        if count:
            subprocess.run([sys.executable, f"{TOP}/bench/functions.py", folder], check=True)
            for kind in ("gen", "made"):
                made = sorted(glob.glob(f"{folder}/{kind}-*.uni"))
                files += made[:: max(1, len(made) // count)][:count]
        compared(program, nodes, files)
    for name, tree in (("a path", path()), ("balanced", balanced(100_000))):
        status, line, seconds, megabytes = best(program, ["check"], joined(SMALLEST.encode(), spent(tree)))
        print(f"{name}, {len(tree)} nodes: {line.decode().strip()} (status {status}), {1000 * seconds:.0f} ms, {megabytes:.1f} MB")


main()
