#!/usr/bin/env python3
"""Functions to measure on, written as files NAME.uni into a folder: functions.py FOLDER [large]. Kernels written by hand are in `kernels`.

- `gen-S-Z`: functions drawn by a linear generator from seed S (0 to 9), with Z blocks (1, 2, 3, 4, 8 and 16).
- `made-N-K`: functions of N operations (20 to 80) in one to eight blocks, with up to 40 names, loads, stores and calls, from a fixed seed.
- `calling-N-K`: the like of 10 to 60 operations in one to six blocks, with up to 24 names and at least one call.

With `large` others in their place: `large-N-B-K` of 80 to 400 operations in B blocks, half of them with calls, and `across-N`, a block in
which N names cross a call.
"""
import dataclasses
import math
import os
import random
import sys
import tempfile

sys.path.append(f"{os.path.dirname(os.path.dirname(os.path.realpath(__file__)))}/tools")
import programs


def program(name):
    """The path of a program: proved where it is built, or else compiled without a proof."""
    return programs.path_of(name)


class Draws:
    """The numbers that a linear generator gives, each below a bound."""

    def __init__(self, seed):
        self.state = seed

    def below(self, bound):
        self.state = (self.state * 6364136223846793005 + 1442695040888963407) % 2**64
        return (self.state >> 33) % bound


def generated(seed, size):
    """A function of `size` blocks, drawn from a seed."""
    draw = Draws(seed).below
    lines = ["func gen %v0 %v1 %v2 %v3", "block b0 freq 1"]
    lines += [f"  %v{i} = imm #{i}" for i in range(4, 8)] + ["  $p0 = cmpeq %v0, %v1"]
    for block in range(size):
        if block:
            lines.append(f"block b{block} freq {1 + draw(1000)}")
            for _ in range(4):
                kind, d, a, c = draw(8), draw(8), draw(8), draw(8)
                if kind < 5:
                    lines.append(f"  %v{d} = {['add', 'sub', 'and', 'xor', 'mpyi'][kind]} %v{a}, %v{c}")
                elif kind == 5:
                    lines.append(f"  %v{d} = addi %v{a}, #{c - 4}")
                elif kind == 6:
                    lines.append(f"  %v{d} = load %v{a}, #{4 * c}")
                else:
                    lines.append(f"  $p0 = cmpgt %v{a}, %v{c}")
        if block < size - 1:
            turn = draw(4)
            if turn < 2:
                lines.append(f"  if {['', '!'][turn]}$p0 jump b{draw(size - 1) + 1}")
    return "\n".join([*lines, "  ret %v0", ""])


@dataclasses.dataclass
class Mix:
    """What functions are drawn from: choices, each made once a function, and chances, each of an operation."""

    seed: str
    blocks: list
    calls: list
    names: list
    frequencies: list
    recent: int
    renamed: float
    load: float
    store: float
    compare: float
    mux: float
    literal: float
    back: float


MADE = Mix("", [1, 1, 2, 3, 4, 8], [0, 0, 0.05, 0.1], [36], [1, 10, 100, 1000], 12, 0.2, 0.12, 0.06, 0.06, 0.06, 0, 0.7)
CALLING = Mix("fx ", [1, 2, 3, 4, 6], [0.05, 0.1, 0.15, 0.2], [8, 12, 16, 24], [1, 10, 100], 8, 0.3, 0.15, 0.05, 0.06, 0.04, 0.1, 0.8)


def operation(draw, mix, calls, known, to):
    """An operation, and whether it assigns `to`."""
    a, c = draw.choice(known[-mix.recent:]), draw.choice(known)
    kind = draw.random() - calls
    if kind < 0:
        return f"{to} = call h {a}, {c}", True
    if kind < mix.load:
        return f"{to} = load {a}, #{4 * draw.randrange(16)}", True
    if kind < mix.load + mix.store:
        return f"store {a}, #{4 * draw.randrange(16)}, {c}", False
    if kind < mix.load + mix.store + mix.compare:
        return f"$p = cmpgt {a}, {c}", False
    if kind < mix.load + mix.store + mix.compare + mix.mux:
        return f"{to} = mux $p, {a}, {c}", True
    if kind < mix.load + mix.store + mix.compare + mix.mux + mix.literal:
        return f"{to} = addi {a}, #{draw.randrange(64)}", True
    return f"{to} = {draw.choice(['add', 'sub', 'and', 'or', 'xor', 'mpyi'])} {a}, {c}", True


def made(ops, number, mix):
    """A function of so many operations."""
    draw = random.Random(f"{mix.seed}{ops} {number}")
    blocks, calls = draw.choice(mix.blocks), draw.choice(mix.calls)
    names = draw.choice(mix.names) if len(mix.names) > 1 else mix.names[0]
    known = ["%a", "%b", "%c"]
    lines = ["func made %a %b %c", "block b0 freq 1", "  $p = cmpgt %a, %b"]
    per = max(1, (ops - 1) // blocks)
    left = ops - 1
    for block in range(blocks):
        if block:
            lines.append(f"block b{block} freq {draw.choice(mix.frequencies)}")
        for _ in range(left if block == blocks - 1 else per):
            left -= 1
            new = len(known) < names and (block == 0 or draw.random() < mix.renamed)
            fresh = new and block == 0
            to = f"%n{len(known)}" if fresh else draw.choice(known)
            text, assigns = operation(draw, mix, calls, known, to)
            lines.append(f"  {text}")
            if fresh and assigns:
                known.append(to)
        if 0 < block < blocks - 1 and draw.random() < mix.back:
            lines.append(f"  if $p jump b{draw.randrange(1, block + 1)}")
    return "\n".join([*lines, f"  ret {draw.choice(known)}", ""])


def write(folder):
    """Writes all of them."""
    os.makedirs(folder, exist_ok=True)
    texts = {f"gen-{seed}-{size}": generated(seed, size) for seed in range(10) for size in (1, 2, 3, 4, 8, 16)}
    texts |= {f"made-{ops}-{number}": made(ops, number, MADE) for ops in range(20, 81, 10) for number in range(7)}
    drawn = {f"calling-{ops}-{number}": made(ops, number, CALLING) for ops in (10, 15, 20, 25, 30, 40, 50, 60) for number in range(10)}
    texts |= {name: text for name, text in drawn.items() if "call" in text}
    for name, text in texts.items():
        with open(f"{folder}/{name}.uni", "w", encoding="utf-8") as file:
            file.write(text)


LARGE = dataclasses.replace(MADE, seed="lg ", names=[60])
SIZES = ((80, 4), (80, 16), (160, 1), (160, 16), (160, 32), (250, 16), (400, 1), (400, 16), (400, 64))


def across(names):
    """A function of one block in which so many names cross a call."""
    made_before = [f"  %n{i} = addi %a, #{i}" for i in range(names)]
    summed = [f"  %s = add %s, %n{i}" for i in range(names)]
    return "\n".join(["func across %a %b", "block b0 freq 1", *made_before, "  call g %b", "  %s = imm #0", *summed, "  ret %s", ""])


def write_large(folder):
    """Writes the larger ones."""
    os.makedirs(folder, exist_ok=True)
    texts = {f"across-{names}": across(names) for names in (40, 60, 80, 90, 100, 110)}
    for ops, blocks in SIZES:
        for number in range(4):
            mix = dataclasses.replace(LARGE, blocks=[blocks], calls=[0.06 * (number % 2)])
            texts[f"large-{ops}-{blocks}-{number}"] = made(ops, number, mix)
    for name, text in texts.items():
        with open(f"{folder}/{name}.uni", "w", encoding="utf-8") as file:
            file.write(text)


def read(folders):
    """The functions of folders, the examples, the kernels and those above where none is named: the group, the name and the text of each."""
    if not folders:
        top = os.path.dirname(os.path.dirname(os.path.realpath(__file__)))
        folders = [f"{top}/examples", f"{top}/kernels", tempfile.mkdtemp(prefix="unison-functions-")]
        write(folders[-1])
    for folder in folders:
        for name in sorted(os.listdir(folder)):
            if name.endswith(".uni"):
                with open(f"{folder}/{name}", encoding="utf-8") as file:
                    yield name.split("-")[0] if "-" in name else "examples", name[:-4], file.read()


def mean(ratios):
    """The geometric mean."""
    return math.exp(sum(math.log(it) for it in ratios) / len(ratios)) if ratios else 1.0


if __name__ == "__main__":
    (write_large if sys.argv[2:] == ["large"] else write)(sys.argv[1])
