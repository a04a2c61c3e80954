#!/usr/bin/env python3
"""Judges a log of steps by the rules of docs/LANGUAGE.md, and shares no code with the program that wrote it.

usage: judge_steps.py [--counts] FACTS REPORT LOG

FACTS is what `./unison inspect facts FUNCTION` prints under the options of the report, REPORT what `./unison alloc FUNCTION` does, and
LOG a log by `./unison steps FUNCTION REPORT` or another hand. Where the log empties each closed leaf of the report's tree it prints
`yes steps`: if the facts are right, such a leaf has no solution that costs less than the report's code. Else it prints
`bad steps: line L` with the first line that is not right, or the one behind the last, and ends with status 14. With --counts rule 13 is
one of the rules.

A box is a list with the set of values that each variable has left. A rule is a method that says of a place and a variable which values
may go from the present box: its answer is a function of a value, or `nothing`.
"""
import re
import sys
from collections import defaultdict

SPILL, RELOAD = 2, 3
WORDS = {"instr", "cycle", "latency", "fresh", "jumps", "takes", "reads", "gives", "alternative", "home", "choice", "result"}


def fail(text, status=1):
    print(text)
    sys.exit(status)


def nothing(y):
    return False


class Operation:
    """An operation of a block, with the lines of facts that begin with its number: by their words, the last number by those before it."""

    def __init__(self, kind, block):
        self.kind, self.block, self.said, self.operands = kind, block, defaultdict(dict), defaultdict(list)

    def take(self, word, key, value):
        self.said[word][key] = value
        if word == "alternative":
            self.operands[key[0]].append(value)

    instr = property(lambda self: self.said["instr"].get(()))
    cycle = property(lambda self: self.said["cycle"].get(()))
    choices = property(lambda self: {key[0]: v for key, v in self.said["choice"].items()})

    def space(self, n, place):
        return self.said["reads"].get((n, place))


class Facts:
    """What a function's problem is."""

    def __init__(self, text):
        self.heads, self.box, self.ops, self.temps, self.arcs, self.blocks, self.over = [], [], [], [], [], [], []
        self.spaces, self.packet, self.flag = {}, {}, None
        lines = text.split("\n")
        if lines[-2:] != ["end", ""]:
            fail("the facts have no last line 'end'")
        for line in lines[:-2]:
            word, *rest = line.split(" ")
            if word in ("unison", "function", "model"):
                self.heads.append(line)
            elif word == "domain":
                runs = [part.partition("..") for part in rest[1:]]
                self.box.append(frozenset(y for low, _, high in runs for y in range(int(low), int(high or low) + 1)))
            else:
                self.take(word, tuple(map(int, rest)))

    def take(self, word, n):
        """A line of a word and numbers."""
        if word in ("in", "out", "own", "copy", "frame"):
            self.ops.append(Operation(word, n[1]))
        elif word in WORDS:
            self.ops[n[0]].take(word, n[1:-1], n[-1])
        elif word in ("block", "temp", "arc", "over"):
            {"block": self.blocks, "temp": self.temps, "arc": self.arcs, "over": self.over}[word].append(n)
        elif word == "space":
            self.spaces[n[0]] = range(n[1], n[2] + 1)
        elif word == "packet":
            self.packet[n[0]] = n[1]
        elif word == "flag":
            self.flag = n[0]
        else:
            fail(f"there are no facts '{word}'")


class Judge:
    def __init__(self, facts, limit):
        self.facts, self.limit, self.box = facts, limit, list(facts.box)

    # ---- what the box leaves to an operation

    def end(self, op):
        return self.facts.blocks[op.block][2]

    def time(self, op):
        """The variable of its time."""
        return {"in": None, "out": self.end(op)}.get(op.kind, op.cycle)

    def cycles(self, op):
        time = self.time(op)
        return {0} if time is None else self.box[time]

    def sure(self, op):
        return op.instr is None or 0 not in self.box[op.instr]

    def off(self, op):
        return op.instr is not None and self.box[op.instr] == {0}

    def instrs(self, op):
        return {0} if op.instr is None else {n for n in self.box[op.instr] if n > 0}

    def regs(self, temp):
        return self.box[self.facts.temps[temp][2]]

    def regs_in(self, temp, space):
        return {r for r in self.regs(temp) if space is None or r in self.facts.spaces[space]}

    def definer(self, temp):
        return self.facts.ops[self.facts.temps[temp][1]]

    def results(self, op):
        return [self.facts.temps[temp][2] for temp in op.said["result"].values()]

    def others(self, op):
        """Its variables but that of its instruction."""
        return [*op.said["cycle"].values(), *op.choices.values(), *self.results(op)]

    def each(self, op, v, goes):
        """Lets each temporary go from the choice v of which, with its operand's place, this holds."""
        for place, choice in op.choices.items():
            if choice == v:
                temps = op.operands[place]
                return lambda y: y < len(temps) and goes(place, temps[y])
        return nothing

    # ---- the rules

    def too_soon(self, arc, v):
        first, then, gap = self.facts.arcs[arc]
        first, then = self.facts.ops[first], self.facts.ops[then]
        least, greatest = min(self.cycles(first), default=None), max(self.cycles(then), default=None)
        soon = lambda y: self.time(then) == v and least is not None and y < least + gap
        return lambda y: soon(y) or (self.time(first) == v and greatest is not None and greatest < y + gap)

    def idle(self, op, v):
        idles = self.off(op) and v in self.others(op)
        needed = op.instr == v and any(0 not in self.box[w] for w in self.others(op))
        return lambda y: (idles and y > 0) or (needed and y == 0)

    def outside_block(self, op, v):
        if op.kind in ("in", "out") or not self.sure(op):
            return nothing
        last, least = max(self.box[self.end(op)], default=None), min(self.cycles(op), default=None)
        if op.cycle == v:
            return lambda y: y == 0 or (last is not None and last <= y)
        return lambda y: self.end(op) == v and least is not None and y <= least

    def from_idle(self, op, v):
        return self.each(op, v, lambda _, temp: self.off(self.definer(temp))) if self.sure(op) else nothing

    def is_late(self, op, giver):
        given = {0} if giver.kind == "in" else {c for c in self.cycles(giver) if c > 0}
        ways = [(i, j) for i in self.instrs(giver) for j in self.instrs(op)]
        if not (given and self.cycles(op) and ways):
            return False
        gap = lambda i, j: 0 if (i,) in giver.said["fresh"] and (j,) in op.said["jumps"] else giver.said["latency"][i,]
        return all(max(self.cycles(op)) < min(given) + gap(i, j) for i, j in ways)

    def too_late_for(self, op, v):
        return self.each(op, v, lambda _, temp: self.is_late(op, self.definer(temp))) if self.sure(op) else nothing

    def outside_space(self, op, v):
        if op.kind != "copy" or v not in self.results(op) or len(self.box[op.instr]) != 1 or self.off(op):
            return nothing
        space = op.said["gives"].get(tuple(self.box[op.instr]))
        return lambda y: space is not None and y not in self.facts.spaces[space]

    def no_space(self, op, v):
        if op.kind == "out" or not self.sure(op):
            return nothing
        return self.each(op, v, lambda place, temp: not any(self.regs_in(temp, op.space(n, place)) for n in self.instrs(op)))

    def leaves_none(self, op, place, temp, k):
        """Operand k reads another value, and is left no register but the one that the temporary has."""
        left = self.box[op.choices[k]] if k in op.choices else {0}
        temps = [op.operands[k][i] for i in left if i < len(op.operands[k])]
        its = set().union(*(self.regs_in(other, op.space(0, k)) for other in temps))
        own = self.regs_in(temp, op.space(0, place))
        return op.operands[k][0] != op.operands[place][0] and (not own or not its or len(own | its) == 1)

    def alike(self, op, v):
        if op.kind in ("copy", "frame"):
            return nothing
        return self.each(op, v, lambda place, temp: any(self.leaves_none(op, place, temp, k) for k in op.operands))

    def not_home(self, op, v):
        homes = op.said["home"]
        return self.each(op, v, lambda place, temp: (place,) in homes and homes[place,] not in self.regs(temp))

    def not_congruent(self, op, v):
        taken = [(place, temp) for block, place, temp in self.facts.over if block == op.block and op.kind == "out"]
        return self.each(op, v, lambda place, temp: any(place == at and not self.regs(temp) & self.regs(x) for at, x in taken))

    def too_dear(self, block, v):
        others = [(freq, self.box[end]) for _, freq, end in self.facts.blocks if end != v]
        _, freq, end = self.facts.blocks[block]
        if end != v or self.limit is None or not all(ends for _, ends in others):
            return nothing
        rest = sum(freq * max(min(ends) - 1, 0) for freq, ends in others)
        return lambda y: self.limit <= freq * max(y - 1, 0) + rest

    def no_frame(self, op, v):
        if op.kind != "copy":
            return nothing
        none, left = self.box[self.facts.flag] == {0}, self.box[op.instr]
        needed = self.facts.flag == v and bool(left) and left <= {SPILL, RELOAD}
        return lambda y: (none and op.instr == v and y in (SPILL, RELOAD)) or (needed and y == 0)

    def too_full(self, block, v):
        ops = [op for op in self.facts.ops if op.block == block]
        full = any(self.time(op) == v for op in ops) and any(self.overfull(ops, *it) for it in self.facts.packet.items())
        return lambda y: full

    def overfull(self, ops, resource, places):
        """In some row of cycles sure operations take more of a resource than the packets have."""
        least = lambda op: min((op.said["takes"].get((n, resource), 0) for n in self.instrs(op)), default=0)
        taken = [(self.cycles(op), least(op)) for op in ops if self.sure(op) and self.cycles(op) and least(op)]
        spans = [(a, z) for a in {min(cs) for cs, _ in taken} for z in {max(cs) for cs, _ in taken} if a <= z]
        return any((z - a + 1) * places < sum(n for cs, n in taken if a <= min(cs) and max(cs) <= z) for a, z in spans)

    RULES = (too_soon, idle, outside_block, from_idle, too_late_for, outside_space, no_space, alike, not_home, not_congruent, too_dear,
             no_frame, too_full)

    def step(self, line, rules):
        """Takes a step, where its rule lets it."""
        if not re.fullmatch(rb"(0|[1-9][0-9]*)( (0|[1-9][0-9]*)){4}", line):
            return False
        rule, at, v, low, high = map(int, line.split())
        places = {1: self.facts.arcs, 11: self.facts.blocks, 13: self.facts.blocks}.get(rule, self.facts.ops)
        if max(low, high) >= 1 << 32 or not 1 <= rule <= rules or at >= len(places) or v >= len(self.box):
            return False
        going = frozenset(y for y in self.box[v] if low <= y <= high)
        goes = self.RULES[rule - 1](self, places[at] if places is self.facts.ops else at, v)
        allowed = all(goes(y) for y in going)
        self.box[v] -= going
        return allowed

    def leaf(self, log, at, rules):
        """The number of lines up to the end of those of a closed leaf."""
        while at < len(log):
            line, at = log[at], at + 1
            if line == b".\n" and not all(self.box):
                return at
            if not (line.endswith(b"\n") and self.step(line[:-1], rules)):
                fail(f"bad steps: line {at}", 14)
        fail(f"bad steps: line {len(log) + 1}", 14)

    def walk(self, tree, log, rules):
        """Judges a log, leaf after leaf of a tree."""
        at, sides = 0, [list(self.box)]
        for number, node in enumerate(tree):
            if not sides:
                fail("the report's tree goes on behind its end")
            self.box = sides.pop()
            if node[0] == "B":
                v, n = map(int, node[1:])
                low = frozenset(y for y in self.box[v] if y <= n)
                sides += [[*self.box[:v], left, *self.box[v + 1:]] for left in (self.box[v] - low, low)]
            elif node == ["C"]:
                at = self.leaf(log, at, rules)
            elif node != ["O"]:
                fail(f"no log: node {number}", 13)
        if sides:
            fail("the report's tree ends too early")
        if at < len(log):
            fail(f"bad steps: line {len(log) + 1}", 14)


def main(words):
    rules = 13 if words[:1] == ["--counts"] else 12
    files = words[rules - 12:]
    if len(files) != 3:
        fail(__doc__.split("\n\n")[1], 4)
    facts = Facts(open(files[0]).read())
    report = open(files[1]).read().split("\n")
    if [line.split(" nodes ")[0] for line in report[:3]] != facts.heads:
        fail(f"the report is not one of {facts.heads}", 8)
    costs = [int(line[5:]) for line in report[4:5] if line.startswith("cost ")]
    first = next(k for k, line in enumerate(report) if line.startswith("tree ")) + 1
    tree = [line.split(" ") for line in report[first:first + int(report[first - 1][5:])]]
    log = re.findall(rb"[^\n]*\n|[^\n]+\Z", open(files[2], "rb").read())
    Judge(facts, *(costs or [None])).walk(tree, log, rules)
    print("yes steps")


if __name__ == "__main__":
    main(sys.argv[1:])
