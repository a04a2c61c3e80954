"""Trees with splits, for altered.py: what is asked of their form, by another hand than `check`, and how printed reports get such trees.

A box is a dictionary from variables to the least and the greatest value that the decisions above leave; a variable that it lacks has its
whole domain. What waits for the lines of a tree is a stack of places: (OUTER, box, None, None), (BEGINS, box, block, None) where the part
of a block begins, and (INSIDE, box, block, number) in it.
"""
import re

import judge_steps

OUTER, BEGINS, INSIDE = range(3)
MOST = 2**64 - 1


class Problem:
    """What the facts of a function say of its variables."""

    def __init__(self, text):
        facts = judge_steps.Facts(text)
        self.head = facts.heads
        self.domains = [sorted(it) for it in facts.box]
        self.flag, self.blocks = facts.flag, len(facts.blocks)
        self.freqs = [freq for _, freq, _ in facts.blocks]
        self.ends = [end for _, _, end in facts.blocks]
        self.own = [range(first, end + 1) for first, end in zip([0, *(it + 1 for it in self.ends)], self.ends)]
        register = {temp: v for temp, _, v in facts.temps}
        starts = [register[it] for op in facts.ops if op.kind == "in" for it in op.said["result"].values()]
        self.joined = [self.flag, *starts]
        # what the clauses of a block speak of besides its own variables
        self.near = [{self.flag, *(register[temp] for b, _, temp in facts.over if b == block)} for block in range(self.blocks)]

    def values(self, box, v):
        low, high = box.get(v, (0, MOST))
        return [y for y in self.domains[v] if low <= y <= high]

    def splits(self, box, v, n):
        """Whether a variable has values on both sides."""
        return v < len(self.domains) and min(self.values(box, v)) <= n < max(self.values(box, v))

    def sides(self, box, v, n):
        low, high = box.get(v, (0, MOST))
        return {**box, v: (low, min(high, n))}, {**box, v: (max(low, n + 1), high)}

    def is_right(self, box, limit, numbers):
        """Whether a split may stand at a box, before parts with these numbers, None where they can't be read."""
        if any(len(self.values(box, v)) > 1 for v in self.joined):
            return False
        return numbers is None or None in numbers or (limit is not None and sum(numbers) >= limit)

    def part_spans(self, lines, at):
        """Where the parts behind a split begin, and where the last one ends; None where they can't be read."""
        spans = []
        for _ in range(self.blocks):
            if at >= len(lines) or lines[at][0] != "P":
                return None
            spans.append(at)
            at, trees = at + 1, 1
            while trees:
                if at >= len(lines) or lines[at][0] not in "BC":
                    return None
                trees += 1 if lines[at][0] == "B" else -1
                at += 1
        return [*spans, at]

    def numbers(self, lines, at):
        spans = self.part_spans(lines, at)
        return spans and [number_of(lines[it]) for it in spans[:-1]]

    def judge(self, limit, lines):
        """The first line that breaks a point which no propagator has a say in, as ("strict", 3), or ("short", None), or None; the leaves
        before it, as (line, place), and how many lines before it are in no part."""
        waiting, leaves, outer = [(OUTER, {}, None, None)], [], 0
        for i, line in enumerate(lines):
            if not waiting:
                return ("short", None), leaves, outer
            place = waiting.pop()
            kind, box, block, _ = place
            outer += kind == OUTER
            if kind == BEGINS:
                if line[0] != "P":
                    return ("split", i), leaves, outer
                waiting.append((INSIDE, box, block, number_of(line)))
            elif line[0] == "B":
                v, n = map(int, line.split()[1:])
                if not self.splits(box, v, n) or (kind == INSIDE and v not in self.own[block]):
                    return ("strict", i), leaves, outer
                left, right = self.sides(box, v, n)
                waiting += [(kind, right, *place[2:]), (kind, left, *place[2:])]
            elif line == "C" or (line == "O" and kind == OUTER):
                leaves.append((i, place))
            elif line == "S" and kind == OUTER and self.is_right(box, limit, self.numbers(lines, i + 1)):
                waiting += [(BEGINS, box, it, None) for it in reversed(range(self.blocks))]
            else:
                return ("split", i), leaves, outer
        return ("short", None) if waiting else None, leaves, outer

    def holds(self, values, limit, place):
        """Whether a solution is what a closed leaf at a place says is not there."""
        kind, box, block, number = place
        if kind == OUTER:
            return is_in(values, box, box) and (limit is None or self.cost(values) < limit)
        inside = is_in(values, box, [v for v in box if v in self.own[block] or v in self.near[block]])
        return inside and (number is None or self.part_cost(values, block) < number)

    def part_cost(self, values, block):
        return self.freqs[block] * (values[self.ends[block]] - 1)

    def cost(self, values):
        return sum(self.part_cost(values, it) for it in range(self.blocks))


def number_of(line):
    return None if line == "P -" else int(line[2:])


def is_in(values, box, variables):
    return all(box[v][0] <= values[v] <= box[v][1] for v in variables)


class Report:
    """A report's lines, and what they say."""

    def __init__(self, lines):
        self.lines = lines

    def start(self):
        """The place of the tree's first line, which stands behind `tree M`."""
        return next(n for n, line in enumerate(self.lines) if line.startswith("tree ")) + 1

    def tree(self):
        return self.lines[self.start() : -1]

    def word(self, name):
        """The number of the line with this word, None where there is none."""
        return next((int(it.split()[1]) for it in self.lines if re.fullmatch(f"{name} [0-9]+", it)), None)

    def limit(self):
        return self.word("cost")

    def solution(self):
        start = next((n for n, line in enumerate(self.lines) if line.startswith("solution ")), None)
        return start and [int(it) for line in self.lines[start + 1 : self.start() - 1] for it in line.split()]

    def nodes(self):
        return int(self.lines[2].split()[6])

    def with_tree(self, tree, nodes=None, bound=None):
        lines = [*self.lines[: self.start() - 1], f"tree {len(tree)}", *tree, "end"]
        if nodes is not None:
            lines[2] = f"{lines[2].rpartition(' ')[0]} {nodes}"
        return [f"bound {bound}" if bound is not None and it.startswith("bound ") else it for it in lines]


class Maker:
    """Gives the tree of a printed report a split, with parts that close where that can be had. `ask` tells what `check` answers for lines:
    the words of its first line."""

    def __init__(self, draw, problem, report, bounds, ask):
        self.draw, self.problem, self.report, self.bounds, self.ask_check = draw, problem, report, bounds, ask
        self.limit, self.solution, self.bound = report.limit(), report.solution(), report.word("bound")

    def ask(self, tree):
        """What is said of a tree, with as many nodes given as it uses."""
        _, _, outer = self.problem.judge(self.limit, tree)
        open_leaf = "O" in tree
        return self.ask_check(self.report.with_tree(tree, outer if open_leaf else None, self.bound))

    def single(self, box, leaf):
        """Lines that give what joins the blocks one value each, those behind the place that is left, and its box."""
        draw, problem, before, after = self.draw, self.problem, [], []
        chosen = draw.choice(["solution", "solution", "solution", "near", "near", "any"]) if self.solution else "any"
        joined = problem.joined[:]
        if draw.random() < 0.5:
            draw.shuffle(joined)
        for v in joined:
            values = problem.values(box, v)
            value = self.solution[v] if chosen != "any" and self.solution[v] in values else draw.choice(values)
            if chosen == "near" and draw.random() < 0.1:
                value = draw.choice(values)
            if value > values[0]:
                below = values[values.index(value) - 1]
                before += [f"B {v} {below}", leaf]
                box = problem.sides(box, v, below)[1]
            if value < values[-1]:
                before.append(f"B {v} {value}")
                after.append(leaf)
                box = problem.sides(box, v, value)[0]
        return before, after, box

    def make(self):
        """The report with a split in place of a leaf, or of all of its tree, and what is said of it."""
        tree = self.report.tree()
        _, leaves, _ = self.problem.judge(self.limit, tree)
        at, (_, box, _, _) = self.draw.choice([it for it in leaves if it[1][0] == OUTER])
        end, leaf = at + 1, tree[at]
        if self.draw.random() < 0.4:
            at, end, box, leaf = 0, len(tree), {}, self.draw.choice("OOC")
        before, after, box = self.single(box, leaf)
        front, back = [*tree[:at], *before, "S"], [*after, *tree[end:]]
        tree, said = self.with_parts(front, back) if self.limit is not None else self.with_empty_part(front, back)
        return self.lines(tree), said

    def with_empty_part(self, front, back):
        """One part says that there is nothing, and others nothing of worth."""
        blocks = list(range(self.problem.blocks))
        self.draw.shuffle(blocks)
        for block in blocks[:4]:
            parts = [it for b in range(self.problem.blocks) for it in ("P -" if b == block else f"P {self.draw.choice([0, 0, 1])}", "C")]
            tree, said = self.grown([*front, *parts, *back], 3)
            if said[0] == "yes":
                break
        return tree, said

    def with_parts(self, front, back):
        """Each part says as much as its rounds show, the last one as much as is missing. Where parts come to more, one says less."""
        problem, numbers = self.problem, []
        for block in range(problem.blocks - 1):
            number = self.greatest(front, back, numbers, block)
            if number is None:
                break
            numbers.append(number)
        left = max(self.limit - sum(numbers), 0)
        numbers += [left] * (problem.blocks - len(numbers))
        spare = sum(numbers) - self.limit
        if spare > 0 and self.draw.random() < 0.5:
            block = self.draw.randrange(len(numbers))
            numbers[block] -= min(spare, numbers[block])
        return self.grown(self.put(front, back, numbers), 6)

    def put(self, front, back, numbers):
        return [*front, *(it for number in numbers for it in (f"P {number}", "C")), *back]

    def greatest(self, front, back, numbers, block):
        """The greatest number under which a block's part has a closed leaf, None where the tree is refused before that."""
        freq, rest = self.problem.freqs[block], self.problem.blocks - block - 1
        ends = self.solution[self.problem.ends[block]] - 1
        leaf, rising, found = len(front) + 2 * block + 1, None, None
        while ends >= 0:
            said = self.ask(self.put(front, back, [*numbers, freq * ends, *[MOST] * rest]))
            if said[0] == "no" and len(said) > 2 and int(said[2]) < leaf - 1:
                return None
            closed = said[:3] != ["no", "closed", str(leaf)]
            if closed:
                found = freq * ends
            if rising is not None and closed != rising or ends > 60:
                break
            rising = closed
            ends += 1 if closed else -1
        return found

    def grown(self, tree, times):
        """The tree, with branches where a closed leaf in a part is refused, and open leaves where others are; and what is said of it."""
        problem, said = self.problem, self.ask(tree)
        for _ in range(times):
            if said[:2] == ["no", "bound"]:
                for bound in self.bounds:
                    self.bound = bound
                    said = self.ask(tree)
                    if said[0] == "yes":
                        break
                break
            if said[:2] != ["no", "closed"]:
                break
            i = int(said[2])
            leaves = dict(problem.judge(self.limit, tree)[1])
            kind, box, block, _ = leaves[i]
            if kind == OUTER:
                tree = [*tree[:i], "O", *tree[i + 1 :]]
            else:
                several = [v for v in problem.own[block] if len(problem.values(box, v)) > 1]
                if not several:
                    break
                v = self.draw.choice([several[-1], self.draw.choice(several)])
                n = self.draw.choice(problem.values(box, v)[:-1])
                tree = [*tree[:i], f"B {v} {n}", "C", "C", *tree[i + 1 :]]
            said = self.ask(tree)
        return tree, said

    def lines(self, tree):
        _, _, outer = self.problem.judge(self.limit, tree)
        nodes = outer + self.draw.choice([0, 1]) if "O" in tree else None
        return self.report.with_tree(tree, nodes, self.bound)
