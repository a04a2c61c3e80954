#!/usr/bin/env python3
"""Alters reports and asks `check` what it says of them: altered.py [--splits] [COUNT] [SEED].

Reports of the examples and of generated functions are altered by a fixed seed: a number or a node of the tree is changed, a line is
dropped, doubled or swapped with another, or two reports are crossed. Some are given trees with splits first, whose parts are altered too: a
number is changed, a part is dropped, doubled or swapped with another, or a line within one is changed. With --splits all are of these.
`check` must answer each with 0, 8 or 9 and never crash. What is answered yes is listed by kind. What it says of a tree has to be what
split_trees.py says of its form, and what is answered yes may say nothing against a known solution. PROGRAM and INSPECT of the
environment name other programs than those of this repository.
"""
import collections
import concurrent.futures
import functools
import glob
import os
import random
import re
import subprocess
import sys

import programs
import split_trees

TOP = os.path.dirname(os.path.dirname(os.path.realpath(__file__)))
PROGRAM = os.path.realpath(os.environ.get("PROGRAM") or programs.path_of("unison"))
INSPECT = os.path.realpath(os.environ.get("INSPECT") or programs.path_of("inspect"))
# Options of reports: some find code, some run out of nodes, and some have no code.
WORDS = ("--nodes 1", "--nodes 20", "", "--regs 5 --nodes 9", "--regs 3 --slots 2 --nodes 9", "--regs 1 --slots 0 --nodes 9")
OPTIONS = [it.split() for it in WORDS]
# So many lines at most has a tree that is given splits, and so many numbers the solution; and so often it is tried for one function.
LINES, NUMBERS, TRIES = 200, 800, 3
THREADS = len(os.sched_getaffinity(0))
Case = collections.namedtuple("Case", "text lines words")


def run(words, text=b"", program=PROGRAM):
    ran = subprocess.run([program, *words], input=text, stdout=subprocess.PIPE, stderr=subprocess.PIPE, check=False)
    return ran.returncode, ran.stdout, ran.stderr


def check(text, lines):
    status, out, err = run(["check"], text + b"---\n" + "".join(it + "\n" for it in lines).encode())
    return status, out.decode(), err.decode()


def reports():
    """Functions with reports of theirs, of several budgets and options, as lists of lines."""
    functions = [open(it, "rb").read() for it in sorted(glob.glob(f"{TOP}/examples/*.uni"))]
    functions += [run(["gen", str(seed), str(size)])[1] for seed in range(6) for size in (1, 2, 4)]
    found = []
    for text in functions:
        for words in OPTIONS:
            status, out, _ = run(["alloc", *words], text)
            if status in (0, 1, 2):
                text = text if text.endswith(b"\n") else text + b"\n"
                found.append(Case(text, out.decode().split("\n")[:-1], words))
    return found


@functools.lru_cache(maxsize=None)
def problem_of(text, *words):
    """The function's problem under the options that a report's line of them begins with."""
    return split_trees.Problem(run(["facts", *words], text, INSPECT)[1].decode())


def problem(case):
    """The problem of a report's function under its options."""
    regs, slots = case.lines[2].split()[2:5:2]
    return problem_of(case.text, *([] if regs == "all" else ["--regs", regs]), "--slots", slots)


def key(case):
    return case.text, case.lines[2].partition(" nodes ")[0]


def known_solutions(all_reports):
    """The solutions that reports of a function have under the same options."""
    found = collections.defaultdict(list)
    for it in all_reports:
        solution = split_trees.Report(it.lines).solution()
        if solution and solution not in found[key(it)]:
            found[key(it)].append(solution)
    return found


def split_reports(draw, all_reports, known, wrong):
    """Reports whose trees have a split: those that are accepted, and some that are not. What `check` says on the way is judged too."""
    costs, found, refused = collections.defaultdict(set), [], []
    for it in all_reports:
        report = split_trees.Report(it.lines)
        costs[key(it)] |= {report.word("cost"), report.word("bound")} - {None}

    def make(one):
        case, seed = one
        report = split_trees.Report(case.lines)
        if len(report.tree()) > LINES or len(report.solution() or []) > NUMBERS:
            return []

        def ask(lines):
            status, out, err = check(case.text, lines)
            if status not in (0, 8) or is_wrong(case, lines, out, known[key(case)]):
                wrong.append(("a tree with a split", status, out + err, case.text, lines))
            return out.split()

        makers = [split_trees.Maker(random.Random(seed + n), problem(case), report, sorted(costs[key(case)]), ask) for n in range(TRIES)]
        return [(case._replace(lines=lines), said) for lines, said in (it.make() for it in makers)]

    with concurrent.futures.ThreadPoolExecutor(THREADS) as pool:
        for made in pool.map(make, [(it, draw.randrange(2**32)) for it in all_reports]):
            for case, said in made:
                (found if said[0] == "yes" else refused).append(case)
    draw.shuffle(refused)
    print(f"{len(found)} trees with a split are accepted, {len(refused)} are not", flush=True)
    return found + refused[: len(found) // 2]


def a_number(draw, lines):
    at = draw.choice([n for n, line in enumerate(lines) if re.search(r"[0-9]", line)])
    number = draw.choice(list(re.finditer(r"[0-9]+", lines[at])))
    old = int(number[0])
    new = draw.choice([old + 1, max(old - 1, 0), draw.randrange(70), 2 * old, 2**32, 2**64, old + 2**32])
    lines[at] = lines[at][: number.start()] + str(new) + lines[at][number.end() :]


def drawn_node(draw):
    return draw.choice(["C", "O", f"B {draw.randrange(600)} {draw.randrange(70)}", "S", "P -", f"P {draw.randrange(600)}"])


def a_node(draw, lines):
    start = next(n for n, line in enumerate(lines) if line.startswith("tree "))
    at = draw.randrange(start + 1, len(lines) - 1)
    lines[at] = drawn_node(draw)


def a_tree(draw, lines):
    start = next(n for n, line in enumerate(lines) if line.startswith("tree "))
    at = draw.randrange(start + 1, len(lines) - 1)
    lines[at : at + 1] = [f"B {draw.randrange(600)} {draw.randrange(70)}", draw.choice("CO"), draw.choice("CO")]
    lines[start] = f"tree {len(lines) - start - 2}"


def drop(draw, lines):
    del lines[draw.randrange(len(lines))]


def double(draw, lines):
    at = draw.randrange(len(lines))
    lines.insert(at, lines[at])


def swap(draw, lines):
    one, two = draw.randrange(len(lines)), draw.randrange(len(lines))
    lines[one], lines[two] = lines[two], lines[one]


def part_number(draw, tree, spans, own):
    at = draw.choice(spans[:-1])
    old = split_trees.number_of(tree[at])
    news = ["-", 0, 1, draw.randrange(600), 2**64 - 1, 2**64]
    tree[at] = f"P {draw.choice(news if old is None else [*news, old + 1, max(old - 1, 0), 2 * old, old // 2, old + 2**32])}"


def two_part_numbers(draw, tree, spans, own):
    """One part says less and another more, by the same number."""
    numbered = [it for it in spans[:-1] if tree[it] != "P -"]
    if len(numbered) > 1:
        one, two = draw.sample(numbered, 2)
        less = draw.choice([1, draw.randrange(70), split_trees.number_of(tree[one])])
        less = min(less, split_trees.number_of(tree[one]))
        tree[one], tree[two] = (f"P {split_trees.number_of(tree[at]) + more}" for at, more in ((one, -less), (two, less)))


def drop_part(draw, tree, spans, own):
    k = draw.randrange(len(spans) - 1)
    del tree[spans[k] : spans[k + 1]]


def double_part(draw, tree, spans, own):
    k = draw.randrange(len(spans) - 1)
    tree[spans[k] : spans[k]] = tree[spans[k] : spans[k + 1]]


def swap_parts(draw, tree, spans, own):
    parts = [tree[one:two] for one, two in zip(spans, spans[1:])]
    one, two = draw.randrange(len(parts)), draw.randrange(len(parts))
    parts[one], parts[two] = parts[two], parts[one]
    tree[spans[0] : spans[-1]] = [line for part in parts for line in part]


def drawn_branch(draw, own, block):
    v = draw.choice([own[block][-1], draw.choice(own[block]), draw.choice(own[block]), draw.randrange(600)])
    return f"B {v} {draw.choice([0, 0, 1, 1, draw.randrange(10), draw.randrange(70)])}"


def part_leaf(draw, tree, spans, own):
    k = draw.randrange(len(spans) - 1)
    at = draw.choice([n for n in range(spans[k], spans[k + 1]) if tree[n] == "C"])
    branched = [drawn_branch(draw, own, k), "C", "C"]
    tree[at : at + 1] = draw.choice([branched, branched, branched, ["O"], ["S"], ["P 0"], ["P -"], ["C", "C"], []])


def part_branch(draw, tree, spans, own):
    """A branch within a part is changed, or goes away with one of its sides."""
    places = [(n, k) for k in range(len(spans) - 1) for n in range(spans[k], spans[k + 1]) if tree[n][0] == "B"]
    if not places:
        return part_leaf(draw, tree, spans, own)
    at, k = draw.choice(places)
    _, v, n = tree[at].split()
    if tree[at + 1] == "C" and draw.random() < 0.3:
        del tree[at : at + 2]
    else:
        changed = [f"B {v} {int(n) + 1}", f"B {v} {max(int(n) - 1, 0)}", f"B {int(v) + 1} {n}", f"B {max(int(v) - 1, 0)} {n}"]
        tree[at] = draw.choice([*changed, drawn_branch(draw, own, k)])


def part_line(draw, tree, spans, own):
    at = draw.randrange(spans[0] - 1, spans[-1])
    line = draw.choice([[], [tree[at]] * 2, [drawn_node(draw)], [drawn_node(draw), tree[at]]])
    tree[at : at + 1] = line


def split_line(draw, tree, spans, own):
    """The split goes away, alone or with its parts, or stands in another leaf's place."""
    at = spans[0] - 1
    leaves = [n for n, line in enumerate(tree) if line in ("C", "O") and not at < n < spans[-1]]
    if leaves and draw.random() < 0.3:
        other, split = draw.choice(leaves), tree[at : spans[-1]]
        leaf = tree[other]
        tree[at : spans[-1]] = [leaf]
        other -= 0 if other < at else len(split) - 1
        tree[other : other + 1] = split
    else:
        tree[at : draw.choice([at + 1, spans[-1]])] = [draw.choice("COS")]


PART_KINDS = [part_number, part_number, two_part_numbers, drop_part, double_part, swap_parts, part_leaf, part_leaf, part_branch, part_line]
PART_KINDS += [split_line]


def a_part(draw, case, lines):
    """Alters the parts of a split of the report's tree. Answers what it did."""
    report, asked = split_trees.Report(lines), problem(case)
    tree = report.tree()
    spans = asked.part_spans(tree, draw.choice([n for n, line in enumerate(tree) if line == "S"]) + 1)
    if spans is None:
        return "as it is"
    kind = draw.choice(PART_KINDS)
    kind(draw, tree, spans, asked.own)
    count = lines[report.start() - 1]
    lines[:] = report.with_tree(tree)
    if draw.random() < 0.03:
        lines[report.start() - 1] = count
    return kind.__name__.replace("_", " ")


def altered(draw, all_reports):
    case = draw.choice(all_reports)
    lines = list(case.lines)
    if "S" in lines and draw.random() < 0.7:
        return a_part(draw, case, lines), case, lines
    kind = draw.choice(["number", "node", "tree", "drop", "double", "swap", "cross", "two numbers"])
    if kind == "cross":
        other = draw.choice(all_reports).lines
        cut = draw.randrange(1, len(lines))
        lines = lines[:cut] + other[draw.randrange(len(other)) :] if draw.random() < 0.5 else list(other)
    elif kind == "two numbers":
        a_number(draw, lines)
        a_number(draw, lines)
    else:
        {"number": a_number, "node": a_node, "tree": a_tree, "drop": drop, "double": double, "swap": swap}[kind](draw, lines)
    return kind, case, lines


def where(before, after):
    """Names the first line that differs, without its numbers, and whether a part's number is less."""
    for one, two in zip(before, after):
        if one != two:
            less = ""
            if re.fullmatch("P [0-9]+P [0-9]+", one + two):
                less = ", less" if int(two[2:]) < int(one[2:]) else ", more"
            return f"{re.sub('[0-9]+', 'N', one)} -> {re.sub('[0-9]+', 'N', two)}{less}"
    return "nothing" if len(before) == len(after) else "lines at the end"


def is_told(asked, limit, answer, nodes, tree, words):
    """Whether what is said of a tree fits what its form is."""
    first, leaves, outer = asked.judge(limit, tree)
    if words[1] in ("strict", "split"):
        return first == (words[1], int(words[2]))
    if words[1] in ("alive", "closed"):
        place = int(words[2])
        return (first is None or first[1] is None or place < first[1]) and (tree[place] == "C") == (words[1] == "closed")
    if words[1] == "short":
        return first == ("short", None)
    if any(tree[at] == "O" for at, _ in leaves):
        is_right = outer == nodes - 1 + nodes % 2 and answer != "infeasible"
    else:
        is_right = answer != "spent"
    return first is None and is_right == (words[:2] != ["no", "spent"])


def is_wrong(case, lines, out, known):
    """Whether an answer is against the form of the tree or a known solution; None where that can't be told."""
    words, asked = out.split(), problem(case)
    if words[1] in ("name", "solution", "cost", "listing") or [it.partition(" nodes ")[0] for it in lines[:3]] != asked.head:
        return None
    report = split_trees.Report(lines)
    limit, answer, tree = report.limit(), lines[3].split()[1], report.tree()
    if not is_told(asked, limit, answer, report.nodes(), tree, words):
        return True
    if words[0] == "no":
        return False
    if answer == "code" and any(asked.cost(it) < report.word("bound") for it in known):
        return True
    closed = [place for at, place in asked.judge(limit, tree)[1] if tree[at] == "C"]
    return any(asked.holds(it, limit, place) for place in closed for it in known)


def main():
    words = [it for it in sys.argv[1:] if it != "--splits"]
    count = int(words[0]) if words else 100_000
    draw = random.Random(int(words[1]) if len(words) > 1 else 1)
    printed = reports()
    solutions, wrong = known_solutions(printed), []
    with_splits = split_reports(draw, printed, solutions, wrong)
    all_reports = with_splits if "--splits" in sys.argv else printed + with_splits
    known = {(it.text, tuple(it.lines)) for it in all_reports}
    answers, yes, told = collections.Counter(), collections.Counter(), collections.Counter()

    def ask(one):
        return *one, *check(one[1].text, one[2])

    made = (altered(draw, all_reports) for _ in range(count))
    with concurrent.futures.ThreadPoolExecutor(THREADS) as pool:
        for kind, case, lines, status, out, err in pool.map(ask, made):
            word = " ".join(out.split()[:2]) if out else " ".join(err.split()[:2])
            split = ", with a split" if "S" in lines else ""
            answers[status, re.sub(" [0-9]+$", "", word) + split] += 1
            if status not in (0, 8, 9):
                wrong.append((kind, status, err, case.text, lines))
            if status in (0, 8):
                against = is_wrong(case, lines, out, solutions[key(case)])
                told[f"{word.split()[0]}{split}", against is not None] += 1
                if against:
                    wrong.append((kind, status, out, case.text, lines))
            if status == 0 and (case.text, tuple(lines)) not in known:
                near = min((it.lines for it in all_reports if it.text == case.text), key=lambda it: sum(a != b for a, b in zip(it, lines)))
                yes[kind, where(near, lines)] += 1
    for (status, word), number in sorted(answers.items()):
        print(f"{number:8} status {status} {word}")
    for (word, judged), number in sorted(told.items()):
        print(f"{number:8} {word}: {'by the form of the tree and known solutions too' if judged else 'not judged by another hand'}")
    print("answered yes, and not printed by alloc:")
    for (kind, place), number in sorted(yes.items()):
        print(f"{number:8} {kind}: {place}")
    print(f"{len(wrong)} answers other than 0, 8 and 9, or against what is known")
    for it in wrong[:5]:
        print(it)
    sys.exit(1 if wrong else 0)


if __name__ == "__main__":
    main()
