#!/usr/bin/env python3
"""Why a line of a listing or of a start may not stand there: cause.py listing|start LINE FILE [FRAME]; cause.py near WORD CANDIDATE..

Prints the line with the words at fault underlined, what is wrong and what would be accepted, and ends with 0; or prints nothing and ends
with 1 where it knows no cause. `./unison` asks it about a line that the program refused; FRAME is that of the code that is run from a start.
Of a word it prints which of the candidates may be meant.
"""
import difflib
import re
import sys

WORD = 2**32
REG, PRED, NUM = r"r(?:\d|[12]\d|3[01])", r"p[0-3]", r"#(-?\d+)"
WIDE, NARROW, SHIFT, OFFSET = (-32768, 32767, 1), (-512, 511, 1), (0, 31, 1), (-4096, 4092, 4)
# Each form of an instruction: the range of its number, and its needs of a packet: accesses to memory, stores, control and such, transfers.
FORMS = [
    (rf"{REG} = {NUM}", WIDE, (0, 0, 0, 0)),
    (rf"{REG} = {REG}|nop", None, (0, 0, 0, 0)),
    (rf"{REG} = {PRED}|{PRED} = {REG}", None, (0, 0, 1, 0)),
    (rf"{REG} = memw\({REG}\+{NUM}\)", OFFSET, (1, 0, 0, 0)),
    (rf"memw\({REG}\+{NUM}\) = {REG}", OFFSET, (1, 1, 0, 0)),
    (rf"{REG} = (?:add|sub|and|or|xor)\({REG},{REG}\)", None, (0, 0, 0, 0)),
    (rf"{REG} = add\({REG},{NUM}\)", WIDE, (0, 0, 0, 0)),
    (rf"{REG} = (?:and|or)\({REG},{NUM}\)", NARROW, (0, 0, 0, 0)),
    (rf"{REG} = mpyi\({REG},{REG}\)", None, (0, 0, 1, 0)),
    (rf"{REG} = (?:asl|asr|lsr)\({REG},{NUM}\)", SHIFT, (0, 0, 1, 0)),
    (rf"{PRED} = cmp\.(?:eq|gt|gtu)\({REG},{REG}\)", None, (0, 0, 0, 0)),
    (rf"{PRED} = cmp\.(?:eq|gt)\({REG},{NUM}\)", NARROW, (0, 0, 0, 0)),
    (rf"{REG} = mux\({PRED},{REG},{REG}\)", None, (0, 0, 0, 0)),
    (rf"(?:if \(!?{PRED}(?:\.new)?\) )?jump (?P<label>[A-Za-z_][\w.]*)", None, (0, 0, 1, 1)),
    (rf"call [A-Za-z_][\w.]*\((?:{REG}(?:,{REG})*)?\)", None, (0, 0, 1, 1)),
    (r"jumpr r31", None, (0, 0, 1, 1)),
]
NAMES = "add sub and or xor mpyi asl asr lsr mux memw cmp.eq cmp.gt cmp.gtu jump call jumpr nop if".split()
NEEDS = [(2, "loads and stores"), (1, "store"), (2, "multiplications, shifts, predicate moves and transfers"), (1, "transfer")]


class Cause(Exception):
    """What is wrong, from a column on and so wide, and what would be accepted."""


def near(word, words):
    found = difflib.get_close_matches(word, words, 1, 0.6)
    return f"did you mean `{found[0]}`?" if found and found[0] != word else ""


def judge_instruction(at, text, labels):
    """The needs of an instruction."""
    for form, limits, needs in FORMS:
        found = re.fullmatch(form, text)
        if not found:
            continue
        if limits:
            low, high, step = limits
            if not low <= int(found[1]) <= high or int(found[1]) % step:
                what = f"the multiples of {step} from {low} to {high}" if step > 1 else f"{low} to {high}"
                raise Cause(at + text.index("#"), len(found[1]) + 1, f"`#{found[1]}` is out of the range of `{text}`", f"it takes {what}")
        label = found.groupdict().get("label")
        if label and label not in labels:
            help_ = near(label, labels) or "the labels are " + ", ".join(labels)
            raise Cause(at + text.rindex(label), len(label), f"no block of the listing has the label `{label}`", help_)
        return needs
    for found in re.finditer(r"[a-z][a-z.]*\b(?!\d)", text):
        if found[0] not in NAMES and found[0] != "new" and not re.fullmatch(f"{REG}|{PRED}|[rp]", found[0]):
            help_ = near(found[0], NAMES) or "the instructions are in docs/LANGUAGE.md, below `Listings`"
            raise Cause(at + found.start(), len(found[0]), f"there is no `{found[0]}` among the instructions", help_)
    for found in re.finditer(r"\b([rp])(\d+)\b", text):
        if int(found[2]) > (31 if found[1] == "r" else 3):
            raise Cause(at + found.start(), len(found[0]), f"there is no register `{found[0]}`", "there are r0 to r31 and p0 to p3")
    raise Cause(at, len(text), f"`{text}` has none of the forms of instructions",
                "single blanks stand around `=`, and behind `;`, and none elsewhere: `r1 = add(r2,#4)`, `memw(r2+#0) = r1`")


def judge_packet(line, labels):
    if not re.fullmatch(r"\{ .* \}", line):
        raise Cause(0, len(line), "a packet is one line from `{ ` to ` }`", "write `{ r1 = add(r2,r3); r4 = #7 }`")
    at, sums = 2, [0, 0, 0, 0]
    parts = line[2:-2].split("; ")
    if len(parts) > 4:
        raise Cause(0, len(line), f"a packet has at most 4 instructions, and this one has {len(parts)}", "part it in two")
    written = {}
    for part in parts:
        needs = judge_instruction(at, part, labels)
        for k, (most, words) in enumerate(NEEDS):
            sums[k] += needs[k]
            if sums[k] > most:
                raise Cause(at, len(part), f"a packet has at most {most} {words}, and with this instruction {sums[k]}", "put it into another packet")
        to = re.match(rf"({REG}|{PRED}) = ", part)
        if to and to[1] in written:
            raise Cause(at, len(part), f"`{to[1]}` is written twice in the packet, and before this by `{written[to[1]]}`",
                        "put one of them into another packet")
        if to:
            written[to[1]] = part
        at += len(part) + 2


def judge_listing(lines, number):
    line = lines[number - 1]
    labels = [it[6:] for it in lines if it.startswith("block ")]
    if number == 1 and not re.fullmatch(r"frame \d+", line):
        raise Cause(0, len(line), "the first line of a listing is not `frame F`", "F is the bytes of the frame, 0 where there is none: `frame 0`")
    if found := re.fullmatch(r"frame (\d+)", line):
        if number > 1:
            raise Cause(0, len(line), "the frame stands in the first line alone", "leave this line out")
        raise Cause(6, len(found[1]), f"`{found[1]}` is no size of a frame", "a frame has a multiple of 8 bytes, up to 1024")
    if found := re.fullmatch(r"([A-Za-z_.][\w.]*):", line):
        raise Cause(0, len(line), "a label has a line of its own kind", f"did you mean `block {found[1]}`?")
    if line.startswith("block ") and line[6:] in [it[6:] for it in lines[: number - 1] if it.startswith("block ")]:
        raise Cause(6, len(line) - 6, f"the label `{line[6:]}` stands on an earlier line", "give one of them another name")
    if line.startswith("{"):
        if not any(it.startswith("block ") for it in lines[: number - 1]):
            raise Cause(0, len(line), "a packet stands before the first `block LABEL`", "put `block entry` before it")
        judge_packet(line, labels)


def judge_start(lines, number, frame):
    words = [it.split(" ") for it in lines[:number]]
    line, here, before = lines[number - 1], words[-1], words[:-1]
    kinds = ["reg", "mem", "reply", "blocks"]
    kind = "reply" if here[0] in ("set", "junk") else here[0]
    if kind not in kinds or not all(re.fullmatch(r"\d+", it) for it in here[1:]) or len(here) != (2 if here[0] in ("reply", "blocks") else 3):
        return
    column = len(here[0]) + 1
    first, last = int(here[1]), int(here[-1])
    if last >= WORD:
        raise Cause(len(line) - len(here[-1]), len(here[-1]), f"`{last}` is no word of 32 bits", "a number is 0 to 4294967295; -1 is 4294967295")
    earlier = ["reply" if it[0] in ("set", "junk") else it[0] for it in before]
    later = next((it for it in earlier if it in kinds and kinds.index(it) > kinds.index(kind)), None)
    if later:
        raise Cause(0, len(here[0]), f"a line `{here[0]}` stands behind one of `{later}`",
                    "first stand the `reg` lines, then `mem`, then each `reply` with its `set` and `junk`, and last `blocks N`")
    if here[0] in ("set", "junk") and "reply" not in earlier:
        raise Cause(0, len(here[0]), f"`{here[0]}` says what a call leaves, and no `reply` stands before it", "put `reply N` before it")
    if here[0] in ("reg", "junk") and first > 35:
        raise Cause(column, len(here[1]), f"there is no register {first}", "r0 to r31 are 0 to 31, and p0 to p3 are 32 to 35")
    if here[0] in ("mem", "set") and first % 4:
        raise Cause(column, len(here[1]), f"`{first}` is no multiple of 4", f"words lie at multiples of 4: did you mean {first - first % 4}?")
    same = [int(it[1]) for it in before if it[0] == here[0]] if here[0] in ("reg", "mem") else []
    if same and first <= max(same):
        what = "registers" if here[0] == "reg" else "addresses"
        raise Cause(column, len(here[1]), f"{what} rise from line to line, and {max(same)} stands before {first}", "put this line before that one")
    if here[:2] == ["reg", "29"] and frame is not None and (last % 8 or last < frame):
        raise Cause(len(line) - len(here[2]), len(here[2]), f"`{last}` is no stack pointer for this code",
                    f"r29 is a multiple of 8 and at least the frame, {frame}")


def main():
    if sys.argv[1] == "near":
        help_ = near(sys.argv[2], sys.argv[3:])
        sys.exit(print(f"  = {help_}") if help_ else 1)
    kind, number, file, *frame = sys.argv[1:]
    with open(file, encoding="latin-1", newline="") as text:
        lines = [it.removesuffix("\r") for it in text.read().removesuffix("\n").split("\n")]
    number = int(number)
    try:
        if not 1 <= number <= len(lines):
            sys.exit(1)
        if kind == "listing":
            judge_listing(lines, number)
        else:
            judge_start(lines, number, int(frame[0]) if frame else None)
    except Cause as it:
        column, length, wrong, help_ = it.args
        shown = re.sub(r"[^ -~]", "?", lines[number - 1])
        print(f"  | {shown}\n  | {' ' * column}{'^' * length}\nunison: line {number}, column {column + 1}: {wrong}\n  = {help_}")
        return
    sys.exit(1)


main()
