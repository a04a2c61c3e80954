#!/usr/bin/env python3
"""listed.py FUNCTION EXTENDED LIVE VARIABLES LISTING [LINES]: the numbers of the schedule that a listing is, as `improve` reads them.

EXTENDED, LIVE and VARIABLES are what `inspect` prints of the function; LISTING is code in the spelling of docs/LANGUAGE.md, with the
function's blocks in its order. Each instruction is matched with an operation that reads the same values, or with a copy of a value. Where
one cannot be, or a packet has no room for all that it has, its line is told, and the exit status is 1; LINES has for each line of LISTING
the line to tell in its place. Nothing rests on this: `improve` judges the numbers.
"""
import re
import sys

MOVE, SPILL, RELOAD, FROM_PREDICATE, TO_PREDICATE = 1, 2, 3, 4, 5
FIRST_PREDICATE, FIRST_SLOT, LINK = 32, 36, 31
SLOW = {"load", "mpyi", RELOAD}
SWAPS = {"add", "and", "or", "xor", "mpyi", "cmpeq"}
CLOBBERED = {*range(16), 28, LINK, *range(FIRST_PREDICATE, FIRST_SLOT)}
TRANSFERS = {"jump", "if", "if !", "ret"}
KEPT = {0, *range(16, 28)}
ROOM = {"instructions": 4, "accesses to memory": 2, "stores": 1, "shifts, products, moves of predicates and transfers": 2, "transfers": 1}
REGISTER = r"(r\d+|p\d)"
SIMPLE = [
    (rf"{REGISTER} = memw\((r\d+)\+#(-?\d+)\)", lambda d, a, n: ("load", d, [a], n)),
    (rf"memw\((r\d+)\+#(-?\d+)\) = (r\d+)", lambda a, n, v: ("store", None, [a, v], n)),
    (rf"{REGISTER} = (add|sub|and|or|xor|mpyi)\((r\d+),(r\d+)\)", lambda d, o, a, b: (o, d, [a, b], None)),
    (rf"{REGISTER} = (add|and|or)\((r\d+),#(-?\d+)\)", lambda d, o, a, n: (o + "i", d, [a], n)),
    (rf"{REGISTER} = (asl|asr|lsr)\((r\d+),#(-?\d+)\)", lambda d, o, a, n: (o, d, [a], n)),
    (rf"{REGISTER} = cmp\.(eq|gt|gtu)\((r\d+),(r\d+)\)", lambda d, o, a, b: ("cmp" + o, d, [a, b], None)),
    (rf"{REGISTER} = cmp\.(eq|gt)\((r\d+),#(-?\d+)\)", lambda d, o, a, n: ("cmp" + o + "i", d, [a], n)),
    (rf"{REGISTER} = mux\((p\d),(r\d+),(r\d+)\)", lambda d, p, a, b: ("mux", d, [p, a, b], None)),
    (rf"{REGISTER} = #(-?\d+)", lambda d, n: ("imm", d, [], n)),
    (rf"{REGISTER} = {REGISTER}", lambda d, a: ("move", d, [a], None)),
    (r"call (\S+?)\(([^)]*)\)", lambda f, args: ("call " + f, "r0", [it for it in args.split(",") if it], None)),
    (r"jump (\S+)", lambda l: ("jump", None, [], None)),
    (r"if \((p\d)\) jump (\S+)", lambda p, l: ("if", None, [p], None)),
    (r"if \(!(p\d)\) jump (\S+)", lambda p, l: ("if !", None, [p], None)),
    (r"if \((p\d)\.new\) jump (\S+)", lambda p, l: ("if", None, [p], None)),
    (r"if \(!(p\d)\.new\) jump (\S+)", lambda p, l: ("if !", None, [p], None)),
    (r"jumpr (r31)", lambda a: ("ret", None, [a], None)),
]


class Unplaced(Exception):
    """What no operation of the function is."""


def register(text):
    """The number of a register."""
    return int(text[1:]) + (FIRST_PREDICATE if text[0] == "p" else 0)


def target_of(text):
    """The label to which a line leads, if it does."""
    found = re.search(r"\bjump (\S+)$", text)
    return found and found[1]


class Instruction:
    """An instruction of a listing: what it does, its registers and its number."""

    def __init__(self, line, text):
        self.line, self.text, self.target = line, text, target_of(text)
        # (such a jump tests what its own packet writes)
        self.is_fresh, self.own = ".new)" in text, None
        if found := re.fullmatch(r"r29 = add\(r29,#(-?)\d+\)", text):
            self.word, self.gives, self.reads, self.literal = "enter" if found[1] else "leave", None, [], None
            return
        for form, parts in SIMPLE:
            if found := re.fullmatch(form, text):
                self.word, gives, reads, literal = parts(*found.groups())
                self.literal = None if literal is None else int(literal)
                self.gives = None if gives is None else register(gives)
                self.reads = [register(it) for it in reads]
                self.to_slot()
                return
        raise Unplaced(f"line {line}: `{text}` is no instruction of the subset")

    def takes(self):
        """What it takes of a packet's room."""
        word, found = self.word.split()[0], {"instructions"}
        slots = [it for it in [self.gives, *self.reads] if it is not None and it >= FIRST_SLOT]
        if word in ("load", "store") or slots:
            found.add("accesses to memory")
        if word == "store" or slots and self.gives in slots:
            found.add("stores")
        moves = word == "move" and any(FIRST_PREDICATE <= it < FIRST_SLOT for it in [self.gives, *self.reads])
        transfers = word in ("jump", "if", "ret", "call")
        if word in ("asl", "asr", "lsr", "mpyi") or moves or transfers:
            found.add("shifts, products, moves of predicates and transfers")
        return found | ({"transfers"} if transfers else set())

    def to_slot(self):
        """Makes an access to the frame a move from or to its slot."""
        if self.word in ("load", "store") and self.reads[0] == 29:
            slot = FIRST_SLOT + self.literal // 4
            if self.word == "load":
                self.reads = [slot]
            else:
                self.gives, self.reads = slot, [self.reads[1]]
            self.word, self.literal = "move", None


class Operation:
    """An operation of the extended function, and what a schedule makes of it."""

    def __init__(self, line):
        found = re.match(r"  o(\d+) (if !|call \S+|\S+)(.*)", line)
        self.number, self.word, rest = int(found[1]), found[2], found[3]
        given, _, gives = rest.partition("->")
        self.operands = [[int(it) for it in re.findall(r"t(\d+)", one)] for one in re.findall(r"\[([^]]*)\]", given)]
        self.asked = [int(it) if it else None for it in re.findall(r"\](?:@r(\d+))?", given)]
        self.literal = next((int(it) for it in re.findall(r"#(-?\d+)", given)), None)
        self.results = [int(it) for it in re.findall(r"t(\d+)", gives)]
        self.given = [int(it) if it else None for it in re.findall(r"t\d+(?:@r(\d+))?", gives)]
        self.target = target_of(line)
        self.instruction = self.cycle = 0
        self.choices, self.registers = [0] * len(self.operands), [0] * len(self.results)
        self.is_issued = False

    def is_copy(self):
        return self.word in ("d", "d2", "u", "u2")


def kind_of(operation):
    """What an operation of the source does to memory: load, store or call; None where it does nothing to it."""
    word = operation.word.split()[0]
    return word if word in ("load", "store", "call") else None


class Held:
    """A value where a listing has it: its value, the temporary that it is once that is known, and who reads it."""

    def __init__(self, value, temporary, place, ready, made=None, source=None):
        self.value, self.temporary, self.place, self.ready = value, temporary, place, ready
        self.made, self.source, self.readers = made, source, []
        self.cycle = 0


class Block:
    """A block of the extended function with its packets, and the state in which a listing is while they issue."""

    def __init__(self, line):
        self.label, self.operations, self.packets, self.end = line.split()[1], [], [], 1
        self.starts, self.nexts, self.names = None, [], []
        self.at, self.held, self.moves = {}, [], []

    def is_idle(self):
        """Whether it has no operation of the source."""
        return all(it.is_copy() or it.word in ("in", "out", "enter", "leave") for it in self.operations)

    def hold(self, *parts):
        self.held.append(Held(*parts))
        return self.held[-1]

    def value_of(self):
        """The value of each temporary: that of the first one that its definer may read, of a copy, and else itself."""
        values = {}
        for it in self.operations:
            for result in it.results:
                values[result] = values[it.operands[0][0]] if it.is_copy() else result
        return values

    def issue(self):
        """Issues the packets from the places on in which the block's first values are."""
        first = self.operations[0]
        self.values = self.value_of()
        self.at = {}
        for place, temporary in zip(self.starts, first.results):
            self.at[place] = self.hold(temporary, temporary, place, 1)
        first.registers = list(self.starts)
        cycle = 0
        for packet in self.packets:
            cycle = self.issue_packet(packet, cycle + 1)
        self.last = cycle

    def issue_packet(self, packet, cycle):
        """Issues a packet in this cycle, or in the first one in which what it reads is there, and answers which that was."""
        for kind, room in ROOM.items():
            if (count := sum(kind in it.takes() for it in packet)) > room:
                raise Unplaced(f"line {packet[0].line}: a packet has room for {room} {kind}, and this one has {count}")
        early, fresh = [it for it in packet if not it.is_fresh], [it for it in packet if it.is_fresh]
        for it in early:
            cycle = max([cycle] + [self.at[r].ready for r in it.reads if r in self.at])
        writes = []
        for it in early:
            writes += self.place(it, cycle)
        for it in early:
            self.keep_order(it, cycle)
        for place, held in writes:
            if held is None:
                self.at.pop(place, None)
            else:
                self.at[place] = held
        for it in fresh:
            self.place(it, cycle)
        return cycle

    def keep_order(self, it, cycle):
        """Refuses an access or a call that issues with or ahead of one which stands before it; a store may issue beside such loads."""
        own = it.own
        if own is None or kind_of(own) is None:
            return
        for other in self.operations[: self.operations.index(own)]:
            is_free = kind_of(other) is None or kind_of(own) == kind_of(other) == "load"
            beside = other.cycle == cycle and kind_of(other) == "load" and kind_of(own) == "store"
            if not (is_free or beside or (other.is_issued and other.cycle < cycle)):
                raise Unplaced(f"line {it.line}: `{it.text}` goes with or ahead of a `{other.word}` that stands before it in the function")

    def place(self, it, cycle):
        """Matches an instruction, and answers what stands where behind its packet."""
        for r in it.reads:
            if r not in self.at and it.word != "ret":
                raise Unplaced(f"line {it.line}: `{it.text}` reads a register that has no value of the function here")
        own = it.own = self.find(it)
        if own is not None:
            return self.issued(own, it, cycle)
        if it.word == "move":
            return [(it.gives, self.moved(it, cycle))]
        raise Unplaced(f"line {it.line}: `{it.text}` is no operation of block {self.label} that is left")

    def find(self, it):
        """The first operation that does this on these values and has not issued; its registers are turned where that makes them match."""
        words = ("mov",) if it.word == "move" else (it.word,)
        for own in self.operations:
            if own.is_issued or own.is_copy() or own.word not in words:
                continue
            if own.literal != it.literal or own.target != it.target:
                continue
            orders = [it.reads, it.reads[::-1]] if own.word in SWAPS else [it.reads]
            for reads in orders:
                if self.are(reads, own):
                    it.reads = reads
                    return own
        return None

    def are(self, reads, own):
        return len(reads) == len(own.operands) and all(
            r in self.at and self.at[r].value == self.values[ts[0]] for r, ts in zip(reads, own.operands))

    def issued(self, own, it, cycle):
        own.is_issued, own.cycle, own.instruction = True, cycle, 1
        for j, r in enumerate(it.reads):
            self.at[r].readers.append((own, j))
        writes = [(r, None) for r in CLOBBERED] if own.word.startswith("call") else []
        for k, temporary in enumerate(own.results):
            held = self.hold(temporary, temporary, it.gives, cycle + (2 if own.word in SLOW else 1))
            own.registers[k] = it.gives
            writes.append((it.gives, held))
        return writes

    def moved(self, it, cycle):
        """What a move, a spill or a reload has behind it."""
        source, to = it.reads[0], it.gives
        made = MOVE
        if source >= FIRST_SLOT:
            made = RELOAD
        elif to >= FIRST_SLOT:
            made = SPILL
        elif source >= FIRST_PREDICATE:
            made = FROM_PREDICATE
        elif to >= FIRST_PREDICATE:
            made = TO_PREDICATE
        held = self.hold(self.at[source].value, None, to, cycle + (2 if made == RELOAD else 1), made, self.at[source])
        held.cycle, held.line, held.text = cycle, it.line, it.text
        self.moves.append(held)
        return held

    def finish(self, needed):
        """Reads what the block hands over, where it is needed, gives each move a copy, and ends the block once all of that is there."""
        out = self.operations[-1]
        ready = self.last + 1
        for j, place in enumerate(needed):
            held = self.at.get(place)
            if held is None or held.value != self.values[out.operands[j][0]]:
                raise Unplaced(f"block {self.label} does not hand over what the blocks behind it read where they read it")
            held.readers.append((out, j))
            ready = max(ready, held.ready)
        self.end = ready
        for own in self.operations:
            if own.word in TRANSFERS and own.is_issued:
                own.cycle = ready - 1
        for held in self.moves:
            self.copy(held)
        for held in self.held:
            for reader, j in held.readers:
                reader.choices[j] = reader.operands[j].index(held.temporary)

    def copy(self, held):
        """Gives a move the first copy that may read its source and that all that read it may choose."""
        if not held.readers and not any(it.source is held for it in self.moves):
            raise Unplaced(f"line {held.line}: `{held.text}` moves what nothing reads")
        for own in self.operations:
            if own.is_issued or not own.is_copy() or held.source.temporary not in own.operands[0]:
                continue
            result = own.results[0]
            if all(result in reader.operands[j] for reader, j in held.readers):
                own.is_issued, own.instruction, own.cycle = True, held.made, held.cycle
                own.choices[0], own.registers[0] = own.operands[0].index(held.source.temporary), held.place
                held.temporary = result
                return
        raise Unplaced(f"line {held.line}: `{held.text}` moves what no copy of the model moves so")


def read_extended(text):
    """The blocks that `inspect extended` prints."""
    blocks = []
    for line in text.splitlines():
        if line.startswith("block "):
            blocks.append(Block(line))
        elif line.startswith("  o"):
            blocks[-1].operations.append(Operation(line))
    return blocks


def read_sections(text, told):
    """The labels of a listing's blocks with their packets; a line goes by its number in `told`, where that has it."""
    sections = []
    for number, line in enumerate(text.splitlines(), 1):
        if line.startswith("block "):
            sections.append((line.split()[1], []))
        elif line.startswith("{"):
            texts = [it.strip() for it in line.strip("{} ").split(";")]
            number = told[number - 1] if told else number
            sections[-1][1].append([Instruction(number, it) for it in texts if it not in ("", "nop")])
    return sections


def with_last(items, is_empty):
    """For each item the place, among those that are not empty, of the first such one from it on."""
    places, seen = [], 0
    for it in items:
        places.append(seen)
        seen += not is_empty(it)
    return places


def read_packets(blocks, text, told):
    """Gives each block its packets, and has all jumps lead to the places of blocks; blocks without an operation may lack in the listing."""
    sections = read_sections(text, told)
    idle = lambda block: len(sections) != len(blocks) and block.is_idle()
    empty = lambda section: len(sections) != len(blocks) and not section[1]
    own = dict(zip([it.label for it in blocks], with_last(blocks, idle)))
    theirs = dict(zip([it[0] for it in sections], with_last(sections, empty)))
    busy, told_of = [it for it in blocks if not idle(it)], [it for it in sections if not empty(it)]
    if len(busy) != len(told_of):
        raise Unplaced(f"the listing has {len(told_of)} blocks with packets, the function {len(busy)} with operations")
    for block, section in zip(busy, told_of):
        block.packets = section[1]
    for it in [it for block in blocks for it in block.operations]:
        it.target = own.get(it.target, it.target)
    for it in [it for block in blocks for packet in block.packets for it in packet]:
        it.target = theirs.get(it.target, it.target)


def link(blocks, live, function):
    """Gives each block those that follow it, and the names that are live at its start, in the order in which names appear."""
    order = {name: k for k, name in reversed(list(enumerate(re.findall(r"[%$][\w.]+", re.sub(r";.*", "", function)))))}
    number = {it.label: k for k, it in enumerate(blocks)}
    for line in live.splitlines():
        label, _, names = line.partition(":")
        blocks[number[label.strip()]].names += names.split()
    labels = re.findall(r"^block (\S+)", function, re.M)
    bodies = re.split(r"^block .*$", function, flags=re.M)[1:]
    for k, body in enumerate(bodies):
        block = blocks[number[labels[k]]]
        found = re.findall(r"^\s*(?:if .*)?jump (\S+)", body, re.M)
        block.nexts = [number[it] for it in found]
        if not re.search(r"^\s*(jump|ret)\b", body, re.M):
            block.nexts.append(k + 1)
    for block in blocks:
        block.handed = sorted({name for it in block.nexts for name in blocks[it].names}, key=order.get)


def needs_before(packet, later):
    """The places whose values the listing still needs before a packet, of those that it needs behind it."""
    for it in packet:
        later = later - {it.gives} - (CLOBBERED if it.word.startswith("call") else set())
    for it in packet:
        later = later | (set() if it.is_fresh else set(it.reads)) | (KEPT if it.word == "ret" else set())
    return later


def find_needs(blocks):
    """Finds the places whose values the listing needs at each block's start: what it reads before it writes them, on some way."""
    for block in blocks:
        block.needs = set()
    changed = True
    while changed:
        changed = False
        for block in reversed(blocks):
            later = set().union(*[blocks[it].needs for it in block.nexts])
            for packet in reversed(block.packets):
                later = needs_before(packet, later)
            if later != block.needs:
                block.needs, changed = later, True


def best_place(follower, places):
    """The place, of several that have a value, in which the listing goes on to read it."""
    return next((it for it in places if it in follower.needs), places[0])


def take_places(blocks, block, saved):
    """Gives each block behind this one, where it has none, the places in which it takes its first values."""
    out = block.operations[-1]
    for number in block.nexts:
        follower = blocks[number]
        if follower.starts is not None:
            continue
        starts = []
        for name in follower.names:
            value = block.values[out.operands[block.handed.index(name)][0]]
            places = [r for r, held in block.at.items() if held.value == value]
            if not places:
                raise Unplaced(f"block {block.label} has no {name} at its end, which block {follower.label} reads")
            starts.append(best_place(follower, places))
        for k in range(saved):
            value = block.values[out.operands[len(block.handed) + k][0]]
            places = [r for r, held in block.at.items() if held.value == value]
            if not places:
                raise Unplaced(f"block {block.label} has lost a register that is to be kept")
            starts.append(best_place(follower, places))
        follower.starts = starts


def needed(blocks, block):
    """The place of each value that a block hands over, or that a return leaves."""
    out = block.operations[-1]
    if not block.nexts:
        return out.asked
    places = []
    for name in block.handed:
        follower = next(blocks[it] for it in block.nexts if name in blocks[it].names)
        places.append(follower.starts[follower.names.index(name)])
    follower = blocks[block.nexts[0]]
    return places + follower.starts[len(follower.names):]


def schedule(blocks):
    """Issues all blocks, from the entry on."""
    find_needs(blocks)
    entry = blocks[0]
    entry.starts = entry.operations[0].given
    saved = len(entry.starts) - len(entry.names)
    order, seen = [0], {0}
    for number in order:
        block = blocks[number]
        block.issue()
        take_places(blocks, block, saved)
        for it in block.nexts:
            if it not in seen:
                seen.add(it)
                order.append(it)
    for number in order:
        blocks[number].finish(needed(blocks, blocks[number]))
    for number, block in enumerate(blocks):
        if number not in seen:
            raise Unplaced(f"nothing leads to block {block.label}")
    for block in blocks:
        for it in block.operations:
            if not (it.is_issued or it.is_copy() or it.word in ("in", "out", "enter", "leave")):
                raise Unplaced(f"block {block.label} has no `{it.word}` for operation o{it.number} of the function")


def numbers(blocks, variables):
    """The value of each variable."""
    operations = {it.number: it for block in blocks for it in block.operations}
    ends = {block.label: block.end for block in blocks}
    values = []
    for line in variables.splitlines():
        words = line.split(":")[0].split()[1:]
        if words[0] == "end":
            values.append(ends[words[1]])
        elif words[0] == "flag":
            values.append(int(any(it.word == "enter" and it.is_issued for it in operations.values())))
        else:
            own = operations[int(words[0][1:])]
            if words[1] == "instruction":
                values.append(own.instruction)
            elif words[1] == "cycle":
                values.append(own.cycle)
            elif words[1] == "choice":
                values.append(own.choices[int(words[2])])
            else:
                values.append(own.registers[own.results.index(int(words[2][1:]))])
    return values


def main(paths):
    function, extended, live, variables, listing, *lines = (open(it, encoding="utf-8", errors="replace").read() for it in paths)
    blocks = read_extended(extended)
    try:
        read_packets(blocks, listing, [int(it) for it in lines[0].split()] if lines else [])
        link(blocks, live, function)
        schedule(blocks)
    except Unplaced as fault:
        print(fault, file=sys.stderr)
        return 1
    values = numbers(blocks, variables)
    print(f"solution {len(values)}")
    for k in range(0, len(values), 16):
        print(*values[k : k + 16])
    return 0


if __name__ == "__main__":
    sys.exit(main(sys.argv[1:]))
