#!/usr/bin/env python3
"""Runs printed code outside of this project: outside.py [--c] [FILE ..] has LLVM assemble and link it and an emulator run it.

Of each FILE.uni (without files: the examples and kernels) the report's assembly goes through llvm-mc, which is to say nothing,
is linked with a start-up that sets the registers and with stubs that give the replies of calls, and is run by qemu-hexagon from starts that
are made here. Result, memory, kept registers and calls are compared with what `unison run` says of the source.
With --c each FILE.c (without files: bench/imported) is compiled for Hexagon by clang too: the function that `bridge import` makes of LLVM's
text for it is run on the same starts as the object that clang makes, and so is its assembly.

On Debian: apt-get install clang llvm lld qemu-user
"""
import glob
import os
import random
import re
import shutil
import struct
import subprocess
import sys
import tempfile

import children
import programs

TOP = os.path.dirname(os.path.dirname(os.path.realpath(__file__)))
MEMORY = 0x100000  # where the words of a start lie
WORDS = 512
STACK = 0x200000
RUNS = 3  # how many starts a function is run from
TRIED = 400  # how many starts are tried to find them
KEPT = range(16, 28)


def tool(name, package):
    """The path of a tool, under its plain name or with a version behind it."""
    for found in [shutil.which(name)] + sorted(glob.glob(f"/usr/bin/{name}-[0-9]*")):
        if found:
            return found
    sys.exit(f"outside.py: there is no {name}: apt-get install {package}")


def signed(word):
    return (word ^ 0x80000000) - 0x80000000


class Start:
    """What a run starts from, made from a seed: registers that are addresses, small numbers or any, memory, replies."""

    def __init__(self, seed, calls):
        draw = random.Random(seed)
        any_word = lambda: draw.choice([draw.randrange(10), draw.randrange(-9, 10) & 0xFFFFFFFF, draw.randrange(1 << 32)])
        address = lambda: MEMORY + 4 * draw.randrange(WORDS // 2)
        self.registers = [draw.choice([address, address, lambda: draw.randrange(9), any_word])() for _ in range(6)]
        self.memory = [draw.choice([any_word, lambda: draw.randrange(64), address])() for _ in range(WORDS)]
        self.replies = []
        for _ in range(40 if calls else 0):
            change = [(MEMORY + 4 * draw.randrange(WORDS), any_word())] if draw.randrange(2) else []
            self.replies.append((any_word(), change))

    def extend(self, parameters):
        """Fills registers of parameters of fewer bits, as LLVM's function expects them."""
        for r, (bits, is_signed) in enumerate(parameters[:6]):
            low = self.registers[r] & ((1 << bits) - 1)
            self.registers[r] = (low - (1 << bits)) & 0xFFFFFFFF if is_signed and low >> (bits - 1) else low

    def text(self):
        lines = [f"reg {r} {n}" for r, n in enumerate(self.registers)]
        lines += [f"mem {MEMORY + 4 * k} {n}" for k, n in enumerate(self.memory)]
        for result, change in self.replies:
            lines += [f"reply {result}"] + [f"set {a} {n}" for a, n in change]
        return "\n".join(lines + ["blocks 20000"]) + "\n"


class Outcome:
    """What a run came to: result (None: nothing is given), words of memory, calls with their arguments."""

    def __init__(self, result, memory, calls):
        self.result, self.memory, self.calls = result, memory, calls


def source_outcome(unison, source, start):
    """What the source comes to; None where it does not return."""
    run = subprocess.run([unison, "run"], input=source.rstrip("\n") + "\n---\n" + start.text(), capture_output=True, text=True)
    lines = run.stdout.split("\n")
    if run.returncode or not lines[0].startswith("returned"):
        return None
    words = lines[0].split()
    memory = [int(line.split()[2]) for line in lines if line.startswith("mem ")]
    calls = [[int(a) for a in line.split()[2:]] for line in lines if line.startswith("call ")]
    return Outcome(int(words[1]) if len(words) > 1 else None, memory, calls)


def write(place, length):
    """Writes words of memory to standard output."""
    return ["{ r0 = #1 }", f"{{ r1 = ##{place} }}", f"{{ r2 = ##{length} }}", "{ r6 = #64 }", "{ trap0(#1) }"]


def start_up(function, callees, start):
    """The assembly of a program that calls a function from a start, and writes what it came to."""
    lines = [".text", ".globl _start", "_start:", "{ r29 = ##%d }" % STACK]
    lines += [f"{{ r{r} = ##{100 + r} }}" for r in KEPT]
    lines += [f"{{ r{r} = ##{signed(n)} }}" for r, n in enumerate(start.registers)]
    lines += [f"call {function}", "{ r28 = ##saved }", "{ memw(r28+#0) = r0 }", "{ memw(r28+#4) = r29 }"]
    lines += ["{ memw(r28+#%d) = r%d }" % (8 + 4 * k, r) for k, r in enumerate(KEPT)]
    lines += write("saved", 56) + write(MEMORY, 4 * WORDS) + write("count", 4)
    lines += write("arguments", 24 * max(1, len(start.replies)))
    lines += ["{ r0 = #0 }", "{ r6 = #94 }", "{ trap0(#1) }"]
    for callee in callees:
        lines += [f".globl {callee}", f"{callee}:"]
    lines += ["{ r28 = ##count }", "{ r15 = memw(r28+#0) }", "{ r14 = add(r15,#1) }", "{ memw(r28+#0) = r14 }", "{ r13 = #24 }"]
    lines += ["{ r13 = mpyi(r13,r15) }", "{ r14 = ##arguments }", "{ r14 = add(r14,r13) }"]
    lines += ["{ memw(r14+#%d) = r%d }" % (4 * k, k) for k in range(6)]
    lines += ["{ r15 = asl(r15,#2) }", "{ r14 = ##table }", "{ r14 = add(r14,r15) }", "{ r14 = memw(r14+#0) }", "{ jumpr r14 }"]
    for k, (result, change) in enumerate(start.replies):
        lines.append(f"reply{k}:")
        for address, word in change:
            lines += [f"{{ r14 = ##{address} }}", f"{{ r15 = ##{signed(word)} }}", "{ memw(r14+#0) = r15 }"]
        # (a called function may leave anything in the registers that it need not keep)
        lines += ["{ r1 = #1 }"] + [f"{{ p{p} = r1 }}" for p in range(4)]
        lines += [f"{{ r{r} = ##-559038737 }}" for r in [*range(1, 16), 28]]
        lines += [f"{{ r0 = ##{signed(result)} }}", "{ jumpr r31 }"]
    lines += ['.section .tab,"aw",@progbits', ".p2align 3", "count: .word 0", "table:"]
    lines += [f".word reply{k}" for k in range(len(start.replies))]
    lines += [".word 0", "arguments: .space %d" % (24 * len(start.replies) + 24), "saved: .space 56"]
    lines += ['.section .mem,"aw",@progbits'] + [f".word {word}" for word in start.memory]
    lines += ['.section .stk,"aw",@nobits', ".space 8192"]
    return "\n".join(lines) + "\n"


LINKED = f"""SECTIONS {{
  . = {MEMORY}; .mem : {{ *(.mem) }}
  . = {STACK - 8192}; .stk : {{ *(.stk) }}
  . = {STACK + 4096}; .tab : {{ *(.tab) }} .data : {{ *(.data*) *(.rodata*) *(.bss*) *(.sdata*) }}
  . = 0x400000; .text : {{ *(.text*) }}
}}
"""


# What clang calls for loops that copy or fill memory, and for divisions.
BESIDE = """
void *memmove(void *to, const void *from, unsigned n) {
  volatile char *t = to;
  const char *f = from;
  if (t < f) for (unsigned k = 0; k < n; k++) t[k] = f[k];
  else while (n--) t[n] = f[n];
  return to;
}
void *memcpy(void *to, const void *from, unsigned n) { return memmove(to, from, n); }
void *__hexagon_memcpy_likely_aligned_min32bytes_mult8bytes(void *to, const void *from, unsigned n) {
  return memmove(to, from, n);
}
void *memset(void *to, int byte, unsigned n) {
  volatile char *t = to;
  while (n--) t[n] = byte;
  return to;
}
unsigned __hexagon_umodsi3(unsigned n, unsigned by) {
  unsigned rest = 0;
  for (int k = 31; k >= 0; k--) {
    rest = rest << 1 | (n >> k & 1);
    if (rest >= by) rest -= by;
  }
  return rest;
}
unsigned __hexagon_udivsi3(unsigned n, unsigned by) {
  unsigned quotient = 0, rest = 0;
  for (int k = 31; k >= 0; k--) {
    rest = rest << 1 | (n >> k & 1);
    if (rest >= by) rest -= by, quotient |= 1u << k;
  }
  return quotient;
}
int __hexagon_modsi3(int n, int by) {
  unsigned rest = __hexagon_umodsi3(n < 0 ? 0u - n : n, by < 0 ? 0u - by : by);
  return n < 0 ? 0u - rest : rest;
}
int __hexagon_divsi3(int n, int by) {
  unsigned quotient = __hexagon_udivsi3(n < 0 ? 0u - n : n, by < 0 ? 0u - by : by);
  return (n < 0) != (by < 0) ? 0u - quotient : quotient;
}
"""


class Outside:
    """The tools of other projects, and a folder to work in."""

    def __init__(self, folder, with_c):
        self.folder = folder
        self.assembler = tool("llvm-mc", "llvm")
        self.linker = tool("ld.lld", "lld")
        self.emulator = tool("qemu-hexagon", "qemu-user")
        self.compiler = tool("clang", "clang") if with_c else None
        self.unison = programs.path_of("unison")
        self.bridge = programs.path_of("bridge")
        with open(f"{folder}/script", "w", encoding="utf-8") as script:
            script.write(LINKED)
        self.beside = [self.compiled(BESIDE)] if with_c else []

    def compiled(self, source):
        """The object of functions that code of clang's calls where the source has no call."""
        made = f"{self.folder}/beside.o"
        words = [self.compiler, "-target", "hexagon", "-mv5", "-O1", "-ffreestanding", "-fno-builtin", "-x", "c", "-c", "-", "-o", made]
        subprocess.run(words, input=source, text=True, check=True)
        return made

    def assemble(self, text, name):
        """The object of assembly, and what the assembler says."""
        source, made = f"{self.folder}/{name}.s", f"{self.folder}/{name}.o"
        with open(source, "w", encoding="utf-8") as out:
            out.write(text)
        run = subprocess.run([self.assembler, "-triple=hexagon", "-filetype=obj", "-o", made, source], capture_output=True, text=True)
        return made, run.stderr

    def outcome(self, made, function, callees, start):
        """What the object of a function comes to from a start, or a text that says what went wrong."""
        begun, said = self.assemble(start_up(function, callees, start), "start")
        if said:
            return said
        whole = f"{self.folder}/whole"
        linking = [self.linker, "-T", f"{self.folder}/script", "-o", whole, begun, made, *self.beside]
        run = subprocess.run(linking, capture_output=True, text=True)
        if run.returncode:
            return run.stderr
        run = subprocess.run([self.emulator, whole], capture_output=True, timeout=60)
        size = 56 + 4 * WORDS + 4 + 24 * max(1, len(start.replies))
        if len(run.stdout) != size:
            return f"the emulator ended with {run.returncode} {run.stderr[:200]}"
        words = struct.unpack(f"<{size // 4}I", run.stdout)
        if words[1] != STACK or list(words[2:14]) != [100 + r for r in KEPT]:
            return "a register that is to be kept has another value"
        count, arguments = words[14 + WORDS], words[15 + WORDS :]
        calls = [list(arguments[6 * k : 6 * k + 6]) for k in range(count)]
        return Outcome(words[0], list(words[14 : 14 + WORDS]), calls)


def differs(wanted, got):
    """What is different, or nothing."""
    if isinstance(got, str):
        return got
    if wanted.result is not None and wanted.result != got.result:
        return f"result {got.result}, not {wanted.result}"
    if wanted.memory != got.memory:
        return "another memory"
    if len(wanted.calls) != len(got.calls):
        return f"{len(got.calls)} calls, not {len(wanted.calls)}"
    for told, seen in zip(wanted.calls, got.calls):
        if told != seen[: len(told)]:
            return f"call with {seen[:len(told)]}, not {told}"
    return ""


class Count:
    """Sums over functions."""

    def __init__(self):
        self.functions = self.packets = self.messages = self.runs = self.equal = self.refused = self.lacking = 0

    def note(self, name, said):
        self.runs += 1
        self.equal += not said
        if said:
            print(f"{name}: {said}")


def name_of(source):
    return re.search(r"^\s*func (\S+)", source, re.M).group(1)


def parameters_of(text):
    """How many bits the parameters of the first function in LLVM's text have, and whether they fill their registers with a sign."""
    listed = re.search(r"^define [^@]*@[^(]*\((.*)\)[^()]*\{", text, re.M).group(1)
    found = []
    for parameter in listed.split(", "):
        width = re.match(r"i(\d+)\b(?!\*)", parameter)
        found.append((int(width.group(1)) if width else 32, "signext" in parameter))
    return found


def starts_of(outside, source, parameters=()):
    """Starts from which a function returns, with what it comes to."""
    calls = " call " in source
    found = []
    for seed in range(TRIED):
        start = Start(f"{name_of(source)} {seed}", calls)
        start.extend(parameters)
        outcome = source_outcome(outside.unison, source, start)
        if outcome:
            found.append((start, outcome))
        if len(found) == RUNS:
            break
    return found


def object_of(outside, name, source, count):
    """The object of the code for a function; None where there is none."""
    alloc = subprocess.run([outside.unison, "alloc"], input=source, capture_output=True, text=True)
    if alloc.returncode:
        print(f"{name}: alloc ends with {alloc.returncode} {alloc.stderr.strip()}")
        count.lacking += 1
        return None
    asm = subprocess.run([outside.bridge, "asm"], input=alloc.stdout, capture_output=True, text=True, check=True).stdout
    count.packets += asm.count("\t{ ")
    # (a function that calls itself gets replies as any other: its calls are led to the stub)
    text = re.sub(r"\bcall (\S+)", r"call stub.\1", asm)
    made, said = outside.assemble(asm, "whole")
    if said:
        count.messages += said.count("error:") + said.count("warning:")
        print(f"{name}: {said}")
        return None
    return outside.assemble(text, "code")[0]


def callees_of(source):
    return sorted({f"stub.{f}" for f in re.findall(r"\bcall ([A-Za-z_][\w.]*)", source)})


def try_source(outside, name, source, count, parameters=()):
    """Runs the code of a function; answers its starts with their outcomes."""
    count.functions += 1
    made = object_of(outside, name, source, count)
    found = starts_of(outside, source, parameters)
    if not found:
        print(f"{name}: it returns from no start that was tried")
    if made:
        for start, wanted in found:
            count.note(name, differs(wanted, outside.outcome(made, name_of(source), callees_of(source), start)))
    return found


def try_c(outside, path, count, compiled):
    """Imports what clang makes of a function in C, and runs both."""
    name = os.path.basename(path)[:-2]
    flags = [outside.compiler, "-target", "hexagon", "-mv5", "-O2", "-fno-unroll-loops", "-fno-jump-tables"]
    text = subprocess.run(flags + ["-S", "-emit-llvm", "-o", "-", path], capture_output=True, text=True, check=True).stdout
    run = subprocess.run([outside.bridge, "import"], input=text, capture_output=True, text=True)
    if run.returncode:
        count.refused += 1
        print(f"{name}: {run.stderr.splitlines()[0]}")
        return
    callees = callees_of(run.stdout)
    compiled_text = subprocess.run(flags + ["-S", "-o", "-", path], capture_output=True, text=True, check=True).stdout
    for callee in callees:
        compiled_text = re.sub(rf"\b(call|jump) {re.escape(callee[5:])}\b", rf"\1 {callee}", compiled_text)
    made = outside.assemble(compiled_text, "compiled")[0]
    for start, wanted in try_source(outside, name, run.stdout, count, parameters_of(text)):
        got = outside.outcome(made, name_of(run.stdout), callees, start)
        compiled.note(f"{name}, as clang compiles it", differs(wanted, got))


def main():
    words = sys.argv[1:]
    with_c = words[:1] == ["--c"]
    files = words[with_c:]
    if not files:
        folders = ["bench/imported/*.c"] if with_c else ["examples/*.uni", "kernels/*.uni"]
        files = [path for folder in folders for path in sorted(glob.glob(f"{TOP}/{folder}"))]
    count, compiled = Count(), Count()
    with tempfile.TemporaryDirectory() as folder:
        outside = Outside(folder, with_c)
        children.end_on_signals()
        try:
            for path in files:
                if with_c:
                    try_c(outside, path, count, compiled)
                else:
                    with open(path, encoding="utf-8") as source:
                        try_source(outside, os.path.basename(path), source.read(), count)
        except children.Interrupted:
            print(f"interrupted at {os.path.basename(path)}; so far:")
    print(f"functions {count.functions}, packets {count.packets}, messages of the assembler {count.messages}, "
          f"runs {count.runs}, equal {count.equal}")
    if with_c:
        print(f"refused {count.refused}, without code {count.lacking}, runs of what clang compiles {compiled.runs}, equal {compiled.equal}")
    sys.exit(0 if count.runs == count.equal and compiled.runs == compiled.equal and not count.messages else 1)


if __name__ == "__main__":
    main()
