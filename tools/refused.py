#!/usr/bin/env python3
"""Refuses the program one call for memory after another: refused.py [ROW..].

Each row is a run of the program: `alloc` on the smallest function, on one with a call and on one that has no solution, `run` on the
second, and `check` on reports that are right or altered. A library before the C library's lets the first call for memory fail, in the next
run the second alone, and so on until a run makes no call that fails. Each run must end with status 7, with nothing on its output and
`no memory` on its errors, or as if no call had failed. The program is compiled without a proof. A line for each row counts the runs, those
with status 7 and those that answered; the status is 1 where a run did anything else. ROW is a word of a row's name.
"""
import concurrent.futures
import os
import subprocess
import sys
import tempfile

import unproved

MALLOC = r"""
#define _GNU_SOURCE
#include <errno.h>
#include <stddef.h>
#include <stdlib.h>
#include <unistd.h>
#include <sys/syscall.h>

void *__libc_malloc(size_t);
void *__libc_calloc(size_t, size_t);
void *__libc_realloc(void *, size_t);

static long calls, refused = -1;

/* Whether this call is the one that fails; then it tells so on the descriptor that TOLD names. */
static int fails(void) {
  if (refused < 0) {
    const char *number = getenv("REFUSED");
    refused = number ? atol(number) : 0;
  }
  if (++calls != refused) return 0;
  const char *told = getenv("TOLD");
  if (told) syscall(SYS_write, atoi(told), "r", 1);
  errno = ENOMEM;
  return 1;
}

void *malloc(size_t size) { return fails() ? NULL : __libc_malloc(size); }
void *calloc(size_t count, size_t size) { return fails() ? NULL : __libc_calloc(count, size); }
void *realloc(void *old, size_t size) { return fails() ? NULL : __libc_realloc(old, size); }
"""

SMALLEST = "func f\nblock e freq 1\nret\n"
CALL = "func c %a\nblock e freq 1\n%r = call h %a\n%s = add %r, %a\nret %s\n"
TWO = "func two\nblock e freq 1\n%a = imm #1\n%b = imm #2\n%c = add %a, %b\nret %c\n"
CODE = """frame 8
block e
{ r29 = add(r29,#-8) }
{ memw(r29+#0) = r16; r16 = r31 }
{ r17 = r0; memw(r29+#4) = r17; call h(r0) }
{ r0 = add(r0,r17); r31 = r16; r16 = memw(r29+#0); r17 = memw(r29+#4) }
{ r29 = add(r29,#8); jumpr r31 }
"""
START = "---\nreg 0 5\nreg 29 4096\nreg 31 100\nreply 7\nblocks 5\n"
REPORT = """unison 3
function f
model regs all slots 256 nodes 2000
answer code
cost 1
bound 1
listing 3
frame 0
block e
{ jumpr r31 }
solution 124
16 17 18 19 20 21 22 23 24 25 26 27 31 0 0 0
0 0 0 0 0 0 0 0 0 0 0 0 0 0 0 0
0 0 0 0 0 0 0 0 0 0 0 0 0 0 0 0
0 0 0 0 0 0 0 0 0 0 0 0 1 0 0 0
0 0 0 0 0 0 0 0 0 0 0 0 0 0 0 0
0 0 0 0 0 0 0 0 0 0 0 0 0 0 0 0
0 0 0 0 0 0 0 0 0 0 0 0 0 0 0 0
0 0 0 0 0 0 0 0 0 0 2 0
tree 1
C
end
"""
INFEASIBLE = "unison 3\nfunction two\nmodel regs 1 slots 256 nodes 2000\nanswer infeasible\ntree 1\nC\nend\n"
NO_OPERATION = [("listing 3", "listing 4"), ("{ jumpr r31 }", "{ nop }\n{ jumpr r31 }")]
LATER_RETURN = ("0 0 0 0 0 0 0 0 0 0 0 0 1 0 0 0", "0 0 0 0 0 0 0 0 0 0 0 0 2 0 0 0")
LATER_END = ("0 2 0\ntree", "0 3 0\ntree")
LATER = [LATER_RETURN, LATER_END, *NO_OPERATION, ("cost 1", "cost 2"), ("bound 1", "bound 2")]


def check(*changes):
    """The input of `check`: the smallest function, and its report with some texts changed."""
    report = REPORT
    for old, new in changes:
        report = report.replace(old, new)
    return SMALLEST + "---\n" + report


# Each row: its name, its words, its input, the status, and what its output begins with.
ROWS = [
    ("alloc smallest", "alloc", SMALLEST, 0, REPORT),
    ("alloc call", "alloc", CALL, 0, "unison 3\nfunction c\nmodel regs all slots 256 nodes 2000\nanswer code\ncost 5\n"),
    ("alloc two", "alloc --regs 1", TWO, 1, INFEASIBLE),
    ("run call", "run", CALL + START, 0, "returned 12\ncall h 5\n"),
    ("run call waits", "run", CALL + START.replace("reply 7\n", ""), 0, "waiting h 5\n"),
    ("run code", "run --code", CODE + START, 0, "returned 12 target 100\ncall h 5\ncycles 5\n"),
    ("check right", "check", check(), 0, "yes code cost 1 bound 1\n"),
    ("check name", "check", check(("function f", "function g")), 8, "no name\n"),
    ("check solution", "check", check(LATER_RETURN), 8, "no solution 5\n"),
    ("check cost", "check", check(("cost 1", "cost 2")), 8, "no cost\n"),
    ("check listing", "check", check(*NO_OPERATION), 8, "no listing\n"),
    ("check strict", "check", check(("tree 1\n", "tree 3\nB 0 16\nC\n")), 8, "no strict 0\n"),
    ("check alive", "check", check(("\nC\n", "\nO\n")), 8, "no alive 0\n"),
    ("check short", "check", check(("tree 1\n", "tree 2\nC\n")), 8, "no short\n"),
    ("check closed", "check", check(*LATER), 8, "no closed 0\n"),
    ("check greater bound", "check", check(("bound 1", "bound 2")), 8, "no bound\n"),
    ("check lower bound", "check", check(("bound 1", "bound 0")), 8, "no bound\n"),
    ("check no end", "check", check(("end\n", "")), 9, ""),
    ("check no report", "check", SMALLEST, 9, ""),
]


def run(program, library, row, refused):
    """What a run comes to in which this call for memory fails, and whether it was made."""
    _, words, text, _, _ = row
    ours, theirs = os.pipe()
    with open(ours, "rb") as told:
        ran = subprocess.run(
            [program, *words.split()],
            input=text.encode(),
            stdout=subprocess.PIPE,
            stderr=subprocess.PIPE,
            env={"LD_PRELOAD": library, "REFUSED": str(refused), "TOLD": str(theirs)},
            pass_fds=[theirs],
            timeout=60,
            check=False,
        )
        os.close(theirs)
        return (ran.returncode, ran.stdout, ran.stderr), told.read() != b""


def tried(program, library, row):
    """The runs of a row: how many had a call that failed, ended with status 7, answered; and what others did."""
    name, _, _, status, begin = row
    answer, _ = run(program, library, row, 0)
    others = [] if answer[0] == status and answer[1].startswith(begin.encode()) else [f"{name}: with memory: {answer}"]
    runs = wanting = answered = 0
    while True:
        found, made = run(program, library, row, runs + 1)
        if not made:
            break
        runs += 1
        if found == (7, b"", b"no memory\n"):
            wanting += 1
        elif found == answer:
            answered += 1
        else:
            others.append(f"{name}: call {runs}: {found}")
    if found != answer:
        others.append(f"{name}: no call failed: {found}")
    return runs, wanting, answered, others


def main():
    rows = [it for it in ROWS if not sys.argv[1:] or set(sys.argv[1:]) & set(it[0].split())]
    program = unproved.program_of("unison")
    if program is None or not rows:
        sys.exit(__doc__.partition("\n")[0])
    with tempfile.TemporaryDirectory(prefix="unison-refused-") as folder:
        library = f"{folder}/refused.so"
        subprocess.run(["cc", "-shared", "-fPIC", "-O1", "-x", "c", "-", "-o", library], input=MALLOC, text=True, check=True)
        with concurrent.futures.ThreadPoolExecutor(2) as workers:
            told = list(workers.map(lambda row: tried(program, library, row), rows))
    for (name, *_), (runs, wanting, answered, others) in zip(rows, told):
        print(f"{name:20} runs {runs:7} status 7 {wanting:7} answered {answered:5} others {len(others)}")
        for it in others[:10]:
            print(f"    {it}")
    print(f"{'all':20} runs {sum(it[0] for it in told):7} status 7 {sum(it[1] for it in told):7} "
          f"answered {sum(it[2] for it in told):5} others {sum(len(it[3]) for it in told)}")
    sys.exit(1 if any(it[3] for it in told) else 0)


main()
