#!/usr/bin/env python3
"""Proves and builds a program of this repository on all processors: build.py PROGRAM.

`rt` works on one crate of a checkout at a time, and takes what other checkouts on the machine have proved of the same files. So each
processor gets a copy of the crates under a folder of its own, beside the checkout, and the crates below the program are proved lowest
first, several side by side; at the end the program itself is proved and linked in the checkout. Lines of progress go to standard error.
"""
import concurrent.futures
import functools
import glob
import os
import subprocess
import sys
import tempfile
import time

import children
import unproved

TOP = os.path.dirname(os.path.dirname(os.path.realpath(__file__)))


def say(text):
    print(f"unison: {text}", file=sys.stderr, flush=True)


class Crates:
    """The crates of crates.txt, each with those of them that it names."""

    def __init__(self):
        named = unproved.named_crates()
        self.named = {name: [it for it in rest if it in named] for name, rest in named.items()}

    def below(self, program):
        """All libraries that a program stands on."""
        found, waiting = set(), list(self.named[program])
        while waiting:
            name = waiting.pop()
            if name not in found:
                found.add(name)
                waiting += self.named[name]
        return found

    def are_done(self, name, done):
        return all(it in done for it in self.named[name])

    @functools.lru_cache(maxsize=None)
    def lines(self, name):
        """How many lines of code a crate has: about how long it takes."""
        total = 100
        for at, _, files in os.walk(f"{TOP}/crates/{name}/src"):
            for file in files:
                with open(f"{at}/{file}", encoding="utf-8") as text:
                    total += sum(1 for _ in text)
        return total

    @functools.lru_cache(maxsize=None)
    def chain(self, name):
        """The lines on the longest way from a crate up."""
        users = [it for it, low in self.named.items() if name in low]
        return self.lines(name) + max((self.chain(it) for it in users), default=0)


def copy_of(room, number):
    """A copy of the crates, without what was made of them."""
    folder = f"{room}/{number}"
    os.makedirs(folder)
    parts = [it for it in glob.glob("crates/*/*", root_dir=TOP) if os.path.basename(it) != "out"]
    # (a tenth of the time of shutil's copies)
    subprocess.run(["cp", "-r", "--parents", "-t", folder, "crates.txt", "HANDLES", *parts], cwd=TOP, check=True)
    return folder


def prove(running, folder, name):
    """Proves a library in a copy. Answers what rt printed where it is not proved, else nothing."""
    how = {"stdout": subprocess.PIPE, "stderr": subprocess.STDOUT, "text": True}
    it = running.start(["rt", "lib", "--jobs", "1"], cwd=f"{folder}/crates/{name}", **how)
    printed = running.wait_for(it)
    return printed if it.returncode else None


def prove_all(crates, wanted, free, pool, running):
    """Proves libraries in free copies, and answers whether all are proved."""
    done, asked, start = set(), {}, time.time()
    while len(done) < len(wanted):
        begun = done | {name for name, _ in asked.values()}
        ready = sorted((it for it in wanted - begun if crates.are_done(it, done)), key=crates.chain, reverse=True)
        for name in ready[: len(free)]:
            folder = free.pop()
            asked[pool.submit(prove, running, folder, name)] = (name, folder)
        for it in concurrent.futures.wait(asked, return_when=concurrent.futures.FIRST_COMPLETED)[0]:
            name, folder = asked.pop(it)
            free.append(folder)
            if it.result() is not None:
                print(it.result(), file=sys.stderr)
                say(f"{name} was not proved")
                return False
            done.add(name)
            minutes, seconds = divmod(int(time.time() - start), 60)
            say(f"{len(done)} of {len(wanted) + 1} crates proved, {minutes} min {seconds} s")
    return True


def prove_below(crates, program, room):
    """Proves the libraries below a program, and answers whether all are proved."""
    free = [copy_of(room, number) for number in range(os.cpu_count() or 1)]
    # (what runs is ended before the threads that wait for it are joined)
    with concurrent.futures.ThreadPoolExecutor(len(free)) as pool, children.Children() as running:
        return prove_all(crates, crates.below(program), free, pool, running)


def link(program):
    """Proves and links the program itself, in the checkout."""
    with children.Children() as running:
        how = {"stdout": subprocess.DEVNULL, "stderr": subprocess.DEVNULL}
        running.wait_for(running.start(["rt", "run"], cwd=f"{TOP}/crates/{program}", **how))


def main():
    crates = Crates()
    program = sys.argv[1] if len(sys.argv) == 2 else ""
    children.end_on_signals()
    if not os.path.isfile(f"{TOP}/crates/{program}/src/main.rt"):
        sys.exit("usage: tools/build.py PROGRAM")
    room = tempfile.mkdtemp(prefix="unison-build-", dir=os.path.dirname(TOP))
    try:
        say(f"proving {len(crates.below(program)) + 1} crates on {os.cpu_count()} processors: from nothing some 50 minutes on four")
        if not prove_below(crates, program, room):
            sys.exit(1)
        say(f"proving and linking {program}")
        link(program)
    except children.Interrupted:
        say(f"interrupted: {program} is not built")
        raise
    finally:
        children.remove(room)
    if not os.path.isfile(f"{TOP}/crates/{program}/out/{program}"):
        say(f"{program} was not built: `rt run` in crates/{program} says why")
        sys.exit(1)
    say(f"{program} is built")


main()
