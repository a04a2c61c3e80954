#!/usr/bin/env python3
"""Holds what propagation says of the ends of blocks against least ends from outside: lengths.py FILE..

A file has rows, each ended by a blank line: `block LABEL of regs R slots K variable V`, V the variable of the block's end; the lines of a
function; lines `cut W <= N` or `cut W > N`; and `least end E`, which some solution in that box has and none has less (`none`: there is no
solution there, `?`: not known), perhaps with `flag 0 E0 flag 1 E1`, the least ends where the frame is not used and where it is. Lines `#`
and lines behind that one are passed over.

For each row `inspect rounds` is asked under `V <= E`, where it may not fail, and under `V <= E - 1`, and it is counted how often it fails
there. Ends with status 1 where it fails at an end that a solution has.
"""
import re
import subprocess
import sys

import unproved


def rows(file):
    """The rows of a table, each a list of lines."""
    with open(file, encoding="utf-8") as text:
        for row in text.read().split("\n\n"):
            lines = [it for it in row.split("\n") if it and not it.startswith("#")]
            if lines:
                yield lines


def fails(inspect, options, function, cuts):
    """Whether the rounds fail under these decisions."""
    text = "\n".join([*function, "---", *cuts, ""])
    ran = subprocess.run([inspect, "rounds", *options], input=text, capture_output=True, text=True, check=True)
    return ran.stdout.startswith("failed")


def flag_of(inspect, options, function):
    """The variable of the frame flag, the last one."""
    ran = subprocess.run([inspect, "variables", *options], input="\n".join([*function, ""]), capture_output=True, text=True, check=True)
    return int(re.search(r"^v(\d+) flag", ran.stdout, re.M)[1])


def asked(row):
    """What a row asks: options, function, cuts, the variable of the end, and for each known least end the cuts that go with it."""
    regs, slots, variable = re.fullmatch(r"block \S+ of regs (\S+) slots (\d+) variable (\d+)", row[0]).groups()
    options = ["--slots", slots] + (["--regs", regs] if regs != "all" else [])
    function = [it for it in row[1:] if not re.match(r"(cut|least|relaxed|plain) ", it)]
    cuts = [it[len("cut "):] for it in row if it.startswith("cut ")]
    least = next(it for it in row if it.startswith("least end "))
    found = re.fullmatch(r"least end (\S+)(?: flag 0 (\S+) flag 1 (\S+))?", least).groups()
    return options, function, cuts, variable, found


def main():
    inspect = unproved.program_of("inspect")
    ends = wrong = tight = 0
    for file in sys.argv[1:]:
        for row in rows(file):
            options, function, cuts, variable, (any_flag, *by_flag) = asked(row)
            flag = flag_of(inspect, options, function)
            for end, more in zip((any_flag, *by_flag), ([], [f"{flag} <= 0"], [f"{flag} > 0"])):
                if end is None or not end.isdigit():
                    continue
                ends += 1
                if fails(inspect, options, function, [*cuts, *more, f"{variable} <= {end}"]):
                    wrong += 1
                    print("fails at an end that a solution has:", *row, sep="\n  ")
                tight += fails(inspect, options, function, [*cuts, *more, f"{variable} <= {int(end) - 1}"])
    print(f"{ends} least ends: {wrong} refuted, {tight} with a failure one below")
    sys.exit(1 if wrong else 0)


if __name__ == "__main__":
    main()
