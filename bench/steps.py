#!/usr/bin/env python3
"""How many reports have a step log, how long logs are, and what they take: steps.py [NODES] [FOLDER..].

The report that `alloc` prints with NODES nodes (2,000 without it) of each function of folders (the examples, the kernels and those of
functions.py where none is named) is asked for its log by the twelve rules, and with `--counts` by all thirteen; each log is judged by
`steps --check`. A line each has the lines of both logs, `-` where there is none, and the milliseconds of the processor for `check`, for
`steps` and for `steps --check`. Then comes for each group how many reports have no open leaf, how many have a log by each set of rules,
the lines of a log in the median and at most, and the sums of times. PROGRAM of the environment names another program than the built
one, or the one that is compiled without a proof. The gate does not run it.
"""
import os
import statistics
import subprocess
import sys
import tempfile

import functions

PROGRAM = os.path.realpath(os.environ.get("PROGRAM") or functions.program("unison"))
DONE, NO_LOG = 0, 13


def run(words, text):
    """The status, the output and the milliseconds of the processor of a run."""
    with tempfile.TemporaryFile() as given, tempfile.TemporaryFile() as out:
        given.write(text)
        given.seek(0)
        pid = subprocess.Popen([PROGRAM, *words], stdin=given, stdout=out, stderr=subprocess.DEVNULL)
        _, status, used = os.wait4(pid.pid, 0)
        out.seek(0)
        return os.waitstatus_to_exitcode(status), out.read(), 1000 * (used.ru_utime + used.ru_stime)


def parts(*texts):
    return b"---\n".join(it if it.endswith(b"\n") or not it else it + b"\n" for it in texts)


def logged(name, words, function, report):
    """The lines of a report's log, None where it has none, and the times of `steps` and of `steps --check`."""
    status, log, made = run(["steps", *words], parts(function, report))
    if status == NO_LOG:
        return None, made, 0.0
    if status != DONE:
        sys.exit(f"{name}: steps ends with status {status}")
    status, line, judged = run(["steps", "--check", *words], parts(function, report, log))
    if status != DONE or line != b"yes steps\n":
        sys.exit(f"{name}: its log is not accepted, status {status}")
    return log.count(b"\n"), made, judged


def told(group, rows):
    print(f"{group}: {len(rows)} reports, {sum(it['closed'] for it in rows)} without an open leaf")
    for kind in ("twelve", "thirteen"):
        found = [it[kind] for it in rows if it[kind][0] is not None]
        lines = [it[0] for it in found] or [0]
        checked = sum(it["check"] for it in rows if it[kind][0] is not None)
        print(f"  {kind} rules: {len(found)} logs, lines median {statistics.median(lines):g}, most {max(lines)}; "
              f"ms check {checked:.0f}, steps {sum(it[1] for it in found):.0f}, steps --check {sum(it[2] for it in found):.0f}; "
              f"ms of steps without a log {sum(it[kind][1] for it in rows if it[kind][0] is None):.0f}")


def main():
    nodes = sys.argv[1] if len(sys.argv) > 1 else "2000"
    groups = {}
    for group, name, text in functions.read(sys.argv[2:]):
        function = text.encode()
        status, report, _ = run(["alloc", "--nodes", nodes], function)
        if status not in (0, 1, 2):
            continue
        _, _, checked = run(["check"], parts(function, report))
        row = {"closed": b"\nO\n" not in report, "check": checked}
        for kind, words in (("twelve", []), ("thirteen", ["--counts"])):
            row[kind] = logged(name, words, function, report)
        lines = [row[it][0] for it in ("twelve", "thirteen")]
        print(f"{name:20} {' '.join(f'{it if it is not None else chr(45):>6}' for it in lines)}  check {checked:7.1f} "
              f"steps {row['twelve'][1]:7.1f} {row['thirteen'][1]:7.1f} judge {row['twelve'][2]:7.1f} {row['thirteen'][2]:7.1f}", flush=True)
        groups.setdefault(group, []).append(row)
    for group, rows in groups.items():
        told(group, rows)


main()
