#!/usr/bin/env bash
# Among one, four and sixteen thousand precedences in chains of four: prints how long the processor takes in the mean for a mark with
# its undo, for a cut after a mark, for a run of all propagators from the root with the tables made for it, and for a decision with the
# mark before, the run of those whose variables it changed and the way back; `run` is the decision without the way back. Run it by hand;
# the gate does not run it. A number as its word says how many marks there are, and how many cuts of each variable, 500 without it.
set -eu
top=$(cd "$(dirname "$0")/.." && pwd)
binary=$("$top/tools/programs.py" inspect)

for links in 1000 4000 16000; do
  echo "$links precedences"
  "$binary" chains "$links" "${1-500}"
done
