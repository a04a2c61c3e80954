#!/usr/bin/env bash
# Prints the time and the peak memory of `alloc` on blocks of 10, 20, 40 and 80 operations, beside those of the smallest
# text. Run it by hand; the gate does not run it.
set -eu
top=$(cd "$(dirname "$0")/.." && pwd)
binary=$("$top/tools/programs.py" unison)

. "$top/bench/block.sh"

# The mean of 200 runs, in microseconds, and the peak memory of one, in KiB.
measure() {
  local start end peak
  start=$(date +%s%N)
  for ((run = 0; run < 200; run++)); do "$binary" alloc <"$1" >/dev/null; done
  end=$(date +%s%N)
  peak=$(python3 - "$binary" "$1" <<'P'
import resource, subprocess, sys
subprocess.run([sys.argv[1], "alloc"], stdin=open(sys.argv[2]), stdout=subprocess.DEVNULL, check=True)
print(resource.getrusage(resource.RUSAGE_CHILDREN).ru_maxrss)
P
)
  printf '%-24s %8d us %8d KiB\n' "$2" $(((end - start) / 200000)) "$peak"
}

text=$(mktemp)
trap 'rm -f "$text"' EXIT
printf 'func f\nblock e freq 1\n  %%a = imm #1\n  ret %%a\n' >"$text"
measure "$text" "smallest"
for ops in 10 20 40 80; do
  block "$ops" >"$text"
  measure "$text" "$ops operations"
done
