#!/usr/bin/env bash
# For functions of 5 to 80 operations in 1 to 16 blocks, a fifth of the operations calls: prints how many variables and propagators
# each has, how long the processor takes in the mean for a call of each part of `alloc` and of `post`, how many first solutions were
# refused (0 or 1), and how long it takes for rounds from the root with the tables made for them, and for rounds after one decision: the
# lower half of a cycle, for each cycle in turn, with the mark before and the way back. Run it by hand; the gate does not run it. Two
# numbers as its words say how often the parts of `alloc` are called, 200 times without it, and how often `post`, 10 times without it.
set -eu
top=$(cd "$(dirname "$0")/.." && pwd)
binary=$("$top/tools/programs.py" inspect)

sizes=("5 1" "10 2" "20 1" "20 4" "40 8" "65 16" "80 1" "80 16")

# A function of so many operations in so many blocks. Each block between the first and the last branches back to itself, and all
# of them read names of the blocks before.
function_text() {
  local ops=$1 blocks=$2 i
  printf 'func f %%a %%b\n'
  for ((i = 0; i < ops; i++)); do
    local block=$((i * blocks / ops))
    if [ "$i" -eq 0 ] || [ "$block" -ne $(((i - 1) * blocks / ops)) ]; then
      [ "$block" -gt 1 ] && printf '  if $p jump b%d\n' $((block - 1))
      printf 'block b%d freq %d\n' "$block" $((1 + 7 * block))
      [ "$i" -eq 0 ] && printf '  $p = cmpgt %%a, %%b\n' && continue
    fi
    case $((i % 5)) in
      0) printf '  %%a = call h %%a, %%b\n' ;;
      1) printf '  %%c%d = add %%a, %%b\n' $((i % 7)) ;;
      2) printf '  %%b = load %%b, #%d\n' $((4 * (i % 16))) ;;
      3) printf '  store %%a, #%d, %%b\n' $((4 * (i % 16))) ;;
      4) printf '  $p = cmpgt %%b, %%a\n' ;;
    esac
  done
  printf '  ret %%a\n'
}

text=$(mktemp)
trap 'rm -f "$text"' EXIT
for size in "${sizes[@]}"; do
  read -r ops blocks <<<"$size"
  function_text "$ops" "$blocks" >"$text"
  echo "$ops operations in $blocks blocks, $("$binary" times <"$text")"
  "$binary" times "${1-200}" "${2-10}" <"$text"
done
