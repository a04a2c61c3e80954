# The function that the scripts beside this file measure.

# A function of one block with so many operations.
block() {
  printf 'func f\nblock e freq 1\n  %%a = imm #1\n'
  for ((i = 1; i < $1; i++)); do
    printf '  %%%s = add %%a, %%a\n' "$(printf '%b' "\\$(printf '%03o' $((98 + i % 11)))")"
  done
  printf '  ret %%a\n'
}
