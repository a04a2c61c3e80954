#!/usr/bin/env bash
# Tries the must-fail edits that the gate leaves out, `crates/NAME/must-fail/*.md`: of the crates that its words name, or of all. The
# prover must refuse each. The proofs of crates above rest on most contracts that they break, and the checks of the others are long;
# so they are tried by hand, when contracts change.
set -eu
top=$(cd "$(dirname "$0")/.." && pwd)
cd "$top"

# An edit that is tried for now has `late` in its name; at the end it gets its own back.
back() {
  for edit in "$top"/crates/*/must-fail/*.late.edit; do
    [ ! -e "$edit" ] || mv "$edit" "${edit%.late.edit}.md"
  done
}
trap back EXIT

[ $# -gt 0 ] || set -- $(printf '%s\n' crates/*/must-fail/*.md | cut -d/ -f2 | sort -u)
for name; do
  for edit in "crates/$name"/must-fail/*.md; do
    [ ! -e "$edit" ] || mv "$edit" "${edit%.md}.late.edit"
  done
done
rt must-fail "$@"
