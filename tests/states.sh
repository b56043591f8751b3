#!/usr/bin/env bash
# Checks the small programs in tests/states against the libraries of this repository. Each NAME.refused.txt does what
# the state of a book forbids, and must be refused with the error that its second line names; its twin
# NAME.accepted.txt must be proved.
set -u -o pipefail
cd "$(dirname "$0")/.." || exit 1

# A repository of the libraries, with what checks of them have kept, and of a program that is another each time: one that
# stands on the states of a book alone, so that its check reads little, and one that verifies.
work=$(mktemp -d) || exit 1
trap 'rm -rf "$work"' EXIT
states='refusals schedule design states'
libraries='refusals schedule frames design closing paths kinds rings timing states windows rules judging verifying'
mkdir -p "$work/crates/changes/src" "$work/crates/verifies/src" || exit 1
{
  for library in $libraries; do
    cp -r "crates/$library" "$work/crates/" || exit 1
    grep "^$library:" crates.txt || exit 1
  done
  echo "changes: $states"
  echo "verifies: $libraries"
} > "$work/crates.txt"

# judge TEXT: what the check says of the program, and its status
judge() {
  local program=changes
  if grep -q '^use verifying::' "$1"; then
    program=verifies
  fi
  cp "$1" "$work/crates/$program/src/lib.rt"
  (cd "$work/crates/$program" && rt check) > "$work/said" 2>&1
}

fail() {
  echo "$1" >&2
  tail -n 5 "$work/said" >&2
  exit 1
}

for refused in tests/states/*.refused.txt; do
  name=$(basename "$refused" .refused.txt)
  error=$(sed -n '2s|^// ||p' "$refused")
  if judge "$refused"; then
    fail "$refused is accepted"
  fi
  if [ -z "$error" ] || ! grep -qF "$error" "$work/said"; then
    fail "$refused is not refused with '$error'"
  fi
  if ! judge "tests/states/$name.accepted.txt" || ! grep -q '^logic=proved ' "$work/said"; then
    fail "tests/states/$name.accepted.txt is not accepted"
  fi
  echo "$name: refused, and its twin accepted: ok"
done
