#!/usr/bin/env bash
# Runs the tests: the gate, `rt ci`, over every crate, then the scripts that use the program and the libraries which the
# gate built. What each crate and each must-fail edit cost is printed after the gate.
# The gate's own line, 'N passed, 0 failed', is printed last, and only if everything passed.
set -u -o pipefail
cd "$(dirname "$0")/.." || exit 1

# Where rustup puts cargo, if it is nowhere else.
PATH="$PATH:${HOME:-/root}/.cargo/bin"

# Without these the gate would be run in vain.
for tool in rt python3 cargo cc; do
  if ! command -v "$tool" > /dev/null; then
    echo "the tests need $tool, which is not there" >&2
    exit 1
  fi
done

log=$(mktemp) || exit 1
costs=$(mktemp) || exit 1
trap 'rm -f "$log" "$costs"' EXIT

python3 tools/costs.py "$costs" rt ci 2>&1 | tee "$log" || exit 1
verdict=$(tail -n 1 "$log")
case "$verdict" in
  *[0-9]' passed, 0 failed') ;;
  *) exit 1 ;;
esac

# An edit that no longer fits the text is no failure of the gate, but shows nothing of a contract.
if ! ok=$(grep '^rt: ok' "$log"); then
  echo "the gate does not say 'rt: ok'"
  exit 1
fi
case "$ok" in
  *', '*[0-9]' bad'*)
    echo 'must-fail edits are bad: mend them'
    exit 1
    ;;
esac

cat "$costs"

for script in tests/program.sh tests/texts.sh tests/states.sh tests/checker.sh tests/library.sh; do
  if ! bash "$script"; then
    echo "$script failed: the gate passed, but not what runs after it"
    exit 1
  fi
done
printf '%s\n' "$verdict"
