#!/usr/bin/env bash
# Compares the program clockmark, as the gate built it, with the second implementation in checker/ on random texts
# (docs/checker.md). Arguments are passed on to the checker.
set -u -o pipefail
cd "$(dirname "$0")/.." || exit 1

program=crates/clockmark/out/clockmark
if ! command -v cargo > /dev/null; then
  echo 'tests/checker.sh builds the checker with cargo, which is not there' >&2
  exit 1
fi
if [ ! -x "$program" ]; then
  echo "$program is not built" >&2
  exit 1
fi

export CARGO_TARGET_DIR=checker/target
if ! cargo build --release --offline --quiet --manifest-path checker/Cargo.toml; then
  echo 'the checker does not build' >&2
  exit 1
fi
"$CARGO_TARGET_DIR/release/checker" --program "$program" "$@"
