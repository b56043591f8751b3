#!/usr/bin/env bash
# Builds the static library and the benchmark, and measures how long a verdict takes (docs/speed.md). Some minutes; run it
# on a machine that does nothing else.
set -eu -o pipefail
cd "$(dirname "$0")/.."

said=$(mktemp)
trap 'rm -f "$said"' EXIT
if ! (cd crates/exports && rt lib) > "$said" 2>&1; then
  tail -n 20 "$said" >&2
  exit 1
fi
cargo build --release --offline --quiet --manifest-path compare/Cargo.toml
compare/target/release/benchmark
