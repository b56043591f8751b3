#!/usr/bin/env bash
# Builds the static library and its callers in C and in Rust, runs the one in C on texts whose output is known, and compares
# the library with the checker on random texts, large ones among them. Arguments are passed on to `compare`.
set -u -o pipefail
cd "$(dirname "$0")/.." || exit 1

for tool in rt cargo cc; do
  if ! command -v "$tool" > /dev/null; then
    echo "$tool is missing: the library and its callers cannot be built" >&2
    exit 1
  fi
done

work=$(mktemp -d) || exit 1
trap 'rm -rf "$work"' EXIT

# The gate proves the library, but leaves no archive of it.
if ! (cd crates/exports && rt lib) > "$work/said" 2>&1; then
  echo 'the static library is not proved' >&2
  tail -n 20 "$work/said" >&2
  exit 1
fi

if ! cc -std=c11 -O2 -Wall -Wextra -Werror -I bindings -o "$work/example" bindings/example.c \
  crates/exports/out/libexports.a; then
  echo 'bindings/example.c cannot be compiled' >&2
  exit 1
fi

# expect TEXT OUTPUT NAME: the program in C prints OUTPUT for TEXT.
expect() {
  if ! "$work/example" < "$1" | diff "$2" - > "$work/said"; then
    echo "$3: another output than expected" >&2
    cat "$work/said" >&2
    exit 1
  fi
  echo "$3 is answered through C as expected: ok"
}

# The example of docs/program.md: its first block is a text, and its second one the output.
awk '/^```/ { fences++; next } fences == 1' docs/program.md > "$work/text"
awk '/^```/ { fences++; next } fences == 3' docs/program.md > "$work/output"
if [ ! -s "$work/text" ] || [ ! -s "$work/output" ]; then
  echo 'docs/program.md has no example' >&2
  exit 1
fi
expect "$work/text" "$work/output" 'the example of docs/program.md'
for text in examples/*.txt; do
  expect "$text" "${text%.txt}.out" "$text"
done

if ! cargo test --release --offline --quiet --manifest-path bindings/rust/Cargo.toml > "$work/said" 2>&1; then
  echo 'the tests of bindings/rust fail' >&2
  cat "$work/said" >&2
  exit 1
fi
echo 'the tests of bindings/rust pass: ok'

cargo build --release --offline --quiet --manifest-path compare/Cargo.toml || exit 1
compare/target/release/compare "$@"
