#!/usr/bin/env bash
# Runs the program clockmark, as the gate built it, on the texts in tests/texts and examples: NAME.txt is read, and
# NAME.out is what must be printed.
set -u -o pipefail
cd "$(dirname "$0")/.." || exit 1

program=crates/clockmark/out/clockmark
differences=$(mktemp) || exit 1
trap 'rm -f "$differences"' EXIT

for text in tests/texts/*.txt examples/*.txt; do
  if ! "$program" < "$text" | diff "${text%.txt}.out" - > "$differences"; then
    echo "$text: other answers than expected" >&2
    cat "$differences" >&2
    exit 1
  fi
  echo "$text is answered as expected: ok"
done

# Between them the texts of tests/texts meet every refusal but 0B, which no text can reach, and every verdict, and have every
# kind of frame and every rule. The line of a verdict has 30 digits, and that of a window 32. A flag is 00 or 01 as well, so 01
# has to stand where no verify is asked.
if grep -q '^07' tests/texts/full.txt || ! grep -qx 01 tests/texts/full.out; then
  echo 'tests/texts/full.txt does not fill a table' >&2
  exit 1
fi
met=$(grep -hxE '.{2}|.{6}' tests/texts/*.out | cut -c 1-2 | sort -u | tr '\n' ' ')
verdicts=$(grep -hxE '.{30}' tests/texts/*.out | cut -c 1-2 | sort -u | tr '\n' ' ')
kinds=$(cut -c 1-2 tests/texts/*.txt | grep '^0[1-9]' | sort -u | tr '\n' ' ')
rules=$(grep -hx '070[0-2]' tests/texts/*.txt | sort -u | tr '\n' ' ')
if [ "$met" != '00 01 02 03 04 05 06 07 08 09 0A 0C 0D 0E ' ] || [ "$verdicts" != '00 40 41 42 ' ] ||
  [ "$kinds" != '01 02 03 04 05 06 07 08 09 ' ] || [ "$rules" != '0700 0701 0702 ' ]; then
  echo "the texts meet only the answers $met and the verdicts $verdicts, or have only frames of the kinds $kinds with $rules" >&2
  exit 1
fi
echo 'the texts meet every refusal that a text can reach and every verdict, with frames of every kind: ok'
