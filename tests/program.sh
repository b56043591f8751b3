#!/usr/bin/env bash
# Runs the program clockmark, as the gate built it, on what a stored input cannot show: how much it reads, how long a text
# may be, that every line of any bytes gets one answer, and how long the longest answer is.
set -u -o pipefail
cd "$(dirname "$0")/.." || exit 1

program=crates/clockmark/out/clockmark
work=$(mktemp -d) || exit 1
trap 'rm -rf "$work"' EXIT

# expect NAME WANTED: the program ends with status 0 on $work/in, and its answers, counted, are as wanted.
expect() {
  "$program" < "$work/in" > "$work/out"
  local status=$?
  local counted
  counted=$(sort "$work/out" | uniq -c | awk '{ printf "%s%s x%s", sep, $2, $1; sep = ", " }')
  if [ "$status" -ne 0 ] || [ "$counted" != "$2" ]; then
    echo "$1: status $status, answers '$counted', and not '$2'" >&2
    exit 1
  fi
  echo "$1: ok"
}

: > "$work/in"
expect 'an empty text prints nothing' ''

printf '08' > "$work/in"
expect 'the last line feed may be missing' '0E x1'

printf '08\n' > "$work/in"
expect 'a last line feed begins no line' '0E x1'

head -c 65536 /dev/zero | tr '\0' '\n' > "$work/in"
expect 'a text of 65536 bytes is read' '0C x65536'

head -c 65537 /dev/zero | tr '\0' '\n' > "$work/in"
expect 'a text of 65537 bytes is refused whole' '01 x1'

head -c 65536 /dev/zero | tr '\0' '0' > "$work/in"
expect 'a line of 65536 digits is no frame' '0D x1'

# Every byte there is, each in a line of its own before a good digit; byte 10 ends a line and makes one more.
for code in $(seq 0 255); do
  printf "\\x$(printf '%02x' "$code")8\\n"
done > "$work/in"
expect 'every byte gets an answer' '0C x241, 0D x15, 0E x1'

# As many nodes and couplings as a text may enter, judged: a line of 31 characters, 256 of 33, and 256 of 3.
{ cat tests/texts/full.txt; echo '0702'; } > "$work/in"
"$program" < "$work/in" > "$work/out"
longest=$(tail -n 513 "$work/out" | wc -c)
verdict=$(tail -n 513 "$work/out" | sed -n 1p)
if [ "$((longest))" -ne $((31 + 33 * 256 + 3 * 256)) ] || [ "$verdict" != '00FFFF000000000000000000020100' ]; then
  echo "a verdict on 256 nodes and 256 couplings is printed as $((longest)) bytes that begin with $verdict" >&2
  exit 1
fi
echo 'a verdict on 256 nodes and 256 couplings is printed whole: ok'

# The rest of a long input is left to the next reader, which shows how much was read.
head -c 100000 /dev/zero | tr '\0' '8' > "$work/long"
left=$({ "$program" > /dev/null; wc -c; } < "$work/long")
if [ "$((left))" -ne $((100000 - 65537)) ]; then
  echo "of 100000 bytes $((100000 - left)) were read, and not 65537" >&2
  exit 1
fi
echo "no more than 65537 bytes are read: ok"

# What breaks outside the program ends it with status 1 and an error that is told.
broken() {
  if [ "$1" -ne 1 ] || [ ! -s "$work/told" ]; then
    echo "$2: status $1, told: $(cat "$work/told")" >&2
    exit 1
  fi
  echo "$2: ok"
}
printf '08' | "$program" > /dev/full 2> "$work/told"
broken $? 'output that cannot be written ends it with status 1'
"$program" < "$work" > /dev/null 2> "$work/told"
broken $? 'input that cannot be read ends it with status 1'
