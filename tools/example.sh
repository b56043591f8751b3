#!/usr/bin/env bash
# Runs clockmark on an example text and shows each line read beside its answer and what the answer means.
# usage: bash tools/example.sh [TEXT], by default examples/design.txt
set -eu -o pipefail
text=$(realpath "${1:-$(dirname "$0")/../examples/design.txt}")
cd "$(dirname "$0")/../crates/clockmark"

answers=$(mktemp)
told=$(mktemp)
trap 'rm -f "$answers" "$told"' EXIT

# The program is proved before it is built, and built anew only where something has changed.
if [ ! -x out/clockmark ]; then
  echo 'proving and building clockmark: this takes some minutes the first time' >&2
fi
if ! rt run < "$text" > "$answers" 2> "$told"; then
  tail -n 20 "$told" >&2
  exit 1
fi

awk '
  # a number in hexadecimal digits
  function number(digits, value, k) {
    value = 0
    for (k = 1; k <= length(digits); k++) value = 16 * value + index("0123456789ABCDEF", substr(digits, k, 1)) - 1
    return value
  }
  # a number in twos complement
  function signed(digits, value, k) {
    if (number(substr(digits, 1, 1)) < 8) return number(digits)
    value = 0
    for (k = 1; k <= length(digits); k++) value = 16 * value + 16 - index("0123456789ABCDEF", substr(digits, k, 1))
    return -value - 1
  }
  # the verdict that a line of 30 digits tells
  function verdict(line, kind, text) {
    kind = substr(line, 1, 2)
    text = kind == "00" ? "passes" : means[kind]
    if (kind != "00") text = text ", latch " number(substr(line, 3, 4))
    if (kind == "41" || kind == "42") text = text " by " signed(substr(line, 7, 16))
    return text "; rounds: " number(substr(line, 23, 4)) ", flags set: " number(substr(line, 27, 4))
  }
  function row(line, said, read, meaning) {
    printf "%4s  %-6s  %-52s  %s\n", line, said, read, meaning
  }
  BEGIN {
    means["00"] = "granted"
    means["01"] = "full: as many rows are granted as the book takes, or the text is too long"
    means["02"] = "phase: 0, or above the number of phases"
    means["03"] = "span: earliest above latest, or least above greatest"
    means["04"] = "figure: above its limit"
    means["05"] = "fan: not 1 to 4 sources"
    means["06"] = "node: no such node, or of a kind not allowed there"
    means["07"] = "pair: its own aggressor, or coupled with it already"
    means["08"] = "assist: the assisting amounts exceed the least delay"
    means["09"] = "clock: not a lawful schedule, or another number of phases"
    means["0A"] = "unfed: a latch has no source"
    means["0C"] = "digits: empty, odd in length, or a character that is no digit"
    means["0D"] = "frame: unknown kind or rule, or the wrong length"
    means["0E"] = "order: the book does not take this kind of frame now"
    means["40"] = "gain: windows without an end"
    means["41"] = "late"
    means["42"] = "early"
    row("line", "answer", "read", "meaning")
  }
  NR == FNR { answer[NR] = $0; next }
  {
    said = answer[++place]
    meaning = means[substr(said, 1, 2)]
    if (length(said) == 6) {
      meaning = meaning ", number " substr(said, 3)
      if (substr($0, 1, 2) == "06") couplings++
      else nodes++
    }
    if (length(said) != 30) {
      row(FNR, said, $0, meaning)
      next
    }
    # A verdict, whose windows and flags follow in lines of their own.
    kind = substr(said, 1, 2)
    row(FNR, kind, $0, verdict(said))
    for (v = 0; v < nodes && kind != "40"; v++) {
      said = answer[++place]
      row("", "", "", "node " v " may switch from " signed(substr(said, 1, 16)) " to " signed(substr(said, 17)))
    }
    for (c = 0; c < couplings; c++) row("", "", "", "coupling " c (answer[++place] == "01" ? " acts" : " does not act"))
  }
' "$answers" "$text"
