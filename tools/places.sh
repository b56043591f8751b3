#!/usr/bin/env bash
# Lists the places in src/ that docs/DESIGN-PASS.md counts, each point with its pattern.
# bash tools/places.sh [COMMIT]: as of a commit; without one, the tree as it stands.
set -euo pipefail
cd "$(dirname "$0")/.."
commit=${1:-}

# what is read, with how many lines it has, under a title
report() {
    local found
    found=$(cat)
    echo "== $1: $(printf '%s' "$found" | grep -c . || true)"
    printf '%s' "${found:+$found
}"
}

# the lines of code that match, without comments and tests
lines() {
    git grep -nE -e "$1" $commit -- 'crates/*/src/*.rt' | sed "s/^$commit:*crates.//" |
        grep -vE '^[^:]+:[0-9]+: *//|^[^:]*tests.rt:|^examples/' || true
}

# the functions whose parameters match
signatures() {
    git grep -lE -e '\bfn ' $commit -- 'crates/*/src/*.rt' | sed "s/^$commit:*//" | grep -vE 'tests.rt$|examples/' |
        while read -r file; do
            if [ -n "$commit" ]; then git show "$commit:$file"; else cat "$file"; fi | tr '\n' ' ' |
                grep -oE 'fn [a-z_]+(<[^(]*>)?\([^{}()]*(\([^)]*\)[^{}()]*)*\)' |
                grep -E "$1" | sed -E "s,^fn ([a-z_]+).*,${file#crates/}: \1," || true
        done
}

lines 'fn (number|byte)\(|fn of\(byte' | report '1 numbers for kinds and refusals'
lines 'let (Some|Ok)\(.*\) = .* else|Err\((\w+)\) => Err\(\2\)|None => place,' |
    report '1 an Option or a Result passed on by hand'
lines '-> \(bool, ' | report '1 a flag with a value beside it'
echo '== 2 functions and structs of one shape'
python3 tools/twins.py $commit
lines '\bfor [a-z]+ in [^[{]+\.\.|\bwhile ' | report '3 loops over an index, or until none is left'
lines '\bfor [a-z]+ in [a-z]+ \{$' | report '3 loops over the items of a list'
lines 'fn (of|number|byte|layer|figures)\(' | report '4 conversions by hand'
signatures 'schedule: &[^{}]*nodes: &[^{}]*couplings: &' |
    report '5 functions that are lent schedule, nodes and couplings apart'
lines 'place ≤ 10+' | report '5 one bound in many clauses'
lines 'shown (schedule|self|result)' | report '5 a clause that reads the clock of a schedule'
lines '(: | = )Counts \{$' | report '5 counts copied by hand'
lines 'place: usize\) -> (usize|Result)|count: u8,$' | report '6 a buffer with a length or a place beside it'
lines '^ +(pub )?[a-z]+: \[u[0-9]+; [0-9]+\],$' | report '6 arrays in a struct'
lines 'Role::[A-Z]' | report '7 an enum that selects a test'
