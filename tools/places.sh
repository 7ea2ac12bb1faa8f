#!/usr/bin/env bash
# Counts in src/ the places that the design pass looks at, point by point; docs/DESIGN-PASS.md says what became of each.
# With a word, as `tools/places.sh 3`, lists the places of that point.
set -u
cd "$(dirname "$0")/.."
point() {
    local name=$1 pattern=$2
    if [ "${want:-}" = "$name" ]; then
        grep -rnE "$pattern" crates/*/src
    elif [ -z "${want:-}" ]; then
        printf '%-3s %4d\n' "$name" "$(grep -rnE "$pattern" crates/*/src | wc -l)"
    fi
}
want=${1:-}
# 1a a flag that tells whether a lent value was filled in; 1b tuples of numbers for refusals, marks and bits of maps by their number;
# 1c an Option taken apart arm by arm to be put together again, and a flag kept beside its value; 1d enums of our own
point 1a 'fn .*&mut .*-> bool'
point 1b '\(u8, u8, u32|mark\($|mark\([0-9]+|tell_mark\(rt|stands_in\((head\.)?map, [0-9]|[0-9]+ \* [a-z_.]+\.is_some\(\) as u16|width_of\(map, [0-9]|_length\(map, [0-9]|quantity_or\((head\.)?map, [0-9]|regulation_at\((head\.)?map, [0-9]|read_regulation\(map, [0-9]|rows_or_none\(head\.map, [0-9]'
point 1c 'match \(present|None => (None|0|from|Ok\(None\)),|Some\(_\) => \{\}|_ => Ok\(\(\)\),|None => Ok\(\(\)\),'
point 1d '^ *(pub )?enum '
# 3 loops over numbers, and `while`
point 3 'for [a-z_]+ in [^[]*\.\.|while '
# 4a functions that compare, convert or make a blank by hand; 4b printing by hand
point 4a 'fn (same|answered|told|answer|expected|written|made|changed|blank|closed|denied|refused|verdict)[a-z_]*(<|\()'
point 4b 'impl fmt::Display'
# 5a a place beside the bytes or the memory it lies in; 5b what is required of a caller; 5c a day and a card side by side
point 5a 'at: usize'
point 5b '^ *requires'
point 5c 'day: &Day, card: &Card'
# 6a fixed arrays; 6b a count and an array written out
point 6a '\[[A-Za-z0-9_:()<>, ]+; *[A-Za-z0-9_]+\]'
point 6b 'Counted \{'
# 7 a switch on which step to run, function pointers
point 7 '[^_a-z]fn\(|dyn |match \*self'
if [ -z "$want" ]; then
    printf '%-3s %4d answers in %d files\n' 8 "$(find crates/*/proofs -mindepth 2 -name Answers.antt -print0 | xargs -0 grep -hE '^pub ' | wc -l)" "$(find crates/*/proofs -mindepth 2 -name Answers.antt | wc -l)"
fi
