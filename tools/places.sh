#!/usr/bin/env bash
# Lists, by the headings of docs/DESIGN-PASS.md, the lines of crates/*/src that may be places of each point, and how many there are. Clauses and comments are left out.
set -uo pipefail
tools=$(cd "$(dirname "$0")" && pwd)
cd "${1:-$tools/..}"

heading() {
    echo
    echo "== $1"
}

# The lines that a pattern finds, after a heading.
lines() {
    heading "$1"
    find crates/*/src -name '*.rt' | sort | xargs grep -nE "$2" |
        grep -vE ':[0-9]+: *(//|ensures|requires|ghost)' |
        sed 's|^crates/||; s|/src||' | awk '{ print } END { print "found: " NR }'
}

lines '1a. enums' '^\s*(pub )?enum '
lines '1b. a flag in a pair or a field' ', bool\)|^\s*(pub )?\w+: bool,$'
lines '1c. an arm that hands a case on' 'None => (None|false)|Some\(\w+\) => (Some\(|\*)|Err\(refusal\) => \{$'
lines '1d. a refusal returned from an if' 'return Err\('
heading '2. functions whose bodies have one shape'
python3 "$tools/twins.py"
lines '3. loops that count, or go on while something holds' '\b(while|loop)\b|for \w+ in \(?[0-9a-z_.()]*\.\.'
lines '4a. traits of equality, order and copying by hand' '^impl (PartialEq|Eq|PartialOrd|Ord|Clone|Copy|Hash|Debug|Default)\b'
lines '4b. functions that compare, convert or print' 'fn (same\w*|code|from_code|number|place|mark|write_digits|partner_of)[(<]'
lines '4c. compared by code or number' '\.(code|number)\(\) =='
lines '4d. a field copied' '^\s*(\w+): \w+\.\1,$'
heading '5a. clauses that stand in three or more contracts'
python3 "$tools/clauses.py"
lines '5b. parameters that travel together' 'length: u8, word: u64|heads: &mut|edge: Edge, n: u8|key: Key, n: u8|connective: u(8|32), a: Edge|rt: &[^,]*, (engine|name)|\(rt, &?(mut )?engine'
lines '6. vectors, slices to write in, indices' 'Vec<|&mut \[|\w\[[a-z]\w*( as usize)?\]'
lines '7a. a flag that chooses' 'high: bool|value: bool\)'
lines '7b. the same call again and again' '^\s*&& !?self\.\w+\(\w+::|print_keys\(rt, Profile|mark_\w+\($'
