#!/usr/bin/env bash
# Lists the lines of crates/*/src where an older form of code may stand, point by point, and counts them.
# A line is a place to read, not a verdict; docs/DESIGN-PASS.md says what was made of each. Call: tools/places.sh [FOLDER]
set -euo pipefail
cd "${1:-$(dirname "$0")/..}"
mapfile -t src < <(find crates -name out -prune -o -path '*/src/*' -name '*.rt' -print | sort)

list() {
    local found
    found=$(grep -nE "$2" "${src[@]}" || true)
    echo "== $1: $(grep -c . <<<"$found") lines"
    sed 's/^/  /' <<<"$found"
}

list "1 enums" '^\s*(pub(\(crate\))? )?enum '
list "1 flags, and numbers that stand for nothing" ': bool,|0 (for|where) '
list "1 numbers for kinds and refusals" '=> [0-9]+,|-> u8$|-> u8 \{|fn code'
list "1 answers passed on by hand" 'if let (Some|Ok|Err)\(|let (Some|Ok|Err)\(|(Err|Ok)\([a-z_]+\) =>|None =>|\.is_(err|ok|some|none)\(\)'
echo "== 2 functions of one shape"
python3 tools/twins.py .
list "3 loops by index and by hand" 'for .* in .*\.\.|while |[+-]= |enumerate\('
list "4 conversions, comparisons and printing" ' as (u8|u16|u32|u64|u128|usize|i32|i64)\b|% 256|256 \*|fn (eq|cmp|fmt|clone|default|from|try_from|same|same_frames|tell|print_[a-z]+|four|of_bits|of|code|into_[a-z]+)\b'
echo "== 5 clauses that stand in three contracts or more"
grep -hoE '(requires|ensures)( [a-z_]+)? \{.*\}' "${src[@]}" | sed -E 's/^(requires|ensures)( [a-z_]+)? //' | sort | uniq -c | sort -rn | awk '$1 >= 3'
list "6 buffers, offsets and parallel lists" '&mut Vec<|&Vec<|\[[a-zA-Z0-9_]+; [0-9A-Za-z_]+\]|\bat: usize|: Vec<'
list "7 choices of a step" '\bmatch |fn\(|dyn |Fn(Mut|Once)?\('
echo "== 8 proofs: $(find crates/*/proofs -name '*.antt' | xargs cat | wc -l) lines, $(find crates/*/proofs -name Answers.antt | xargs grep -h '^pub ' | wc -l) answers"
