#!/usr/bin/env bash
# Lists the places that docs/DESIGN-PASS.md counts, point by point, in crates/*/src of the folder given, or of this one.
set -uo pipefail
cd "${1:-$(dirname "$0")/..}" || exit 2
src=$(find crates/*/src -name '*.rt' | sort)
places() { # point, what is looked for, pattern
    local found
    found=$(grep -nE -- "$3" $src | grep -vE 'ghost use|^[^:]*:[0-9]+: *//')
    printf '== %s %s: %s\n' "$1" "$2" "$(grep -c . <<<"$found")"
    [ -z "$found" ] || printf '%s\n' "$found"
}
places 1 'own enums' '^ *(pub(\([a-z]+\))? )?enum '
places 1 'changes that answer with a flag' '&mut self.*-> bool'
places 1 'flags in loops' 'let mut [a-z_]+ = (true|false);'
places 1 'a number that stands for none' 'let mut last = 0|face: usize|attribute: u32'
places 2 'names that stand twice' "fn ($(grep -hoE '\bfn [a-z_]+' $src | sort | uniq -d | cut -d' ' -f2 | paste -sd'|' -))\b"
places 2 'the same in another width or type' 'fn (dot|dot_[a-z]+|[a-z]+_order|compare)\b'
places 3 'loops' "^ *('[a-z]+: )?(for [^<]* in |while |loop )"
places 4 'equality part by part' '== .*&& .*== .*&&'
places 4 'orders, conversions and printing' 'fn (compare|show_[a-z]+|cmp|eq|fmt)\b|impl (Rank|From|TryFrom)'
places 4 'casts' ' as (i64|i128|usize|u32|u64)\b'
places 5 'facts asked of a caller' '^ *requires '
places 6 'buffers, lists and arrays in types' '^ *(pub )?[a-z_]+: .*(Vec<|; [A-Z0-9]+\]|Table<)|filled: '
places 7 'closures, dyn and function pointers' '\bdyn\b|\bFn(Mut|Once)?\(|: fn\('
