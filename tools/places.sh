#!/bin/bash
# Counts the places that docs/DESIGN-PASS.md speaks of, in the sources of a commit, or of the working tree where none is named.
# Usage: tools/places.sh [COMMIT] [list]     With `list` each place is shown.
cd "$(dirname "$0")/.." || exit 1
commit=${1:-}
list=${2:-}
src=':(glob)crates/*/src/**'

places() { # NAME PATTERN [PATTERN THAT RULES A PLACE OUT]
    local found
    found=$(git grep -nE "$2" $commit -- "$src" | if [ -n "${3:-}" ]; then grep -vE "$3"; else cat; fi)
    printf '%-58s %s\n' "$1" "$(printf '%s' "$found" | grep -c .)"
    if [ -n "$list" ]; then printf '%s\n' "$found" | sed 's/^/    /'; fi
}

behind() { # NAME PATTERN PATTERN OF THE NEXT LINE
    local found
    found=$(git grep -nE -A1 "$2" $commit -- "$src" | grep -E "$3")
    printf '%-58s %s\n' "$1" "$(printf '%s' "$found" | grep -c .)"
    if [ -n "$list" ]; then printf '%s\n' "$found" | sed 's/^/    /'; fi
}

places '1a an error handed on by hand' 'Err\(fault\) => (return )?Err\(fault\)|return Err\(fault\);'
places '1b an option or result taken apart to build another' \
    '^\s*(Some|Ok|None|Err)(\([^)]*\))? => (Some|Ok|None|Err|true|false)\b' 'Err\(fault\) => '
behind '1c let .. else that hands on a refusal or a None' 'let (Some|Ok)\(.*\) = .* else \{' 'return (Err|None)'
places '2a the same cast to a number' '^\s*self as u8$'
places '2b a tag of a created line' 'const PLAIN'
places '3a while and loop' '^\s*(while|loop)\b'
places '3b for over a range' '^\s*for .* in .*\.\.'
places '3c enumerate' 'enumerate\(\)'
places '3d push or += of one in a loop' '^\s+\w+ \+= 1;'
places '4a a field that a literal takes over from another value' '\b([a-z_]+): [a-z]+\.\1,$'
places '4b decimal digits by hand' "b'0' \+|/= TEN|% TEN"
places '5a a line of a text as two parameters' 'text: &T,? n: usize|n: usize,$'
places '5b clause: n is a line' 'requires.*\(1 ≤ n\) × \(n ≤ length'
places '5c clause: the current line is a line of the text or 0' 'requires.*\{ current ≤ length'
places '5d clause: the pattern is that of the sought part' 'requires.*Read(From|For) '
places '5e clause: so few bytes are left' 'requires.*≤ 1000'
places '5f clause: the file is there' 'requires.*present \(S'
places '5g clause: a text is short, or a buffer full' 'requires.*(≤ 255|≡ 255)'
places '6a a buffer with its size taken from it' '&(mut )?(buffer|row|line|out)\[0\.\.(size|len)\]'
places '6b a length beside a buffer in a type' '^\s+(pub )?(len|count): (u8|usize),'
