#!/usr/bin/env bash
# Lists the places in src/ that docs/DESIGN-PASS.md counts, point by point: `tools/places.sh [FOLDER]`.
cd "${1:-$(dirname "$0")/..}" || exit 1
sources=$(find crates/*/src -name '*.rt' | sort)

point() {
    local found
    found=$(grep -nE -e "$2" $sources | grep -vE -e '^[^:]*:[0-9]+:\s*//' || true)
    echo "== $1: $(printf '%s' "$found" | grep -c .)"
    printf '%s\n' "$found"
}

point '1 enums' '^\s*(pub(\([a-z]+\))? )?enum '
point '1 flags and numbers for kinds or refusals' 'Option<u8>|reason: u8|Refused\(u8\)|Result<bool|-> \(bool|(mark|code): u(8|64)|Some\([0-9]\)'
point '2 functions by name, for twins' '^\s*(pub(\([a-z]+\))? )?fn '
point '3 loops that count by hand' '\bwhile\b|\bloop \{|for [a-z_]+ in [^{]*\.\.|\[i\]'
point '4 casts and comparisons by hand' ' as (u|i)[0-9a-z]+|fn (same|eq|cmp|from|layer_name|reason|show_[a-z]+)\b'
point '4 types without equality and printing' '#\[derive\((Clone, Copy|Clone, Copy, Drop|Drop)\)\]'
point '5 columns and line together' 'columns: &.*line: usize'
point '5 room' 'column \+ .*2 \^ 64'
point '5 rows and room' 'room_of'
point '6 arrays and lengths' '\[[A-Za-z{][^]]*; ?[A-Z0-9_]+\]|used: usize'
point '7 switches on the house' 'Choice::(Plain|Listed|Balanced)'
