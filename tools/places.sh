#!/bin/sh
# Counts the places in src/ that are written in an older form, one line for each pattern: the point of docs/DESIGN-PASS.md,
# the count, and what is looked for. With a word of a pattern's line after it, as `tools/places.sh 3a`, it lists the places.
cd "$(dirname "$0")/.." || exit 1
all=${1:-}

# point, what, pattern (a Perl regular expression, a line at a time; tests are left out)
look() {
    found=$(grep -rnP --include='*.rt' --exclude=tests.rt -- "$3" crates/*/src)
    count=$(printf '%s' "$found" | grep -c '')
    if [ "$all" = "$1" ]; then printf '%s\n' "$found"; fi
    printf '%-3s %4d  %s\n' "$1" "$count" "$2"
}

look 1a 'a let with an else that only gives up' 'let &?(Some|Ok|\[|[A-Z][a-z]+::).* else \{$'
look 1b 'arms that pass None, Some or an Err on by hand' '^ *(None|Some\(_\)) => (Err|None|Ok\(|return )|Err\((Refusal::Memory|AllocError)\) =>'
look 1c 'enums of two or three cases over type parameters' 'enum [A-Z][A-Za-z]*<[A-Z], [A-Z]>'
look 1d 'functions that carry a theorem and answer a number or a flag' '^pub fn .*\(\) -> (u8|bool)$'
look 1e 'numbers for kinds of tables' '\bkind: u8'
look 2a 'constructors and readers that stand twice, over two types' 'pub fn (not|bracketed|and|or)\(|fn (is_spelt|name_of|verb_of|keyword_of|place_of|is_among)\('
look 2b 'functions that differ in a judge, a verb or a sign' 'fn (next_(word|comparing|operand|constant|key|closing)|take_(key|opening)|(try|put)_rows|(read|write)<.a>)\b'
look 2c 'types with the same fields, or the same cases' '^ *pub enum (Written|Phrase)|^pub struct (Description|Sort|Column|NewColumn)\b|^(pub(\(crate\))? )?enum Class'
look 3a 'loops over a range' '^ *for [a-z_]+ in .*\.\.'
look 3b 'loops over a list' '^ *for (?!.*\.\.).* in '
look 3c 'while loops' '^ *while '
look 4a 'equality, order and copying by hand' 'fn (is_same|compare|is_below|copied|copied_rows)\b|impl (PartialEq|Drop) for'
look 4b 'conversion and printing by hand' 'fn (number|kind_byte|kind_number|kind_named|storage_named|hex_digit|push_hex|push_pair|push_rows|name_of|[a-z]+_text|text)\b'
look 5a 'clauses that the reader keeps its text and goes on' 'ensures (same|onward) \{'
look 5b 'a kind and a place as parameters' '^ *kind: u8,$|, kind: u8, place: usize'
look 5c 'an allocator and a depth as parameters of a reader' 'heap: Global, depth: u8|^ *depth: u8,$'
look 5d 'requires of what is written: All Codable' 'requires \{.*Codable'
look 6a 'a size beside a slice' 'rest: &.a \[u8\],$'
look 6b 'names as bytes of their own' 'Vec<u8>,$'
look 7a 'enums that choose a test, and their uses' 'Class::[A-Z]'
