#!/bin/sh
# Lists, for a commit, the lines of the sources in which a form may stand that the design pass asks about, one section
# for each of its points. What of these is a place, and what became of it, docs/DESIGN-PASS.md says.
#
#   sh tools/places.sh [COMMIT]      (the commit at hand, if none is named)
c=${1:-HEAD}
look() {
    echo "== $1"
    git grep -nE "$2" "$c" -- 'crates/*/src/*.rt' | sed "s/^$c://" | grep -vE ':[0-9]+: *//' | sort -t: -k1,1 -k2,2n
}
look '1 own enums, and functions that answer a bool or a number where something may be refused' \
    '^ *(pub(\(crate\))? )?enum |fn (put|make_room|answered|number|place_sha1|settle)\b.*->|-> u8$'
look '2 functions that differ in a type, a size or a constant (names that go in pairs)' \
    'fn (run_[a-z]+|choose|parity|majority|size|width|compare_octets|compare|lower_octet|is_(un)?signed_cut|find|next|first|types|write_name|name|slot|slot_after|put|take|note_put|note_take|insert|remove|[a-z_]*_words|are_digits|is_lower|is_plain|is_shown|octets_fit|set_fits)(<[^>]*>)?\('
look '3 loops that count' \
    'for [a-z_(), ]+ in .*\.\.|while [a-z_.]+ <|\.enumerate\(\)|\+= 1;'
look '4 equality, order, conversion and printing by hand' \
    'impl(<[^>]*>)? (PartialEq|Eq|PartialOrd|Ord|Clone|From|TryFrom|fmt::Display|Display|Error)|fn (is_same|compare|from_octets|to_octets|number|lower_octet|hex_value|octet3|mnemonic|[a-z]+_words|[a-z]+_text|[a-z]+_line|push_[a-z]+)(<[^>]*>)?\('
look '5 facts in clauses: requires, and ghost fields' \
    'requires|ghost [a-z_]+: \{.*(≤|≡)'
look '6 buffers with a length beside, and searches by hand' \
    '(len|count): usize,|_len: usize|low < high|\[u8; (MAX_NAME|255|MAX_SALT)\]'
look '7 tables of functions, switches on a step, closures' \
    'fn\(|dyn |impl Fn|: Fn(Mut|Once)?\(|if [a-z]+ == "'
