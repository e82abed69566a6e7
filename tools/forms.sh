#!/usr/bin/env bash
# Counts the places that docs/DESIGN-PASS.md speaks of, at a commit (or in the work tree, with no argument).
set -euo pipefail
cd "$(dirname "$0")/.."
at=${1:-}
say() { # a name, an extended regular expression, and what to leave out
    local n
    n=$(git grep -nE "$2" $at -- 'crates/*/src/*.rt' | grep -vE "${3:-^$}" | tee >(cat >&2) | wc -l || true)
    printf '%s: %s\n' "$1" "$n"
}
comment=':[0-9]+: *//'
say '1 enums' '^ *(pub(\(crate\))? )?enum '
say '1 numbers for kinds, refusals and answers' '^ *const (FORMAT|PUT|REMOVE|FOSTER|ADOPT|GROW|OFF|FULL|LOST|NEVER): u(8|32)|\b(check|kind): u(8|32)\b|fn (shown|mirror_after|repaired|digit)\(.*-> u8|fn (kind|number)\(.*-> u8' "$comment"
say '1 flags beside a value' '^ +(pub(\(crate\))? )?[a-z_]+: bool,|fn fill\(.*-> bool'
say '1 options and results matched by hand' '^ *(None|Err\(_\)) => (None|false|true|0|\[0; 17\]|NO_BOUND)|^ *if let (Some|Ok)\(|= match .*\.(find|foster|high|read|write)\(' "$comment"
say '2 twins by name' 'fn (seal_128|seal_512|put_key|put_value|room|last_passing|seal_crc32c|crc32c|of_leaf|of_branch|lower_half|upper_half|is_key_field|is_bound_field|spliced_count|spliced_entry|lent_count|lent_key|low_of|high_of|upper_of|low_fence|high_fence|upper_bound)\b|struct (Key|Value|Alone|NoEntries|Page|PageView|ByteOrder|LengthFirst)\b' "$comment"
say '3 loops' '^ *(while|for|loop) ' "$comment"
say '4 impls by hand' '^impl.* (PartialEq|Eq|PartialOrd|Ord|Clone|Copy|Default|Debug|Hash)(<.*>)? for'
say '4 copies by hand' 'copy_from_slice' "$comment"
say '4 conversions by hand' ' as (u8|u16|u32|u64)\b|u32::MAX as usize|-> Option<(EntryKey|Key|Value)>|fn (number|kind)\(' "$comment"
say '4 comparisons with an Ordering' '(==|!=) Ordering::' "$comment"
say '4 printing by hand' 'fn show_' "$comment"
say '5 requires that stand three times or more' 'requires( [a-z_]+)? \{ (is_laid b\.now ≡ true|is_header b\.now ≡ true|is_ordered .* ≡ true|i < length \(parse_page (b|self\.now\.image)\.now\)\.entries|slot < length \(parse_page page\.image\.now\)\.entries|length key\.now ≤ 16|0 < position) \}'
say '5 parameters together' 'order: &O, (page|image): PageView|^    order: &O,$' "$comment"
say '6 buffers with a length, sorted rows searched' '^ +(pub(\(crate\))? )?len: usize|used: u32,|while low < high' "$comment"
say '7 tables of functions' '\bfn\(|\bdyn |Fn(Once|Mut)?\(' "$comment"
answers() { # at a commit, without one at HEAD
    git ls-tree -r --name-only "${at:-HEAD}" crates | grep -E '/proofs/.*Answers\.antt$' | while read -r f; do git show "${at:-HEAD}:$f"; done | grep -cE '^pub '
}
printf '8 answers in proofs/: %s\n' "$(answers)"
