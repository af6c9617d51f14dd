#!/usr/bin/env bash
# Counts the places where the design pass looks, in the source files of the crates at a commit (HEAD where none is given); run at the top of the repository.
at=${1:-HEAD}
find_in() { git grep -hE -e "$1" "$at" -- 'crates/*/src/*.rt' ':!crates/cases' | grep -vE '^ *//'; }
count() { printf '%-54s %s\n' "$1" "$(find_in "$2" | wc -l)"; }
count '1 enums declared'                         '^(pub(\(crate\))? )?enum '
count '1 flags in structs and enums'             '^ +(pub(\(crate\))? )?[a-z_]+: bool,|\(bool\)'
printf '%-54s %s\n' '1 changes that answer a flag' "$(git grep -hE -A8 'fn [a-z_]+.*&mut|fn [a-z_]+\($' "$at" -- 'crates/*/src/*.rt' ':!crates/cases' | grep -cE -- '-> (bool|Result<bool)')"
count '1 numbers for kinds, refusals and none'   '-> u8( |$)|known: Tag|=> 0,'
count '2 functions by size, type or bound'       'fn (parse_[iu][a-z0-9]+|same|day|number|find|find_free|is_free|memory|check_request|is_window|is_table|replay[a-z_]*|[a-z_]*histories_stand|mark_(up|down)link)\b'
count '3 loops by an index or a count'           '^ +(while [a-z]|for [_a-z]+ in [0-9a-z_]+\.\.|(i|n|at|number|self\.count) \+= )|\.enumerate\(\)'
count '3 other loops'                            '^ +for [^ ]+ in [^0-9.]+\{'
count '4 comparisons, conversions, printing by hand' 'fn (same|is_same|is_same_row|same_rows|is_before|number|day|fate_of|is_mark|seconds_of|stamp_of|from_text|parse_[a-z0-9]+|print_(offset|stamp|refusal)|show[a-z_]*|verb)\b'
printf '%-54s %s\n' '5 clauses that stand in three functions or more' "$(git grep -hoE '(requires|ensures)( [a-z]+)? \{.*\}' "$at" -- 'crates/*/src/*.rt' ':!crates/cases' | sed -E 's/^(requires|ensures)[^{]*//' | sort | uniq -c | awk '$1 >= 3 {n += $1} END {print n + 0}')"
count '5 parameters that travel together'        'of: Interval, *$|rows: &\[Row\], (interval|to)|interval: Interval, rows|edition: Edition, tag|tag: Tag,$|buffer: &mut \[u8\], at|floor: &mut Edition|observance: Observance, start|edition: Edition, span|edition: Edition, zones'
count '6 buffers with a length, parallel, arenas'  '^ +(pub(\(crate\))? )?((len|count|start): usize|names: Vec|[a-z]+: \[(Row|u8); [A-Z0-9_]+\])'
count '7 switches on a step'                     'enum Step|Step::[A-Z]|: fn\(|dyn '
printf '%-54s %s\n' '8 lines of proofs' "$(git ls-tree -r --name-only "$at" | grep -E '^crates/[a-z]+/proofs/.*antt$' | while read -r f; do git show "$at:$f"; done | wc -l)"
printf '%-54s %s\n' '8 files of answers' "$(git ls-tree -r --name-only "$at" | grep -cE '^crates/[a-z]+/proofs/.*Answers\.antt$')"
