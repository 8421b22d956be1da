#!/usr/bin/env bash
# Counts the places that docs/DESIGN-PASS.md speaks of, in the tree that is named, or in this one.
set -u
cd "${1:-$(dirname "$0")/..}" || exit 2
c() { printf '%s: ' "$1"; shift; eval "$@" | wc -l; }
c '1a enums' "grep -rnE '^ *(pub(\(crate\))? )?enum ' crates/*/src"
c '1b bool results and fields' "grep -rnE '(->|:) bool\b' crates/*/src"
c '1c numbers for refusals' "grep -rnE '(number|row|place)\(&?self\) -> (u8|usize)|number: u8|\(u8\)' crates/*/src"
c '1d answers taken apart by hand' "grep -rnE '^ *(Ok|Err|Some|None)(\(.*\))? =>|is_err\(\)|is_none\(\)' crates/*/src"
c '3a loops' "grep -rnE '^ *(for|while|loop)\b' crates/*/src"
c '3b counted by hand' "grep -rnE '\+= ' crates/*/src"
c '3c a number as the loop variable' "grep -rnE 'for [a-z]+ in [^{]*\.\.' crates/*/src"
c '4a conversions' "grep -rnE 'fn (from|to|as|into|try_from)(_[a-z]+)?\(' crates/*/src"
c '4b casts' "grep -rnwE 'as (u8|u16|u32|u64|usize)' crates/*/src"
c '4c impls of std traits by hand' "grep -rnE 'impl.* (PartialEq|Eq|Ord|PartialOrd|Clone|Copy|From<.*>|TryFrom<.*>|fmt::Display|Default)' crates/*/src | grep -E ' for '"
c '5 parameters' "grep -rnE 'fn .*(place: usize|cells: u16|limit: u16)' crates/*/src"
c '6 arrays' "grep -rnE '\[[A-Za-z0-9]+; *[A-Z_0-9]+\]' crates/*/src"
c '7 closures, dyn, function pointers' "grep -rnE '\bdyn\b|\bFn(Once|Mut)?\(|\bfn\(' crates/*/src"
c '8a lines of proofs' "find crates -path '*/proofs/*' -name '*.antt' -not -path '*/out/*' | xargs cat"
c '8b answers' "find crates -name Answers.antt -not -path '*/out/*' | xargs grep -hE '^pub '"
c '8c lemmas' "grep -hE '^(pub )?[a-z][^ ]* :' crates/*/proofs/*.antt crates/*/specs/Sound.antt crates/*/specs/Meaning.antt"
c '8d older words in specs and clauses' "grep -rnwE 'cond|Decides|eqb|AllByRecursion|ContainsAt' crates/*/specs crates/*/src"
