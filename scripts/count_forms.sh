#!/bin/sh
# Counts, in the sources below a folder, the places that the design pass looks at: one line a count.
# Usage: scripts/count_forms.sh [FOLDER]      prints each place too with: scripts/count_forms.sh -v [FOLDER]
verbose=no
[ "$1" = -v ] && { verbose=yes; shift; }
cd "${1:-.}" || exit 1
count() {
    found=$(grep -rnE "$2" crates/*/src --include='*.rt')
    printf '%-66s %s\n' "$1" "$(printf '%s' "$found" | grep -c .)"
    [ $verbose = yes ] && [ -n "$found" ] && printf '%s\n' "$found"
    return 0
}
count '1 cases that say "none", "failed" or "ended" in an own enum' '^ +(None|End|Nowhere|Ended|Failed|Blocked|Balked|Stopped|Lost)\b[^=>]*,$'
count '1 flags with a value beside (stands, all)' '^ +(pub )?(stands|all|is_[a-z]+|has_[a-z]+): bool,$'
count '1 errors and absences handed on by a match' '(Ok\(\(\)\) => Ok\(\(\)\)|Ok\(([a-z]+)\) => Ok\(\2\)|Err\([a-zA-Z_:]+\) => Err\(|Some\(([a-z]+)\) => Ok\(\3\)|None => Err\(|::Lost => [A-Za-z]+::Lost|::[A-Z][A-Za-z]+\(([a-z]+)\) => [A-Za-z:(]+\(\4\)|let Err\(_\) = )'
count '1 numbers for refusals' 'fn number\(self'
count '2 types and impls that stand for one test, order or key each' '^impl.* (Key|Test<.*>|Before<.*>) for '
count '2 structs of the same fields but for a size (text, len, depth)' '^ +(pub\(crate\) )?depth: usize,$'
count '2 tables of words, one function each' 'is_word\(word, b"'
count '3 loops by hand (while, loop, ranges of numbers)' '^ *('"'"'[a-z]+: )?(while |loop |for [a-z_]+ in 0\.\.)'
count '3 counters kept by hand' '^ +(k|i|end|left|at) [-+]= 1;$'
count '4 orders and equalities by hand' 'fn (compare(_[a-z]+)?|eq|cmp|partial_cmp|is)\('
count '4 printing by hand' 'fn (write_[a-z_]+|words)\('
count '5 views of a value in clauses (names, spelling, .items.items and the like)' '(requires|ensures).*\b(names|spelling|wide_names|carries|paths_in|\.items\.items|root_of|identity_of)\b'
count '5 clauses that the order of a table stays' 'StaysAscending'
count '6 buffers with a length beside, and lists searched by hand' '(^ +(pub\(crate\) )?len: usize,$|match find\()'
count '7 tests and orders that are passed as objects' '(<P: Test|<O: Before|&Under|&NotUnder|&NotBefore|&Past|&NotAt|&Apart|&Other|&Named|&HasIdentity|&IsAttached|&WatchedAt|&GuardedAt|&OwnerAt|&OwnerElsewhere|&NotAbove|&Concerned|retain\(&apart)'
printf '%-66s %s\n' '8 lines of answers, invariants and lemmas in proofs/' "$(find crates/*/proofs -name '*.antt' -exec cat {} + | wc -l)"
printf '%-66s %s\n' '8 files of answers in proofs/' "$(find crates/*/proofs -name 'Answers.antt' | wc -l)"
