#!/bin/sh
# Counts, in the sources of one commit, the places that docs/DESIGN-PASS.md speaks of: tools/count_forms.sh COMMIT.
set -eu
commit=${1:-HEAD}
src() { git grep -nE "$1" "$commit" -- ':(glob)crates/*/src/**' || true; }
count() { printf '%-64s %s\n' "$1" "$(src "$2" | wc -l)"; }
count 'own cases of a refusal, a wrong line or nothing (1)' '^    (Refused|Wrong|Nothing)\b'
count 'functions that give a number for a refusal, a rule or a line (1)' 'fn (settings_refusal|first_broken|first_wrong)\(.*-> u32'
count 'refusals by their number (1)' '^pub const [A-Z_]+: Refusal'
count 'numbers that stand for nothing beside a value (1)' '(out: NONE|fn find\(s: &\[u32\], p: u32\) -> usize|fn lowest_free)'
count 'policies by their numbers, declared (1)' 'const (LRU|CLOCK|SEGMENTED|TWO_Q|ARC): u32'
count 'functions that take a policy by its number (1)' 'fn [a-z_0-9]+\(.*policy: u32|^    policy: u32,'
count 'policies compared by number (1)' 'policy (==|!=|<) [A-Z]|[A-Z]+ < policy'
count 'loops by while (3)' '^ *while '
count 'indices counted by hand (3)' '(\+|-)= 1;'
count 'loops by for (3)' '^ *for '
count 'iterators and their methods (3)' '\.(iter|iter_mut|all|any|filter|find|position|map|count|sum|zip|contains|fill|copy_within|copy_from_slice)\('
count 'functions that print a case by hand (4)' 'fn show_[a-z]+\('
count 'types with derives beyond Clone and Copy (4)' 'derive\(.*(Debug|PartialEq|Drop)'
count 'Sized asked by a clause (5)' 'requires.*Sized'
count 'capacities beside the other settings (5)' 'capacity: u32'
count 'pages asked to be below NONE (5)' 'page < 4294967295'
count 'lists asked to be 1 to 4 (5)' '\(1 ≤ [jk]\) × \([jk] ≤ 4\)'
count 'positions beside a text that is read (6)' 'text: &\[u8\], (start|at|next): usize|^    next: usize'
count 'enums and flags that choose a step (7)' 'enum Part|(ghosts|in_b2): bool'
printf '%-64s %s\n' 'lines of src/' "$(git ls-tree -r --name-only "$commit" | grep -E '^crates/.*/src/.*\.rt$' | while read -r f; do git show "$commit:$f"; done | wc -l)"
printf '%-64s %s\n' 'files of answers (8)' "$(git ls-tree -r --name-only "$commit" | grep -cE '^crates/.*/proofs/.*/Answers\.antt$')"
printf '%-64s %s\n' 'lines of proofs/ (8)' "$(git ls-tree -r --name-only "$commit" | grep -E '^crates/.*/proofs/.*\.antt$' | while read -r f; do git show "$commit:$f"; done | wc -l)"
