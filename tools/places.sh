#!/usr/bin/env bash
# Lists the places in src/ that the design pass looks at, by point: `tools/places.sh [POINT]`, in any checkout.
# A line that is found is a place to read, not yet a fault; docs/DESIGN-PASS.md says what became of each.
set -u
cd "$(git rev-parse --show-toplevel)" || exit 1
find_in() { # POINT WHAT PATTERN [EXCEPT]
    [ -z "${only:-}" ] || [ "$only" = "$1" ] || return 0
    local lines
    lines=$(grep -rnE -- "$3" crates/*/src | grep -vE -- '^[^:]*:[0-9]+: *//' | grep -vE -- "${4:-^$}")
    printf 'point %s: %s: %s\n' "$1" "$2" "$(printf '%s' "$lines" | grep -c .)"
    [ -z "${only:-}" ] || printf '%s\n' "$lines"
}
only=${1:-}
find_in 1 'enums of our own' '^ *(pub(\(crate\))? )?enum '
find_in 1 'tests of an Option or a Result by is_..()' 'is_(some|none|ok|err)\(\)'
find_in 1 'a fault as Option<usize>' '_fault\(.*-> Option<usize>'
find_in 1 'flags that are stored or passed' '(: |\[)&?(mut )?\[?bool' 'fn .*-> bool$'
find_in 1 'numbers that stand for a flag or for nothing' '\{ [01] \} else \{ [01] \}|< 64 \{|extra: [01]|shared > 0|== depths\.len\(\)|(0, 0);|return unreachable|=> unreachable'
find_in 2 'functions of one name or shape in two places' 'fn (check_codes|check_entries|put_codes|put_entries|prefix_len|state_code|emit|emit_under|shared_bytes|state_numbers|read_codes|read_entries|fill|print_refusal|header|read|count_loops|child_bits|prefix_lens|code_parts|write_codes|write_masks|summarize|plan_file|places|entries|entries_ab)\('
find_in 2 'structs with the same fields' '^ *(pub(\(crate\))? )?struct (Entry|RawEntry|Header|Automaton|Filing|Summary|Place|Placement)\b'
find_in 3 'loops over a range of numbers' 'for _?\w+ in [^{]*\.\.'
find_in 3 'loops by while' '\bwhile\b'
find_in 4 'the number in a wrapper compared or turned by hand' '\.0 as usize|\.0 (==|!=|<|>=) .*\.0'
find_in 4 'conversions, copies and printing written by hand' 'fn (of|entry|copy|named|line|number|is_better|refusal_line|print_refusal|state_numbers|header)\('
find_in 4 'a refusal printed by its number' 'refused \{'
find_in 5 'a bound that callers state again: the automaton keeps its limits' 'requires .*Within \(handed automaton\)'
find_in 5 'a bound that callers state again: other facts' 'requires .*(PlanOf|Described parents|Sized tree|length tree\.old|length parents\.now ≤|Lists \(length parents|automaton\.states \* automaton\.states)'
find_in 5 'parameters that travel together' '^ *(parents: &|depths: &|pairs: &|joined: &|tree: &|counts: &|row: &|deferrable: &|used: usize|plan: &Plan|out: &mut \[PrefixWord)'
find_in 6 'arrays of a fixed size in structs, results and locals' '(-> \[|: \[|= \[).*; (256|512|4096|MOST_[A-Z]+)\]'
find_in 6 'a count beside a buffer' '^ *(pub(\(crate\))? )?(count|used|end|roots): (usize|u32),'
find_in 6 'working memory as an arena of numbers' 'work: &(mut )?\[u32'
find_in 7 'a match on a call or a step' 'match call|match self \{|match \(' 
find_in 7 'function pointers, dyn, boxed closures' 'fn\(|dyn '
[ -n "$only" ] && [ "$only" != 8 ] || {
    printf 'point 8: proof files and their lines: %s files, %s lines\n' "$(find crates/*/proofs -name '*.antt' | wc -l)" "$(cat $(find crates/*/proofs -name '*.antt') | wc -l)"
    printf 'point 8: answers of a function: %s\n' "$(find crates/*/proofs -name Answers.antt | wc -l)"
}
