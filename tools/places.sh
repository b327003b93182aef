#!/usr/bin/env bash
# tools/places.sh [DIR]: the places of each point of docs/DESIGN-PASS.md in src/ of a checkout (this one, if none is named), one count for
# each search, with -v also the places themselves. Run by hand; nothing else uses it.
set -euo pipefail
verbose=0
[ "${1:-}" != -v ] || { verbose=1; shift; }
cd "${1:-$(dirname "$0")/..}"

# count NAME PATTERN: the lines of src/ that a pattern finds, comments aside
count() {
    local found
    found=$(grep -nE "$2" crates/*/src/*.rt | grep -vE '^[^:]+:[0-9]+: *//' || true)
    printf '%-58s %s\n' "$1" "$(printf '%s' "$found" | grep -c . || true)"
    [ "$verbose" -eq 0 ] || [ -z "$found" ] || printf '%s\n' "$found" | sed 's/^/    /'
}

count '1 own enums of the shape of Option or Result' '^(pub )?enum (Found|Verdict|EntryRead|Joined|RunVerdict|Ready)\b'
count '1 fields that are a verdict or a flag beside a value' '^    (pub )?(verdict|lacking|goes_on|at_limit): '
count '1 numbers for none or for a kind' '\b32 <= |return 32;|\.op == |\bkind == [0-9]|HIGHEST_KIND|fn answer_frame\(\) -> bool'
count '2 one function for each type or size of a number' 'fn (wide|narrow|least|pair_of|magnitude)\('
count '2 one function for each kind of refusal or answer' 'fn (refused|(refused|stopped|lacking)_(at|with)|(begun|ran)_refused|(verdict|ran|joined)_(number|place)|stop_number|reason_of|goes_on|is_limit)\('
count '2 the same line for each of eight places' 'plan\[7\]|plan, 7\)|\(s, 11\)|e7 = entries|chosen\[7\]|n\[10\]\]'
count '2 one loop for each kind of item' 'fn (first_live|first_alone|first_several|put_marks|put_numbers|put_values|put_mark|print_plan_byte|print_entry|print_parent)\('
count '3 loops by hand' '^ +(while|loop) ?.*\{$'
count '4 equality, order, copies, conversions, printing by hand' 'fn (is_ended|is_found|values_agree|as_signed|four_bytes|kind_of|next_of|number_of|stop_number|reason_of|entry_numbers|entry_in|no_state|no_entries|fresh_state|misfit_state)\('
count '5 contracts with Sound, Lent, Inside or the marks'"'"' length' 'Sound g|Lent g|Inside file\.now g|g\.total ≤ length marks'
count '5 contracts with Searchable, AimAt, WantedAt or Prepared' 'Searchable s\.now|AimAt w a|WantedAt s\.now w|Prepared w a|HasMarks marks\.now w'
count '5 contracts with Texts or JobOf' 'Texts file\.now|JobOf file\.now'
count '5 contracts with a place inside a line or the output' 'at ≤ length out|result ≤ length out|385 ≤ length out'
count '6 buffers with a length beside, numbers of entries in a row' 'at: \[usize; 32\]|(entries|numbers): &\[u32\]|(parents|bases): &\[usize\]|(heres|theres): &(mut )?\[u8\]|filled: usize'
count '7 switches on which step to run' '^ +match (next|self\.next|t\.next) \{|if h\.op =='
printf '%-58s %s\n' '8 answers in proof files of functions' "$(cat crates/*/proofs/*/*.antt crates/*/proofs/*/*/*.antt 2>/dev/null | grep -cE '^pub [^ ]+ : goal\.' || true)"
printf '%-58s %s\n' '8 lines in proof files of functions' "$(cat crates/*/proofs/*/*.antt crates/*/proofs/*/*/*.antt 2>/dev/null | wc -l)"
