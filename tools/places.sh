#!/bin/sh
# Counts, in the sources of a commit (or of the folder as it stands), the places where code could be written in a newer form.
#     tools/places.sh [COMMIT]
# Each line is a point of docs/DESIGN-PASS.md, what is searched for, and how many lines have it; with -v before it, the lines too.
cd "$(dirname "$0")/.." || exit 1
show=; if [ "$1" = -v ]; then show=1; shift; fi
from=${1:-}
look() {
    if [ -n "$from" ]; then git grep -nE "$1" "$from" -- 'crates/*/src/*.rt' | sed "s/^$from://"
    else grep -nE "$1" crates/*/src/*.rt; fi
}
count() {
    found=$(look "$3" | grep -vE ':[0-9]+: *//' | { if [ -n "$4" ]; then grep -vE "$4"; else cat; fi; })
    n=$(printf '%s' "$found" | grep -c .)
    echo "$1  $2: $n"
    if [ -n "$show" ] && [ "$n" -gt 0 ]; then printf '%s\n' "$found" | sed 's/^/        /'; fi
}
count 1a 'a flag in a field, a variant or a pair' '\bbool,|: bool\b.*[,}]|\(bool, ' 'fn |-> bool'
count 1b 'an enum of the shape of Option or Result' 'enum (Drain|Outcome|Issued|Answer)\b'
count 1c 'a kind or a refusal as a number' 'kind: u8|\(u8, u8, u8\)|, [1-4], (self\.own|slip)|tag [!=]= [0-9]|refused (13|50)|fn kind_name'
count 1d 'a number that says none' '\b255\b|low < 64|next < 64' 'assert|u8::MAX'
count 2 'a function that a sibling has too' 'fn (no_tenant|find|add|picks|law_number|tag|all_below|are_under|digit|bytes_of|verdict|print_rotation|print_rotations|ranking|event_of|empty_slip|entry_of|no_event|empty_log|unlisted_below|unacceptable_below|blocking_below|lowest_below)\b'
count 3a 'a loop over a range' 'for \w+ in .*\.\.'
count 3b 'a while or a loop' '\bwhile\b|\bloop \{'
count 4a 'an impl that a derive or a conversion could be' 'impl.* (Clone|Copy|PartialEq|Eq|Default|From<.*>|TryFrom<.*>) for '
count 4b 'a table of numbers' '=> [0-9]+,|=> \([0-9]+, '
count 4c 'fields written out to compare or to print' 'let (number|at|layer|outer|inner|kind|worker|from|to) = (self|report|event|step)\.|(one|going)\.\w+ != '
count 4d 'a value of zeros written out' '(number|worker): (0|u64::MAX),'
count 5 'parameters that travel together' 'lists: &Lists|staffing: &Staffing|policy: &P\b|known: &mut Known|quarantine: &Ranking<64>'
count 6 'a length beside an array' '(len|count|events): (usize|u8),'
count 7 'a match that picks a step' 'match \(self\.drain, call\)|match law \{'
