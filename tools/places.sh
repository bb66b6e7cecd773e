#!/bin/sh
# Lists the places in src/ that might be said better in today's Rattle, a heading for each sort. Run it at the top of
# a checkout. A line that it finds is a candidate: docs/DESIGN-PASS.md says which are places, and what became of each.
files=$(git ls-files 'crates/*/src/*.rt' | grep -v 'tests\.rt$')
find_in() { echo "== $1"; shift; grep -nE "$@" $files; }
find_in "1a own enums" '^(pub |pub\(crate\) )?enum '
find_in "1b a flag with a value beside" -e '-> (Option<|Result<)?\(.*bool'
find_in "1c a number for a refusal" 'number: (u8|refusal)'
find_in "1d an answer taken apart only to be handed on" 'None => (Err|None)|Err\([a-z]+\) => Err|if let Err|Some\([a-z]+\) => (Ok|Some)\('
find_in "2 types, and functions of types" '^(pub |pub\(crate\) )?(struct|trait) |^impl'
find_in "3a loops" '\b(while|loop)\b|\bfor [^<].* in .*\.\.'
find_in "3b loops over items with an answer inside" '\bfor [^<].* in [^.]*\{$'
find_in "4a equality, order, copying, printing" 'fn (same|eq|ne|cmp|lt|smaller|larger|copy|number|digits?|fmt|is_letter|is_digit)\b'
find_in "4b casts" ' as (u8|u16|u32|u64|usize|char)\b'
find_in "5a facts in a requires or a ghost field" 'requires|ghost [a-z_]+: \{ .*[≤<≡]'
find_in "5b parameters that are slices, or sizes of them" '^ +(n|held|grid|column|branches|weights|values|cells): '
find_in "6 buffers and parallel arrays" '(len|count|held|place): (usize|u8)|: \[[A-Za-z0-9<> ]+; [A-Z0-9]+\]'
find_in "7 closures, tables of functions" 'dyn |: fn\(|Fn(Mut|Once)?\('
echo "== 8 proofs: files and lines by crate"
for crate in $(cut -d: -f1 crates.txt | grep -v '^#'); do
    proofs=$(git ls-files "crates/$crate/proofs/*.antt")
    [ -z "$proofs" ] || echo "$crate $(echo "$proofs" | wc -l) $(cat $proofs | wc -l)"
done
