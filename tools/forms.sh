#!/bin/sh
# Counts the places of older forms in the sources of crates/, point by point as docs/DESIGN-PASS.md has them. Run it at
# the top of a checkout; with -v it prints the places too.
list() {
    name=$1; shift
    found=$("$@" 2>/dev/null)
    count=$(printf '%s' "$found" | grep -c .)
    printf '%-4s %4d  %s\n' "$point" "$count" "$name"
    [ -z "$verbose" ] || printf '%s\n' "$found" | sed 's/^/            /'
}
src() { grep -rnE "$1" crates/*/src --include=*.rt | grep -vE '^[^:]*tests\.rt:|^[^:]*:[0-9]+: *//'; }
but() { src "$1" | grep -vE "$2"; }
facts() { src 'requires|ensures' | grep -oE "$1" | sed -E 's/(requires|ensures)( [a-z_]+)? //' | sort | uniq -c | awk '$1 >= 3'; }
twins() { find crates/*/src -name '*.rt' | xargs grep -hoE "$1" | sort | uniq -c; }
[ "$1" = -v ] && verbose=1

point=1
list 'functions that write and answer a flag' src 'fn [a-z_]+.*&mut .*-> bool'
list 'an operator, a form, a kind or a bit as a number' src 'Binary\(u8\)|\b(op|code): u8\b|number: u8, store|(s|k): u8, b: u8|fn (form|unary|kind)_number|fn kind_by|take\(1\)\? =='
list 'results that say nothing (a number for a theorem)' sh -c "grep -rnA1 -E -- '-> u8$' crates/*/src | grep -E 'ensures \{ [A-Z]'" 
list 'a refusal with a number (number, stage, places)' src '^    pub number: u8|fn fault_in\(number'
point=2
list 'tests of an element, a type each (Test, Weight)' src 'impl (Test|Weight) for'
list 'loops of one shape in reading and writing' src 'fn (flows|derived_clocks|result_flows)\(&mut self|fn (expressions|equation_rows|nodes)\($|fn put_(cells|expressions|flows|clocks|equations|nodes)\('
list 'rows with a count, a type each' src '^pub struct (Results|Arguments|Clocks|Equations|Waiting|Order) '
list 'the same test of a kind and of a clock' src 'fn (same|of|shared)_kind|fn (on|same|shared)_clock'
list 'walks down the chain of a clock' src 'const MOST_CLOCKS'
list 'outcomes of calls, a function each' src 'fn (read|examine|write)_outcome|fn list_refusal'
list 'conversions twice (fault() and From)' src 'pub fn fault\(self\)'
list 'both reckonings the same' src 'fn (below|same|show)\(&self, a: i32'
point=3
list 'for over a range of numbers' src 'for [a-z_]+ in [a-z0-9_.]+\.\.'
list 'while' src '^ *while '
list 'loops that a chain or a method may say' but 'for .* in ' '\.\.|impl|println'
point=4
list 'equality by hand' src 'fn (same_kind|of_kind|on_clock|same_clock|both_are|is_truth|same_side|alike|is_derived)\('
list 'conversion by hand' src 'fn (kind_by|kind_number|unary_number|form_number|equation_number|times_wanted|less_one|digit_value|byte_of_digits|digit_of)\('
list 'printing by hand' src 'fn (stage_word|kind_word|constant_text|binary_word|refusal|cell_text|results_text|arguments_text|plain_text|delay_text|call_text|expression_text|equation_text|declaration|declarations|chain|heading|var_line|body|node_text|listing)\('
list 'library methods by hand (get, clamp, max, starts_with, ..)' src 'fn (flow_at|clock_at|size_at|hold|has_plus|front|counted)\(|if a < b \{ b \} else \{ a \}|code as u8'
list 'match or let else that ?, map, filter, is_some_and say' src 'None => (return None|\{\}|false|true|None|Ok\(None\))|Some\(_\) => (true|\{\})|Ok\(\(\)\) => Ok|else \{ None \}|let Some\(.\) = parts\.pop'
list 'types without derives that callers may want (Debug, PartialEq)' src '#\[derive\((Clone, Copy|Drop)\)\]'
point=5
list 'a fact in three contracts or more (kinds of it)' facts '(requires|ensures)( [a-z_]+)? \{ [^{}]*(length [a-z_.]+|n|Room [a-z_.]+ [a-z_.]+|Moved [a-z_.]+ [a-z_.]+|Grown [a-z_.]+ [a-z_.]+|x < n) *((≤|≡) [a-z0-9_. ]+)?\}'
list 'out, at together' src 'out: &mut \[u8\], at: usize'
list 'reader, store together' src 'store: &mut CellStore'
list 'block, k, node together' src 'k: usize, node: &NodeView'
list 'heap (and node) together in the listing' sh -c "grep -rnE 'heap: Global' crates/script/src/listing* "
list 'table, n, done together' src 'table: &(mut )?\[bool\]'
point=6
list 'a buffer with a length beside it' src '^    (pub )?(count|used|len): (u8|u16|usize),'
list 'a flat table with index arithmetic' src '\* WIDTH'
list 'index arithmetic over pairs' src '2 \* i'
point=7
list 'types that stand for closures (traits Test, Weight)' src 'pub trait (Test|Weight)'
list 'a match on which check to run' src '^        Check::Fit ='
