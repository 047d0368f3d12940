#!/bin/sh
# The places of a design pass over crates/*/src: for each point, the lines that may be one. Every row is then read; docs/DESIGN-PASS.md says what became of it.
cd "$(dirname "$0")/.." || exit 1
rows() { grep -rnE --include='*.rt' "$@" crates/*/src; }
say() { printf '\n%s\n' "$1"; }
say '1a a flag with a value beside it'
rows '^ +(pub )?[a-z_]+: bool,$'
say '1b numbers for kinds'
rows 'tag [!=]= [0-9]|^ +[0-9]+ => '
say '1c enums in which some cases are refusals'
rows '^ +(Refused|GivenBack|NoMemory)\b.*,$'
say '1d an Option or a Result taken apart only to be made again'
rows '=> unreachable\(\)|None => None|\b(Some|Ok)\((\w+)\) => (return )?(Some|Ok)\(|Err\(\w*\) => (return )?Err\(|None => (return )?(Err|Ok)\(|^ +unreachable\(\)$'
rows -A1 'else \{$' | grep -E 'return (None|Err\()'
say '2 functions of one name in more than one place'
rows -o '^ *(pub(\(crate\))? )?fn [a-z_]+' | sed -E 's/.*fn //' | sort | uniq -c | awk '$1 > 1'
say '3 an index or a count kept by hand'
rows '\+= [0-9]|for \w+ in \(?[0-9a-z_.()]+\.\.|while |saturating_add\(1\)|\.enumerate\(\)'
say '4 equality, order, copying, conversion and printing by hand'
rows '\.(number|ticks|places|value|cents)\(\) (==|!=|<=?|>=?) [a-z_]+(\.[a-z_]+)*\.(number|ticks|places|value|cents)\(\)|impl PartialEq|fn (same_[a-z]+|is_date|refusal_of|made|benchmark_of|rule_of|raised|of)\b|fn new\((number|code): u(8|16)\)|derive\(Clone, Copy\)\]|&str; [0-9]+\]'
say '5 a clause that stands in three contracts or more'
grep -rhoE --include='*.rt' '^ +(requires|ensures)( [a-z_]+)? \{ .* \}' crates/*/src | sed -E 's/^ +(requires|ensures)( [a-z_]+)? //' | sort | uniq -c | awk '$1 > 2'
say '6 a table with a count beside it, and searches by hand'
rows '\[[A-Za-z]+; [0-9A-Z_]+\],$|while low|\bfind\('
say '7 which step to run'
rows 'match (self|request|[a-z.]*benchmark|\(phase, kind\)) \{'
say '8 lines of proofs'
cat $(find crates/*/proofs -name '*.antt') | wc -l
