#!/bin/bash
# Lists, for each point of the design pass, the lines of src/ that a reader has to judge: tools/count_places.sh [COMMIT]
# (no commit: the files as they lie here). docs/DESIGN-PASS.md says which of them are places.
commit=$1
find_lines() { # NAME PATTERN: lines of src/ that match, clauses and comments too
    printf '%s\n' "--- $1"
    if [ -n "$commit" ]; then
        git grep -nE -e "$2" "$commit" -- 'crates/*/src/*' | sed "s,^$commit:crates/,,; s,/src/,/,"
    else
        git grep -nE -e "$2" -- 'crates/*/src/*' | sed 's,^crates/,,; s,/src/,/,'
    fi
}

find_lines '1a own enums: is one an Option or a Result?' '\benum [A-Z]'
find_lines '1b numbers that stand for kinds' '=> [0-9]+,|^ +[0-9]+ =>|\bkind: (u8|[0-9])|kind (==|!=) [0-9]|kind > 9|fn kind.*-> u8|\[u32; 10\]|\[&str; 10\]'
find_lines '1c a number that stands for none, for never or for a refusal' '\b0 (for|where|if)\b|\b0: (at )?n|(None|\[\]) => 0|(Ok\(\(\)\)|Err\(.*\)) => [0-9]|at: u64,$|countdown: u32,$'
find_lines '1d a yes or no, or an Option, that stands for a Result' '&mut self.*-> bool|Option<(Misfit|[A-Za-z]*Fault|[A-Za-z]*Error)>'
find_lines '1e a Result or an Option taken apart by hand to be passed on' '^ +(Ok|Err|Some|None)\b.* => (Ok|Err|Some|None)\b|return Err\((Failure|why|NoteError)|Some\(why\)'
find_lines '1f flags, and values that mean something under one alone' '(open|committed|ended): bool,$|begin: Option<'
find_lines '2 functions, to be read for twins' '^ *(pub(\([a-z]+\))? )?fn [a-z_]+'
find_lines '3 loops' '^ *(for|while|loop)\b.*\{$'
find_lines '4 conversions, comparisons, defaults and printing by hand' 'fn (from|to|into)_[a-z]+|matches!|text == "|from_le_bytes\(\[|let nothing|const (ZERO|NEVER)\b|impl.* (From|TryFrom|FromStr|PartialEq|Default|Ord)<?.* for |fmt::Display for'
find_lines '5a facts said in many clauses' '(requires|ensures).*( lent \{| len \{| capacity \{| agrees \{|jobs_in |dirty_in |powered ≡ true\))'
find_lines '5b parameters that travel together' 'most: usize|number: u32, pages: u32|out: &mut W,$'
find_lines '6 a buffer with its length, parallel arrays, lists searched by hand' 'length: u8,$|mask: \[|used: usize,$|list: Vec<|counts: \[|const KINDS|holds: \[|let mut bytes = \[0; (60|256)\];$|last: \[u8'
find_lines '7 switches on the step' 'match (arguments\.kind|layout)|fn set_(next|hold)'
