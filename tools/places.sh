#!/usr/bin/env bash
# Lists the places that a reading for plainer forms begins with, a heading for each kind; run it at the top of a checkout.
# It finds by text, so that each place found still wants reading.
set -eu
src() { git ls-files 'crates/*/src/*.rt' | grep -v '_tests/' | sort; }
show() { # the heading; the places come by stdin
  local places
  places=$(cat)
  printf '%s: %s\n' "$1" "$(printf '%s' "$places" | grep -c . || true)"
  printf '%s\n' "$places" | sed '/^$/d; s/^/    /'
}
src | xargs grep -nE '^ *pub(\(crate\))? enum|^ *enum' | show '1 enums'
src | xargs grep -nE 'fn .*-> bool|let mut [a-z_]+ = (true|false)|None => (0|false|Err\()|== 0 \{$' | show '1 flags, and numbers or errors where there is none'
src | xargs grep -nE 'fn (number|place)\b' | show '1 numbers for refusals'
src | xargs grep -hoE '^ *(pub(\([a-z]+\))? )?fn [a-z_]+' | sed -E 's/.*fn //' | sort | uniq -cd | sort -rn | show '2 function names that stand more than once'
src | xargs grep -nE '^ *(for|while|loop) ' | show '3 loops'
src | xargs grep -nE ' as (u8|u16|u32|u64|usize)\b' | show '4 conversions by as'
src | xargs grep -nE 'impl.* (PartialEq|Eq|Ord|PartialOrd|Clone|Copy|From<.*>|TryFrom<.*>|(fmt::)?(Display|Debug)) for|fn (eq|cmp|clone|copy|word|print_line|spend)\b' | show '4 comparison, copying, conversion and printing by hand'
src | xargs grep -hoE '(requires|ensures)\*?( [a-z_]+)? \{.*\}' | sed -E 's/^(requires|ensures)\*?( [a-z_]+)? //' | sort | uniq -c | awk '$1 >= 3' | show '5 clauses that stand three times or more'
src | xargs grep -nE 'view N\.|Replies |claims (result|self\.)' | show '5 lines whose clause reads a value through a definition that is handed along'
src | xargs grep -nE 'increase: Increase|Increase::' | show '5 an increase handed along with the window that it is of'
src | xargs grep -nE '^ +(pub(\(crate\))? )?[a-z_]+: (\[|&.*\[)|count: usize' | show '6 buffers, and lengths beside them'
src | xargs grep -nE 'match (\*?self|increase|step|kind)\b|: fn\(|dyn |Box<' | show '7 switches and tables of steps'
git ls-files 'crates/*/proofs/*Answers.antt' | sort | show '8 files of answers'
git ls-files 'crates/*/proofs/*.antt' | grep -vE '(Answers|Invariants|Lib)[.]antt' | sort | show '8 files of lemmas'
