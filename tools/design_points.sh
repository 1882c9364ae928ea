#!/bin/bash
# Lists the places in crates/*/src that may read like the older language, point by point, and counts them (docs/DESIGN-PASS.md).
# `tools/design_points.sh [FOLDER]` looks in FOLDER, a checkout, and else in this one. A line is a candidate: the page says what each is.
set -euo pipefail
cd "${1:-$(dirname "$0")/..}"
sources=$(find crates -path '*/src/*.rt' -not -path '*/out/*' | sort)

# point NUMBER WHAT PATTERN: the lines that fit the pattern
point() {
    local hits
    hits=$(grep -nE -- "$3" $sources || true)
    echo "== $1 $2: $(echo -n "$hits" | grep -c '' || true)"
    [ -z "$hits" ] || echo "$hits"
}

point 1a 'what is wrong, told by an Option' 'Option<(Refusal|Reason)>'
point 1b 'a flag that says whether a change was made' '&mut self[^)]*\) -> bool'
point 1c 'enums' '^ *(pub(\(crate\))? )?enum '
point 1d 'numbers for kinds' '^ *(pub )?(command|kind|code|tag): u(8|16|32)|=> [0-9]+,$'
point 1e 'a flag or an option among the fields of a struct' '^    (pub )?[a-z_]+: (bool|Option<[A-Za-z]+>),'
point 1f 'a stand-in for what is missing' 'unwrap_or\('
point 1g 'an Err or a None passed on by hand' 'Err\(e(rr|rror)?\) => |Err\((refusal|reason)\) (=>|=)|None => (None|return|false)|else \{ *return (None|n|false|true)|Some\(e\) = .*\{$'
point 2a 'traits and their impls' '^(pub )?trait |^impl.* for '
point 2b 'functions of one line shape: a length against a number' '\.len\(\)$|< self\.[a-z]+\.len\(\)'
point 3 'loops over a range' 'for [a-z_]+ in [^{]*\.\.'
point 3b 'loops with a condition' '(while|loop) '
point 4a 'comparisons, conversions and words by hand' 'fn (equals|is_name|is_data|of|of_number|number|word|read|say|say_fact|value)\b'
point 4b 'a match that answers true or false' '=> (true|false),'
point 5 'conditions of private functions' '^ *requires'
point 6 'a length or a count beside a buffer, and arrays in structs' '^ *(pub )?(len|count|entries): |^ *(pub )?[a-z_]+: \[.*;'
point 7 'a table of functions, and a choice by words' '^pub struct [A-Z][a-z]+;|^ *"[a-z-]+" => '
echo "== 8 lines of proofs: $(cat $(find crates -path '*/proofs/*.antt' -not -path '*/out/*') | wc -l), of specs: $(cat $(find crates -path '*/specs/*.antt' -not -path '*/out/*') | wc -l), of src: $(cat $sources | wc -l); answer files: $(find crates -name Answers.antt -not -path '*/out/*' | wc -l), invariant files: $(find crates -name Invariants.antt -not -path '*/out/*' | wc -l)"
