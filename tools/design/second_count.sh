#!/usr/bin/env bash
# second_count.sh [COMMIT]: the places of docs/DESIGN-PASS.md counted in one other way, by lines that fit a pattern, and twins by the tool
# `duplicates` where this machine has it. No line is read: the numbers are to fall as those of count.py do.
set -u
cd "$(dirname "$0")/../.." || exit 1
commit=${1:-HEAD}

lines() { # lines POINT WHAT PATTERN: how many lines of src fit, comments and clauses left out
    local n
    n=$(git grep -hE "$3" "$commit" -- 'crates/*/src/*.rt' | grep -vcE '^ *(//|requires|ensures|ghost use)')
    printf '%s  %-66s %5d\n' "$1" "$2" "$n"
}
lines 1 'enums' '^(pub )?enum '
lines 1 'fields and parameters that are a refusal number' '\bno: u(8|size)'
lines 1 'tests of one against 0' '\bno(_no)? [!=]= 0|\.no != 0'
lines 1 'answers of 0' 'return 0;|^ *0$'
lines 1 'constants of a literal number' 'const [A-Z_]+: (u8|usize) = [0-9]+;'
lines 1 'parameters that are a mode or what is asked' '\b(mode|what): u32'
lines 2 'functions of a name that stands in several crates: copy, merge, ..' '^(pub )?fn (copy|merge|sort|left_first|span|odd|block_end|room|wide)\('
lines 3 'loops by while or loop' '\b(while|loop) [^{]*\{|\bloop \{'
lines 3 'steps of an index' '^ *[a-z]+ [-+]= 1;'
lines 3 'loops by for' '\bfor [^{]* in [^{]*\{'
lines 4 'casts' ' as (u8|u16|u32|u64|usize|i32)\b'
lines 4 'words of a report, one by one' 'report\[[0-9]+\] = '
lines 4 'fields set to 0' '^ *[a-z]+: 0,'
lines 5 'parameters that are the whole of work' '\bwork: &(mut )?\[u32\]'
lines 6 'places in work, by an offset' 'work\[[a-z_.]+( \+|\])'
lines 6 'parameters that are a place' '\b(at|from|to|tmp|index|first|start): usize'
lines 7 'tests of a mode, a profile or what is asked' '\b(mode|what|profile) (==|!=)|match profile'

command -v duplicates >/dev/null || exit 0
# The tool goes by a file's ending, and does not know .rt.
copy=$(mktemp -d)
trap 'rm -rf "$copy"' EXIT
git archive "$commit" crates | tar -x -C "$copy" --wildcards 'crates/*/src/*.rt'
find "$copy" -name '*.rt' -exec sh -c 'mv "$1" "${1%.rt}.rs"' _ {} \;
printf '2  duplicates: %s\n' "$(duplicates --repo "$copy" --most 200 --min-lines 6 --seconds 60 | head -n 1)"
