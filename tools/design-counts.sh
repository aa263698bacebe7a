#!/bin/sh
# Counts, in the sources of a checkout, the places that docs/DESIGN-PASS.md speaks of: one line for each command, its count and the command.
# With -l it lists the places. usage: tools/design-counts.sh [-l] [CHECKOUT]
list=
[ "$1" = -l ] && { list=1; shift; }
cd "${1:-$(dirname "$0")/..}" || exit 2

count() {
    name=$1
    shift
    found=$(grep -rnE "$@" crates/*/src)
    printf '%-4s %4d  grep -rnE %s crates/*/src\n' "$name" "$(printf '%s' "$found" | grep -c '')" "'$*'"
    [ -z "$list" ] || printf '%s\n' "$found" | sed 's/^/          /'
}

# 1: enums; flags beside a value, and places of 0 for none; numbers for kinds and refusals
count 1a '^ *(pub )?enum '
count 1b '^ *(pub )?(fine|same|given|misused|awaits): bool'
count 1c '// .*(0 where|or their number|or the number of|or how many|with no bytes|names nothing)'
count 1d 'const [A-Z_]+: (u8|usize) = [0-9]+;'
count 1e '(kind|word|number): (u8|usize)[,)]?'
# 2: the functions that share all but a test, a type or a constant, found by reading, are those that these name
count 2 'fn (no_end_owed|no_old_end_owed|none_fresh|no_start_owed|starts_owed|ends_owed|next_end|next_start|next_held|next_owed|first_other|next_running|arcs|marking|words_sum|some_weight|check_rows|check_all_counts|do_next|undo_next|take_back|give_back|shift_up|shift_down|put_line[a-z_]*|same|starts|wide|plain|one|two|three|four|forms|events|walks|unfit|is_tick|is_start|tick_again|untick_again)\('
# 3: loops
count 3 '^ *(while|loop)\>'
# 4: conversions and the like by hand
count 4 'fn (number|of|unfit|answered|nothing|refused|not_fit|same|starts|wide|is_digit|is_visible|value)\('
# 5: a net with its shape as two parameters; the clause that says of three parameters that they fit
count 5a 'net: &\[u8\], shape: Net|^ *shape: Net,'
count 5b 'Framed(Net)? net\.now shape'
# 6: a lent buffer with a place in it
count 6 'out: &mut \[u8\], at: usize'
# 7: a number or a kind that says which step to run
count 7 'match (kind|word|number|part)\>'
# 8: what is written of proofs
printf '%-4s %4d  %s\n' 8a "$(git ls-files 'crates/*/Answers.antt' | wc -l)" "git ls-files 'crates/*/Answers.antt' | wc -l"
printf '%-4s %4d  %s\n' 8b "$(git ls-files 'crates/*/proofs/*.antt' | xargs cat | wc -l)" "git ls-files 'crates/*/proofs/*.antt' | xargs cat | wc -l"
