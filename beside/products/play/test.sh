#!/bin/bash
# Plays every day of days/ with ./play, as lines and in words, and compares what is
# printed with what is stored, and the lines with what the reckoning's tape prints;
# then a changed day, bad text, output that does not arrive, and bad uses. The last
# line is 'play: N passed, M failed'.
set -u
cd "$(dirname "$0")/../../.." || exit 2
out=target/play
export CARGO_TARGET_DIR=$PWD/target/cargo
passed=0
failed=0

# check NAME COMMAND...: passes if the command ends with status 0.
check() {
    local name=$1
    shift
    if "$@"; then
        passed=$((passed + 1))
    else
        failed=$((failed + 1))
        echo "play: FAILED: $name"
    fi
}

rm -rf "$out"
mkdir -p "$out"

# prints STORED [DAY]: ./play prints the stored lines.
prints() {
    local stored=$1
    shift
    ./play "$@" >"$out/printed" && diff "$stored" "$out/printed"
}
several() { [ "$(find days -name '*.txt' | wc -l)" -ge 9 ]; }
has_text() { [ -f "${1%.out}.txt" ]; }
has_stored() { [ -f "${1%.txt}.out" ] && [ -f "${1%.txt}.words" ] && [ -f "${1%.txt}.audit" ]; }
# reckoned DAY: the reckoning's tape prints the stored lines for its frames.
reckoned() {
    "$CARGO_TARGET_DIR/release/assemble" "$1" >"$out/frames" &&
        "$CARGO_TARGET_DIR/release/tape" <"$out/frames" >"$out/reckoned" &&
        diff "${1%.txt}.out" "$out/reckoned"
}

check "nine days or more" several
for day in days/*.txt; do
    check "$day" prints "${day%.txt}.out" "$day"
    check "$day in words" prints "${day%.txt}.words" --words "$day"
done
check "the reckoning's tape is built" \
    cargo build --quiet --offline --release --bin tape --manifest-path beside/reckoning/Cargo.toml
for day in days/*.txt; do
    check "$day has .out, .words and .audit" has_stored "$day"
    check "$day by the reckoning" reckoned "$day"
done
for stored in days/*.out days/*.words; do
    check "$stored has its day" has_text "${stored%.*}.out"
done
check "without a day the worked example" prints days/worked-example.out

# The examples of README.md: each block of its shell that plays a day runs as written.
changed() {
    sed 's/buy 2 of strategy 0/buy 6 of strategy 0/' days/worked-example.txt >"$out/my-day.txt"
    cat >"$out/my-day.out" <<'END'
E 0 0 0 0
E 1 0 0 0
E 2 0 0 0
E 3 0 1 0
E 4 0 2 0
E 5 0 3 6
R 1 3 0 0 5 200
R 2 3 0 0 5 300
R 2 3 1 1 5 100
R 2 1 0 1 5 300
R 2 2 1 0 5 100
R 3 3 0 0 1 0
END
    prints "$out/my-day.out" "$out/my-day.txt"
}
check "a changed day" changed
# in_readme FILE: every line of the file stands in README.md, in its order, in one piece.
in_readme() {
    awk 'NR == FNR { want[++n] = $0; next } $0 == want[at + 1] { if (++at == n) found = 1; next } { at = ($0 == want[1]) } END { exit !found }' "$1" README.md
}
sed -n "$(($(grep -n '^line .*customer buy 13' days/auction.words | cut -d : -f 1))),+2p" days/auction.words >"$out/piece"
check "README.md shows the words of a day" in_readme "$out/piece"
# What ./play --help says of refusals and lines, the README says, too.
same_refusals() {
    [ "$(./play --help | grep -cE '^  1?[0-9]   ? ?[a-z]')" -ge 15 ] && [ "$(grep -cE '^\| 1?[0-9] \| ' README.md)" -ge 15 ]
}
check "refusals in --help and README.md" same_refusals
same_lines() {
    local word words
    words=$("$CARGO_TARGET_DIR/release/assemble" --help | sed -nE 's/^  ([a-z-]+) .*/\1/p')
    [ "$(wc -w <<<"$words")" -ge 13 ] || return
    ./play --help >"$out/help" || return
    for word in $words; do
        if ! grep -q "^  $word " "$out/help" || ! grep -qE "^\| .*\`$word " README.md; then
            echo "play: no line '$word' in --help or README.md"
            return 1
        fi
    done
}
check "lines of a day in --help and README.md" same_lines

# ends STATUS WORDS COMMAND...: the command ends with that status, prints nothing
# and says the words on standard error.
ends() {
    local status=$1 words=$2
    shift 2
    "$@" 2>"$out/said" >"$out/printed"
    [ $? -eq "$status" ] && [ ! -s "$out/printed" ] && grep -q -- "$words" "$out/said"
}
help() { ./play --help | grep -q '^usage: ./play'; }
missing_program() { TAPE=$out/none ./play; }
printf 'open 0\n\nopen 32 # too high\nopen 1\nopen x\n' >"$out/high.txt"
printf 'open 0\nopen\n' >"$out/short.txt"
both_bad() { grep -q 'line 5: ' "$out/said" && ! grep -qv '^play: ' "$out/said"; }
check "--help" help
check "an unknown word" ends 2 '^usage: ./play' ./play --unknown
check "two days" ends 2 '^usage: ./play' ./play days/halt.txt days/halt.txt
check "a number outside its range" ends 1 'high.txt: line 3: series 32 is outside its range, 0 to 31' ./play "$out/high.txt"
check "every bad line, each as ./play says it" both_bad
check "a line that is cut" ends 1 'short.txt: line 2: the line ends before the series' ./play "$out/short.txt"
check "no such day" ends 1 'none.txt: No such file' ./play "$out/none.txt"
check "a folder" ends 1 'days: Is a directory' ./play days
check "no such program" ends 1 "the program $out/none is missing" missing_program

# says STATUS WORDS COMMAND...: the command ends with that status and says the words on
# standard error; what it prints is in "$out/printed".
says() {
    local status=$1 words=$2
    shift 2
    "$@" 2>"$out/said" >"$out/printed"
    [ $? -eq "$status" ] && grep -q -- "$words" "$out/said"
}
# Where what is printed does not arrive whole.
full() { ./play "$@" days/auction.txt >/dev/full; }
closed() { ./play "$@" days/auction.txt >&-; }
broken() {
    seq 20000 | sed 's/.*/open 0/' >"$out/long.txt"
    ./play "$@" "$out/long.txt" | head -n 1
    return "${PIPESTATUS[0]}"
}
full_help() { ./play --help >/dev/full; }
for words in '' --words; do
    check "a full output $words" says 1 'play: writing the output' full $words
    check "a closed output $words" says 1 'play: standard output is closed' closed $words
    check "a broken output $words" says 1 'play: writing the output' broken $words
done
check "--help to a full output" says 1 'write error' full_help

# Bytes that are no frame: where tape stops, what it takes together.
printf 'open 0\nbytes 02 00\nopen 1\n\nopen 2 # the last\n' >"$out/stops.txt"
printf 'open 0\nbytes 0c 00 06 00 01 01\nopen 1\nopen 2\n' >"$out/takes.txt"
printf 'open 0\nbytes 06\n' >"$out/ends.txt"
two_lines() { [ "$(wc -l <"$out/printed")" -eq 2 ]; }
three_lines() { [ "$(wc -l <"$out/printed")" -eq 3 ]; }
check "tape stops" says 3 'stops.txt: tape stopped at line 2' ./play "$out/stops.txt"
check "it played two lines" two_lines
check "it says what was not played" grep -q '2 lines after it were not played' "$out/said"
check "tape stops at the last line" says 0 'ends.txt: line 2: warning: ' ./play "$out/ends.txt"
check "a frame over two lines" says 3 'takes.txt: lines 2 to 3 became one frame: 1 line was not played' ./play "$out/takes.txt"
check "it played three lines" three_lines

# Two at once.
at_once() {
    ./play days/auction.txt >"$out/one" 2>"$out/said" &
    ./play --words days/halt.txt >"$out/two" 2>"$out/said.two"
    local two=$?
    wait $! && [ "$two" -eq 0 ] && cmp "$out/one" days/auction.out && cmp "$out/two" days/halt.words
}
check "two at once" at_once

# A program without its proof: the same lines, and it says what it is.
unproved() { ./play --unproved days/auction.txt; }
check "--unproved" says 0 'play: nothing was proved: tape and the writer were built without their proofs (--unproved)' unproved
check "the same lines" cmp "$out/printed" days/auction.out
check "again, and it says so again" says 0 'play: nothing was proved: tape and the writer were built without their proofs (--unproved)' unproved

# A tape that needs more stack than it has.
small_stack() { (ulimit -S -s 200 && ./play days/auction.txt); }
check "too small a stack" says 1 'stack' small_stack

echo "play: $passed passed, $failed failed"
[ "$failed" -eq 0 ] && [ "$passed" -gt 0 ]
