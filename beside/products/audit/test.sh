#!/bin/bash
# Audits every day of days/ with ./audit and compares what is printed with the
# stored text, then tapes that are wrong and bad uses. The last line is
# 'audit: N passed, M failed'.
set -u
cd "$(dirname "$0")/../../.." || exit 2
out=target/audit
passed=0
failed=0

# check NAME COMMAND...: passes if the command ends with status 0.
check() {
    local name=$1
    shift
    if "$@"; then
        passed=$((passed + 1))
    else
        failed=$((failed + 1))
        echo "audit: FAILED: $name"
    fi
}

rm -rf "$out"
mkdir -p "$out"

# prints STORED WORDS...: ./audit prints the stored text, and ends with status 0.
prints() {
    local stored=$1
    shift
    ./audit "$@" >"$out/printed" && diff "$stored" "$out/printed"
}
has_text() { [ -f "${1%.audit}.txt" ]; }
fits() { ! grep -n '.\{101\}' days/*.audit; }

for day in days/*.txt; do
    check "$day" prints "${day%.txt}.audit" "$day"
done
for stored in days/*.audit; do
    check "$stored has its day" has_text "$stored"
done
check "100 columns" fits
check "without a day the worked example" prints days/worked-example.audit

# The frames of a day as they are.
raw() {
    target/cargo/release/assemble days/refusals.txt >"$out/refusals.frames" &&
        prints days/refusals.audit --raw "$out/refusals.frames"
}
nothing() {
    : >"$out/none.frames"
    [ "$(./audit --raw "$out/none.frames")" = 'totals hold' ]
}
check "frames" raw
check "no frames" nothing

# fails DAY EDIT WORDS..: of the day whose lines sed edited, exactly the words are
# listed as what does not hold, last, and the status is 1.
fails() {
    printf '#!/bin/sh\n"%s/target/bin/tape" | sed "%s"\n' "$PWD" "$2" >"$out/wrong"
    chmod +x "$out/wrong"
    TAPE=$out/wrong ./audit "days/$1.txt" >"$out/printed"
    [ $? -eq 1 ] &&
        sed '1,/^totals do not hold:$/d' "$out/printed" | diff <(printf '  %s\n' "${@:3}") -
}
in_table() { grep -q '  FAILS$' "$out/printed"; }
check "units: a cancel too small" fails auction 's/^R 3 7 0 1 3 0$/R 3 7 0 1 2 0/' \
    'day 1, number 7: entered 7, but filled 4 + cancelled 2 + live 0 = 6'
check "it is seen in the table" in_table
check "contracts: live is too much" fails worked-example 's/^R 3 1 0 1 3 0$/R 3 1 0 1 4 0/' \
    'day 1, number 1: entered 5, but filled 2 + cancelled 0 + live 4 = 6'
check "it is seen in the table" in_table
check "others: a number that did not enter" fails opening 's/^R 3 8 0 0 2 0$/R 3 10 0 0 2 0/' \
    'day 1, number 8: entered 4, but filled 2 + cancelled 0 + live 0 = 2' \
    'day 1, number 10: did not enter, and has records 1 to 3: 1'
check "fills: records 1 of leg orders" fails worked-example \
    's/^E 5 0 3 5$/E 5 0 3 7\nR 1 2 0 0 4 150\nR 1 1 0 1 4 150/' \
    'day 1, number 1: a leg order, and has records 1: 1' \
    'day 1, number 2: a leg order, and has records 1: 1'
check "strategy: one that no event answered" fails halt 's/^E 6 0 2 0$/E 6 0 3 0/' \
    'day 2, number 9: no accepted event of the day defines strategy 2'
check "ratio: contracts on a leg" fails opening 's/^R 2 2 0 0 3 300$/R 2 2 0 0 4 300/' \
    'day 1, number 2, series 0: 8 contracts, but ratio 1 x 7 units = 7' \
    'day 1, series 0: bought 15, but sold 14'
check "it is seen in the table" in_table
check "series: the side of a leg fill" fails auction 's/^R 2 4 1 1 8 103$/R 2 4 1 0 8 103/' \
    'day 1, series 1: bought 46, but sold 30' \
    'day 1, cash: paid 3499, but received 1851'
check "it is seen in the table" in_table
check "limit: a whole fill" fails opening 's/^R 1 3 0 1 2 195$/R 1 3 0 1 2 194/' \
    'day 1, number 3: filled at 194, below its limit 195' \
    'day 1, cash: paid 3299, but received 3297'
check "it is seen in the table" in_table
check "price: a leg order's fill" fails opening 's/^R 2 7 1 0 2 100$/R 2 7 1 0 2 101/' \
    'day 1, number 7: filled at 101, above its limit 100' \
    'day 1, cash: paid 3301, but received 3299'
check "it is seen in the table" in_table
check "range: fills after a range that is refused" fails national-prices 's/^E 15 0 0 0$/E 15 3 0 0/' \
    'day 1, number 6: filled at 210, above the national offer net 202 + range 2 = 204' \
    'day 1, number 11: filled at 205, above the national offer net 198 + range 2 = 200'
check "it is seen in the table" in_table
check "national prices: a fill above the bound" fails national-prices 's/^R 1 5 0 0 2 205$/R 1 5 0 0 2 206/' \
    'day 1, number 5: filled at 206, above the national offer net 202 + range 3 = 205' \
    'day 1, cash: paid 3166, but received 3164'
check "it is seen in the table" in_table
check "sweeps: a sell at the offer net enters" fails sweeps 's/^E 9 15 0 0$/E 9 0 27 0/' \
    'day 1, number 27: entered 4, but filled 0 + cancelled 0 + live 0 = 0' \
    'day 1, number 27: a sweep that sells at 105, not below the offer net 105 of its arrival'
check "it is seen in the table" in_table
check "sweeps: a buy at the bid net after a fill enters" fails sweeps 's/^E 21 15 0 0$/E 21 0 27 0/' \
    'day 1, number 27: entered 2, but filled 0 + cancelled 0 + live 0 = 0' \
    'day 1, number 27: a sweep that buys at 92, not above the bid net 92 of its arrival'
check "it is seen in the table" in_table
check "specialist: what its portion leaves is not cancelled" fails specialist 's/^R 3 14 0 0 3 0$/R 3 14 0 0 2 0/' \
    'day 1, number 14: entered 7, but filled 4 + cancelled 2 + live 0 = 6'
check "it is seen in the table" in_table
check "paid: one price for each party" fails auction 's/^R 1 5 0 0 2 94$/R 1 5 0 0 2 93/' \
    'day 1, cash: paid 2673, but received 2675'
check "it is seen in the table" in_table

# ends STATUS WORDS COMMAND...: the command ends with that status, prints nothing
# and says the words on standard error.
ends() {
    local status=$1 words=$2
    shift 2
    "$@" 2>"$out/said" >"$out/printed"
    [ $? -eq "$status" ] && [ ! -s "$out/printed" ] && grep -q -- "$words" "$out/said"
}
help() { ./audit --help | grep -q '^usage: ./audit'; }
# tape_is PROGRAM: ./audit with another tape.
tape_is() { TAPE=$1 ./audit; }
printf 'open 0\nopen 32\n' >"$out/high.txt"
printf '#!/bin/sh\necho E 0 0 0\n' >"$out/cut"
printf '#!/bin/sh\nexit 3\n' >"$out/broken"
printf '#!/bin/sh\n"%s/target/bin/tape"\necho trouble >&2\n' "$PWD" >"$out/troubled"
chmod +x "$out/cut" "$out/broken" "$out/troubled"
small_stack() { (ulimit -S -s 200 && ./audit); }
check "--help" help
check "an unknown word" ends 2 '^usage: ./audit' ./audit --unknown
check "two days" ends 2 '^usage: ./audit' ./audit days/halt.txt days/halt.txt
check "--raw alone" ends 2 '^usage: ./audit' ./audit --raw
check "a number outside its range" ends 2 'high.txt: line 2: series 32 is outside its range' ./audit "$out/high.txt"
check "no such day" ends 2 'none.txt: No such file' ./audit "$out/none.txt"
check "no such frames" ends 2 'audit: .*none.bin: No such file' ./audit --raw "$out/none.bin"
check "a folder" ends 2 'audit: days: Is a directory' ./audit --raw days
check "no such program" ends 2 "the program $out/none is missing" tape_is "$out/none"
check "lines that are cut" ends 2 "audit: lines: line 1: 'E 0 0 0' is no line of tape" tape_is "$out/cut"
check "a program that ends badly" ends 2 "$out/broken ended with status 3" tape_is "$out/broken"
check "a program that says something" ends 2 'audit: tape: trouble' tape_is "$out/troubled"
check "too small a stack" ends 2 'audit: .*tape ended by a violation of memory: has it a stack of 400 KB' small_stack

# Output that does not arrive.
full() { ./audit >/dev/full; }
closed() { ./audit >&-; }
check "a full output" ends 2 'audit: writing the output: No space left' full
check "a closed output" ends 2 'audit: standard output is closed' closed

echo "audit: $passed passed, $failed failed"
[ "$failed" -eq 0 ] && [ "$passed" -gt 0 ]
