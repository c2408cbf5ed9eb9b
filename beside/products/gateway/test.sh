#!/bin/bash
# Builds the gateway over the proved library and runs its tests, and compiles the
# library's header as C and as C++. LIBRARY is the static library with the
# exported functions, ASSEMBLE the program of beside/products/assemble; both must
# be built before. The last line is 'gateway: N passed, M failed'.
set -u
cd "$(dirname "$0")" || exit 2
root=$(cd ../../.. && pwd)
library=${LIBRARY:-$root/target/staticlib/libexports.a}
assemble=${ASSEMBLE:-$root/target/cargo/release/assemble}
out=$root/target/gateway
passed=0
failed=0

pass() {
    passed=$((passed + 1))
}

fail() {
    failed=$((failed + 1))
    echo "gateway: FAILED: $1"
}

# check NAME COMMAND...: passes if the command ends with status 0.
check() {
    local name=$1
    shift
    if "$@"; then pass; else fail "$name"; fi
}

finish() {
    echo "gateway: $passed passed, $failed failed"
    [ "$failed" -eq 0 ] && [ "$passed" -gt 0 ]
    exit
}

rm -rf "$out"
mkdir -p "$out"
for name in gateway bounds codec; do
    if ! gcc -std=c11 -Wall -Wextra -Werror -O2 -I "$root/include" "$name.c" "$library" -o "$out/$name"; then
        fail "$name.c does not compile"
    fi
done
# The library has no language of its own: C++ links it by the header alone.
if ! g++ -std=c++11 -Wall -Wextra -Werror -pedantic -O2 -I "$root/include" -x c++ codec.c -x none "$library" -o "$out/codec++"; then
    fail "codec.c does not compile as C++"
fi
[ "$failed" -eq 0 ] || finish
gateway=$out/gateway

# prints CASE COMMAND...: the gateway prints the stored lines of the case when
# the command passes its input on.
prints() {
    local case=$1
    shift
    "$@" <"$out/$case.in" | "$gateway" >"$out/$case.got" && diff "tests/$case.out" "$out/$case.got"
}

# Each stored case, its input whole and then one byte at a time.
for text in tests/*.txt ../../../days/worked-example.txt; do
    case=$(basename "${text%.*}")
    if "$assemble" "$text" >"$out/$case.in"; then
        check "$case" prints "$case" cat
        check "$case, byte by byte" prints "$case" dd ibs=1 obs=1 status=none
    else
        fail "$case: the text is bad"
    fi
done

# Many frames: more than the gateway holds at once, and a stop after them.
many() {
    cp "$out/kinds.in" "$out/many.in" || return
    for _ in {1..14}; do
        cat "$out/many.in" "$out/many.in" >"$out/twice.in" && mv "$out/twice.in" "$out/many.in" || return
    done
    printf '\001' >>"$out/many.in"
    "$gateway" <"$out/many.in" >"$out/many.got" || return
    local frames=$(($(wc -l <tests/kinds.out) << 14))
    [ "$(wc -l <"$out/many.got")" -eq $((frames + 1)) ] &&
        [ "$(grep -c ' queued ' "$out/many.got")" -eq "$frames" ] &&
        [ "$(tail -n 1 "$out/many.got")" = "$frames refused 2" ]
}
check "many frames" many

# A line is printed when its frame has come, not when the input ends.
prompt() {
    local line
    coproc "$gateway"
    local pid=$COPROC_PID to=${COPROC[1]} from=${COPROC[0]}
    printf '\006\000\006\000\000\001' >&"$to"
    read -r -t 5 line <&"$from"
    local status=$?
    exec {to}>&- {from}<&-
    wait "$pid"
    [ "$status" -eq 0 ] && [ "$line" = "0 queued kind 6 length 6" ]
}
check "a line before the input ends" prompt

# ends STATUS WORDS COMMAND...: the command ends with that status and says the
# words on standard error.
ends() {
    local status=$1 words=$2
    shift 2
    "$@" 2>"$out/said" >"$out/printed"
    [ $? -eq "$status" ] && grep -q -- "$words" "$out/said"
}
help() {
    "$gateway" --help >"$out/help" && grep -q '^usage: gateway' "$out/help"
}
closed_output() { "$gateway" <"$out/kinds.in" >&-; }
full_output() { "$gateway" <"$out/kinds.in" >/dev/full; }
broken_output() {
    "$gateway" <"$out/many.in" | head -n 1
    return "${PIPESTATUS[0]}"
}
closed_input() { "$gateway" <&-; }
folder_input() { "$gateway" <"$out"; }
check "--help" help
check "bad usage" ends 2 '^usage: gateway' "$gateway" --unknown
check "a second word" ends 2 '^usage: gateway' "$gateway" --help --help
check "a closed output" ends 1 'writing the output' closed_output
check "a full output" ends 1 'writing the output' full_output
check "a broken output" ends 1 'writing the output' broken_output
check "a closed input" ends 1 'reading the input' closed_input
check "a folder as input" ends 1 'reading the input' folder_input
check "reads and writes outside the frame" "$out/bounds"
check "every exported function, from C" "$out/codec"
check "every exported function, from C++" "$out/codec++"
# exported: the functions of the library that C sees are those of the header.
exported() {
    nm -g --defined-only "$library" 2>/dev/null | sed -n 's/.* T //p' | sort >"$out/symbols"
    sed -nE 's/^uint32_t (complex_book_[a-z_]+)\(.*/\1/p' "$root/include/complex_book.h" | sort | diff - "$out/symbols"
}
check "the header has what the library exports" exported
finish
