# shellcheck shell=bash disable=SC2154
# Runs the parts of ./test and counts their tests, to be sourced by bash with
# `counts`, the file that says how many tests each part runs, `log`, a file for what
# a part prints, and `only`, the one part that is to run, or nothing.
passed=0
failed=0
summary=()
ran=()

# The counts of a part, 'N M', from the output on standard input: from its last
# line, or the sum over the lines 'test result' of cargo.
last_line() {
    tail -n 1 | sed -nE 's/^([a-z]+: )?([0-9]+) passed, ([0-9]+) failed$/\2 \3/p'
}
cargo_lines() {
    sed -nE 's/^test result: .* ([0-9]+) passed; ([0-9]+) failed;.*/\1 \2/p' |
        awk '{ n += $1; m += $2 } END { print n + 0, m + 0 }'
}
# Of `rt ci`, from its last line. A must-fail edit that it calls bad fails nothing there,
# and here it is one failure; so is a run that does not say 'rt: ok' and has no other.
ci_lines() {
    awk '
        /^rt: ok; / { ok = 1 }
        /^rt: ok; .*, [0-9]+ bad;/ { told = $0; sub(/ bad;.*/, "", told); sub(/.*, /, "", told); bad = told + 0 }
        /^rt: note: bad must-fail edits, as told above: [0-9]+\./ { told = $0; sub(/.*above: /, "", told); bad = told + 0 }
        { last = $0 }
        END {
            if (last !~ /^[0-9]+ passed, [0-9]+ failed$/) exit
            split(last, words, " ")
            failed = words[3] + bad
            print words[1], failed == 0 && !ok ? 1 : failed
        }'
}
# For a step that is no test: nothing passes by it, and it has no line in `counts`.
no_test() {
    echo "0 $((status != 0))"
}

# kit_of FILE: which kit proves, and a warning where it is not the one that FILE
# names, with which this version was proved.
kit_of() {
    local own pinned
    own=$(rt version) && pinned=$(cat "$1") || return 1
    if [ "$own" = "$pinned" ]; then
        echo "$own, with which this version was proved"
    else
        echo "WARNING: $own, and this version was proved with $pinned ($1)"
    fi
}

# The lines of `counts` without comments.
pins() {
    grep -vE '^(#|$)' "$counts"
}
# pinned NAME: the number that `counts` has for the part; nothing if it has none.
pinned() {
    pins | awk -F ': ' -v name="$1" '$1 == name && $2 ~ /^[1-9][0-9]*$/ { print $2 }'
}

# wrong WORDS: one more failure, said at once and in the summary.
wrong() {
    failed=$((failed + 1))
    echo "$1"
    summary+=("$1")
}

# told NAME WORDS: no test; the words are said at once and in the summary.
told() {
    echo "== $1"
    echo "$2"
    summary+=("$1: $2")
}

# part NAME COUNTER COMMAND...: runs the command and adds what it counts. Another
# number of tests than `counts` has for the part is a failure.
part() {
    local name=$1 counter=$2 begin=$SECONDS status n m pin note=
    shift 2
    echo "== $name"
    "$@" 2>&1 | tee "$log"
    status=${PIPESTATUS[0]}
    read -r n m < <("$counter" <"$log")
    n=${n:-0}
    m=${m:-0}
    local tests=$((n + m))
    if [ "$m" -eq 0 ] && [ "$status" -ne 0 ]; then
        note=", ended with status $status"
        m=1
    fi
    passed=$((passed + n))
    failed=$((failed + m))
    if [ "$counter" = no_test ]; then
        if [ "$m" -eq 0 ]; then
            summary+=("$name: done ($((SECONDS - begin)) s)")
        else
            summary+=("$name: failed ($((SECONDS - begin)) s)")
        fi
        return
    fi
    summary+=("$name: $n passed, $m failed$note ($((SECONDS - begin)) s)")
    ran+=("$name")
    pin=$(pinned "$name")
    if ! [[ $pin =~ ^[0-9]+$ ]]; then
        wrong "part $name ran $tests tests, $counts has no number for it, or several"
    elif [ "$tests" -ne "$pin" ]; then
        wrong "part $name ran $tests tests, $counts says $pin"
    fi
}

# Prints the summary and the last line, and answers 0 only if nothing failed and
# every part that `counts` names ran, or the one that was to run.
finish() {
    local line name
    while read -r line; do
        for name in "${ran[@]}"; do
            [ "${line%: *}" != "$name" ] || continue 2
        done
        [ -z "$only" ] || [ "${line%: *}" = "$only" ] || continue
        wrong "part ${line%: *} did not run, $counts says ${line##*: }"
    done < <(pins)
    echo "== summary"
    printf '%s\n' "${summary[@]}"
    echo "$passed passed, $failed failed"
    [ "$failed" -eq 0 ] && [ "$passed" -gt 0 ]
}
