#!/bin/bash
# Tests how ./test counts, with made-up parts and numbers, and what the scripts share:
# commands that are missing, output that does not arrive, progress, the kit. The last
# line is 'gate: N passed, M failed'.
set -u
cd "$(dirname "$0")/../.." || exit 2
out=target/gate
good=0
bad=0

# check NAME COMMAND...: passes if the command ends with status 0.
check() {
    local name=$1
    shift
    if "$@"; then
        good=$((good + 1))
    else
        bad=$((bad + 1))
        echo "gate: FAILED: $name"
    fi
}

rm -rf "$out"
mkdir -p "$out"

# says WORDS: a part that prints the words; cargo_says adds lines of cargo.
says() { echo "$1"; }
cargo_says() {
    echo "test result: ok. 2 passed; 0 failed; 0 ignored; 0 measured; 0 filtered out; finished in 0.01s"
    echo "test result: $1; 0 ignored; 0 measured; 0 filtered out; finished in 0.01s"
}
says_and_fails() {
    echo "$1"
    return 3
}

# gate STATUS LAST WORDS COMMAND: runs the parts of the command with the numbers
# on standard input; it ends with the status, the last line LAST, and one line
# of the summary is the words ('' where there are none to be).
gate() {
    local ends=$1 last=$2 words=$3
    cat >"$out/counts.txt"
    (
        counts=$out/counts.txt
        log=$out/log
        only=${5-}
        . beside/gate/parts.sh
        "$4"
        finish
    ) >"$out/printed"
    [ $? -eq "$ends" ] && [ "$(tail -n 1 "$out/printed")" = "$last" ] || return 1
    if [ -n "$words" ]; then
        sed '1,/^== summary$/d' "$out/printed" | grep -qxF -- "$words"
    else
        ! grep -q '^part ' "$out/printed"
    fi
}

two_parts() {
    part "one part" last_line says '3 passed, 0 failed'
    part other cargo_lines cargo_says 'ok. 4 passed; 0 failed'
}
numbers=$'# a comment\n\none part: 3\nother: 6'
check "the right numbers" gate 0 '9 passed, 0 failed' '' two_parts <<<"$numbers"
check "a test less" gate 1 '9 passed, 1 failed' "part one part ran 3 tests, $out/counts.txt says 4" two_parts \
    <<<"${numbers/3/4}"
check "a test more" gate 1 '9 passed, 1 failed' "part other ran 6 tests, $out/counts.txt says 5" two_parts \
    <<<"${numbers/6/5}"
check "a part without a number" gate 1 '9 passed, 1 failed' \
    "part other ran 6 tests, $out/counts.txt has no number for it, or several" two_parts <<<'one part: 3'
check "a part with two numbers" gate 1 '9 passed, 1 failed' \
    "part other ran 6 tests, $out/counts.txt has no number for it, or several" two_parts <<<"$numbers"$'\nother: 6'
check "a number of another part" gate 1 '9 passed, 2 failed' \
    "part other ran 6 tests, $out/counts.txt has no number for it, or several" two_parts <<<$'one part: 3\none other: 6'
check "it did not run" grep -qx "part one other did not run, $out/counts.txt says 6" "$out/printed"
check "a part that does not run" gate 1 '9 passed, 1 failed' "part third did not run, $out/counts.txt says 2" two_parts \
    <<<"$numbers"$'\nthird: 2'
check "no numbers at all" gate 1 '9 passed, 2 failed' \
    "part other ran 6 tests, $out/counts.txt has no number for it, or several" two_parts <<<''

failing() { part other cargo_lines cargo_says 'FAILED. 3 passed; 1 failed'; }
check "a test that fails is counted as one that ran" gate 1 '5 passed, 1 failed' '' failing <<<'other: 6'
ends_badly() { part other last_line says_and_fails 'other: 3 passed, 0 failed'; }
check "a part that ends badly" gate 1 '3 passed, 1 failed' '' ends_badly <<<'other: 3'
check "its status is told" grep -q '^other: 3 passed, 1 failed, ended with status 3 ' "$out/printed"
no_line() { part other last_line says 'nothing'; }
check "a part without counts" gate 1 '0 passed, 1 failed' "part other ran 0 tests, $out/counts.txt says 3" no_line <<<'other: 3'
check "0 is no number" gate 1 '0 passed, 1 failed' \
    "part other ran 0 tests, $out/counts.txt has no number for it, or several" no_line <<<'other: 0'

step() {
    two_parts
    part tools no_test says 'nothing'
}
check "a step that is no test" gate 0 '9 passed, 0 failed' '' step <<<"$numbers"
told_step() {
    told kit 'one of them'
    two_parts
}
check "what is told stands in the summary" gate 0 '9 passed, 0 failed' '' told_step <<<"$numbers"
check "with its words" grep -qx 'kit: one of them' "$out/printed"
bad_step() {
    two_parts
    part tools no_test says_and_fails 'nothing'
}
check "a step that fails" gate 1 '9 passed, 1 failed' '' bad_step <<<"$numbers"
# What rt ci says: its gate, a must-fail edit that it calls bad, failures.
ci_says() {
    part proofs ci_lines says "$said_by_ci"
}
whole='rt: ok; handles allowed: none; must-fail edits: 3 refused; every proof and must-fail edit was done in this run'
said_by_ci=$'rt: base proved\n'"$whole"$'\n5 passed, 0 failed'
check "rt ci passes" gate 0 '5 passed, 0 failed' '' ci_says <<<'proofs: 5'
said_by_ci=${said_by_ci/refused/refused, 1 of them only by a limit}
check "an edit that a limit refuses" gate 0 '5 passed, 0 failed' '' ci_says <<<'proofs: 5'
said_by_ci=$'rt: note: bad must-fail edits, as told above: 2. They fail nothing here\n'"${whole/3 refused/1 refused, 2 bad}"$'\n3 passed, 0 failed'
check "bad edits fail" gate 1 '3 passed, 2 failed' '' ci_says <<<'proofs: 5'
said_by_ci="${whole/3 refused/3 refused, 1 of them only by a limit, 12 bad}"$'\n5 passed, 0 failed'
check "many bad edits" gate 1 '5 passed, 12 failed' '' ci_says <<<'proofs: 17'
said_by_ci=$'rt: note: bad must-fail edits, as told above: 1. They fail nothing here\nrt: FAILED: base\n3 passed, 1 failed'
check "bad edits beside a failure" gate 1 '3 passed, 2 failed' '' ci_says <<<'proofs: 5'
said_by_ci='5 passed, 0 failed'
check "no line 'rt: ok'" gate 1 '5 passed, 2 failed' "part proofs ran 6 tests, $out/counts.txt says 5" ci_says <<<'proofs: 5'
said_by_ci='3 passed, 2 failed'
check "crates that fail" gate 1 '3 passed, 2 failed' '' ci_says <<<'proofs: 5'
said_by_ci="$whole"$'\n5 passed, 0 failed (base and the crates below alone: not the gate)'
check "some crates alone" gate 1 '0 passed, 1 failed' "part proofs ran 0 tests, $out/counts.txt says 5" ci_says <<<'proofs: 5'

nothing() { :; }
check "no part at all" gate 1 '0 passed, 0 failed' '' nothing <<<''

# One part alone: what the others' numbers say does not count.
other_part() { part other cargo_lines cargo_says 'ok. 4 passed; 0 failed'; }
check "one part" gate 0 '6 passed, 0 failed' '' other_part other <<<"$numbers"
check "one part with a test less" gate 1 '6 passed, 1 failed' "part other ran 6 tests, $out/counts.txt says 7" other_part other \
    <<<"${numbers/6/7}"
check "one part that does not run" gate 1 '0 passed, 1 failed' "part other did not run, $out/counts.txt says 6" nothing other \
    <<<"$numbers"

# stub NAME WORDS: a command of that name, in a folder of its own, that runs the words.
mkdir -p "$out/bin" "$out/empty"
stub() {
    printf '#!/bin/bash\n%s\n' "$2" >"$out/bin/$1"
    chmod +x "$out/bin/$1"
}
# A machine on which only these commands are there; apt-get notes what it is told, and
# makes the command cargo.
stub id 'echo 0'
stub apt-cache 'exit 0'
stub apt-get "echo \"\$*\" >>$PWD/$out/installed; echo noise; [ \"\$1\" = update ] || { printf '#!/bin/bash\\n' >$PWD/$out/bin/cargo; /bin/chmod +x $PWD/$out/bin/cargo; }"
# needs STATUS WORDS...: `need` with the words on that machine.
needs() {
    local status=$1
    shift
    rm -f "$out/installed" "$out/bin/cargo"
    /bin/bash -c 'name=made-up; . beside/tools.sh; PATH=$1; shift; need "$@"' - "$out/bin" "$@" >"$out/printed" 2>"$out/said"
    [ $? -eq "$status" ] && [ ! -s "$out/printed" ]
}
said() { grep -qF -- "$1" "$out/said"; }
unsaid() { ! said "$1"; }
installed() { [ -f "$out/installed" ]; }
not_installed() { [ ! -f "$out/installed" ]; }
first_said() { [ "$(head -n 1 "$out/said")" = "$1" ]; }
check "nothing is missing" needs 0 --install id
check "nothing is said" [ ! -s "$out/said" ]
check "rt is missing, so nothing is installed" needs 1 --install rt cargo
check "nothing was installed" not_installed
check "rt is named" said "made-up: the command 'rt' is missing: it is the Rattle kit's"
check "the others are named" said "made-up: the command 'cargo' is missing"
check "the line that installs them is named" said 'apt-get install cargo'
check "what can be installed is" needs 0 --install id cargo
check "it was installed" installed
check "it is said before" first_said 'made-up: installing what is missing (cargo) with apt-get'
check "without --install it is named" needs 1 id cargo gcc
check "and not installed" not_installed
check "with its line" said 'made-up: on Debian this installs it: apt-get install cargo gcc libc6-dev'
check "what is not there after all" needs 1 --install cargo rustc
check "is named" said "made-up: the command 'rustc' is missing"
check "and nothing else" unsaid "made-up: the command 'cargo' is missing"
stub id 'echo 1000'
check "not as root" needs 1 --install cargo
check "nothing was installed then" not_installed

# prints STATUS COMMAND: `printed` with a function that prints much and answers 3.
much() {
    seq 100000
    return 3
}
prints() {
    local status=$1
    shift
    (name=made-up && . beside/tools.sh && "$@") 2>"$out/said"
    [ $? -eq "$status" ]
}
whole() { printed much >"$out/printed"; }
full() { printed much >/dev/full; }
closed() { printed much >&-; }
broken() {
    printed much | head -n 1 >"$out/printed"
    return "${PIPESTATUS[0]}"
}
arrived() { seq 100000 | cmp -s - "$out/printed"; }
check "output that arrives: the status stays" prints 3 whole
check "and it is whole" arrived
for kind in full closed broken; do
    check "a $kind output" prints 1 "$kind"
    check "a $kind output is told" said 'made-up: writing the output failed; what was printed is not whole'
done
is_closed() { open_output >&-; }
check "an output that is closed" prints 1 is_closed
check "an output that is open" prints 0 open_output
no_file() { readable "$out/none"; }
folder() { readable "$out"; }
check "no file" prints 1 no_file
check "no file is told" said "made-up: $out/none: No such file or directory"
check "a folder" prints 1 folder
check "a folder is told" said "made-up: $out: Is a directory"

# What a message shows of the user's words.
shows() { [ "$(name=made-up && . beside/tools.sh && shown "$1")" = "$2" ]; }
check "plain words" shows 'my day.txt' 'my day.txt'
check "control characters" shows $'a\e[31m\nb' "\$'a\\E[31m\\nb'"
check "long words" shows "$(printf 'x%.0s' {1..60})end" "..$(printf 'x%.0s' {1..35})end"

# One command at a time that proves: the second waits, and says so.
slow() {
    echo "$1 begins"
    sleep 1
    echo "$1 ends"
}
one_after_the_other() {
    # shellcheck disable=SC2030
    (
        root=$PWD name=made-up
        . beside/tools.sh
        locked slow one >>"$out/order" &
        sleep 0.3
        locked slow two >>"$out/order" 2>"$out/said"
        wait
    )
    [ "$(paste -sd , "$out/order")" = 'one begins,one ends,two begins,two ends' ]
}
check "one command at a time" one_after_the_other
check "the other waits, and says so" said 'made-up: waiting for another command that proves here'
fails_locked() { (root=$PWD name=made-up && . beside/tools.sh && locked much) >/dev/null; }
not_three() {
    fails_locked
    [ $? -eq 3 ]
}
check "its status is the command's" not_three

# What ./play shows while crates are proved.
shown() {
    printf '%s\n' 'logic=proved functions=0 incremental=trusted' 'only=0 proved=0' '== base' '== events' 'fn events::x: proved' \
        'rt: note: must-fail/x.edit has a line that is not read' 'logic=proved functions=23 incremental=trusted' '== frames' \
        'logic=not-proved' 'rt: rt check --only frames::x checks that function' '== summary' 'events: ok' 'frames: failed (1)' \
        'exports: not run, since frames failed' '2 of 6 crates ok' |
        (root=$PWD name=made-up && . beside/proved.sh && progress 'the writer' "$(crates_below exports_c)") 2>&1 |
        diff - <(printf '%s\n' 'made-up: proved for the writer: crate 2 of 6, events' \
            'rt: rt check --only frames::x checks that function' 'frames: failed (1)' 'exports: not run, since frames failed')
}
check "progress" shown

# Built once, by a made-up kit that counts its runs, and again where a source has changed.
# The made-up repository is not in this one: rt ci would look for its crates.
made=$(mktemp -d) || exit 2
trap 'rm -rf "$made"' EXIT
mkdir -p "$made/crates/one/src" "$made/crates/two/src" "$made/crates/three/src"
printf 'one:\ntwo staticlib: one\nthree: one\n' >"$made/crates.txt"
stub nproc 'echo 2'
stub rt "case \$1 in
version) echo a kit ;;
all) echo \"== one\"; echo \"logic=proved\"; echo x >>$PWD/$out/runs ;;
lib) mkdir -p out && cp src/lib.rt out/libtwo.a; [ ! -e $PWD/$out/broken ] ;;
esac"
built() {
    (root=$made name=made-up PATH=$PWD/$out/bin:$PATH && . beside/tools.sh && . beside/proved.sh &&
        builds two lib out/libtwo.a target/staticlib/lib.a) >"$out/printed" 2>&1
}
# runs NUMBER SOURCE: so many runs of the kit until now, the last of that source.
runs() { [ "$(wc -l <"$out/runs")" -eq "$1" ] && [ "$(cat "$made/target/staticlib/lib.a")" = "$2" ]; }
echo first >"$made/crates/two/src/lib.rt"
check "a library is built" built
check "and placed" runs 1 first
check "again" built
check "nothing has changed, so nothing runs" runs 1 first
echo other >"$made/crates/three/src/lib.rt"
check "a crate that it does not use" built
check "nothing runs for it" runs 1 first
echo second >"$made/crates/two/src/lib.rt"
touch -d '1 day ago' "$made/crates/two/src/lib.rt"
check "its source has changed, whatever its time" built
check "it is built anew" runs 2 second
echo below >"$made/crates/one/src/lib.rt"
check "the source of a crate below" built
check "it is built anew, too" runs 3 second
touch "$out/broken"
echo third >"$made/crates/two/src/lib.rt"
not_built() { ! built; }
check "it is not proved" not_built
check "what stood stays" runs 4 second
rm "$out/broken"
check "it is proved again" built
check "and stands anew" runs 5 third

# The kit: the one that is named, or a warning.
stub rt 'echo a kit'
kit_says() {
    echo "$1" >"$out/kit.txt"
    (PATH=$PWD/$out/bin:$PATH && . beside/gate/parts.sh && kit_of "$out/kit.txt") | grep -qxF -- "$2"
}
check "the kit that is named" kit_says 'a kit' 'a kit, with which this version was proved'
check "another kit" kit_says 'one kit' "WARNING: a kit, and this version was proved with one kit ($out/kit.txt)"

# Words that ./test does not know: nothing is removed or run.
touch "$out/stays"
# ends STATUS FILE WORD..: ./test with the words ends so, and its usage is in the file.
ends() {
    local status
    ./test "${@:3}" >"$out/printed" 2>"$out/said"
    status=$?
    [ "$status" -eq "$1" ] && [ -e "$out/stays" ] && grep -q '^usage: ./test' "$out/$2"
}
check "./test --help" ends 0 printed --help
check "./test with an unknown word" ends 2 said unknown
check "./test with two parts" ends 2 said gate gate
lost_help() { ! "$1" --help >/dev/full 2>"$out/said" && [ -s "$out/said" ]; }
for script in test play audit bench; do
    check "./$script --help to a full disk" lost_help "./$script"
done

echo "gate: $good passed, $bad failed"
[ "$bad" -eq 0 ] && [ "$good" -gt 0 ]
