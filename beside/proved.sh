# shellcheck shell=bash disable=SC2154
# What ./play, ./audit, ./bench and ./test need of the proved crates, to be sourced by
# bash with `root`, the repository, and `name`, the script, set, after tools.sh.

# The least stack in KB with which tape is known to run (./bench measures it).
stack_kb=400

# crate_uses CRATE: the crates that it uses, as crates.txt has them.
crate_uses() {
    sed 's/#.*//' "$root/crates.txt" | awk -F: -v one="$1" '{ split($1, word, " ") } word[1] == one { print $2 }'
}
# crates_of NAME: the crate and those of the repository below it, a line each.
crates_of() {
    sed 's/#.*//' "$root/crates.txt" | awk -F: -v top="$1" '
        { split($1, word, " "); if (word[1] != "") uses[word[1]] = $2 }
        function walk(one, list, count, i) {
            if (!(one in uses) || one in seen) return
            seen[one] = 1
            count = split(uses[one], list, " ")
            for (i = 1; i <= count; i++) walk(list[i])
            print one
        }
        END { walk(top) }'
}
# crates_below NAME: how many they are.
crates_below() {
    crates_of "$1" | wc -l
}

# made_from CRATE: a sum of what it is proved and built from: the kit, its line of
# crates.txt and its sources, and those of the crates below it.
made_from() {
    local crates one
    mapfile -t crates < <(crates_of "$1")
    (
        cd "$root" || exit
        rt version
        for one in "${crates[@]}"; do
            grep -E "^$one( [^:]*)?:" crates.txt
        done
        for one in "${crates[@]}"; do
            for part in src specs proofs; do
                [ ! -d "crates/$one/$part" ] || find "crates/$one/$part" -type f -print0
            done
        done | LC_ALL=C sort -z | xargs -0 -r sha256sum
    ) | sha256sum
}
# is_made CRATE PLACE: whether the file of the repository was made of the crate as it
# stands now.
is_made() {
    [ -f "$root/$2" ] && [ -f "$root/target/proved/$1" ] && [ "$(made_from "$1")" = "$(cat "$root/target/proved/$1")" ]
}
# places CRATE MADE PLACE SUM: puts what rt made in the crate's folder to a place of its
# own, and notes the sum of what it was made from, unless that has changed since.
places() {
    local made=$root/crates/$1/$2 place=$root/$3 note=$root/target/proved/$1
    if [ ! -f "$made" ]; then
        echo "$name: rt did not make crates/$1/$2" >&2
        return 1
    fi
    mkdir -p "${place%/*}" "${note%/*}" && rm -f "$note" &&
        cp "$made" "$place.new" && mv "$place.new" "$place" || return 1
    [ "$(made_from "$1")" != "$4" ] || echo "$4" >"$note"
}

# lanes: how many crates are proved side by side: one a processor, as far as 3 GB of
# memory are free for each.
lanes() {
    local processors memory
    processors=$(nproc)
    memory=$(awk '/^MemAvailable:/ { print int($2 / 3000000) }' /proc/meminfo)
    [ "$memory" -ge "$processors" ] || processors=$memory
    echo "$((processors > 0 ? processors : 1))"
}
# builds CRATE VERB MADE PLACE: proves the crate and those below it, builds it (`run` a
# program, which gets no input, or `lib` a library), and places what was made; nothing
# where another command has done so meanwhile.
builds() {
    local sum
    ! is_made "$1" "$4" || return 0
    sum=$(made_from "$1")
    (cd "$root/crates/$1" && rt all check --jobs "$(lanes)" && rt "$2" </dev/null) && places "$1" "$3" "$4" "$sum"
}

# progress WHAT COUNT: reads what rt prints, and shows each crate that is proved
# anew: elsewhere than on a terminal a line each; there all on one line, with the
# seconds so far, each second.
progress() {
    local what=$1 count=$2 at=0 crate='' part rest='' line shown=''
    while true; do
        if IFS= read -r -t 1 part; then
            line=$rest$part
            rest=
        elif [ $? -gt 128 ]; then
            rest+=$part
            if [ -t 2 ]; then
                printf '\r\033[K%s: %s (%d s so far)' "$name" "${shown:-proving $what, crate 1 of $count}" "$SECONDS" >&2
            fi
            continue
        else
            break
        fi
        case $line in
            # All that is said of a crate comes after its name, when it is done.
            '== summary') crate='' ;;
            '== '*)
                at=$((at + 1))
                crate=${line#== }
                ;;
            'logic=proved '* | 'linked '*)
                if [ -n "$crate" ]; then
                    shown="proved for $what: crate $at of $count, $crate"
                else
                    shown="built $what"
                fi
                if [ -t 2 ]; then
                    printf '\r\033[K%s: %s' "$name" "$shown" >&2
                elif [ -n "$crate" ]; then
                    echo "$name: $shown" >&2
                fi
                ;;
            'rt: chose '* | 'rt: running out/'* | 'rt: nothing has changed since '* | 'rt: note: '*) ;;
            'rt: '*': begins with what a check kept in '*) ;;
            *': waiting for another command'*)
                echo "$line" >&2
                ;;
            'rt: '* | *': failed ('*')' | *': not run, since '*' failed' | "$name: "*)
                [ ! -t 2 ] || printf '\r\033[K' >&2
                echo "$line" >&2
                ;;
        esac
    done
    if [ -t 2 ] && [ -n "$shown" ]; then
        echo >&2
    fi
}

# proves WHAT CRATE VERB MADE PLACE: `builds`, and shows how it goes on.
proves() {
    local what=$1
    shift
    (locked builds "$@" 2>&1) | progress "$what" "$(crates_below "$1")"
    [ "${PIPESTATUS[0]}" -eq 0 ] || {
        echo "$name: the crate $1 was not proved or not built; run \`rt $2\` in $root/crates/$1 to see why" >&2
        return 1
    }
}

# newer_than FILE PATH...: whether FILE is missing, or something below a path is newer.
newer_than() {
    [ ! -f "$1" ] || [ -n "$(find "${@:2}" -newer "$1" -print -quit)" ]
}

# What each of the three is built by, and where the scripts look for it.
of_library=(exports_c lib out/libexports_c.a target/staticlib/libexports.a)
of_tape=(tape run out/tape target/bin/tape)
of_calls=(calls run out/calls target/bin/calls)

# The library with the reader and the writer: built anew if one of its sources has
# changed.
proved_library() {
    if ! is_made exports_c target/staticlib/libexports.a; then
        echo "$name: proving the reader and writer of frames: some minutes the first time" >&2
        proves 'the writer' "${of_library[@]}" || return 1
    fi
}

# The program tape, in `tape`: the one that TAPE names, or the proved one.
proved_tape() {
    tape=${TAPE-$root/target/bin/tape}
    if [ -z "${TAPE+set}" ] && ! is_made tape target/bin/tape; then
        [ -x "$tape" ] || echo "$name: proving the program tape and the $(($(crates_below tape) - 1)) crates below it, which takes a while the first time" >&2
        proves tape "${of_tape[@]}" || return 1
    fi
    if [ ! -x "$tape" ]; then
        echo "$name: the program $tape is missing" >&2
        return 1
    fi
    warn_of_stack
}

# Says where the stack is limited to less than tape needs.
warn_of_stack() {
    local limit
    limit=$(ulimit -S -s)
    if [[ $limit =~ ^[0-9]+$ ]] && [ "$limit" -lt "$stack_kb" ]; then
        echo "$name: warning: the stack is limited to $limit KB (ulimit -s), and tape needs $stack_kb" >&2
    fi
}

# plays INPUT OUTPUT: the frames of a file through `tape`, what it prints to another
# file. Answers 1, with a message, unless tape ends well and says nothing.
plays() {
    local said status
    said=$({ "$tape" <"$1" >"$2"; } 2>&1)
    status=$?
    [ -z "$said" ] || echo "$name: tape: $said" >&2
    if [ "$status" -eq 139 ]; then
        echo "$name: $tape ended by a violation of memory: has it a stack of $stack_kb KB (ulimit -s)?" >&2
    elif [ "$status" -ne 0 ]; then
        echo "$name: $tape ended with status $status" >&2
    fi
    [ -z "$said" ] && [ "$status" -eq 0 ]
}
